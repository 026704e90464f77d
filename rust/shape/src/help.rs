//! The help text, which is made of the table of options.

use crate::man;
use crate::options::{Entry, GROUPS, Group, HIDDEN, REFUSED};

/// Where what an option does begins in a line.
const COLUMN: usize = 44;

const HEAD: &str = "\
Usage:
  sengadlit-shape [OPTION…] [FONT-FILE] [TEXT]

Shape text with given font.

Help options:
  -h, --help                                Show help options
  --help-GROUP                              Show those of a group: face, font, text, text-context,
                                            shape, features, output, output-syntax, own; all
  --help-man                                Print this as a manual page

";

/// What is printed of a glyph.
pub const FORMATS: &str = "\
  text: [<glyph name or index>=<cluster>@<x offset>,<y offset>+<x advance>,<y advance>|...]
  json: [{\"g\": <glyph name or index>, \"cl\": <cluster>, \"dx\": <x offset>, \"dy\": <y offset>,
        \"ax\": <x advance>, \"ay\": <y advance>}, ...]
";

/// What the program is, and how it ends.
pub const SUMMARY: &str = "\
The options and the output are those of HarfBuzz's hb-shape. A variable font is shaped at its default
instance. Exit status: 0; 1 where an argument or a file that it names can't be used; 2 where the font
can't; 3 where a line couldn't be shaped or the output written; 4 for unknown font functions.
";

/// The whole help text.
pub fn whole() -> String {
    let groups: Vec<String> = GROUPS.iter().map(group).collect();
    let refused: Vec<String> = REFUSED.iter().map(|name| format!("--{name}")).collect();
    let refused = wrapped(&refused);
    let title = "Options of hb-shape that aren't supported:";
    let groups = groups.join("\n");
    format!("{HEAD}{groups}\n{title}\n{refused}\nOutput syntax:\n{FORMATS}\n{SUMMARY}")
}

/// The help that an option of this name asks for, if it is one for help.
pub fn asked_for(name: &[u8]) -> Option<String> {
    match name {
        b"help" | b"help-all" => Some(whole()),
        b"help-man" => Some(man::page()),
        _ => {
            let name = name.strip_prefix(b"help-")?;
            let found = GROUPS.iter().find(|group| group.name.as_bytes() == name);
            found.map(group)
        }
    }
}

/// A group with its title.
fn group(group: &Group) -> String {
    let told = group.options.iter().filter(|entry| entry.help != HIDDEN);
    let lines: String = told.map(line).collect();
    format!("{}\n{lines}", group.title)
}

/// An option with what it does, which has lines of its own where it has several or the name is long.
fn line(entry: &Entry) -> String {
    let [letter, value] = [entry.letter_shown(), entry.value_shown()];
    let option = format!("  {letter}--{}{value}", entry.name);
    let between = if option.len() + 1 < COLUMN {
        " ".repeat(COLUMN - option.chars().count())
    } else {
        format!("\n{}", " ".repeat(COLUMN))
    };
    let help = entry
        .help
        .replace('\n', &format!("\n{}", " ".repeat(COLUMN)));
    format!("{option}{between}{help}\n")
}

/// Words in lines of at most 80 columns.
fn wrapped(words: &[String]) -> String {
    let mut lines = vec![String::from(" ")];
    for word in words {
        if lines
            .last()
            .is_some_and(|line| line.len() + word.len() >= 80)
        {
            lines.push(" ".into());
        }
        if let Some(line) = lines.last_mut() {
            *line = format!("{line} {word}");
        }
    }
    lines.join("\n") + "\n"
}
