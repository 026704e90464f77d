//! The manual page, which is made of the table of options as the help text is.

use crate::help::{FORMATS, SUMMARY};
use crate::options::{Entry, GROUPS, Group, HIDDEN, REFUSED};

/// The page in roff, for `man`.
pub fn page() -> String {
    let version = env!("CARGO_PKG_VERSION");
    let groups: String = GROUPS.iter().map(group).collect();
    let refused: Vec<String> = REFUSED.iter().map(|name| format!("--{name}")).collect();
    [
        &format!(".TH SENGADLIT\\-SHAPE 1 \"\" \"sengadlit {version}\"\n"),
        ".SH NAME\nsengadlit\\-shape \\- shape text by a font file\n",
        ".SH SYNOPSIS\n.B sengadlit\\-shape\n.RI [ OPTION ...] \" \" [ FONT\\-FILE ] \" \" [ TEXT ]\n",
        ".SH DESCRIPTION\n",
        &roff("The glyphs of a text in a font, with their clusters and positions, are printed.\n"),
        &roff(SUMMARY),
        ".SH OPTIONS\n",
        &groups,
        ".SS Options of hb-shape that aren't supported\n",
        &roff(&(refused.join(", ") + "\n")),
        ".SH OUTPUT\n.nf\n",
        &roff(FORMATS),
        ".fi\n.SH SEE ALSO\n.BR hb\\-shape (1)\n",
    ]
    .concat()
}

fn group(group: &Group) -> String {
    let title = group.title.split(':').next().unwrap_or_default();
    let told = group.options.iter().filter(|entry| entry.help != HIDDEN);
    let options: String = told.map(option).collect();
    format!(".SS {}\n{options}", roff(title))
}

fn option(entry: &Entry) -> String {
    let [letter, value] = [entry.letter_shown(), entry.value_shown()];
    format!(
        ".TP\n.B {}\n{}\n",
        roff(&format!("{letter}--{}{value}", entry.name)),
        roff(entry.help)
    )
}

/// A text as roff prints it: no hyphen, quotation mark or full stop at the start of a line is its own.
fn roff(text: &str) -> String {
    let escaped = text.replace('\\', "\\e").replace('-', "\\-");
    let lines = escaped.split('\n').map(|line| {
        let is_request = line.starts_with(['.', '\'']);
        format!("{}{line}", if is_request { "\\&" } else { "" })
    });
    lines.collect::<Vec<_>>().join("\n")
}

#[cfg(test)]
mod tests {
    use super::roff;

    #[test]
    fn texts_stay_as_they_are() {
        assert_eq!(roff("a-b\n.c \\d\n'e"), "a\\-b\n\\&.c \\ed\n\\&'e");
    }
}
