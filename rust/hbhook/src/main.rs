//! The program: runs the lines of a file, or of standard input.

#![forbid(unsafe_code)]

use hbhook::{
    Choices, Source, TextFault, draw_lines, draw_text, draw_text_in_font, explain_end,
    lines_of_word, print_text, print_text_in_font, run_file, run_lines, script_named,
    without_table,
};
use sengadlit::Face;
use sengadlit::alloc::Global;
use sengadlit::ot_shape_plan::ShapeChoices;
use sengadlit::plan::BreakFlags;
use std::env;
use std::ffi::{OsStr, OsString};
use std::fs::File;
use std::io::{self, Read, Write};
use std::path::Path;
use std::process::ExitCode;

const USAGE: &str = "\
usage: hbhook [FILE]            runs the lines of the file, and prints the glyphs that they leave; in
                                a file comments, which begin with #, and empty lines are passed over
       hbhook --explain [FILE]  runs them, and names the field of a rejected line and what was
                                expected in its place, or why a line was refused
       hbhook --why [FILE]      does that, and lists the characters without a `table` line
       hbhook --draw [FILE]     runs them, and writes a page of HTML that shows what each hook did;
                                also with --explain or --why
       hbhook --text TEXT       does all to the text that comes before a font's lookups, and runs the
                                pauses between them; also with --draw, with --script SCRIPT, a name
                                or a code: khmer, Khmr, and with --sound: flags by which a text whose
                                letters join may be broken. With --font FILE, an OpenType font, the
                                text is shaped to its end, with the font's lookups
       hbhook --word TEXT       runs the hooks of the text's script over it; also with --draw
       hbhook --lines TEXT      prints the lines that do that
       hbhook --help            prints this
       hbhook --version         prints the version

For FILE - or nothing: the lines of standard input. Behind -- an argument is no option. Status: 0; 1 after a refusal; 2 where a line or
an argument is rejected, the input can't be read, or the output can't be written.
";

// The exit status for bad arguments and for a file that can't be read, and that of a refusal.
const UNREADABLE: u8 = 2;
const REFUSED: u8 = 1;

// What to do with the lines.
#[derive(Clone, Copy, Default)]
struct Task {
    explains: bool,
    lists: bool,
    draws: bool,
    prints_lines: bool,
    is_sound: bool,
    source: Source,
}

impl Task {
    // Adds what an option says; false if there is no such option.
    fn add(&mut self, option: &OsStr) -> bool {
        match option.to_str() {
            Some("--explain") => self.explains = true,
            Some("--why") => (self.explains, self.lists) = (true, true),
            Some("--draw") => self.draws = true,
            Some("--sound") => self.is_sound = true,
            _ => return false,
        }
        true
    }

    // Carries out the lines of a reader, and returns the exit status.
    fn carry_out(self, input: impl Read) -> u8 {
        if !self.explains {
            return self.run(input);
        }
        let mut input = Keeping {
            input,
            kept: Vec::new(),
            has_failed: false,
        };
        let status = self.run(&mut input);
        if input.has_failed {
            return status;
        }
        match io::stderr().write_all(self.told(&input.kept, status).as_bytes()) {
            Ok(()) => status,
            Err(_) => UNREADABLE,
        }
    }

    // Prints or draws the glyphs of a text, in a font if one is named, and returns the exit status.
    fn carry_out_text(
        self,
        text: &str,
        script: Option<[u8; 4]>,
        font: Option<&OsStr>,
    ) -> Result<u8, String> {
        let mut choices = ShapeChoices::default();
        if self.is_sound {
            choices.break_flags = BreakFlags::Sound;
        }
        let chosen = Choices {
            script,
            is_sound: self.is_sound,
            ..Choices::default()
        };
        Ok(
            self.end_of_text(match (font.map(read_font).transpose()?, self.draws) {
                (None, true) => draw_text(text, script, choices),
                (None, false) => print_text(text, script, choices),
                (Some(font), true) => draw_text_in_font(text, &chosen, &font.face()?),
                (Some(font), false) => print_text_in_font(text, &chosen, &font.face()?),
            }),
        )
    }

    // Prints what a text has become, and returns the exit status.
    fn end_of_text(self, done: Result<String, TextFault>) -> u8 {
        let fault = match done {
            Ok(output) => return print(&output),
            Err(fault) => fault,
        };
        match io::stderr().write_all(format!("hbhook: {fault}\n").as_bytes()) {
            Ok(()) if fault != TextFault::NoScript => REFUSED,
            _ => UNREADABLE,
        }
    }

    // Runs or draws the lines of a reader.
    fn run(self, input: impl Read) -> u8 {
        if !self.draws {
            return match self.source {
                Source::Input => run_lines(Global, input, io::stdout(), io::stderr()),
                Source::File => run_file(input, io::stdout(), io::stderr()),
            };
        }
        let mut told = Vec::new();
        let status = draw_lines(self.source, input, io::stdout(), &mut told);
        match io::stderr().write_all(&named(&told)) {
            Ok(()) => status,
            Err(_) => UNREADABLE,
        }
    }

    // What is told of a run of this script behind its own message: nothing where the output can't be
    // written.
    fn told(self, script: &[u8], status: u8) -> String {
        let mut told = String::new();
        if status != 0 {
            match explain_end(self.source, script, status, self.draws) {
                Some(explanation) => told = format!("hbhook: {explanation}\n"),
                None if status == UNREADABLE => return told,
                None => {}
            }
        }
        let characters = without_table(script);
        if self.lists && !characters.is_empty() {
            told += "hbhook: characters without a `table` line:";
            for character in characters {
                told += &format!(" {:04X}", u32::from(character));
            }
            told += "\n";
        }
        told
    }
}

// A reader that keeps what was read, and whether a reading failed.
struct Keeping<R> {
    input: R,
    kept: Vec<u8>,
    has_failed: bool,
}

impl<R: Read> Read for Keeping<R> {
    fn read(&mut self, bytes: &mut [u8]) -> io::Result<usize> {
        let count = self.input.read(bytes).inspect_err(|error| {
            self.has_failed |= error.kind() != io::ErrorKind::Interrupted;
        })?;
        self.kept.try_reserve(count)?;
        self.kept.extend_from_slice(&bytes[..count]);
        Ok(count)
    }
}

fn main() -> ExitCode {
    let arguments: Vec<OsString> = env::args_os().skip(1).collect();
    ExitCode::from(run(&arguments).unwrap_or_else(|message| {
        // Nothing more can be done where standard error is closed.
        let _ = writeln!(io::stderr(), "hbhook: {message}");
        UNREADABLE
    }))
}

// Does what the arguments say, and returns the exit status, or what is wrong with the arguments.
fn run(arguments: &[OsString]) -> Result<u8, String> {
    if let [argument] = arguments {
        if argument == "--help" || argument == "-h" {
            return Ok(print(USAGE));
        }
        if argument == "--version" {
            return Ok(print(concat!("hbhook ", env!("CARGO_PKG_VERSION"), "\n")));
        }
    }
    let mut task = Task::default();
    let (mut files, mut lines) = (Vec::new(), None);
    let (mut text, mut script, mut font) = (None, None, None);
    let mut arguments = arguments.iter();
    while let Some(argument) = arguments.next() {
        let is_option = argument.as_encoded_bytes().starts_with(b"-") && argument != "-";
        if argument == "--" {
            files.extend(arguments.by_ref());
        } else if !is_option {
            files.push(argument);
        } else if argument == "--word" || argument == "--lines" {
            task.prints_lines |= argument == "--lines";
            lines = Some(lines_of(text_behind(&mut arguments)?)?);
        } else if argument == "--text" {
            text = Some(text_behind(&mut arguments)?);
        } else if argument == "--script" {
            script = Some(script_of(arguments.next())?);
        } else if argument == "--font" {
            font = Some(
                arguments
                    .next()
                    .ok_or("a font is missing (hbhook --help)")?,
            );
        } else if !task.add(argument) {
            return Err(no_option(argument));
        }
    }
    if let Some(text) = text {
        return match (&files[..], lines) {
            ([], None) => task.carry_out_text(text, script, font.map(OsString::as_os_str)),
            _ => Err("a text alone, without a file or a word (hbhook --help)".into()),
        };
    }
    if script.is_some() || font.is_some() {
        let option = if font.is_some() { "--font" } else { "--script" };
        return Err(format!("{option} goes with --text (hbhook --help)"));
    }
    if task.is_sound {
        return Err("--sound goes with --text (hbhook --help)".into());
    }
    match (&files[..], lines) {
        ([], Some(lines)) if task.prints_lines => Ok(print(&lines)),
        ([], Some(lines)) => Ok(task.carry_out(lines.as_bytes())),
        ([], None) => Ok(task.carry_out(io::stdin())),
        ([file], None) if *file == "-" => Ok(task.carry_out(io::stdin())),
        ([file], None) => {
            task.source = Source::File;
            Ok(task.carry_out(open((*file).as_ref())?))
        }
        (_, Some(_)) => Err("a file or a word, not both (hbhook --help)".into()),
        _ => Err("one file at most (hbhook --help)".into()),
    }
}

// The text behind an option.
fn text_behind<'a>(
    arguments: &mut impl Iterator<Item = &'a OsString>,
) -> Result<&'a str, &'static str> {
    let text = arguments
        .next()
        .ok_or("a text is missing (hbhook --help)")?;
    text.to_str().ok_or("the text isn't of UTF-8")
}

// The bytes of a font file, and its name.
struct FontFile {
    name: String,
    bytes: Vec<u8>,
}

impl FontFile {
    fn face(&self) -> Result<Face<'_>, String> {
        Face::parse(&self.bytes, 0).map_err(|fault| format!("{}: {fault}", self.name))
    }
}

fn read_font(path: &OsStr) -> Result<FontFile, String> {
    let name = Path::new(path).display().to_string();
    let mut bytes = Vec::new();
    match open(Path::new(path))?.read_to_end(&mut bytes) {
        Ok(_) => Ok(FontFile { name, bytes }),
        Err(_) => Err(format!("{name} can't be read")),
    }
}

// The script that an argument names.
fn script_of(name: Option<&OsString>) -> Result<[u8; 4], String> {
    let name = name.ok_or("a script is missing (hbhook --help)")?;
    let script = name.to_str().and_then(script_named);
    let shown = Path::new(name).display();
    script.ok_or_else(|| format!("no script is named {shown}; khmer and Khmr name one"))
}

// The lines of a text that is an argument.
fn lines_of(text: &str) -> Result<String, String> {
    lines_of_word(text).ok_or_else(|| {
        format!("no script with hooks is known of `{text}`; docs/HBHOOK.md shows its lines")
    })
}

// Names an argument that is no option, and the options.
fn no_option(argument: &OsStr) -> String {
    let name = Path::new(argument).display();
    if ["--help", "-h", "--version"]
        .iter()
        .any(|it| argument == *it)
    {
        return format!("{name} takes no other argument (hbhook --help)");
    }
    format!(
        "there is no option {name}; there are --draw, --explain, --font, --help, --lines, --script, \
         --sound, --text, --version, --why and --word (hbhook --help)"
    )
}

// Lines of standard error, each behind the program's name but for the messages that are fixed.
fn named(told: &[u8]) -> Vec<u8> {
    let is_fixed =
        |line: &[u8]| line.starts_with(b"refused: ") || line.ends_with(b": unreadable\n");
    let lines = told.split_inclusive(|byte| *byte == b'\n');
    let name = |line| {
        if is_fixed(line) {
            &b""[..]
        } else {
            b"hbhook: "
        }
    };
    lines.flat_map(|line| [name(line), line].concat()).collect()
}

fn print(text: &str) -> u8 {
    match io::stdout().write_all(text.as_bytes()) {
        Ok(()) => 0,
        Err(_) => UNREADABLE,
    }
}

// Opens a file of lines.
fn open(path: &Path) -> Result<File, String> {
    let name = path.display();
    if !path.exists() {
        return Err(format!("there is no file {name}"));
    }
    if path.is_dir() {
        return Err(format!("{name} is a folder, not a file"));
    }
    File::open(path).map_err(|_| format!("{name} can't be read"))
}
