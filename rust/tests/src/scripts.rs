//! Random scripts for the program `hbhook`: every shaper, hook, pause and setting, and fields that
//! no text leaves. The script of a seed is the same everywhere.

mod characters;
mod glyphs;
mod runs;
mod settings;

use crate::numbers::Numbers;
use std::fmt::Arguments;

/// The script of a seed: lines that mostly can be read, and that mostly run the hooks of one shaper
/// in the order of a pipeline.
pub fn script(seed: u64) -> String {
    let mut draft = Draft {
        numbers: Numbers::new(seed),
        lines: String::new(),
    };
    let writing = draft.numbers.one_of(&characters::WRITINGS);
    let characters = characters::describe(&mut draft, &writing);
    settings::set(&mut draft, &writing);
    let length = glyphs::write_text(&mut draft, &characters);
    runs::run(&mut draft, &writing, length);
    draft.lines
}

/// A script in the making.
struct Draft {
    numbers: Numbers,
    lines: String,
}

impl Draft {
    /// Adds a line; once in a while a line before it that can't be read.
    fn add(&mut self, line: Arguments) {
        if self.numbers.once_in(4000) {
            let line = self.numbers.one_of(&UNREADABLE);
            self.lines.push_str(line);
            self.lines.push('\n');
        }
        self.lines.push_str(&line.to_string());
        self.lines.push('\n');
    }

    /// True in so many of a hundred cases.
    fn percent(&mut self, percent: usize) -> bool {
        self.numbers.below(100) < percent
    }
}

/// Lines that can't be read, each for a reason of its own.
const UNREADABLE: [&str; 25] = [
    "",
    " ",
    "# a comment",
    "// a comment",
    "text  41",
    "text 41 ",
    "text D800",
    "text 110000",
    "text U+0041",
    "Text 41",
    "set shaper Arabic",
    "set found maybe",
    "set flags 1",
    "set maxlen -1",
    "set level 3",
    "set script Tha",
    "mask init 7",
    "stage init 3 2",
    "stage init 0 65537",
    "applies 1 2",
    "span 1 16",
    "at 9999 cat 1",
    "at 0 comp 16",
    "context 2 41",
    "run",
];
