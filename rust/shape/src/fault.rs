//! What ends the program, with hb-shape's statuses.

use std::fmt;
use std::path::Path;

/// Why the program ends without success.
#[derive(Debug)]
pub enum Fault {
    /// An argument, or a file that it names, can't be used.
    Argument(String),
    /// The font file can't be used.
    Font(String),
    /// A line couldn't be shaped, as its output has told.
    Shaping,
    /// What the program would print can't be written.
    Output(String),
    /// Font functions that there aren't.
    FontFunctions(String),
}

impl Fault {
    /// A file that can't be used, by its name.
    pub fn file(path: &Path, error: &dyn fmt::Display) -> Self {
        Fault::Argument(format!("{}: {error}", path.display()))
    }

    /// The status of the program.
    pub fn status(&self) -> u8 {
        match self {
            Fault::Argument(_) => 1,
            Fault::Font(_) => 2,
            Fault::Shaping | Fault::Output(_) => 3,
            Fault::FontFunctions(_) => 4,
        }
    }

    /// Says on standard error what is wrong.
    pub fn tell(&self) {
        let (message, is_about_arguments) = match self {
            Fault::Argument(message) | Fault::FontFunctions(message) => (message, true),
            Fault::Font(message) | Fault::Output(message) => (message, false),
            Fault::Shaping => return,
        };
        eprintln!("sengadlit-shape: {message}");
        if is_about_arguments {
            eprintln!("Try `sengadlit-shape --help' for more information.");
        }
    }
}
