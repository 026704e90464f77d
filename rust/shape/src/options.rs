//! The options, as a table that reads like the help text, and how arguments are read by it.

use crate::fault::Fault;
use crate::help;
use crate::settings::Settings;
use crate::values;
use std::ffi::OsString;

mod table;

pub use table::{GROUPS, HIDDEN, REFUSED};

/// Options that belong together.
pub struct Group {
    /// The title in the help text.
    pub title: &'static str,
    /// What `--help-` and this prints.
    pub name: &'static str,
    pub options: &'static [Entry],
}

/// An option.
pub struct Entry {
    pub name: &'static str,
    pub letter: Option<char>,
    pub effect: Effect,
    /// What it does, a line of the help text or more.
    pub help: &'static str,
}

impl Entry {
    /// The letter that stands for it, with what is between that and the name.
    pub fn letter_shown(&self) -> String {
        let letter = self.letter.map(|letter| format!("-{letter}, "));
        letter.unwrap_or_default()
    }

    /// What its value is called, behind the name.
    pub fn value_shown(&self) -> String {
        match self.effect {
            Effect::Value(what, _) => format!("={what}"),
            Effect::Flag(_) | Effect::Print(_) => String::new(),
        }
    }
}

/// What an option does.
pub enum Effect {
    /// It sets something.
    Flag(fn(&mut Settings)),
    /// It sets something to a value, whose name stands in the help text.
    Value(&'static str, Setter),
    /// The program prints a text and ends.
    Print(fn() -> String),
}

/// Sets a value, or says what is wrong with it.
pub type Setter = fn(&mut Settings, &[u8]) -> Result<(), String>;

/// What the arguments ask for.
pub enum Request {
    /// A text is printed.
    Print(String),
    /// A text is shaped.
    Shape(Box<Settings>),
}

/// Reads the arguments.
pub fn read(arguments: &[OsString]) -> Result<Request, Fault> {
    let mut reader = Reader {
        settings: Settings::default(),
        arguments,
        others: vec![],
    };
    while let Some(argument) = reader.next() {
        let printed = match argument {
            b"--" => {
                reader.take_all();
                None
            }
            [b'-', b'-', name @ ..] => reader.read_long(name)?,
            [b'-', letters @ ..] if !letters.is_empty() => reader.read_letters(letters)?,
            other => {
                reader.others.push(other);
                None
            }
        };
        if let Some(text) = printed {
            return Ok(Request::Print(text));
        }
    }
    let Reader {
        mut settings,
        others,
        ..
    } = reader;
    take_others(&mut settings, &others)?;
    check(&settings)?;
    Ok(Request::Shape(Box::new(settings)))
}

/// The arguments that are left, and what those before them set.
struct Reader<'a> {
    settings: Settings,
    arguments: &'a [OsString],
    others: Vec<&'a [u8]>,
}

impl<'a> Reader<'a> {
    fn next(&mut self) -> Option<&'a [u8]> {
        let (first, rest) = self.arguments.split_first()?;
        self.arguments = rest;
        Some(first.as_encoded_bytes())
    }

    /// Takes all that is left as no options.
    fn take_all(&mut self) {
        while let Some(argument) = self.next() {
            self.others.push(argument);
        }
    }

    /// Reads an option `--name`, `--name=value` or `--name value`. Returns what is to be printed.
    fn read_long(&mut self, argument: &'a [u8]) -> Result<Option<String>, Fault> {
        let mut parts = argument.splitn(2, |byte| *byte == b'=');
        let name = parts.next().unwrap_or_default();
        let value = parts.next();
        let shown = format!("--{}", String::from_utf8_lossy(name));
        if let Some(text) = help::asked_for(name).filter(|_| value.is_none()) {
            return Ok(Some(text));
        }
        if REFUSED.iter().any(|refused| refused.as_bytes() == name) {
            let message = format!("{shown} is an option of hb-shape that isn't supported here");
            return Err(Fault::Argument(message));
        }
        match entries().find(|entry| entry.name.as_bytes() == name) {
            Some(entry) => self.carry_out(entry, &shown, value),
            None => Err(Fault::Argument(format!("Unknown option {shown}"))),
        }
    }

    /// Reads options of a letter each, `-vV`, of which the last may have a value: `-u61`, `-u 61`.
    fn read_letters(&mut self, letters: &'a [u8]) -> Result<Option<String>, Fault> {
        for (place, letter) in letters.iter().enumerate() {
            let letter = char::from(*letter);
            if matches!(letter, 'h' | '?') {
                return Ok(Some(help::whole()));
            }
            let shown = format!("-{letter}");
            let mut found = entries()
                .filter(|entry| entry.letter == Some(letter))
                .peekable();
            if found.peek().is_none() {
                return Err(Fault::Argument(format!("Unknown option {shown}")));
            }
            for entry in found {
                if matches!(entry.effect, Effect::Value(..)) {
                    let value = Some(&letters[place + 1..]).filter(|value| !value.is_empty());
                    return self.carry_out(entry, &shown, value);
                }
                self.carry_out(entry, &shown, None)?;
            }
        }
        Ok(None)
    }

    /// Does what an option does, which is shown in messages as it was written. Returns what is to be
    /// printed.
    fn carry_out(
        &mut self,
        entry: &Entry,
        shown: &str,
        value: Option<&'a [u8]>,
    ) -> Result<Option<String>, Fault> {
        match entry.effect {
            Effect::Value(_, set) => {
                let value = value.or_else(|| self.next());
                let value = value
                    .ok_or_else(|| Fault::Argument(format!("Missing argument for {shown}")))?;
                set(&mut self.settings, value)
                    .map_err(|message| fault_of(entry, format!("{shown}: {message}")))?;
            }
            _ if value.is_some() => {
                return Err(Fault::Argument(format!("{shown} takes no value")));
            }
            Effect::Flag(set) => set(&mut self.settings),
            Effect::Print(text) => return Ok(Some(text())),
        }
        Ok(None)
    }
}

/// The fault of a value, which hb-shape tells apart for font functions.
fn fault_of(entry: &Entry, message: String) -> Fault {
    if entry.name == "font-funcs" {
        Fault::FontFunctions(message)
    } else {
        Fault::Argument(message)
    }
}

fn entries() -> impl Iterator<Item = &'static Entry> {
    GROUPS.iter().flat_map(|group| group.options)
}

/// Takes what is no option: a font, if none is set, and a text, if none is.
fn take_others(settings: &mut Settings, others: &[&[u8]]) -> Result<(), Fault> {
    for other in others {
        if settings.font_file.is_none() {
            settings.font_file = Some(values::path(other).map_err(Fault::Argument)?);
        } else if settings.text.text.is_none() && settings.text.file.is_none() {
            settings.text.text = Some(other.to_vec());
        } else {
            let message = "Too many arguments on the command line";
            return Err(Fault::Argument(message.into()));
        }
    }
    Ok(())
}

/// Checks what has to hold of all settings together.
fn check(settings: &Settings) -> Result<(), Fault> {
    let refuse = |message: &str| Err(Fault::Argument(message.into()));
    if settings.font_file.is_none() {
        return refuse("No font file set");
    }
    if settings.text.text.is_some() && settings.text.file.is_some() {
        return refuse("Only one of text and text-file can be set");
    }
    let reads_font = settings.font_file.as_deref() == Some("-".as_ref());
    let file = settings.text.file.as_deref();
    if reads_font && settings.text.text.is_none() && file.is_none_or(|file| file.as_os_str() == "-")
    {
        return refuse("Font and text can't both be standard input");
    }
    Ok(())
}
