//! What the program prints.

use crate::fault::Fault;
use crate::settings::{OutputSettings, Settings};
use sengadlit::{Face, GlyphBuffer, SerializeFlags, UnicodeBuffer};
use std::fs::File;
use std::io::{self, BufWriter, Write};
use std::path::Path;

/// The formats of lines.
#[derive(Clone, Copy)]
enum Format {
    Text,
    Json,
    /// Nothing is printed of glyphs: for measuring.
    Nothing,
}

/// Where lines are printed.
pub struct Output<'a> {
    settings: &'a OutputSettings,
    format: Format,
    to: Box<dyn Write>,
    name: String,
    line_number: usize,
}

impl<'a> Output<'a> {
    /// Opens the file that the settings name, or standard output.
    pub fn open(settings: &'a Settings) -> Result<Self, Fault> {
        let settings = &settings.output;
        let format = format_of(settings)?;
        let path = settings.file.as_deref().unwrap_or(Path::new("-"));
        let (to, name): (Box<dyn Write>, _) = if path == Path::new("-") {
            (Box::new(io::stdout().lock()), "standard output".into())
        } else {
            let file = File::create(path).map_err(|error| Fault::file(path, &error))?;
            (Box::new(file), path.display().to_string())
        };
        Ok(Output {
            settings,
            format,
            to: Box::new(BufWriter::new(to)),
            name,
            line_number: 0,
        })
    }

    /// Begins the next line.
    pub fn begin_line(&mut self) {
        self.line_number += 1;
    }

    /// Prints the text of a line and its characters, if they are to be shown.
    pub fn write_text(&mut self, line: &[u8], text: &UnicodeBuffer) -> Result<(), Fault> {
        if self.settings.shows_text {
            let shown = [b"(", line, b")"].concat();
            self.write_line(&shown)?;
        }
        if self.settings.shows_unicode {
            let shown = if text.is_empty() {
                String::new()
            } else {
                text.serialize(SerializeFlags::default())
            };
            self.write_line(shown.as_bytes())?;
        }
        Ok(())
    }

    /// Prints the glyphs of a line; without any the line is empty.
    pub fn write_glyphs(&mut self, face: &Face<'_>, glyphs: &GlyphBuffer) -> Result<(), Fault> {
        let flags = self.settings.flags;
        let shown = match self.format {
            _ if glyphs.is_empty() => String::new(),
            Format::Text => glyphs.serialize(face, flags),
            Format::Json => glyphs.serialize_json(face, flags),
            Format::Nothing => String::new(),
        };
        self.write_line(shown.as_bytes())
    }

    /// Prints why a line couldn't be shaped.
    pub fn write_error(&mut self, message: &str) -> Result<(), Fault> {
        self.write_line(format!("error: {message}").as_bytes())
    }

    /// What stands before what is printed of a line.
    pub fn line_prefix(&self) -> String {
        if self.settings.shows_line_numbers {
            format!("{}: ", self.line_number)
        } else {
            String::new()
        }
    }

    fn write_line(&mut self, line: &[u8]) -> Result<(), Fault> {
        let whole = [self.line_prefix().as_bytes(), line, b"\n"].concat();
        let written = self.to.write_all(&whole);
        written.map_err(|error| self.fault(&error))
    }

    /// Writes what is left to be written.
    pub fn finish(mut self) -> Result<(), Fault> {
        let flushed = self.to.flush();
        flushed.map_err(|error| self.fault(&error))
    }

    fn fault(&self, error: &io::Error) -> Fault {
        Fault::Output(format!("{}: {error}", self.name))
    }
}

/// The format that is named, or else that of the file's extension, or text.
fn format_of(settings: &OutputSettings) -> Result<Format, Fault> {
    if let Some(name) = &settings.format {
        return match name.as_str() {
            "" => Ok(Format::Nothing),
            "text" => Ok(Format::Text),
            "json" => Ok(Format::Json),
            _ => Err(Fault::Argument(format!(
                "Unknown output format `{name}'; supported formats are: text/json"
            ))),
        };
    }
    let extension = settings.file.as_deref().and_then(Path::extension);
    let is_json = extension.is_some_and(|extension| extension == "json");
    Ok(if is_json { Format::Json } else { Format::Text })
}

/// Prints a text to standard output.
pub fn print(text: &str) -> Result<(), Fault> {
    let mut to = io::stdout().lock();
    let written = to.write_all(text.as_bytes()).and_then(|()| to.flush());
    written.map_err(|error| Fault::Output(format!("standard output: {error}")))
}
