//! The lines of the text.

use crate::fault::Fault;
use crate::settings::TextSettings;
use std::fs::File;
use std::io::{self, BufRead, BufReader};
use std::path::Path;

/// The lines of the text, one after another, without their ends.
pub struct Lines {
    source: Box<dyn BufRead>,
    is_single_paragraph: bool,
    /// What messages call the source.
    name: String,
}

impl Lines {
    /// Opens what the settings name: a text, a file, or standard input.
    pub fn open(settings: &TextSettings) -> Result<Self, Fault> {
        let path = settings.file.as_deref().unwrap_or(Path::new("-"));
        let (source, name): (Box<dyn BufRead>, _) = match &settings.text {
            Some(text) => (Box::new(io::Cursor::new(text.clone())), String::new()),
            None if path == Path::new("-") => {
                (Box::new(io::stdin().lock()), "standard input".into())
            }
            None => {
                let file = File::open(path).map_err(|error| Fault::file(path, &error))?;
                (Box::new(BufReader::new(file)), path.display().to_string())
            }
        };
        Ok(Lines {
            source,
            is_single_paragraph: settings.is_single_paragraph,
            name,
        })
    }

    /// The next line, into `line`; false where there is none.
    pub fn next(&mut self, line: &mut Vec<u8>) -> Result<bool, Fault> {
        line.clear();
        let read = if self.is_single_paragraph {
            self.source.read_to_end(line)
        } else {
            self.source.read_until(b'\n', line)
        };
        let count = read.map_err(|error| Fault::Argument(format!("{}: {error}", self.name)))?;
        if !self.is_single_paragraph && line.last() == Some(&b'\n') {
            line.pop();
        }
        Ok(count > 0)
    }
}
