//! The bytes of the font.

use crate::fault::Fault;
use crate::settings::Settings;
use sengadlit::Face;
use std::fs;
use std::io::{self, Read};
use std::path::Path;

/// Reads a file, or standard input for `-`.
pub fn read(path: &Path) -> Result<Vec<u8>, Fault> {
    let bytes = if path == Path::new("-") {
        let mut bytes = vec![];
        io::stdin().lock().read_to_end(&mut bytes).map(|_| bytes)
    } else {
        fs::read(path)
    };
    bytes.map_err(|error| Fault::Font(format!("{}: {error}", path.display())))
}

/// The font that the settings choose among those of a file's bytes, in the size that they set.
pub fn parse<'a>(bytes: &'a [u8], settings: &Settings, path: &Path) -> Result<Face<'a>, Fault> {
    let face = Face::parse(bytes, settings.face_index).map_err(|error| {
        let message = match Face::count(bytes) {
            0 | 1 => format!("{}: {error}", path.display()),
            count => format!(
                "{}: {error}; it has fonts 0 to {}",
                path.display(),
                count - 1
            ),
        };
        Fault::Font(message)
    })?;
    let mut face = match settings.font_size {
        Some((x, y)) => face.with_scale(x, y),
        None => face,
    };
    if settings.has_many_texts() {
        face.prepare();
    }
    Ok(face)
}
