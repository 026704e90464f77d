//! `shape FONT TEXT`: the glyphs of a text in a font, as hb-shape prints them.
//!
//!     --script CODE      the script by ISO 15924, instead of that of the first letter
//!     --direction ltr    or rtl, ttb, btt, instead of that of the script
//!     --lines FILE       shapes each line of the file instead, with numbers of glyphs and their flags

use sengadlit::{Direction, Face, Script, SerializeFlags, UnicodeBuffer, shape};
use std::error::Error;

fn main() -> Result<(), Box<dyn Error>> {
    let mut buffer = UnicodeBuffer::new();
    let (mut script, mut direction, mut lines, mut rest) = (None, None, None, vec![]);
    let mut arguments = std::env::args().skip(1);
    while let Some(argument) = arguments.next() {
        let mut value = || arguments.next().ok_or(format!("{argument} has no value"));
        match argument.as_str() {
            "--script" => script = Some(Script(value()?.as_bytes().try_into()?)),
            "--direction" => direction = Some(direction_by(&value()?)?),
            "--lines" => lines = Some(std::fs::read_to_string(value()?)?),
            _ => rest.push(argument),
        }
    }
    let flags = match lines {
        Some(_) => SerializeFlags::NO_GLYPH_NAMES | SerializeFlags::GLYPH_FLAGS,
        None => SerializeFlags::default(),
    };
    let text = lines
        .or_else(|| rest.get(1).cloned())
        .ok_or("shape FONT TEXT")?;
    let data = std::fs::read(rest.first().ok_or("shape FONT TEXT")?)?;
    let face = Face::parse(&data, 0)?;
    for line in text.lines() {
        if let Some(script) = script {
            buffer.set_script(script);
        }
        if let Some(direction) = direction {
            buffer.set_direction(direction);
        }
        buffer.push_str(line);
        let glyphs = shape(&face, &[], buffer);
        println!("{}", glyphs.serialize(&face, flags));
        buffer = glyphs.clear();
    }
    Ok(())
}

fn direction_by(name: &str) -> Result<Direction, String> {
    match name {
        "ltr" => Ok(Direction::LeftToRight),
        "rtl" => Ok(Direction::RightToLeft),
        "ttb" => Ok(Direction::TopToBottom),
        "btt" => Ok(Direction::BottomToTop),
        _ => Err(format!("--direction is ltr, rtl, ttb or btt, not {name}")),
    }
}
