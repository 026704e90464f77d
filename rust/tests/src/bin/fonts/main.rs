//! Fonts as this crate reads them, for checks/fonts.
//!
//! - `fonts beside FONT INDEX`: each character, selector and glyph of a font beside what
//!   `checks/fonts_harfbuzz.c` writes of it, on standard input. The last line counts what was compared, and
//!   what differs.
//! - `fonts spoilt COUNT RANDOM FONT..`: that many fonts made of these with spoilt bytes, and that many files
//!   of random bytes, are read and asked without a panic, each in 50 milliseconds.
//! - `fonts shaped COUNT FONT..`: that many fonts made of these with spoilt bytes, each with a text of 1,000 of
//!   its characters, which is shaped without a panic in two seconds, alike with the face prepared or not.
#![forbid(unsafe_code)]

mod beside;
mod shaped;
mod spoilt;

use std::error::Error;
use std::process::ExitCode;

fn main() -> ExitCode {
    let words: Vec<String> = std::env::args().skip(1).collect();
    match run(&words) {
        Ok(true) => ExitCode::SUCCESS,
        Ok(false) => ExitCode::FAILURE,
        Err(error) => {
            eprintln!("fonts: {error}");
            ExitCode::from(2)
        }
    }
}

fn run(words: &[String]) -> Result<bool, Box<dyn Error>> {
    match words {
        [name, font, index] if name == "beside" => Ok(beside::compare(font, index.parse()?)?),
        [name, count, random, fonts @ ..] if name == "spoilt" && !fonts.is_empty() => {
            spoilt::try_all(count.parse()?, random.parse()?, fonts, spoilt::MOST)
        }
        [name, count, fonts @ ..] if name == "shaped" && !fonts.is_empty() => {
            shaped::try_all(count.parse()?, fonts, shaped::MOST)
        }
        _ => Err("usage: fonts beside FONT INDEX | fonts spoilt COUNT RANDOM FONT.. | fonts shaped COUNT FONT..".into()),
    }
}
