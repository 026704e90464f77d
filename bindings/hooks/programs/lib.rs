//! Texts, settings and results that the programs share. `calls.rs` has how a crate is called: as it
//! is (`stock`), with the hooks (`sengadlit`), and as it is with each known difference edited
//! away (`reasons`).

use std::fmt;

pub mod fonts;

#[macro_use]
mod calls;
pub use calls::{LEVELS, NORMALIZES, REASONS};

calls!(stock, stock);
calls!(sengadlit, sengadlit);
calls!(reasons, reasons);

#[cfg(feature = "shadow")]
pub use ::sengadlit::shadow_report;
pub use ::reasons::put_in_force;

/// How a text is shaped.
#[derive(Clone, Copy, Default)]
pub struct Setting {
    /// The cluster level, by its number.
    pub level: usize,
    /// Buffer flags, by their bits.
    pub flags: u32,
    /// Whether the first and the last third of a text are its contexts.
    pub contexts: bool,
    /// Whether three features of the user's are given, two of them for a part of the text.
    pub features: bool,
    /// The scale, where a crate has one.
    pub scale: Option<i32>,
    /// The number from which the glyphs of a made-up font are counted ([`made_up`]), where a crate
    /// takes such a font. The text's direction and flags are made up with it.
    pub made_up: Option<u32>,
}

/// The made-up glyph of a character, or of a character and a selector, for a text of this number: a
/// text's font lacks none, a 16th, a quarter, a half or nearly all of its characters.
pub fn made_up(text: u32, character: u32, selector: u32) -> Option<u32> {
    let mixed = |number: u32| {
        let mixed = number.wrapping_mul(0x9E37_79B1) ^ character.wrapping_mul(0x85EB_CA77) ^ selector;
        let mixed = (mixed ^ mixed >> 15).wrapping_mul(0x2C1B_3C6D);
        mixed ^ mixed >> 13
    };
    let lacks = [0, 1, 4, 8, 15][text as usize % 5];
    (mixed(text) % 16 >= lacks).then(|| mixed(7) % 60000 + 1)
}

/// The features of [`Setting::features`]: tag, value, first and last cluster.
pub const FEATURES: [(&[u8; 4], u32, usize, usize); 3] =
    [(b"liga", 1, 3, 9), (b"half", 0, 0, 5), (b"init", 1, 0, usize::MAX)];

/// A glyph of a shaped text.
#[derive(Clone, Copy, PartialEq, Eq)]
pub struct Glyph {
    pub number: u32,
    pub cluster: u32,
    pub flags: u32,
    pub advance: (i32, i32),
    pub offset: (i32, i32),
}

impl fmt::Display for Glyph {
    /// As `hb-shape` writes it, without names.
    fn fmt(&self, formatter: &mut fmt::Formatter<'_>) -> fmt::Result {
        write!(formatter, "{}={}", self.number, self.cluster)?;
        if self.offset != (0, 0) {
            write!(formatter, "@{},{}", self.offset.0, self.offset.1)?;
        }
        write!(formatter, "+{}", self.advance.0)?;
        if self.advance.1 != 0 {
            write!(formatter, ",{}", self.advance.1)?;
        }
        if self.flags != 0 {
            write!(formatter, "#{:X}", self.flags)?;
        }
        Ok(())
    }
}

/// A shaped text, or what a panic said.
#[derive(Clone, PartialEq, Eq)]
pub enum Shaped {
    Glyphs(Vec<Glyph>),
    Panic(String),
}

impl Shaped {
    /// The glyphs; a panic has none.
    pub fn glyphs(&self) -> &[Glyph] {
        match self {
            Self::Glyphs(glyphs) => glyphs,
            Self::Panic(_) => &[],
        }
    }
}

impl fmt::Display for Shaped {
    fn fmt(&self, formatter: &mut fmt::Formatter<'_>) -> fmt::Result {
        match self {
            Self::Glyphs(glyphs) => {
                let glyphs: Vec<String> = glyphs.iter().map(Glyph::to_string).collect();
                write!(formatter, "[{}]", glyphs.join("|"))
            }
            Self::Panic(told) => write!(formatter, "panic: {told}"),
        }
    }
}

/// Shapes; the error is what a panic said.
fn without_panic<T>(shape: impl FnOnce() -> T) -> Result<T, String> {
    std::panic::catch_unwind(std::panic::AssertUnwindSafe(shape)).map_err(|told| match told.downcast::<String>() {
        Ok(text) => *text,
        Err(told) => told.downcast_ref::<&str>().map_or(String::new(), ToString::to_string),
    })
}

fn caught(shape: impl FnOnce() -> Vec<Glyph>) -> Shaped {
    without_panic(shape).map_or_else(Shaped::Panic, Shaped::Glyphs)
}

fn serialized(shape: impl FnOnce() -> String) -> String {
    without_panic(shape).unwrap_or_else(|told| format!("panic: {told}"))
}

/// A text with its contexts: what stands before it, the text, and what stands behind it.
fn parts(text: &str, setting: &Setting) -> [String; 3] {
    let characters: Vec<char> = text.chars().collect();
    let third = if setting.contexts { characters.len() / 3 } else { 0 };
    let (before, rest) = characters.split_at(third);
    let (inside, after) = rest.split_at(rest.len() - third);
    [before, inside, after].map(|part| part.iter().collect())
}

/// The text of code points in hexadecimal, each with how often it comes where that isn't once:
/// `0915 0951*256`.
///
/// # Panics
///
/// Where it isn't such a list.
pub fn text_of(code_points: &str) -> String {
    let mut text = String::new();
    for item in code_points.split_whitespace() {
        let (number, times) = item.split_once('*').unwrap_or((item, "1"));
        let number = u32::from_str_radix(number, 16).expect("a hexadecimal number");
        let character = char::from_u32(number).expect("a code point");
        text.extend(std::iter::repeat_n(character, times.parse().expect("a number")));
    }
    text
}
