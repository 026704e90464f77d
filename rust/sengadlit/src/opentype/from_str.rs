//! Directions, scripts and cluster levels as users write them.

use super::FeatureError;
use crate::buffer::{BufferClusterLevel, Direction, Script};
use core::fmt;
use core::str::FromStr;
use rust_alloc::string::{String, ToString};

/// A text that names no direction.
#[derive(Clone, Copy, Debug, PartialEq, Eq)]
pub struct DirectionError;

/// A text that is no code of a script.
#[derive(Clone, Copy, Debug, PartialEq, Eq)]
pub struct ScriptError;

impl fmt::Display for DirectionError {
    fn fmt(&self, f: &mut fmt::Formatter<'_>) -> fmt::Result {
        f.write_str("a direction is ltr, rtl, ttb or btt")
    }
}

impl fmt::Display for ScriptError {
    fn fmt(&self, f: &mut fmt::Formatter<'_>) -> fmt::Result {
        f.write_str("a script is a code of four letters, as Latn")
    }
}

impl core::error::Error for DirectionError {}

impl core::error::Error for ScriptError {}

/// Reads a direction by its first letter (HarfBuzz's `hb_direction_from_string`).
impl FromStr for Direction {
    type Err = DirectionError;

    fn from_str(text: &str) -> Result<Self, DirectionError> {
        match text.as_bytes().first().map(u8::to_ascii_lowercase) {
            Some(b'l') => Ok(Direction::LeftToRight),
            Some(b'r') => Ok(Direction::RightToLeft),
            Some(b't') => Ok(Direction::TopToBottom),
            Some(b'b') => Ok(Direction::BottomToTop),
            _ => Err(DirectionError),
        }
    }
}

/// Reads a code of ISO 15924, of capital or small letters; what is behind its four letters is passed
/// over. A variant of a script is the script (HarfBuzz's `hb_script_from_string`).
impl FromStr for Script {
    type Err = ScriptError;

    fn from_str(text: &str) -> Result<Self, ScriptError> {
        let mut code = *text.as_bytes().first_chunk().ok_or(ScriptError)?;
        if !code.iter().all(u8::is_ascii_alphabetic) {
            return Err(ScriptError);
        }
        code.make_ascii_lowercase();
        code[0].make_ascii_uppercase();
        let of_variant = VARIANTS.iter().find(|(variant, _)| **variant == code);
        Ok(Script(of_variant.map_or(code, |(_, script)| **script)))
    }
}

/// Codes that stand for another script (HarfBuzz's `hb_script_from_iso15924_tag`).
const VARIANTS: [(&[u8; 4], &[u8; 4]); 13] = [
    (b"Qaai", b"Zinh"),
    (b"Qaac", b"Copt"),
    (b"Aran", b"Arab"),
    (b"Cyrs", b"Cyrl"),
    (b"Geok", b"Geor"),
    (b"Hans", b"Hani"),
    (b"Hant", b"Hani"),
    (b"Jamo", b"Hang"),
    (b"Latf", b"Latn"),
    (b"Latg", b"Latn"),
    (b"Syre", b"Syrc"),
    (b"Syrj", b"Syrc"),
    (b"Syrn", b"Syrc"),
];

/// Graphemes stay together, as by default in HarfBuzz.
impl Default for BufferClusterLevel {
    fn default() -> Self {
        BufferClusterLevel::MonotoneGraphemes
    }
}

// (rustybuzz's errors are texts, which `?` turns into a String)

impl From<FeatureError> for String {
    fn from(error: FeatureError) -> Self {
        error.to_string()
    }
}

impl From<DirectionError> for String {
    fn from(error: DirectionError) -> Self {
        error.to_string()
    }
}

impl From<ScriptError> for String {
    fn from(error: ScriptError) -> Self {
        error.to_string()
    }
}

#[cfg(test)]
mod tests {
    use super::*;

    // (HarfBuzz's test-common.c has such directions and scripts)
    #[test]
    fn directions() {
        for (text, expected) in [
            ("ltr", Ok(Direction::LeftToRight)),
            ("L", Ok(Direction::LeftToRight)),
            ("rtl", Ok(Direction::RightToLeft)),
            ("ttb", Ok(Direction::TopToBottom)),
            ("Bottom", Ok(Direction::BottomToTop)),
            ("", Err(DirectionError)),
            ("up", Err(DirectionError)),
        ] {
            assert_eq!(text.parse(), expected, "{text}");
        }
    }

    #[test]
    fn scripts() {
        for (text, expected) in [
            ("Arab", Ok(*b"Arab")),
            ("arab", Ok(*b"Arab")),
            ("ARABIC", Ok(*b"Arab")),
            ("wWyZ", Ok(*b"Wwyz")),
            ("Qaai", Ok(*b"Zinh")),
            ("syrn", Ok(*b"Syrc")),
            ("", Err(ScriptError)),
            ("ara", Err(ScriptError)),
            ("ar b", Err(ScriptError)),
            ("Ara\u{e9}", Err(ScriptError)),
        ] {
            assert_eq!(
                text.parse::<Script>().map(|script| script.0),
                expected,
                "{text}"
            );
        }
    }

    #[test]
    fn errors_as_texts() {
        let told = |text: &str| -> Result<(), String> {
            text.parse::<Direction>()?;
            text.parse::<Script>()?;
            text.parse::<super::super::Feature>()?;
            Ok(())
        };
        assert_eq!(
            told("up"),
            Err("a direction is ltr, rtl, ttb or btt".into())
        );
        assert_eq!(
            told("ltr"),
            Err("a script is a code of four letters, as Latn".into())
        );
        assert_eq!(told("latn"), Ok(()));
        assert_eq!(
            told("latin"),
            Err("a feature is written as kern, -liga, kern=0 or aalt[3:5]=2".into())
        );
        assert_eq!(
            BufferClusterLevel::default(),
            BufferClusterLevel::MonotoneGraphemes
        );
    }
}
