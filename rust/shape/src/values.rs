//! What an option's value stands for. Each function returns what is wrong with it otherwise.

use sengadlit::{Direction, Feature, GlyphId, Language, LanguageError, Script};
use std::path::PathBuf;

/// A value as a text.
pub fn text(value: &[u8]) -> Result<&str, String> {
    std::str::from_utf8(value).map_err(|_| "it isn't UTF-8".into())
}

/// The name of a file.
pub fn path(value: &[u8]) -> Result<PathBuf, String> {
    #[cfg(unix)]
    {
        use std::os::unix::ffi::OsStrExt;
        Ok(std::ffi::OsStr::from_bytes(value).into())
    }
    #[cfg(not(unix))]
    Ok(text(value)?.into())
}

/// A number, decimal or behind `0x` hexadecimal.
pub fn number(value: &[u8]) -> Result<u32, String> {
    let text = text(value)?.trim();
    let number = match text.strip_prefix("0x").or_else(|| text.strip_prefix("0X")) {
        Some(digits) => u32::from_str_radix(digits, 16),
        None => text.parse(),
    };
    number.map_err(|_| format!("{text:?} is no number from 0 to 4294967295"))
}

/// A glyph by its number; `None` for 0, which stands for nothing.
pub fn glyph(value: &[u8]) -> Result<Option<GlyphId>, String> {
    let number = number(value)?;
    let glyph = u16::try_from(number).map_err(|_| format!("no font has a glyph {number}"))?;
    Ok((glyph != 0).then_some(GlyphId(glyph)))
}

/// A number that may have a fraction.
pub fn real(text: &str) -> Result<f64, String> {
    let number = text.parse().ok().filter(|number: &f64| number.is_finite());
    number.ok_or_else(|| format!("{text:?} is no number"))
}

/// The size of a font: one or two numbers, of which what is behind the point goes, or `upem`.
pub fn font_size(value: &[u8]) -> Result<Option<(i32, i32)>, String> {
    let text = text(value)?;
    if text == "upem" {
        return Ok(None);
    }
    let numbers = text.split([' ', ',']).filter(|number| !number.is_empty());
    let sizes: Vec<i32> = numbers.map(whole).collect::<Result<_, _>>()?;
    match sizes[..] {
        [size] => Ok(Some((size, size))),
        [x, y] => Ok(Some((x, y))),
        _ => Err("it is one or two numbers, or upem".into()),
    }
}

/// What is before the point of a number.
fn whole(text: &str) -> Result<i32, String> {
    let number = real(text)?.trunc();
    let fits = (f64::from(i32::MIN)..=f64::from(i32::MAX)).contains(&number);
    #[expect(clippy::cast_possible_truncation, reason = "it fits")]
    let whole = number as i32;
    fits.then_some(whole)
        .ok_or_else(|| format!("{text} is too large"))
}

/// A direction, as HarfBuzz reads it.
pub fn direction(value: &[u8]) -> Result<Direction, String> {
    Ok(text(value)?.parse()?)
}

/// A script by its code of four letters in ISO 15924.
pub fn script(value: &[u8]) -> Result<Script, String> {
    Ok(text(value)?.parse()?)
}

/// A language by its tag in BCP 47; an empty one is none.
pub fn language(value: &[u8]) -> Result<Option<Language>, String> {
    match text(value)? {
        "" => Ok(None),
        tag => tag
            .parse()
            .map(Some)
            .map_err(|error: LanguageError| error.to_string()),
    }
}

/// Features with commas or spaces between them, perhaps in quotation marks.
pub fn features(value: &[u8]) -> Result<Vec<Feature>, String> {
    let text = text(value)?;
    let quoted = ['"', '\''].into_iter().find_map(|mark| {
        let behind = text.strip_prefix(mark)?;
        behind.strip_suffix(mark)
    });
    let pieces = quoted.unwrap_or(text).split([',', ' ']);
    let features = pieces.filter(|piece| !piece.is_empty()).map(|piece| {
        let feature = piece.parse();
        feature.map_err(|error| format!("{piece:?}: {error}"))
    });
    features.collect()
}

/// What may stand between numbers of characters.
const BETWEEN: &[u8] = b"<+-|>{},;&#\\xXuUnNiI\n\t\x0B\x0C\r ";

/// A text by the numbers of its characters, which are hexadecimal, in UTF-8; an asterisk is itself.
pub fn unicodes(value: &[u8]) -> Result<Vec<u8>, String> {
    if value == b"*" {
        return Ok(value.to_vec());
    }
    let mut text = vec![];
    let mut rest = value;
    loop {
        let start = rest.iter().position(|byte| !BETWEEN.contains(byte));
        let Some(start) = start else {
            return Ok(text);
        };
        rest = &rest[start..];
        let digits = match rest {
            [b'0', b'x' | b'X', behind @ ..] if starts_with_digit(behind) => behind,
            _ => rest,
        };
        let end = digits.iter().position(|byte| !byte.is_ascii_hexdigit());
        let (number, behind) = digits.split_at(end.unwrap_or(digits.len()));
        let number = character_number(number)
            .ok_or_else(|| format!("{:?} is no number", String::from_utf8_lossy(rest)))?;
        push_number(number, &mut text);
        rest = behind;
    }
}

fn starts_with_digit(bytes: &[u8]) -> bool {
    bytes.first().is_some_and(u8::is_ascii_hexdigit)
}

fn character_number(digits: &[u8]) -> Option<u32> {
    let number = u32::from_str_radix(text(digits).ok()?, 16).ok()?;
    (number <= 0x7FFF_FFFF).then_some(number)
}

/// Adds a number in UTF-8's scheme, which has up to six bytes: numbers of no character are read as one
/// U+FFFD a byte.
fn push_number(number: u32, text: &mut Vec<u8>) {
    if let Some(character) = char::from_u32(number) {
        text.extend_from_slice(character.encode_utf8(&mut [0; 4]).as_bytes());
        return;
    }
    let behind = match number {
        0..0x1_0000 => 2,
        0x1_0000..0x20_0000 => 3,
        0x20_0000..0x400_0000 => 4,
        _ => 5,
    };
    // (as many ones as there are bytes, then the highest bits of the number)
    let lead = (0xFC_u32 << (5 - behind)) & 0xFF | number >> (6 * behind);
    text.push(u8::try_from(lead).unwrap_or(0xFF));
    for place in (0..behind).rev() {
        let bits = u8::try_from(number >> (6 * place) & 0x3F);
        text.push(0x80 | bits.unwrap_or(0));
    }
}

#[cfg(test)]
mod tests {
    use super::*;

    #[test]
    fn numbers_of_characters() {
        let expected = "aa\u{1780}\u{10FFFF}\0".as_bytes();
        assert_eq!(
            unicodes(b"61,U+0061 0x1780<10ffff>\\u0").as_deref(),
            Ok(expected)
        );
        assert_eq!(unicodes(b"").as_deref(), Ok(&[][..]));
        assert_eq!(unicodes(b"*").as_deref(), Ok(&b"*"[..]));
        assert_eq!(unicodes(b"D800").as_deref(), Ok(&b"\xED\xA0\x80"[..]));
        assert_eq!(unicodes(b"110000").as_deref(), Ok(&b"\xF4\x90\x80\x80"[..]));
        let six = b"\xFD\xBF\xBF\xBF\xBF\xBF";
        assert_eq!(unicodes(b"7fffffff").as_deref(), Ok(&six[..]));
        assert_eq!(
            unicodes(b"200000").as_deref(),
            Ok(&b"\xF8\x88\x80\x80\x80"[..])
        );
        for wrong in [&b"61 g"[..], b"80000000", b"123456789", b"\xFF"] {
            assert!(unicodes(wrong).is_err(), "{wrong:?}");
        }
    }

    #[test]
    fn names() {
        assert_eq!(script(b"khmr"), Ok(Script(*b"Khmr")));
        assert_eq!(direction(b"rtl"), Ok(Direction::RightToLeft));
        assert!(script(b"Kh").is_err() && direction(b"\xFF").is_err());
        assert_eq!(language(b""), Ok(None));
        assert_eq!(language(b"en_GB"), Ok("en-gb".parse().ok()));
        assert!(language(b"\xFF").is_err());
    }

    #[test]
    fn sizes() {
        assert_eq!(font_size(b"upem"), Ok(None));
        assert_eq!(font_size(b"12.9"), Ok(Some((12, 12))));
        assert_eq!(font_size(b"12, -20"), Ok(Some((12, -20))));
        for wrong in [&b""[..], b"x", b"1 2 3", b"nan", b"1e10"] {
            assert!(font_size(wrong).is_err(), "{wrong:?}");
        }
    }

    #[test]
    fn lists_of_features() {
        assert_eq!(features(b"'kern, -liga'").map(|list| list.len()), Ok(2));
        assert_eq!(features(b"").map(|list| list.len()), Ok(0));
        assert!(features(b"kern,toolong").is_err());
    }

    #[test]
    fn numbers() {
        assert_eq!((number(b"7"), number(b"0x1F")), (Ok(7), Ok(31)));
        assert!(number(b"-1").is_err() && number(b"").is_err());
        assert_eq!(glyph(b"0"), Ok(None));
        assert_eq!(glyph(b"65535"), Ok(Some(GlyphId(65535))));
        assert!(glyph(b"65536").is_err());
    }
}
