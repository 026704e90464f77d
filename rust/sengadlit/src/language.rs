//! Languages by their tags of BCP 47, and the tags of OpenType by which fonts know them.

mod tags;
#[cfg(test)]
mod tests;

use crate::buffer::Script;
use crate::generated::opentype_font::text_tags::{TagList, TextTags, tags_of_script};
use core::fmt;
use core::str::{self, FromStr};
use tags::{CONDITIONS, LANGUAGES};

/// How many bytes the tag of a language has at most.
const MOST_BYTES: usize = 63;

/// The bits by which small letters differ from great ones.
const SMALL: u32 = 0x2020_2020;

/// A language, by its tag of BCP 47, as `sr-latn`. Fonts have glyphs and features of their own for some
/// languages.
///
/// A tag's private subtags may name the tags of OpenType: `x-hbot` that of the language, `x-hbsc` that
/// of the script, in letters or in hexadecimal digits behind one more `-` (HarfBuzz's
/// `hb_ot_tags_from_script_and_language`).
#[derive(Clone, Copy, PartialEq, Eq, Hash)]
pub struct Language {
    bytes: [u8; MOST_BYTES],
    len: u8,
}

impl Language {
    /// The tag, in small letters.
    pub fn as_str(&self) -> &str {
        str::from_utf8(&self.bytes[..usize::from(self.len)]).unwrap_or_default()
    }
}

/// Reads a tag as HarfBuzz's `hb_language_from_string` does: in letters of either kind, with `_` for
/// `-`. It ends before the first character that stands in no tag, so that the names of locales are read
/// too, as `sr_RS.UTF-8`.
impl FromStr for Language {
    type Err = LanguageError;

    fn from_str(text: &str) -> Result<Self, LanguageError> {
        let mut bytes = [0; MOST_BYTES];
        let mut len = 0;
        for byte in text.bytes().map_while(canonical) {
            *bytes.get_mut(len).ok_or(LanguageError::TooLong)? = byte;
            len += 1;
        }
        match u8::try_from(len) {
            Ok(0) => Err(LanguageError::Empty),
            Ok(len) => Ok(Language { bytes, len }),
            Err(_) => Err(LanguageError::TooLong),
        }
    }
}

/// A character of a tag as it is kept, or `None` for one that stands in no tag.
fn canonical(byte: u8) -> Option<u8> {
    match byte {
        b'_' => Some(b'-'),
        b'-' => Some(byte),
        _ if byte.is_ascii_alphanumeric() => Some(byte.to_ascii_lowercase()),
        _ => None,
    }
}

impl fmt::Display for Language {
    fn fmt(&self, f: &mut fmt::Formatter<'_>) -> fmt::Result {
        f.pad(self.as_str())
    }
}

impl fmt::Debug for Language {
    fn fmt(&self, f: &mut fmt::Formatter<'_>) -> fmt::Result {
        f.debug_tuple("Language").field(&self.as_str()).finish()
    }
}

/// Why a text is no tag of a language.
#[derive(Clone, Copy, Debug, PartialEq, Eq)]
pub enum LanguageError {
    /// It begins with no letter, digit, `-` or `_`.
    Empty,
    /// It has more than 63 characters.
    TooLong,
}

impl fmt::Display for LanguageError {
    fn fmt(&self, f: &mut fmt::Formatter<'_>) -> fmt::Result {
        f.write_str(match self {
            LanguageError::Empty => "the language is empty",
            LanguageError::TooLong => "the language has more than 63 characters",
        })
    }
}

impl core::error::Error for LanguageError {}

/// The tags of OpenType for a text's script and language, the best first (HarfBuzz's
/// `hb_ot_tags_from_script_and_language`).
pub(crate) fn text_tags(script: Option<Script>, language: Option<&Language>) -> TextTags {
    let Some(language) = language else {
        return TextTags {
            scripts: tags_of_script(script),
            languages: TagList::new(&[]),
        };
    };
    let text = language.as_str();
    let (public, private) = split_private(text);
    let script_tag = private_tag(private, "-hbsc", u8::to_ascii_lowercase);
    let language_tag = private_tag(private, "-hbot", u8::to_ascii_uppercase);
    TextTags {
        scripts: script_tag.map_or_else(|| tags_of_script(script), |tag| TagList::new(&[tag])),
        languages: language_tag
            .map_or_else(|| language_tags(text, public), |tag| TagList::new(&[tag])),
    }
}

/// Parts a tag: what stands before its extensions, each of which begins with a subtag of one letter, and
/// the private subtags behind an `x`.
fn split_private(text: &str) -> (&str, &str) {
    if text.starts_with("x-") {
        return ("", text);
    }
    let extension = |begins: fn(u8) -> bool| {
        let mut places = text.as_bytes().windows(3);
        places.position(|part| part[0] == b'-' && begins(part[1]) && part[2] == b'-')
    };
    let public = extension(|_| true).map_or(text, |place| &text[..place]);
    let private = extension(|letter| letter == b'x').map_or("", |place| &text[place + 1..]);
    (public, private)
}

/// The tag of OpenType that private subtags have behind a prefix: eight hexadecimal digits behind `-`,
/// or letters, which are made of one kind.
fn private_tag(private: &str, prefix: &str, letter: fn(&u8) -> u8) -> Option<u32> {
    let (_, behind) = private.split_once(prefix)?;
    let tag = match behind.strip_prefix('-') {
        Some(digits) => u32::from_str_radix(digits.get(..8)?, 16).ok()?,
        None => tag_of_letters(behind, letter)?,
    };
    // (the tags of what a font has by default are of the other kind of letters)
    let is_default = tag & !SMALL == u32::from_be_bytes(*b"DFLT");
    Some(if is_default { tag ^ SMALL } else { tag })
}

/// The tag of the letters and digits that a text begins with, of four at most.
fn tag_of_letters(text: &str, letter: fn(&u8) -> u8) -> Option<u32> {
    let mut tag = *b"    ";
    let letters = text.bytes().take_while(u8::is_ascii_alphanumeric);
    for (place, byte) in tag.iter_mut().zip(letters) {
        *place = letter(&byte);
    }
    (tag != *b"    ").then(|| u32::from_be_bytes(tag))
}

/// The tags of a language, by the subtags before its extensions.
fn language_tags(text: &str, public: &str) -> TagList {
    let condition = CONDITIONS
        .iter()
        .find(|(condition, _)| condition.holds(text, public));
    if let Some((_, tags)) = condition {
        return list(tags.iter().copied());
    }
    let mut subtags = public.split('-');
    let first = subtags.next().unwrap_or_default();
    let extended = subtags
        .next()
        .filter(|subtag| public.len() >= 6 && is_extended(subtag));
    match (tags_of_subtag(extended.unwrap_or(first)), extended) {
        (Some(tags), _) => tags,
        (None, None) if first.len() == 3 => TagList::new(&[iso_639_tag(first)]),
        (None, _) => TagList::new(&[]),
    }
}

/// Whether the second subtag names a language by itself, as in `zh-yue`.
fn is_extended(subtag: &str) -> bool {
    subtag.len() == 3 && subtag.starts_with(|letter: char| letter.is_ascii_alphabetic())
}

/// The tags that the table has for a language of two or three letters; `None` where it has no such
/// language.
fn tags_of_subtag(subtag: &str) -> Option<TagList> {
    let language = match *subtag.as_bytes() {
        [first, second] => [first, second, b' '],
        [first, second, third] => [first, second, third],
        _ => return None,
    };
    let rows = &LANGUAGES[LANGUAGES.partition_point(|(name, _)| *name < language)..];
    let count = rows.partition_point(|(name, _)| *name == language);
    let tags = rows[..count].iter().map(|(_, tag)| *tag);
    (count > 0).then(|| list(tags.filter(|tag| tag != b"    ")))
}

/// The first three of these tags.
fn list(tags: impl Iterator<Item = [u8; 4]>) -> TagList {
    let mut numbers = [0; 3];
    let places = numbers.iter_mut().zip(tags);
    let count = places
        .map(|(place, tag)| *place = u32::from_be_bytes(tag))
        .count();
    TagList::new(&numbers[..count])
}

/// The tag of a language that no table has: its three letters of ISO 639 as great ones.
fn iso_639_tag(subtag: &str) -> u32 {
    let letters = subtag
        .bytes()
        .fold(0, |tag, byte| tag << 8 | u32::from(byte));
    (letters & !(SMALL >> 8)) << 8 | u32::from(b' ')
}

/// What is asked of the subtags of a language.
enum Condition {
    /// One of those behind the first is this one.
    Subtag(&'static str),
    /// They are these.
    Whole(&'static str),
    /// They begin with these.
    Start(&'static str),
    /// The first is this one, and one of those behind it that one.
    With(&'static str, &'static str),
}

impl Condition {
    /// Whether it holds of a text, and of what stands before its extensions.
    fn holds(&self, text: &str, public: &str) -> bool {
        match self {
            Condition::Subtag(subtag) => public.len() >= 7 && has_subtag(public, subtag),
            Condition::Whole(whole) => text == *whole,
            Condition::Start(start) => {
                let behind = public.strip_prefix(start);
                behind.is_some_and(|behind| behind.is_empty() || behind.starts_with('-'))
            }
            Condition::With(first, subtag) => {
                public.split('-').next() == Some(first) && has_subtag(public, subtag)
            }
        }
    }
}

/// Whether one of the subtags behind the first is this one.
fn has_subtag(public: &str, subtag: &str) -> bool {
    public.split('-').skip(1).any(|other| other == subtag)
}
