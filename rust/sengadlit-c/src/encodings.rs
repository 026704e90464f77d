//! Texts in UTF-8, UTF-16 and UTF-32 as characters. As in HarfBuzz, each unit that begins no well-formed sequence is U+FFFD.
use core::iter;
use sengadlit::buffer::CONTEXT_LENGTH;

const BAD: char = char::REPLACEMENT_CHARACTER;

/// As many units as the characters of a context take at most, in any encoding.
const CONTEXT_UNITS: usize = 4 * CONTEXT_LENGTH;

/// A unit of an encoding.
pub trait Unit: Copy + Default + PartialEq {
    /// The first character of a text that isn't empty, and how many units it takes.
    fn first(text: &[Self]) -> (char, usize);
}

// The character with these bits.
fn character(bits: u32) -> char {
    char::from_u32(bits).unwrap_or(BAD)
}

// The low six bits of each byte behind the first, below those of the first.
fn joined(first: u8, others: &[u8]) -> char {
    let below = |bits, byte: &u8| bits << 6 | u32::from(byte & 0x3F);
    character(others.iter().fold(u32::from(first), below))
}

/// Unicode's table 3-7, of well-formed sequences.
impl Unit for u8 {
    fn first(text: &[u8]) -> (char, usize) {
        match *text {
            [a @ ..=0x7F, ..] => (char::from(a), 1),
            [a @ 0xC2..=0xDF, b @ 0x80..=0xBF, ..] => (joined(a & 0x1F, &[b]), 2),
            [a @ 0xE0, b @ 0xA0..=0xBF, c @ 0x80..=0xBF, ..]
            | [
                a @ (0xE1..=0xEC | 0xEE..=0xEF),
                b @ 0x80..=0xBF,
                c @ 0x80..=0xBF,
                ..,
            ]
            | [a @ 0xED, b @ 0x80..=0x9F, c @ 0x80..=0xBF, ..] => (joined(a & 0x0F, &[b, c]), 3),
            [
                a @ 0xF0,
                b @ 0x90..=0xBF,
                c @ 0x80..=0xBF,
                d @ 0x80..=0xBF,
                ..,
            ]
            | [
                a @ 0xF1..=0xF3,
                b @ 0x80..=0xBF,
                c @ 0x80..=0xBF,
                d @ 0x80..=0xBF,
                ..,
            ]
            | [
                a @ 0xF4,
                b @ 0x80..=0x8F,
                c @ 0x80..=0xBF,
                d @ 0x80..=0xBF,
                ..,
            ] => (joined(a & 0x07, &[b, c, d]), 4),
            _ => (BAD, 1),
        }
    }
}

impl Unit for u16 {
    fn first(text: &[u16]) -> (char, usize) {
        match *text {
            [high @ 0xD800..=0xDBFF, low @ 0xDC00..=0xDFFF, ..] => {
                let bits = u32::from(high & 0x3FF) << 10 | u32::from(low & 0x3FF);
                (character(0x1_0000 + bits), 2)
            }
            [unit, ..] => (character(u32::from(unit)), 1),
            [] => (BAD, 1),
        }
    }
}

impl Unit for u32 {
    fn first(text: &[u32]) -> (char, usize) {
        (text.first().map_or(BAD, |unit| character(*unit)), 1)
    }
}

/// The characters of a text, each with the place of its first unit.
pub fn characters<U: Unit>(text: &[U]) -> impl Iterator<Item = (usize, char)> {
    let mut place = 0;
    iter::from_fn(move || {
        let left = &text[place..];
        (!left.is_empty()).then(|| {
            let (character, units) = U::first(left);
            place += units;
            (place - units, character)
        })
    })
}

/// The last characters of a text, the last one first: in the room, as many as it has.
pub fn last<'a, U: Unit>(text: &[U], room: &'a mut [char; CONTEXT_LENGTH]) -> &'a [char] {
    let mut length = 0;
    // (what is cut in front of the last units isn't among the last characters)
    for (_, character) in characters(&text[text.len().saturating_sub(CONTEXT_UNITS)..]) {
        room.rotate_right(1);
        room[0] = character;
        length = CONTEXT_LENGTH.min(length + 1);
    }
    &room[..length]
}

/// The first characters of a text, as many as the room has.
pub fn first<'a, U: Unit>(text: &[U], room: &'a mut [char; CONTEXT_LENGTH]) -> &'a [char] {
    let mut length = 0;
    for (to, (_, character)) in room.iter_mut().zip(characters(text)) {
        *to = character;
        length += 1;
    }
    &room[..length]
}

#[cfg(test)]
mod tests;
