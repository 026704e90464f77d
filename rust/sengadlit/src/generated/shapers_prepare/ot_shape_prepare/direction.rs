// Generated from crates/shapers_prepare/src/ot_shape_prepare/direction.rt by rust/erase; edit the source.

//! The direction that a text is shaped in.

use super::clusters::merge_graphemes_in;
use super::properties::is_regional_indicator;
use crate::generated::shapers_base::buffer::{
    Buffer, BufferClusterLevel, Direction, GeneralCategory, GlyphInfo, Script,
};

// The scripts that go from right to left.
const RIGHT_TO_LEFT_SCRIPTS: [Script; 36] = [
    Script(*b"Adlm"),
    Script(*b"Arab"),
    Script(*b"Armi"),
    Script(*b"Avst"),
    Script(*b"Chrs"),
    Script(*b"Cprt"),
    Script(*b"Elym"),
    Script(*b"Gara"),
    Script(*b"Hatr"),
    Script(*b"Hebr"),
    Script(*b"Khar"),
    Script(*b"Lydi"),
    Script(*b"Mand"),
    Script(*b"Mani"),
    Script(*b"Mend"),
    Script(*b"Merc"),
    Script(*b"Mero"),
    Script(*b"Narb"),
    Script(*b"Nbat"),
    Script(*b"Nkoo"),
    Script(*b"Orkh"),
    Script(*b"Ougr"),
    Script(*b"Palm"),
    Script(*b"Phli"),
    Script(*b"Phlp"),
    Script(*b"Phnx"),
    Script(*b"Prti"),
    Script(*b"Rohg"),
    Script(*b"Samr"),
    Script(*b"Sarb"),
    Script(*b"Sidt"),
    Script(*b"Sogd"),
    Script(*b"Sogo"),
    Script(*b"Syrc"),
    Script(*b"Thaa"),
    Script(*b"Yezi"),
];

// The scripts that go either way: Old Hungarian, Old Italic, runes, Tifinagh.
const EITHER_WAY_SCRIPTS: [Script; 4] = [
    Script(*b"Hung"),
    Script(*b"Ital"),
    Script(*b"Runr"),
    Script(*b"Tfng"),
];

/// Reverses a text, without positions, whose script goes the other way: its graphemes then stand
/// from the last to the first, and the direction is the opposite one. A text from bottom to top is
/// reversed always; numbers and flags without letters stay from left to right. Where clusters merge
/// by characters, each grapheme comes into one cluster.
///
/// <details><summary>Contract</summary>
///
/// # Contract
///
/// ```text
/// requires { buffer.old.positions ≡ [] }
/// ensures { buffer.new ≡ in_native_direction buffer.old }
/// ```
///
/// - `in_native_direction`: `crates/shapers_prepare/specs/NativeDirection.antt`
///
/// </details>
pub fn ensure_native_direction(buffer: &mut Buffer) {
    let direction = buffer.direction();
    let native = native_direction(buffer.script());
    if is_reversed(
        direction,
        text_direction(direction, native, buffer.glyphs()),
    ) {
        let level = buffer.cluster_level();
        buffer.with_glyphs_mut(|glyphs| reverse_by_graphemes(level, glyphs));
        buffer.set_direction(opposite_direction(direction));
    }
}

// The horizontal direction of a script, if it has one of its own.
fn native_direction(script: Option<Script>) -> Direction {
    match script {
        Some(script) => script_direction(script),
        None => Direction::Invalid,
    }
}

fn script_direction(script: Script) -> Direction {
    if goes_right_to_left(script) {
        Direction::RightToLeft
    } else if goes_either_way(script) {
        Direction::Invalid
    } else {
        Direction::LeftToRight
    }
}

fn goes_right_to_left(script: Script) -> bool {
    RIGHT_TO_LEFT_SCRIPTS.contains(&script)
}

fn goes_either_way(script: Script) -> bool {
    EITHER_WAY_SCRIPTS.contains(&script)
}

// The direction of a text's own, whose script has one.
#[inline]
fn text_direction(direction: Direction, native: Direction, glyphs: &[GlyphInfo]) -> Direction {
    match (direction, native) {
        (Direction::LeftToRight, Direction::RightToLeft) if are_numbers_or_flags(glyphs) => {
            Direction::LeftToRight
        }
        _ => native,
    }
}

// Whether these are numbers or flags, and no letter is among them.
#[inline]
fn are_numbers_or_flags(glyphs: &[GlyphInfo]) -> bool {
    has_number_or_flag(glyphs) && !has_letter(glyphs)
}

#[inline]
fn has_number_or_flag(glyphs: &[GlyphInfo]) -> bool {
    glyphs.iter().any(is_number_or_flag)
}

#[inline]
fn has_letter(glyphs: &[GlyphInfo]) -> bool {
    glyphs.iter().any(is_letter_glyph)
}

#[inline]
fn is_number_or_flag(glyph: &GlyphInfo) -> bool {
    matches!(glyph.unicode_props.general_category(), GeneralCategory::Nd)
        || is_regional_indicator(glyph.glyph_id)
}

#[inline]
fn is_letter_glyph(glyph: &GlyphInfo) -> bool {
    matches!(
        glyph.unicode_props.general_category(),
        GeneralCategory::Ll
            | GeneralCategory::Lm
            | GeneralCategory::Lo
            | GeneralCategory::Lt
            | GeneralCategory::Lu
    )
}

// Whether a text is shaped in the other direction.
#[inline]
fn is_reversed(direction: Direction, native: Direction) -> bool {
    match direction {
        Direction::LeftToRight => matches!(native, Direction::RightToLeft),
        Direction::RightToLeft => matches!(native, Direction::LeftToRight),
        Direction::BottomToTop => true,
        Direction::TopToBottom | Direction::Invalid => false,
    }
}

#[inline]
fn opposite_direction(direction: Direction) -> Direction {
    match direction {
        Direction::Invalid => Direction::Invalid,
        Direction::LeftToRight => Direction::RightToLeft,
        Direction::RightToLeft => Direction::LeftToRight,
        Direction::TopToBottom => Direction::BottomToTop,
        Direction::BottomToTop => Direction::TopToBottom,
    }
}

// Reverses a text by its graphemes.
#[inline]
fn reverse_by_graphemes(level: BufferClusterLevel, glyphs: &mut [GlyphInfo]) {
    make_graphemes_whole_in(level, glyphs);
    reverse_graphemes_in(glyphs);
}

// Brings each grapheme into one cluster at the level of characters; at that of graphemes it is in
// one.
#[inline]
fn make_graphemes_whole_in(level: BufferClusterLevel, glyphs: &mut [GlyphInfo]) {
    match level {
        BufferClusterLevel::MonotoneCharacters => merge_graphemes_in(level, glyphs),
        BufferClusterLevel::MonotoneGraphemes | BufferClusterLevel::Characters => {}
    }
}

// Puts the graphemes from the last to the first: each is reversed by itself, and then all are.
fn reverse_graphemes_in(glyphs: &mut [GlyphInfo]) {
    if glyphs.is_empty() {
        return;
    }
    let mut start = 0;
    for i in 1..glyphs.len() {
        if !glyphs[i].unicode_props.is_continuation() {
            reverse_stretch(glyphs, start, i);
            start = i;
        }
    }
    let end = glyphs.len();
    reverse_stretch(glyphs, start, end);
    glyphs.reverse();
}

// Reverses the glyphs from `start` to `end`.
#[inline]
fn reverse_stretch(glyphs: &mut [GlyphInfo], start: usize, end: usize) {
    glyphs[start..end].reverse();
}
