// Generated from crates/shapers_stretch/src/ot_shaper_arabic_stretch/measuring.rt by rust/erase; edit the source.

//! The numbers of a sequence: what its word and tiles measure, how often the tiles repeat, and how
//! they are laid.

use super::parts::repeats;
use crate::generated::shapers_base::buffer::{GlyphInfo, GlyphPosition};
use crate::generated::shapers_base::font::{Font, GlyphId};
use crate::generated::shapers_base::plan::StretchStart;

/// What a sequence measures: the advance of its word, of its fixed and of its repeating tiles, and
/// how many tiles repeat.
#[derive(Clone, Copy)]
pub(super) struct TileSequence {
    pub(super) word: i64,
    pub(super) fixed: i64,
    pub(super) repeating: i64,
    pub(super) repeaters: usize,
}

/// How often the repeating tiles of a sequence are laid besides once, by how much each of these
/// copies overlaps the one before it, and where the first tile begins.
#[derive(Clone, Copy)]
pub(super) struct Lay {
    pub(super) added: usize,
    pub(super) overlap: i64,
    pub(super) start: i64,
}

// Whether a number fits 32 bits with a sign.
#[inline]
pub(super) fn fits_i32(x: i64) -> bool {
    (-0x8000_0000..0x8000_0000).contains(&x)
}

/// What tiles and the word before them measure, unless a number of that doesn't fit 32 bits, or
/// what the fixed tiles leave of the word doesn't.
#[inline]
pub(super) fn measure<F: Font>(
    font: &F,
    word: &[GlyphPosition],
    tiles: &[GlyphInfo],
) -> Option<TileSequence> {
    if word.len() <= SHORT && tiles.len() <= SHORT {
        Some(measure_short(font, word, tiles))
    } else {
        measure_long(font, word, tiles)
    }
}

// The sum of so many numbers of 32 bits fits 64.
const SHORT: usize = 0x7FFF_FFFF;

// What few tiles and a short word before them measure, whose sums always fit.
#[inline]
fn measure_short<F: Font>(font: &F, word: &[GlyphPosition], tiles: &[GlyphInfo]) -> TileSequence {
    let word = short_advance(word);
    let mut fixed = 0;
    let mut repeating = 0;
    let mut repeaters = 0;
    for glyph in tiles {
        let width = i64::from(advance_of(font, glyph));
        if repeats(glyph) {
            repeating += width;
            repeaters += 1;
        } else {
            fixed += width;
        }
    }
    TileSequence {
        word,
        fixed,
        repeating,
        repeaters,
    }
}

// The same of any number of tiles, and a word of any length, piece by piece.
#[inline(never)]
fn measure_long<F: Font>(
    font: &F,
    word: &[GlyphPosition],
    tiles: &[GlyphInfo],
) -> Option<TileSequence> {
    let word = total_advance(word);
    let mut fixed = 0;
    let mut repeating = 0;
    let mut repeaters = 0;
    for piece in tiles.chunks(SHORT) {
        let measured = measure_short(font, &[], piece);
        fixed += i128::from(measured.fixed);
        repeating += i128::from(measured.repeating);
        repeaters += measured.repeaters;
    }
    Some(TileSequence {
        word: narrowed(word)?,
        fixed: narrowed(fixed)?,
        repeating: narrowed(repeating)?,
        repeaters,
    })
}

// A sum in 64 bits, unless it doesn't fit 32.
fn narrowed(sum: i128) -> Option<i64> {
    i64::try_from(sum).ok()
}

/// How far a glyph of the font moves the pen.
#[inline]
pub(super) fn advance_of<F: Font>(font: &F, glyph: &GlyphInfo) -> i32 {
    font.glyph_h_advance(GlyphId(u16::try_from(glyph.glyph_id).unwrap()))
}

// The advance of a short word.
#[inline]
fn short_advance(word: &[GlyphPosition]) -> i64 {
    let mut sum = 0;
    for position in word {
        sum += i64::from(position.x_advance);
    }
    sum
}

// The advance of a word of any length, piece by piece.
fn total_advance(word: &[GlyphPosition]) -> i128 {
    let mut sum = 0;
    for piece in word.chunks(SHORT) {
        sum += i128::from(short_advance(piece));
    }
    sum
}

/// How the sequence of these tiles behind this word is laid, unless one of its numbers doesn't fit
/// 32 bits.
#[inline]
pub(super) fn lay_of_sequence<F: Font>(
    font: &F,
    choice: StretchStart,
    right_to_left: bool,
    word: &[GlyphPosition],
    tiles: &[GlyphInfo],
) -> Option<Lay> {
    let sequence = measure(font, word, tiles)?;
    lay_of(choice, right_to_left, sequence)
}

/// How a sequence is laid, unless one of its numbers doesn't fit 32 bits.
#[inline]
pub(super) fn lay_of(
    choice: StretchStart,
    right_to_left: bool,
    sequence: TileSequence,
) -> Option<Lay> {
    if !sequence_fits(sequence) {
        return None;
    }
    let rounds = rounds_of(sequence);
    if !added_fits(sequence, rounds.added) {
        return None;
    }
    let overlap = overlap(sequence, rounds);
    let start = start(choice, right_to_left, sequence, rounds, overlap)?;
    Some(Lay {
        added: rounds.added,
        overlap,
        start,
    })
}

// Whether what a sequence measures fits 32 bits, and what its fixed tiles leave of the word.
#[inline]
fn sequence_fits(sequence: TileSequence) -> bool {
    fits_i32(sequence.word)
        && fits_i32(sequence.fixed)
        && fits_i32(sequence.repeating)
        && fits_i32(sequence.word - sequence.fixed)
}

// How many times more the repeating tiles of a sequence fit into what is left.
#[inline]
fn fitting(sequence: TileSequence) -> usize {
    let left = left_of(sequence);
    if sequence.repeating < left && 0 < sequence.repeating {
        times_more(sequence, left)
    } else {
        0
    }
}

// The same where they do fit.
#[inline]
fn times_more(sequence: TileSequence, left: i64) -> usize {
    (left.unsigned_abs() / sequence.repeating.unsigned_abs()) as usize - 1
}

// How often the repeating tiles are laid besides once, and whether these copies overlap.
#[derive(Clone, Copy)]
struct Rounds {
    added: usize,
    squeezes: bool,
}

// How many times more they are laid, and whether that is so much that the copies overlap.
#[inline]
fn rounds_of(sequence: TileSequence) -> Rounds {
    let fitting = fitting(sequence);
    let left = sequence.word - sequence.fixed;
    if left <= tiles_reach(sequence, fitting) || sequence.repeaters == 0 {
        return Rounds {
            added: fitting,
            squeezes: false,
        };
    }
    let added = fitting + 1;
    Rounds {
        added,
        squeezes: 0 < excess(sequence, added),
    }
}

// How far the repeating tiles reach, laid once and these times more.
#[inline]
fn tiles_reach(sequence: TileSequence, added: usize) -> i64 {
    (added as i64 + 1) * sequence.repeating
}

// How far they then reach too far.
#[inline]
fn excess(sequence: TileSequence, added: usize) -> i64 {
    tiles_reach(sequence, added) - (sequence.word - sequence.fixed)
}

// How many copies that makes.
#[inline]
fn copies(sequence: TileSequence, added: usize) -> i64 {
    (added * sequence.repeaters) as i64
}

// Whether these numbers fit 32 bits.
#[inline]
fn added_fits(sequence: TileSequence, added: usize) -> bool {
    fits_i32(tiles_reach(sequence, added)) && few_copies(sequence, added)
}

// Whether the number of copies that this makes fits 32 bits.
#[inline]
fn few_copies(sequence: TileSequence, added: usize) -> bool {
    added as u128 * (sequence.repeaters as u128) < 0x8000_0000
}

// By how much each added copy overlaps the one before it.
#[inline]
fn overlap(sequence: TileSequence, rounds: Rounds) -> i64 {
    if !rounds.squeezes {
        return 0;
    }
    quotient(
        excess(sequence, rounds.added),
        copies(sequence, rounds.added),
    )
}

// Where the first tile begins, unless a number of the choice doesn't fit 32 bits.
#[inline]
fn start(
    choice: StretchStart,
    right_to_left: bool,
    sequence: TileSequence,
    rounds: Rounds,
    shared: i64,
) -> Option<i64> {
    match choice {
        StretchStart::AsCode => Some(start_as_code(sequence, rounds.squeezes)),
        StretchStart::Centred => centred_start(right_to_left, sequence, rounds.added, shared),
    }
}

// The first choice of a start.
#[inline]
fn start_as_code(sequence: TileSequence, shares: bool) -> i64 {
    if shares { 0 } else { half(left_of(sequence)) }
}

// What the fixed tiles leave of the word.
#[inline]
fn left_of(sequence: TileSequence) -> i64 {
    sequence.word - sequence.fixed
}

// The second choice: what is laid is centred on the word, unless its width, or the word less that
// width, doesn't fit 32 bits.
#[inline]
fn centred_start(
    right_to_left: bool,
    sequence: TileSequence,
    times: usize,
    shared: i64,
) -> Option<i64> {
    let width = width_of_laid(sequence, times, shared);
    if !fits_i32(width) {
        return None;
    }
    let gap = gap(sequence, width);
    if !fits_i32(gap) {
        return None;
    }
    Some(along(right_to_left, half(gap)))
}

// How much wider the word is than what is laid.
#[inline]
fn gap(sequence: TileSequence, width: i64) -> i64 {
    sequence.word - width
}

// Half of a number.
#[inline]
fn half(x: i64) -> i64 {
    x / 2
}

// A number counted in the direction in which tiles follow one another.
#[inline]
fn along(right_to_left: bool, x: i64) -> i64 {
    if right_to_left { -x } else { x }
}

// The width that is laid.
#[inline]
fn width_of_laid(sequence: TileSequence, times: usize, shared: i64) -> i64 {
    sequence.fixed + tiles_reach(sequence, times) - shared_by(copies(sequence, times), shared)
}

// What so many copies overlap together.
#[inline]
fn shared_by(copies: i64, shared: i64) -> i64 {
    copies * shared
}

// The quotient of a number by one above 0, rounded toward zero.
#[inline]
fn quotient(a: i64, b: i64) -> i64 {
    a / b
}
