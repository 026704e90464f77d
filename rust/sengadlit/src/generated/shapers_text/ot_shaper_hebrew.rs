// Generated from crates/shapers_text/src/ot_shaper_hebrew.rt by rust/erase; edit the source.

//! Hebrew: the order of marks, and the letters that compose with points where the font places no
//! marks.

use crate::generated::shapers_base::buffer::modified_combining_class::{
    BELOW, CCC10, CCC14, CCC17, CCC18, CCC22,
};
use crate::generated::shapers_base::buffer::{
    Buffer, BufferClusterLevel, GlyphInfo, UnicodeProps, merge_clusters_in,
};
use crate::generated::shapers_base::font::Tables;
use crate::generated::shapers_base::plan::Plan;

/// Among the marks from `start` to `end`, at the first three neighbours of the classes (patah or
/// qamats), (sheva or hiriq), (meteg or below), merges the last two and swaps them: a meteg stands
/// before the point that it is written left of. It can't refuse and takes no memory.
///
/// <details><summary>Contract</summary>
///
/// # Contract
///
/// ```text
/// requires in_order { start ≤ end }
/// requires in_range { end ≤ length buffer.old.glyphs }
/// ensures step { let step = hebrew_mark_step start end buffer.old.glyphs in
///     let moved = after_step buffer.old.level step buffer.old.glyphs in
///     buffer.new ≡ record buffer.old { glyphs = moved } }
/// ensures order { let old = order_view buffer.old.glyphs in
///     order_view buffer.new.glyphs ≡ marks_swapped start end old }
/// ensures laws { HebrewMarksReordered start end buffer.old buffer.new }
/// ```
///
/// - `order_view`: `crates/shapers_buffer/specs/Glyph.antt`
/// - `after_step`: `crates/shapers_clusters/specs/Steps.antt`
/// - `HebrewMarksReordered`, `hebrew_mark_step`, `marks_swapped`: `crates/shapers_text/specs/Hebrew.antt`
///
/// </details>
#[inline]
pub fn reorder_marks(_plan: &Plan, buffer: &mut Buffer, start: usize, end: usize) {
    let level = buffer.cluster_level();
    buffer.with_glyphs_mut(|glyphs| reorder_marks_in(level, glyphs, start, end));
}

/// [`reorder_marks`] of glyphs in a slice, whose clusters merge at this level. Returns whether marks
/// changed places: where it returns false nothing changed.
///
/// # Panics
///
/// Where `start` is above `end`, or `end` above the number of glyphs.
///
/// <details><summary>Contract</summary>
///
/// # Contract
///
/// ```text
/// requires in_order { start ≤ end }
/// requires in_range { end ≤ length glyphs.old }
/// ensures step { glyphs.new ≡ after_step level (hebrew_mark_step start end glyphs.old) glyphs.old }
/// ensures moved { result ≡ is_some (second_of_triple start end glyphs.old) }
/// ensures unchanged { result ≡ false → glyphs.new ≡ glyphs.old }
/// ```
///
/// - `after_step`: `crates/shapers_clusters/specs/Steps.antt`
/// - `hebrew_mark_step`, `second_of_triple`: `crates/shapers_text/specs/Hebrew.antt`
///
/// </details>
///
/// [`reorder_marks`]: crate::Shaper::reorder_marks
pub fn reorder_marks_in(
    level: BufferClusterLevel,
    glyphs: &mut [GlyphInfo],
    start: usize,
    end: usize,
) -> bool {
    let Some(i) = find_triple(glyphs, start, end) else {
        return false;
    };
    merge_and_swap(level, glyphs, i);
    true
}

// Merges the glyphs at `i` and behind it, and swaps them.
#[inline(never)]
fn merge_and_swap(level: BufferClusterLevel, glyphs: &mut [GlyphInfo], i: usize) {
    merge_clusters_in(level, glyphs, i, i + 2);
    glyphs.swap(i, i + 1);
}

// The place of the second of the first three such neighbours.
#[inline]
#[allow(clippy::explicit_counter_loop)]
fn find_triple(glyphs: &[GlyphInfo], start: usize, end: usize) -> Option<usize> {
    let marks = &glyphs[start..end];
    let mut second = start + 1;
    for triple in marks.windows(3) {
        if begins_triple(triple) {
            return Some(second);
        }
        second += 1;
    }
    None
}

// Whether the first three are of such classes that the last two change places.
#[inline]
fn begins_triple(marks: &[GlyphInfo]) -> bool {
    let [a, b, c, ..] = marks else {
        return false;
    };
    is_of_class(a.unicode_props, CCC17, CCC18)
        && is_of_class(b.unicode_props, CCC10, CCC14)
        && is_of_class(c.unicode_props, CCC22, BELOW)
}

// Whether a character's class is one of these two, which aren't 0. (The category says whether the
// high byte is a class; it is read only where the byte would be one of them.)
#[inline]
fn is_of_class(props: UnicodeProps, first: u8, second: u8) -> bool {
    let byte = props.high_byte();
    (byte == first || byte == second) && props.general_category().has_class()
}

/// The composition of two characters: the table's, or else, where GPOS places no marks, the Hebrew
/// presentation form of a letter and a point.
///
/// <details><summary>Contract</summary>
///
/// # Contract
///
/// ```text
/// ensures { let composed = (T.tables tables.now).composed a b in
///     result ≡ composed_in_hebrew composed plan.now.has_gpos_mark a b }
/// ```
///
/// - `composed_in_hebrew`: `crates/shapers_text/specs/Hebrew.antt`
///
/// </details>
#[inline]
pub fn compose<T: Tables>(plan: &Plan, tables: &T, a: char, b: char) -> Option<char> {
    match tables.compose(a, b) {
        Some(composed) => Some(composed),
        None if plan.has_gpos_mark => None,
        None => form_of(a, b),
    }
}

/// A letter, a point and the form that they compose to.
const PAIRS: [(char, char, char); 14] = [
    ('\u{05D9}', '\u{05B4}', '\u{FB1D}'),
    ('\u{05F2}', '\u{05B7}', '\u{FB1F}'),
    ('\u{05D0}', '\u{05B7}', '\u{FB2E}'),
    ('\u{05D0}', '\u{05B8}', '\u{FB2F}'),
    ('\u{05D5}', '\u{05B9}', '\u{FB4B}'),
    ('\u{05D1}', '\u{05BF}', '\u{FB4C}'),
    ('\u{05DB}', '\u{05BF}', '\u{FB4D}'),
    ('\u{05E4}', '\u{05BF}', '\u{FB4E}'),
    ('\u{05E9}', '\u{05C1}', '\u{FB2A}'),
    ('\u{FB49}', '\u{05C1}', '\u{FB2C}'),
    ('\u{05E9}', '\u{05C2}', '\u{FB2B}'),
    ('\u{FB49}', '\u{05C2}', '\u{FB2D}'),
    ('\u{FB2A}', '\u{05BC}', '\u{FB2C}'),
    ('\u{FB2B}', '\u{05BC}', '\u{FB2D}'),
];

/// Alef with dagesh, where the row of letters with dagesh begins.
const ALEF_WITH_DAGESH: u32 = 0xFB30;

// The presentation form of a letter and a point.
#[inline]
fn form_of(a: char, b: char) -> Option<char> {
    if is_in_dagesh_row(a, b) {
        return char::from_u32(ALEF_WITH_DAGESH + (a as u32 - 0x05D0));
    }
    listed_form(a, b)
}

// Whether a letter and dagesh stand in the row of letters with dagesh.
#[inline]
fn is_in_dagesh_row(a: char, b: char) -> bool {
    b == '\u{05BC}' && matches!(a, '\u{05D0}'..='\u{05EA}') && !lacks_dagesh(a)
}

// Whether a letter has no form with dagesh.
#[inline]
fn lacks_dagesh(a: char) -> bool {
    matches!(
        a,
        '\u{05D7}' | '\u{05DD}' | '\u{05DF}' | '\u{05E2}' | '\u{05E5}'
    )
}

// The form in the list of pairs.
#[inline]
fn listed_form(a: char, b: char) -> Option<char> {
    PAIRS
        .iter()
        .find(|pair| pair.0 == a && pair.1 == b)
        .map(|pair| pair.2)
}
