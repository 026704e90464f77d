// Generated from crates/opentype_layout/src/input.rt by rust/erase; edit the source.

//! Where the input of a rule finds its glyphs.

use crate::generated::opentype_layout::glyph_text::GlyphView;
use crate::generated::opentype_layout::pattern::Pattern;
use crate::generated::opentype_layout::places::{Places, find_places};
use crate::generated::opentype_layout::sight::{Sight, ignores_glyph};
use crate::generated::shapers_buffer::buffer::LigProps;

// The ligature that the glyph at a place is or belongs to.
#[inline]
fn props_at(glyphs: &GlyphView<'_>, at: usize) -> LigProps {
    if at < glyphs.len() {
        glyphs.at(at).lig_props
    } else {
        LigProps::NONE
    }
}

#[inline]
fn ligature(props: LigProps) -> u8 {
    props.0 / 32
}

// Whether a glyph is a mark of a ligature's component.
#[inline]
fn attached(props: LigProps) -> bool {
    ligature(props) != 0 && props.component() != 0
}

// What a search backwards for a ligature makes of a glyph.
#[inline]
fn sees_base(number: u8, props: LigProps) -> Option<bool> {
    if ligature(props) != number {
        return Some(false);
    }
    if props.component() == 0 {
        return Some(true);
    }
    None
}

// How many glyphs stand between a mark and its ligature.
fn find_base(glyphs: &GlyphView<'_>, number: u8, at: usize) -> Option<usize> {
    for i in 0..at {
        let seen = sees_base(number, glyphs.at(at - 1 - i).lig_props);
        if let Some(is_found) = seen {
            return if is_found { Some(i) } else { None };
        }
    }
    None
}

// Whether a lookup ignores the ligature of a mark.
fn sees_through(gdef: &[u8], sight: &Sight, glyphs: &GlyphView<'_>, number: u8, at: usize) -> bool {
    if sight.of_gpos {
        return false;
    }
    match find_base(glyphs, number, at) {
        Some(i) => ignores_glyph(gdef, sight.flag, sight.set, glyphs.at(at - 1 - i)),
        None => false,
    }
}

// Whether a glyph can't be of an input, by the ligatures that both belong to.
fn apart(gdef: &[u8], sight: &Sight, glyphs: &GlyphView<'_>, at: usize, place: usize) -> bool {
    let first = props_at(glyphs, at);
    let other = props_at(glyphs, place);
    let is_same = ligature(other) == ligature(first);
    if !attached(first) {
        return attached(other) && !is_same;
    }
    if is_same && other.component() == first.component() {
        return false;
    }
    !sees_through(gdef, sight, glyphs, ligature(first), at)
}

// Whether one of these places can't be of an input.
fn is_any_apart(
    gdef: &[u8],
    sight: &Sight,
    glyphs: &GlyphView<'_>,
    at: usize,
    places: &[usize],
) -> bool {
    places
        .iter()
        .any(|place| apart(gdef, sight, glyphs, at, *place))
}

/// Puts into an empty list where the glyphs of an input are behind its first one, at `at`: so many
/// places of a pattern, from place 0. Marks of different components of a ligature aren't of one
/// input. Returns whether all are found; where they aren't, what the list has is of no use.
///
/// <details><summary>Contract</summary>
///
/// # Contract
///
/// ```text
/// requires few { count ≤ 63 }
/// requires inside { at < length glyphs.now }
/// requires none { places.old.items ≡ [] }
/// ensures within { (j : ℕ) → j < length places.new.items →
///     slice_index places.new.items j < length glyphs.now }
/// ensures number { result ≡ true → length places.new.items ≡ count }
/// ensures value { (if result then Some places.new.items else None)
///     ≡ input_in gdef.now sight.now (fits pattern.now) count glyphs.now at }
/// ```
///
/// - `input_in`: `crates/opentype_layout/specs/Ligatures.antt`
/// - `fits`: `crates/opentype_layout/specs/Pattern.antt`
///
/// </details>
pub fn find_input(
    gdef: &[u8],
    sight: &Sight,
    pattern: &Pattern<'_>,
    count: u16,
    glyphs: &GlyphView<'_>,
    at: usize,
    places: &mut Places,
) -> bool {
    let from = glyphs.after(at);
    if !find_places(gdef, sight, pattern, count, glyphs, from, places) {
        return false;
    }
    !is_any_apart(gdef, sight, glyphs, at, places.as_slice())
}
