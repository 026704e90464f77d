// Generated from crates/opentype_gsub/src/edits.rt by rust/erase; edit the source.

//! What lookups do to glyphs.

use crate::generated::opentype_face::bytes::u16_at;
use crate::generated::opentype_face::class_table::ClassTable;
use crate::generated::opentype_layout::glyph_text::GlyphText;
use crate::generated::shapers_buffer::buffer::{
    BufferClusterLevel, GlyphInfo, GlyphProps, LigProps, ShaperError,
};

// The properties of a glyph that is put in.
#[inline]
fn props_for(classes: &ClassTable<'_>, to: u16, guess: u16, old: u16) -> u16 {
    let props = old | 16;
    match classes.glyph_props(to) {
        Some(class) => props & 112 | class,
        None if guess == 0 => props,
        None => props & 112 | guess,
    }
}

/// A glyph with another number; `guess` is its class where the font has none.
///
/// <details><summary>Contract</summary>
///
/// # Contract
///
/// ```text
/// ensures { result ≡ replaced classes.now.gdef.now to guess glyph }
/// ```
///
/// - `replaced`: `crates/opentype_gsub/specs/Edits.antt`
///
/// </details>
#[inline]
pub fn replacement(classes: &ClassTable<'_>, to: u16, guess: u16, glyph: GlyphInfo) -> GlyphInfo {
    let mut new = glyph;
    new.glyph_id = u32::from(to);
    new.glyph_props = GlyphProps(props_for(classes, to, guess, glyph.glyph_props.0));
    new
}

/// Puts another glyph in.
///
/// <details><summary>Contract</summary>
///
/// # Contract
///
/// ```text
/// requires { at < length text.old }
/// ensures text { let gdef = classes.now.gdef.now in text.new ≡
///     slice_set text.old at (replaced gdef to guess (glyph_at text.old at)) }
/// ensures next { at + 1 < 2 ^ 64 }
/// ```
///
/// - `replaced`: `crates/opentype_gsub/specs/Edits.antt`
/// - `glyph_at`: `crates/opentype_layout/specs/Text.antt`
///
/// </details>
pub fn replace(classes: &ClassTable<'_>, text: &mut GlyphText, at: usize, to: u16, guess: u16) {
    let glyph = *text.at(at);
    text.set(at, replacement(classes, to, guess, glyph));
}

// One of a sequence of glyphs that come in for one.
#[inline]
fn glyph_of_sequence(
    classes: &ClassTable<'_>,
    sequence: &[u8],
    glyph: GlyphInfo,
    k: u16,
) -> GlyphInfo {
    let guess = if glyph.glyph_props.0 & 4 == 0 { 0 } else { 2 };
    let to = u16_at(sequence, 2 + usize::from(k) * 2);
    let mut new = replacement(classes, to, guess, glyph);
    new.glyph_props = GlyphProps(new.glyph_props.0 | 64);
    if glyph.lig_props.0 < 32 {
        new.lig_props = LigProps((k % 16) as u8);
    }
    new
}

/// How many glyphs a sequence has.
///
/// <details><summary>Contract</summary>
///
/// # Contract
///
/// ```text
/// ensures { result ≡ count_in sequence.now }
/// ```
///
/// - `count_in`: `crates/opentype_gsub/specs/Edits.antt`
///
/// </details>
#[inline]
pub fn count_of(sequence: &[u8]) -> u16 {
    u16_at(sequence, 0)
}

/// Puts the glyphs of a sequence in for one.
///
/// # Errors
///
/// [`Memory`].
///
/// <details><summary>Contract</summary>
///
/// # Contract
///
/// ```text
/// requires { at < length text.old }
/// ensures { OnOk result (text.new ≡ multiplied classes.now.gdef.now sequence.now at text.old) }
/// ```
///
/// - `multiplied`: `crates/opentype_gsub/specs/Edits.antt`
///
/// </details>
///
/// [`Memory`]: crate::ShaperError::Memory
pub fn multiply(
    classes: &ClassTable<'_>,
    text: &mut GlyphText,
    at: usize,
    sequence: &[u8],
) -> Result<(), ShaperError> {
    let glyph = *text.at(at);
    text.remove(at);
    let count = count_of(sequence);
    for k in (0..count).rev() {
        text.insert(at, glyph_of_sequence(classes, sequence, glyph, k))?;
    }
    Ok(())
}

// Hands the cluster of a glyph that goes on to a neighbour.
fn hand_on(level: BufferClusterLevel, text: &mut GlyphText, at: usize) {
    let here = text.at(at).cluster;
    if at + 1 < text.len() && text.at(at + 1).cluster == here {
        return;
    }
    if at == 0 {
        if at + 1 < text.len() {
            text.merge_clusters(level, at, at + 2);
        }
        return;
    }
    if here < text.at(at - 1).cluster {
        text.merge_clusters(level, at - 1, at + 1);
    }
}

/// Takes a glyph out, but not its place in the text.
///
/// <details><summary>Contract</summary>
///
/// # Contract
///
/// ```text
/// requires { at < length text.old }
/// ensures { text.new ≡ remove (handed_on level at text.old) at }
/// ```
///
/// - `handed_on`: `crates/opentype_gsub/specs/Edits.antt`
///
/// </details>
pub fn delete(level: BufferClusterLevel, text: &mut GlyphText, at: usize) {
    hand_on(level, text, at);
    text.remove(at);
}

// Takes glyphs out, the last first.
pub(crate) fn remove_all(text: &mut GlyphText, places: &[usize]) {
    for i in (0..places.len()).rev() {
        let place = places[i];
        if place < text.len() {
            text.remove(place);
        }
    }
}

// The place behind a glyph. (A text's length fits a `usize`, and so does this.)
#[inline]
pub(crate) fn place_behind(text: &GlyphText, at: usize) -> usize {
    let _len = text.len();
    at + 1
}

// The last of a place and those behind it.
#[inline]
pub(crate) fn last_of(at: usize, places: &[usize]) -> usize {
    if places.is_empty() {
        at
    } else {
        places[places.len() - 1]
    }
}

// Merges the clusters of a stretch by its first place and its last one.
#[inline]
pub(crate) fn merge_up_to(level: BufferClusterLevel, text: &mut GlyphText, at: usize, last: usize) {
    if at < last {
        let end = place_behind(text, last);
        text.merge_clusters(level, at, end);
    }
}
