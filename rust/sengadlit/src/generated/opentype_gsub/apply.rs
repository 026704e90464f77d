// Generated from crates/opentype_gsub/src/apply.rt by rust/erase; edit the source.

//! What subtables make of a text at a place.

use crate::generated::opentype_face::bytes::u16_at;
use crate::generated::opentype_face::class_table::ClassTable;
use crate::generated::opentype_gsub::decided::{alternate_at, set_by, single_at};
use crate::generated::opentype_gsub::edits::{count_of, delete, multiply, replace};
use crate::generated::opentype_gsub::ligating::ligate;
use crate::generated::opentype_gsub::matching::{Fitting, first_fitting};
use crate::generated::opentype_gsub::pass::Pass;
use crate::generated::opentype_layout::glyph_text::GlyphText;
use crate::generated::opentype_layout::sight::{Sight, number};
use crate::generated::opentype_layout::substitution_tables::SubtableAt;
use crate::generated::shapers_buffer::buffer::{
    BufferClusterLevel, GlyphInfo, LookupRecord, ShaperError,
};

// The place behind so many glyphs of a text. (The text's length fits a `usize`, and so does this.)
#[inline]
fn behind_sequence(text: &GlyphText, at: usize, count: u16) -> usize {
    at.saturating_add(usize::from(count)).min(text.len())
}

/// Puts the glyphs of a sequence in for one, and returns the place behind them. More than the text
/// may get aren't put in, and the record of its lookups says so.
///
/// # Errors
///
/// [`Memory`].
///
/// <details><summary>Contract</summary>
///
/// # Contract
///
/// ```text
/// requires here { at < length text.old }
/// ensures { IfOk result (λ next. sequence_put (setting_of pass.now) at text.old lookups.old
///     sequence.now ≡ record { text = text.new; next = next; lookups = lookups.new }) }
/// ```
///
/// - `sequence_put`: `crates/opentype_gsub/specs/Applied.antt`
/// - `setting_of`: `crates/opentype_gsub/specs/Setting.antt`
///
/// </details>
///
/// [`Memory`]: crate::ShaperError::Memory
pub fn put_sequence(
    pass: &Pass<'_>,
    text: &mut GlyphText,
    lookups: &mut LookupRecord,
    at: usize,
    sequence: &[u8],
) -> Result<usize, ShaperError> {
    let count = count_of(sequence);
    if count == 0 {
        delete(pass.level, text, at);
        return Ok(at);
    }
    if count == 1 {
        replace(&pass.classes, text, at, u16_at(sequence, 2), 0);
        return Ok(at + 1);
    }
    if usize::from(count) - 1 > pass.limit.saturating_sub(text.len()) {
        lookups.is_complete = false;
        return Ok(at + 1);
    }
    multiply(&pass.classes, text, at, sequence)?;
    Ok(behind_sequence(text, at, count))
}

fn apply_single(
    classes: &ClassTable<'_>,
    bytes: &[u8],
    place: Option<u32>,
    text: &mut GlyphText,
    at: usize,
) -> Option<usize> {
    match single_at(bytes, number(text.at(at)), place) {
        Some(to) => {
            replace(classes, text, at, to, 0);
            Some(at + 1)
        }
        None => None,
    }
}

fn apply_alternate(
    classes: &ClassTable<'_>,
    bytes: &[u8],
    place: Option<u32>,
    value: u32,
    text: &mut GlyphText,
    at: usize,
) -> Option<usize> {
    match alternate_at(value, set_by(bytes, place)) {
        Some(to) => {
            replace(classes, text, at, to, 0);
            Some(at + 1)
        }
        None => None,
    }
}

fn apply_multiple(
    pass: &Pass<'_>,
    bytes: &[u8],
    place: Option<u32>,
    text: &mut GlyphText,
    lookups: &mut LookupRecord,
    at: usize,
) -> Result<Option<usize>, ShaperError> {
    match set_by(bytes, place) {
        Some(sequence) => Ok(Some(put_sequence(pass, text, lookups, at, sequence)?)),
        None => Ok(None),
    }
}

#[inline]
fn apply_ligature(
    classes: &ClassTable<'_>,
    level: BufferClusterLevel,
    sight: &Sight,
    bytes: &[u8],
    place: Option<u32>,
    text: &mut GlyphText,
    at: usize,
) -> Option<usize> {
    let set = set_by(bytes, place)?;
    // (by reference, since it would be moved with the room for its places)
    match &first_fitting(classes.gdef, sight, set, &text.view(), at) {
        Some(fitting) => Some(put_ligature(classes, level, text, at, fitting)),
        None => None,
    }
}

// Puts a ligature in. Returns the place behind it.
fn put_ligature(
    classes: &ClassTable<'_>,
    level: BufferClusterLevel,
    text: &mut GlyphText,
    at: usize,
    fitting: &Fitting,
) -> usize {
    let places = fitting.places.as_slice();
    if places.is_empty() {
        replace(classes, text, at, fitting.glyph, 0);
        return at + 1;
    }
    let last = places[places.len() - 1];
    ligate(classes, level, text, at, places, fitting.glyph);
    last.saturating_sub(places.len() - 1)
}

// The value of a feature at a glyph.
pub(crate) fn value(sight: &Sight, glyph: &GlyphInfo) -> u32 {
    let mask = u64::from(sight.mask);
    let lowest = mask & (4294967296 - mask);
    let value = u64::from(glyph.mask & sight.mask) / lowest.max(1);
    value as u32
}

/// The value of a feature that asks for an alternate at random.
const AT_RANDOM: u32 = 255;

// Whether an alternate is picked at random, where the plan allows it.
pub(crate) fn is_random(random: bool, sight: &Sight, glyph: &GlyphInfo) -> bool {
    random && value(sight, glyph) == AT_RANDOM
}

// The next state of the generator that picks alternates. As in HarfBuzz, the product has 32 bits.
fn next_state(state: u32) -> u32 {
    state.wrapping_mul(48271) % 2147483647
}

// Puts one of a glyph's alternates in its place, at random. A break anywhere would change which ones
// are picked.
fn apply_random(
    classes: &ClassTable<'_>,
    bytes: &[u8],
    place: Option<u32>,
    text: &mut GlyphText,
    lookups: &mut LookupRecord,
    at: usize,
) -> Option<usize> {
    let set = set_by(bytes, place)?;
    let count = u32::from(u16_at(set, 0));
    if count == 0 {
        return None;
    }
    lookups.random_state = next_state(lookups.random_state);
    let chosen = lookups.random_state % count + 1;
    let len = text.len();
    text.unsafe_to_break(0, len);
    replace(classes, text, at, u16_at(set, chosen as usize * 2), 0);
    Some(at + 1)
}

// Puts the alternate in that the value of the feature chooses, or one at random.
fn apply_chosen(
    pass: &Pass<'_>,
    sight: &Sight,
    bytes: &[u8],
    place: Option<u32>,
    text: &mut GlyphText,
    lookups: &mut LookupRecord,
    at: usize,
) -> Option<usize> {
    if is_random(pass.lookup.random, sight, text.at(at)) {
        return apply_random(&pass.classes, bytes, place, text, lookups, at);
    }
    let value = value(sight, text.at(at));
    apply_alternate(&pass.classes, bytes, place, value, text, at)
}

/// What a subtable that adds no glyph makes of a text at a place, by the place of the glyph there in
/// the set that it begins with: the place behind what it did, if it fits. It takes no memory.
// (a call would pass on much that the caller has at hand)
///
/// <details><summary>Contract</summary>
///
/// # Contract
///
/// ```text
/// requires here { at < length text.old }
/// requires few { (subtable.now.kind == 2) ≡ false }
/// requires place { subtable.now.place ≡ first_place (record {
///   kind = subtable.now.kind;
///   bytes = subtable.now.bytes.now;
/// }) (two_byte_number text.old at) }
/// ensures { IsChange (one_put (setting_of pass.now) sight.now subtable.now.kind
///     subtable.now.bytes.now text.old at lookups.old) text.old lookups.old text.new lookups.new
///     result }
/// ```
///
/// - `IsChange`, `one_put`, `two_byte_number`: `crates/opentype_gsub/specs/Applied.antt`
/// - `setting_of`: `crates/opentype_gsub/specs/Setting.antt`
/// - `first_place`: `crates/opentype_layout/specs/SubstitutionTables.antt`
///
/// </details>
#[inline(always)]
pub fn apply_in_room(
    pass: &Pass<'_>,
    sight: &Sight,
    subtable: &SubtableAt<'_>,
    text: &mut GlyphText,
    lookups: &mut LookupRecord,
    at: usize,
) -> Option<usize> {
    let (bytes, place) = (subtable.bytes, subtable.place);
    match subtable.kind {
        1 => apply_single(&pass.classes, bytes, place, text, at),
        3 => apply_chosen(pass, sight, bytes, place, text, lookups, at),
        4 => apply_ligature(&pass.classes, pass.level, sight, bytes, place, text, at),
        _ => None,
    }
}

/// What a subtable makes of a text at a place, by the place of the glyph there in the set that it
/// begins with: the place behind what it did, if it fits.
///
/// # Errors
///
/// [`Memory`].
///
/// <details><summary>Contract</summary>
///
/// # Contract
///
/// ```text
/// requires here { at < length text.old }
/// requires place { subtable.now.place ≡ first_place (record {
///   kind = subtable.now.kind;
///   bytes = subtable.now.bytes.now;
/// }) (two_byte_number text.old at) }
/// ensures { IfOk result (λ next. IsChange (one_put (setting_of pass.now) sight.now
///     subtable.now.kind subtable.now.bytes.now text.old at lookups.old) text.old
///     lookups.old text.new lookups.new next) }
/// ```
///
/// - `IsChange`, `one_put`, `two_byte_number`: `crates/opentype_gsub/specs/Applied.antt`
/// - `setting_of`: `crates/opentype_gsub/specs/Setting.antt`
/// - `first_place`: `crates/opentype_layout/specs/SubstitutionTables.antt`
///
/// </details>
///
/// [`Memory`]: crate::ShaperError::Memory
#[inline]
pub fn apply_one(
    pass: &Pass<'_>,
    sight: &Sight,
    subtable: &SubtableAt<'_>,
    text: &mut GlyphText,
    lookups: &mut LookupRecord,
    at: usize,
) -> Result<Option<usize>, ShaperError> {
    if subtable.kind == 2 {
        return apply_multiple(pass, subtable.bytes, subtable.place, text, lookups, at);
    }
    Ok(apply_in_room(pass, sight, subtable, text, lookups, at))
}
