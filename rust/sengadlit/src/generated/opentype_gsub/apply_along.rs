// Generated from crates/opentype_gsub/src/apply_along.rt by rust/erase; edit the source.

//! A lookup along a text.

use crate::generated::opentype_gsub::machine::apply_nested;
use crate::generated::opentype_gsub::pass::{Pass, Sights};
use crate::generated::opentype_gsub::presence::next_place;
use crate::generated::opentype_layout::glyph_text::GlyphText;
use crate::generated::opentype_layout::starts::LookupTable;
use crate::generated::shapers_buffer::buffer::{LookupRecord, ShaperError};

// What a lookup does at a place; the next place.
#[inline]
fn step<'a>(
    pass: &Pass<'a>,
    sights: &Sights,
    lookup: &LookupTable<'a>,
    text: &mut GlyphText,
    lookups: &mut LookupRecord,
    at: usize,
) -> Result<usize, ShaperError> {
    if !pass.lookup.sees_by(pass.classes.gdef, sights, text.at(at)) {
        return Ok(at + 1);
    }
    match apply_nested(pass, sights, lookup, text, lookups, at)? {
        Some(next) => Ok(next),
        None => Ok(at + 1),
    }
}

/// Applies a lookup by its table along a text from a place on, in at most so many steps, and with the
/// operations that the text has left.
///
/// # Errors
///
/// [`Memory`].
///
/// <details><summary>Contract</summary>
///
/// # Contract
///
/// ```text
/// ensures { OnOk result (lookup_applied steps (lookup_stepped (setting_of pass.now) lookup.now)
///     text.old first lookups.old
///     ≡ record { text = text.new; lookups = lookups.new }) }
/// ```
///
/// - `lookup_applied`, `lookup_stepped`: `crates/opentype_gsub/specs/Along.antt`
/// - `setting_of`: `crates/opentype_gsub/specs/Setting.antt`
///
/// </details>
///
/// [`Memory`]: crate::ShaperError::Memory
#[inline]
pub fn apply_along<'a>(
    pass: &Pass<'a>,
    lookup: &LookupTable<'a>,
    text: &mut GlyphText,
    lookups: &mut LookupRecord,
    first: usize,
    steps: usize,
) -> Result<(), ShaperError> {
    let sights = pass
        .lookup
        .sights_within(pass.classes.gdef, lookup.bytes(), 0);
    let (mut at, mut steps) = (first, steps);
    // (the first place was found before)
    let mut place = first;
    while steps > 0 {
        if place >= text.len() {
            return Ok(());
        }
        let passed = place - at;
        if passed >= steps {
            return Ok(());
        }
        at = step(pass, &sights, lookup, text, lookups, place)?;
        steps -= passed + 1;
        place = next_place(&pass.lookup, lookup, &text.view(), at);
    }
    Ok(())
}
