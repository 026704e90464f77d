// Generated from crates/opentype_gsub/src/substitute.rt by rust/erase; edit the source.

//! A lookup of GSUB over a buffer.

use crate::support::prelude::*;

use crate::generated::opentype_face::class_table::ClassTable;
use crate::generated::opentype_face::lookup::subtable_type;
use crate::generated::opentype_gsub::apply_along::apply_along;
use crate::generated::opentype_gsub::pass::{LookupUse, Pass};
use crate::generated::opentype_gsub::plain::{apply_plain, are_plain};
use crate::generated::opentype_gsub::presence::first_place;
use crate::generated::opentype_gsub::reverse::apply_backward;
use crate::generated::opentype_layout::glyph_text::GlyphText;
use crate::generated::opentype_layout::looking::wants_concat;
use crate::generated::opentype_layout::starts::LookupTable;
use crate::generated::opentype_layout::tables::LayoutTable;
use crate::generated::shapers_buffer::buffer::{Buffer, GlyphInfo, LookupRecord, ShaperError};

// How many glyphs a text may get.
#[inline]
fn limit(len: usize, max_len: usize) -> usize {
    len.saturating_mul(256).max(65536).min(max_len)
}

// Applies a lookup by its table to a list of glyphs, from a place on.
#[inline]
fn apply_from<'a>(
    pass: &Pass<'a>,
    table: &LookupTable<'a>,
    first: usize,
    text: &mut GlyphText,
    lookups: &mut LookupRecord,
) -> Result<(), ShaperError> {
    if subtable_type(7, table.bytes(), 0) == 8 {
        apply_backward(pass, table, text);
        return Ok(());
    }
    let steps = text.len().saturating_sub(first);
    apply_along(pass, table, text, lookups, first, steps)
}

// A new list of glyphs, in the buffer's room: what a lookup makes of the buffer's from a place on.
#[inline]
fn apply(
    pass: &Pass<'_>,
    table: &LookupTable<'_>,
    first: usize,
    lookups: &mut LookupRecord,
    buffer: &mut Buffer,
) -> Result<Vec<GlyphInfo>, ShaperError> {
    let mut glyphs = buffer.take_list();
    glyphs.extend_from_slice(buffer.glyphs())?;
    let mut text = GlyphText::new(glyphs);
    apply_from(pass, table, first, &mut text, lookups)?;
    Ok(text.into_list())
}

// Puts these glyphs and this record in the place of the buffer's.
#[inline]
fn replace(
    text: Vec<GlyphInfo>,
    lookups: LookupRecord,
    buffer: &mut Buffer,
) -> Result<(), ShaperError> {
    buffer.replace_glyphs(text)?;
    buffer.set_lookup_record(lookups);
    Ok(())
}

// The same from a place on, before which the lookup can't begin, by its table.
#[inline(never)]
fn substitute_from(
    classes: &ClassTable<'_>,
    gsub: &LayoutTable<'_>,
    lookup_use: &LookupUse,
    table: &LookupTable<'_>,
    first: usize,
    buffer: &mut Buffer,
) -> Result<(), ShaperError> {
    let len = buffer.len();
    let pass = Pass {
        classes: *classes,
        gsub,
        level: buffer.cluster_level(),
        concat: wants_concat(buffer.flags()),
        len,
        limit: limit(len, buffer.max_len()),
        lookup: *lookup_use,
    };
    if are_plain(table) {
        apply_plain(&pass, table, first, buffer);
        return Ok(());
    }
    // (the buffer keeps its record until the glyphs are replaced, since a refusal changes nothing)
    let mut lookups = buffer.lookup_record();
    match apply(&pass, table, first, &mut lookups, buffer) {
        Ok(text) => replace(text, lookups, buffer),
        Err(_) => Err(ShaperError::Memory),
    }
}

/// Applies a lookup of GSUB, as a plan has it, to a text of glyphs without positions. The text gets
/// at most `growth` times as long, and never longer than the buffer may get. The operations that its
/// rules take come from the record of the text's lookups, which also says whether any were missing.
///
/// # Errors
///
/// [`Memory`]; nothing has changed then.
///
/// <details><summary>Contract</summary>
///
/// # Contract
///
/// ```text
/// requires { buffer.old.positions ≡ [] }
/// ensures ok { OnOk result (buffer.new ≡ substituted classes.now.gdef.now gsub.now lookup_use.now buffer.old) }
/// ensures refusal { IsOkUnless result Memory }
/// ensures err { OnErr result (buffer.new ≡ buffer.old) }
/// ```
///
/// - `substituted`: `crates/opentype_gsub/specs/Substituted.antt`
///
/// </details>
///
/// [`Memory`]: crate::ShaperError::Memory
#[inline]
pub fn substitute(
    classes: &ClassTable<'_>,
    gsub: &LayoutTable<'_>,
    lookup_use: &LookupUse,
    buffer: &mut Buffer,
) -> Result<(), ShaperError> {
    // (most lookups have nothing to do in a text)
    let table = gsub.lookup(lookup_use.index);
    let first = first_place(lookup_use, &table, buffer.glyphs());
    if first >= buffer.len() {
        return Ok(());
    }
    substitute_from(classes, gsub, lookup_use, &table, first, buffer)
}
