// Generated from crates/opentype_font/src/stages.rt by rust/erase; edit the source.

//! The lookups of a stage, one after another: those that can begin nowhere in the text are passed
//! over.

use crate::generated::opentype_gpos::apply_along::position;
use crate::generated::opentype_gsub::pass::LookupUse;
use crate::generated::opentype_gsub::substitute::substitute;
use crate::generated::opentype_layout::face_tables::FaceTables;
use crate::generated::opentype_layout::lookup_rows::LookupBits;
use crate::generated::opentype_layout::sight::Application;
use crate::generated::opentype_layout::tables::LayoutTable;
use crate::generated::shapers_base::buffer::{Buffer, ShaperError};
use crate::generated::shapers_plan::ot_map::StageLookup;

// How GSUB applies a lookup of a plan.
#[inline]
fn use_for(lookup: &StageLookup) -> LookupUse {
    LookupUse {
        index: lookup.index,
        mask: lookup.mask,
        auto_zwnj: lookup.auto_zwnj,
        auto_zwj: lookup.auto_zwj,
        random: lookup.random,
        per_syllable: lookup.per_syllable,
    }
}

// How GPOS applies a lookup of a plan, which reaches over syllables.
#[inline]
fn application_for(lookup: &StageLookup) -> Application {
    Application {
        of_gpos: true,
        mask: lookup.mask,
        auto_zwnj: lookup.auto_zwnj,
        auto_zwj: lookup.auto_zwj,
        per_syllable: false,
    }
}

/// Applies a lookup of GSUB.
#[inline]
pub(crate) fn substitute_by(
    tables: &FaceTables<'_>,
    lookup: &StageLookup,
    buffer: &mut Buffer,
) -> Result<(), ShaperError> {
    substitute(tables.classes(), tables.gsub(), &use_for(lookup), buffer)
}

/// Applies a lookup of GPOS.
#[inline]
pub(crate) fn position_by(tables: &FaceTables<'_>, lookup: &StageLookup, buffer: &mut Buffer) {
    let how = application_for(lookup);
    position(tables.face.gdef, tables.gpos(), lookup.index, &how, buffer);
}

// The lookups that may begin in a text, if they are known, and if more than two are to be applied.
// (Two are tried as soon as those that may begin are found.)
#[inline]
fn present_among(
    of_gpos: bool,
    table: &LayoutTable<'_>,
    list: &[StageLookup],
    buffer: &Buffer,
) -> Option<LookupBits> {
    if list.len() > 2 {
        table.present(of_gpos, buffer.glyphs())
    } else {
        None
    }
}

/// Whether a lookup is known to be none of these.
#[inline]
pub(crate) fn is_absent(present: Option<LookupBits>, index: u16) -> bool {
    match present {
        Some(LookupBits { low, high }) => {
            let word = if index < 64 { low } else { high };
            index < 128 && word >> (index % 64) & 1 == 0
        }
        None => false,
    }
}

// The lookups of GSUB that may begin in a text, if they are known, and whether these are the ones of
// the text as it is now.
#[derive(Clone, Copy)]
struct Seen {
    present: Option<LookupBits>,
    is_fresh: bool,
}

// Whether a lookup of GSUB is known to leave a text as it is; what was known before another lookup is
// asked anew, if it says so.
#[inline]
fn is_left(
    tables: &FaceTables<'_>,
    lookup: &StageLookup,
    seen: &mut Seen,
    buffer: &Buffer,
) -> bool {
    if !is_absent(seen.present, lookup.index) {
        return false;
    }
    if seen.is_fresh {
        return true;
    }
    seen.present = tables.gsub().present(false, buffer.glyphs());
    seen.is_fresh = true;
    is_absent(seen.present, lookup.index)
}

// Applies a lookup of GSUB, unless it is known to leave the text as it is.
#[inline]
fn substitute_seen(
    tables: &FaceTables<'_>,
    lookup: &StageLookup,
    seen: &mut Seen,
    buffer: &mut Buffer,
) -> Result<(), ShaperError> {
    if is_left(tables, lookup, seen, buffer) {
        return Ok(());
    }
    seen.is_fresh = false;
    substitute_by(tables, lookup, buffer)
}

/// Applies lookups of GSUB, one after another.
#[inline]
pub(crate) fn substitute_all(
    tables: &FaceTables<'_>,
    list: &[StageLookup],
    buffer: &mut Buffer,
) -> Result<(), ShaperError> {
    let present = present_among(false, tables.gsub(), list, buffer);
    let mut seen = Seen {
        present,
        is_fresh: true,
    };
    for lookup in list {
        substitute_seen(tables, lookup, &mut seen, buffer)?;
    }
    Ok(())
}

// Applies a lookup of GPOS, unless it can begin nowhere in the text.
#[inline]
fn position_present(
    tables: &FaceTables<'_>,
    lookup: &StageLookup,
    present: Option<LookupBits>,
    buffer: &mut Buffer,
) {
    if is_absent(present, lookup.index) {
        return;
    }
    position_by(tables, lookup, buffer);
}

/// Applies lookups of GPOS, one after another. (No lookup changes what glyphs there are, so those that
/// may begin are found once.)
pub(crate) fn position_all(tables: &FaceTables<'_>, list: &[StageLookup], buffer: &mut Buffer) {
    let present = present_among(true, tables.gpos(), list, buffer);
    for lookup in list {
        position_present(tables, lookup, present, buffer);
    }
}
