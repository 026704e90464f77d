// Generated from crates/shapers_pipeline/src/singles.rt by rust/erase; edit the source.

//! Lookups that put single glyphs for others.

use crate::generated::shapers_base::buffer::{
    Buffer, GlyphChange, GlyphInfo, GlyphProps, ShaperError,
};
use crate::generated::shapers_pipeline::lookups::Lookups;
use crate::generated::shapers_plan::ot_map::StageLookup;
use crate::generated::shapers_position::ot_shape_position::GlyphClasses;

/// An entry of a single substitution.
#[derive(Clone, Copy, Debug, PartialEq, Eq, Hash)]
pub struct Single {
    /// The number of the lookup.
    pub lookup: u16,
    /// The glyph that goes.
    pub glyph: u16,
    /// The one in its place.
    pub substitute: u16,
}

/// The lookups of a font that has single substitutions alone, and no positions: of several entries
/// of a lookup for one glyph the first counts. Lookup flags are none. (OpenType, GSUB, lookup type
/// 1.)
#[derive(Clone, Copy, Debug)]
pub struct SingleLookups<'a> {
    /// The entries of all lookups.
    pub singles: &'a [Single],
}

impl<'a> GlyphClasses for SingleLookups<'a> {
    #[inline]
    fn is_mark(&self, _glyph: &GlyphInfo) -> bool {
        false
    }
}

impl<'a> Lookups for SingleLookups<'a> {
    #[inline]
    fn glyph_props(&self, _glyph: &GlyphInfo) -> GlyphProps {
        GlyphProps::NONE
    }

    #[inline]
    fn growth(&self, _lookup: &StageLookup) -> usize {
        1
    }

    fn substitute(&self, lookup: &StageLookup, buffer: &mut Buffer) -> Result<(), ShaperError> {
        let end = buffer.len();
        let change = SingleChange {
            singles: self.singles,
            lookup: *lookup,
        };
        buffer.change_each(0, end, &change);
        Ok(())
    }

    fn position(&self, _lookup: &StageLookup, _buffer: &mut Buffer) -> Result<(), ShaperError> {
        Ok(())
    }

    fn finish_positions(&self, _buffer: &mut Buffer) {}
}

// A lookup of one glyph.
#[derive(Clone, Copy)]
struct SingleChange<'a> {
    singles: &'a [Single],
    lookup: StageLookup,
}

impl<'a> GlyphChange for SingleChange<'a> {
    #[inline]
    fn change(&self, glyph: &mut GlyphInfo) {
        if glyph.mask & self.lookup.mask == 0 {
            return;
        }
        if let Some(single) = single_for(self.singles, &self.lookup, glyph) {
            glyph.glyph_id = u32::from(single.substitute);
            glyph.glyph_props.set_substituted(true);
        }
    }
}

// The first entry of a lookup for a glyph.
#[inline]
fn single_for(singles: &[Single], lookup: &StageLookup, glyph: &GlyphInfo) -> Option<Single> {
    let mut entries = singles.iter().copied();
    entries
        .find(|single| single.lookup == lookup.index && u32::from(single.glyph) == glyph.glyph_id)
}
