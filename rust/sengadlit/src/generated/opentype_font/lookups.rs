// Generated from crates/opentype_font/src/lookups.rt by rust/erase; edit the source.

//! The lookups of a font file.

use crate::generated::opentype_font::font::OpenTypeFont;
use crate::generated::opentype_font::stages::{
    position_all, position_by, substitute_all, substitute_by,
};
use crate::generated::opentype_gpos::finish::finish_positions;
use crate::generated::opentype_gsub::growth::growth;
use crate::generated::opentype_layout::face_tables::FaceTables;
use crate::generated::shapers_base::buffer::{Buffer, GlyphInfo, GlyphProps, ShaperError};
use crate::generated::shapers_pipeline::Lookups;
use crate::generated::shapers_plan::ot_map::StageLookup;
use crate::generated::shapers_position::ot_shape_position::GlyphClasses;

/// The number of the category Mn.
const NONSPACING_MARK: u16 = 12;

// What lookups keep of a glyph: its class by GDEF. In a font without classes nonspacing marks are
// marks, unless they need not be drawn, and all else is a base. (HarfBuzz's
// `hb_synthesize_glyph_classes`.)
fn noted_by(tables: &FaceTables<'_>, glyph: &GlyphInfo) -> GlyphProps {
    if let Some(props) = tables.glyph_props((glyph.glyph_id % 65536) as u16) {
        return GlyphProps(props);
    }
    if glyph.unicode_props.0 % 32 == NONSPACING_MARK && !glyph.unicode_props.is_ignorable() {
        GlyphProps(8)
    } else {
        GlyphProps(2)
    }
}

impl<'a> GlyphClasses for OpenTypeFont<'a> {
    #[inline]
    fn is_mark(&self, glyph: &GlyphInfo) -> bool {
        glyph.glyph_props.0 & 8 == 8
    }
}

impl<'a> Lookups for OpenTypeFont<'a> {
    #[inline]
    fn glyph_props(&self, glyph: &GlyphInfo) -> GlyphProps {
        noted_by(&self.tables, glyph)
    }

    #[inline]
    fn growth(&self, lookup: &StageLookup) -> usize {
        growth(self.tables.face.gsub, lookup.index)
    }

    fn substitute(&self, lookup: &StageLookup, buffer: &mut Buffer) -> Result<(), ShaperError> {
        substitute_by(&self.tables, lookup, buffer)
    }

    #[inline]
    fn substitute_all(&self, list: &[StageLookup], buffer: &mut Buffer) -> Result<(), ShaperError> {
        substitute_all(&self.tables, list, buffer)
    }

    fn position(&self, lookup: &StageLookup, buffer: &mut Buffer) -> Result<(), ShaperError> {
        position_by(&self.tables, lookup, buffer);
        Ok(())
    }

    fn position_all(&self, list: &[StageLookup], buffer: &mut Buffer) -> Result<(), ShaperError> {
        position_all(&self.tables, list, buffer);
        Ok(())
    }

    fn finish_positions(&self, buffer: &mut Buffer) {
        finish_positions(buffer);
    }
}
