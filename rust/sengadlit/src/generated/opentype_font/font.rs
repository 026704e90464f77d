// Generated from crates/opentype_font/src/font.rt by rust/erase; edit the source.

//! A font file as the hooks, normalization and positions read it.

use crate::generated::opentype_face::face::Face;
use crate::generated::opentype_face::metrics::advance;
use crate::generated::opentype_font::script_features::has_feature;
use crate::generated::opentype_font::text_tags::TextTags;
use crate::generated::opentype_font::would_apply::would_apply;
use crate::generated::opentype_layout::face_tables::FaceTables;
use crate::generated::shapers_base::buffer::Tag;
use crate::generated::shapers_base::font::{Font, GlyphId};
use crate::generated::shapers_pipeline::NormalizeFont;
use crate::generated::shapers_position::ot_shape_position::MetricsFont;

/// A face, for texts of a script and a language.
#[derive(Debug)]
pub struct OpenTypeFont<'a> {
    /// The face, with what was prepared of it.
    pub tables: FaceTables<'a>,
    /// The tags of the texts' script and language.
    pub tags: TextTags,
}

// How far a glyph moves the pen in vertical text: as high as a line is where the font has no vertical
// advances.
fn v_advance(face: &Face<'_>, glyph: u16) -> i32 {
    match advance(face.vhea, face.vmtx, face.glyph_count(), glyph) {
        Some(advance) => -i32::from(advance),
        None => face.descender().saturating_sub(face.ascender()),
    }
}

impl<'a> Font for OpenTypeFont<'a> {
    #[inline]
    fn nominal_glyph(&self, c: u32) -> Option<GlyphId> {
        match self.tables.nominal_glyph(c) {
            Some(glyph) => Some(GlyphId(glyph)),
            None => None,
        }
    }

    #[inline]
    fn glyph_h_advance(&self, glyph: GlyphId) -> i32 {
        i32::from(self.tables.face.h_advance(glyph.0))
    }

    #[inline]
    fn would_apply(&self, lookup: u16, glyphs: &[GlyphId], zero_context: bool) -> bool {
        would_apply(self.tables.gsub(), lookup, glyphs, zero_context)
    }

    fn has_feature(&self, tag: Tag) -> bool {
        has_feature(self.tables.face.gsub, &self.tags, tag)
            || has_feature(self.tables.face.gpos, &self.tags, tag)
    }

    // (each question is a total function of the file's bytes)
    #[inline]
    fn may_panic(&self) -> bool {
        false
    }
}

impl<'a> NormalizeFont for OpenTypeFont<'a> {
    #[inline]
    fn variation_glyph(&self, c: u32, selector: u32) -> Option<GlyphId> {
        match self.tables.face.variation_glyph(c, selector) {
            Some(glyph) => Some(GlyphId(glyph)),
            None => None,
        }
    }
}

impl<'a> MetricsFont for OpenTypeFont<'a> {
    #[inline]
    fn units_per_em(&self) -> u16 {
        self.tables.face.units_per_em()
    }

    #[inline]
    fn glyph_v_advance(&self, glyph: GlyphId) -> i32 {
        v_advance(&self.tables.face, glyph.0)
    }

    // (half of the horizontal advance to the right, as no table says otherwise)
    fn glyph_v_origin(&self, glyph: GlyphId) -> (i32, i32) {
        let across = self.tables.face.h_advance(glyph.0) / 2;
        (i32::from(across), self.tables.face.v_origin(glyph.0))
    }
}
