// Generated from crates/shapers_indic_final/src/ot_shaper_indic_final/viramas.rt by rust/erase; edit the source.

//! Viramas that lookups put in for several glyphs and then took apart become halants again. The
//! steps behind look for halants; a font may form a letter and its virama in one stage and part
//! them in a later one, and the parts then have the category of the first character, which is no
//! halant.

use crate::generated::shapers_base::buffer::{Buffer, GlyphInfo};
use crate::generated::shapers_base::font::GlyphId;
use crate::generated::shapers_base::plan::ot_category_t::OT_H;

// Recovers the viramas of the syllable from `start` to `end`.
#[inline]
pub(super) fn recover_viramas(
    virama: Option<GlyphId>,
    buffer: &mut Buffer,
    start: usize,
    end: usize,
) {
    buffer.change_each_by(start, end, |glyph| recover(virama, glyph));
}

// Makes a virama that was taken apart a halant again.
#[inline]
fn recover(virama: Option<GlyphId>, glyph: &mut GlyphInfo) {
    if is_lost_virama(virama, glyph) {
        glyph.category = OT_H;
        glyph.glyph_props.set_ligated(false);
        glyph.glyph_props.set_multiplied(false);
    }
}

// Whether a glyph is the virama's, and lookups put it in for several and then took it apart.
#[inline]
pub(super) fn is_lost_virama(virama: Option<GlyphId>, glyph: &GlyphInfo) -> bool {
    match virama {
        Some(virama) => {
            glyph.glyph_id == u32::from(virama.0)
                && glyph.glyph_props.is_ligated()
                && glyph.glyph_props.is_multiplied()
        }
        None => false,
    }
}
