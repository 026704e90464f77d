// Generated from crates/shapers_arabic/src/ot_shaper_arabic/masks.rt by rust/erase; edit the source.

//! What follows joining: the selectors of Mongolian, and the masks of the forms.

use crate::generated::shapers_base::buffer::{GlyphInfo, Script};

// Whether the script is Mongolian.
#[inline]
pub(super) fn is_mongolian(script: Option<Script>) -> bool {
    script == Some(Script(*b"Mong"))
}

// Whether a character is a free variation selector of Mongolian.
#[inline]
fn is_selector(c: u32) -> bool {
    matches!(c, 0x180B..=0x180D | 0x180F)
}

// The form of a glyph behind one of the form `previous`.
#[inline]
pub(super) fn form_behind(previous: Option<u8>, glyph: &GlyphInfo) -> u8 {
    match previous {
        Some(form) if is_selector(glyph.glyph_id) => form,
        _ => glyph.auxiliary,
    }
}

// Gives each selector the form of the glyph before it.
#[inline]
pub(super) fn copy_to_selectors(glyphs: &mut [GlyphInfo]) {
    let mut previous = None;
    for glyph in glyphs.iter_mut() {
        let form = form_behind(previous, glyph);
        glyph.auxiliary = form;
        previous = Some(form);
    }
}

// Gives each glyph the mask of its form. The remainder is the form itself; it spares the test that
// the index is below 8.
#[inline]
pub(super) fn add_masks(masks: &[u32; 8], glyphs: &mut [GlyphInfo]) {
    for glyph in glyphs.iter_mut() {
        glyph.mask |= masks[usize::from(glyph.auxiliary % 8)];
    }
}
