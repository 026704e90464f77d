// Generated from crates/shapers_universal/src/ot_shaper_use/syllable_walk.rt by rust/erase; edit the source.

//! A walk over the first glyphs of each syllable.

use crate::generated::shapers_base::buffer::GlyphInfo;

// A change of the first glyphs of a syllable, one after another, until one of them is the last.
pub(super) trait FrontChange {
    // Changes a glyph, and returns whether the next one of its syllable is to be changed too.
    fn change(&self, glyph: &mut GlyphInfo) -> bool;
}

// Changes the first glyphs of each syllable of these glyphs.
#[inline]
pub(super) fn change_fronts<C: FrontChange>(change: &C, glyphs: &mut [GlyphInfo]) {
    let mut passed = None;
    for glyph in glyphs.iter_mut() {
        passed = change_next(change, passed, glyph);
    }
}

// Changes the next glyph, unless the changes of its syllable have ended, whose byte is passed on.
#[inline]
fn change_next<C: FrontChange>(
    change: &C,
    passed: Option<u8>,
    glyph: &mut GlyphInfo,
) -> Option<u8> {
    let syllable = glyph.syllable;
    if passed == Some(syllable) {
        return passed;
    }
    if change.change(glyph) {
        return None;
    }
    Some(syllable)
}
