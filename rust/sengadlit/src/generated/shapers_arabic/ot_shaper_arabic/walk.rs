// Generated from crates/shapers_arabic/src/ot_shaper_arabic/walk.rt by rust/erase; edit the source.

//! One walk over the glyphs of a buffer: joining, the flags of breaks, the selectors, and the masks.

use super::breaks::flag_breaks;
use super::joining::join;
use super::masks::{add_masks, copy_to_selectors, is_mongolian};
use crate::generated::shapers_base::buffer::{BufferFlags, GlyphInfo, GlyphWalk, Script};
use crate::generated::shapers_base::font::Tables;
use crate::generated::shapers_base::plan::{BreakFlags, JoiningType};

// What joining needs besides the glyphs: the masks of the forms, and the nearest letters before and
// after the text.
pub(super) struct JoiningWalk<'a, T: Tables> {
    pub(super) masks: &'a [u32; 8],
    pub(super) breaks: BreakFlags,
    pub(super) script: Option<Script>,
    pub(super) flags: BufferFlags,
    pub(super) before: Option<JoiningType>,
    pub(super) after: Option<JoiningType>,
    pub(super) tables: &'a T,
}

impl<'a, T: Tables> GlyphWalk for JoiningWalk<'a, T> {
    #[inline]
    fn walk(&mut self, glyphs: &mut [GlyphInfo]) {
        join(self.flags, glyphs, self.before, self.after, self.tables);
        flag_breaks(self.breaks, self.script, glyphs);
        finish_forms(self.script, self.masks, glyphs);
    }
}

// Gives the selectors their forms, with the script Mongolian alone, and all glyphs their masks.
#[inline]
fn finish_forms(script: Option<Script>, masks: &[u32; 8], glyphs: &mut [GlyphInfo]) {
    if is_mongolian(script) {
        copy_to_selectors(glyphs);
        add_masks(masks, glyphs);
    } else {
        add_masks(masks, glyphs);
    }
}
