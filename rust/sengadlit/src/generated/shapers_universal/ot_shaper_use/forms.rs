// Generated from crates/shapers_universal/src/ot_shaper_use/forms.rt by rust/erase; edit the source.

//! The forms of syllables by their places in sequences.

use crate::generated::shapers_base::buffer::{
    Buffer, GlyphInfo, Tag, first_syllable_len, unsafe_to_break_in,
};
use crate::generated::shapers_base::map::Map;
use crate::generated::shapers_base::plan::BreakFlags;
use crate::generated::shapers_syllabic::ot_shaper_syllabic::use_syllable::{
    HIEROGLYPH_CLUSTER, NON_CLUSTER,
};

// The masks of the four forms.
#[derive(Clone, Copy)]
pub(super) struct FormMasks {
    isol: u32,
    init: u32,
    medi: u32,
    fina: u32,
}

// Gives each syllable the mask of its form: in each unbroken sequence of syllables that join, a
// lone one is isolated, the first initial, the last final, the others medial.
#[inline]
pub(super) fn set_forms(map: &Map, buffer: &mut Buffer) {
    let masks = FormMasks::of(map);
    if masks.all() != 0 {
        buffer.with_glyphs_mut(|glyphs| masks.set_in(glyphs));
    }
}

// Flags what the choice adds, in a text whose syllables have their forms: with Sound any two
// neighbours of a sequence between which a break would change a mask.
#[inline]
pub(super) fn flag_forms(breaks: BreakFlags, map: &Map, buffer: &mut Buffer) {
    match breaks {
        BreakFlags::AsCode => {}
        BreakFlags::Sound => {
            let masks = FormMasks::of(map);
            buffer.with_glyphs_mut(|glyphs| masks.flag_pairs(glyphs));
        }
    }
}

impl FormMasks {
    // The masks in a map.
    #[inline]
    fn of(map: &Map) -> Self {
        FormMasks {
            isol: form_mask(map, Tag(*b"isol")),
            init: form_mask(map, Tag(*b"init")),
            medi: form_mask(map, Tag(*b"medi")),
            fina: form_mask(map, Tag(*b"fina")),
        }
    }

    // The bits of all forms.
    #[inline]
    fn all(self) -> u32 {
        (self.isol | self.init) | (self.medi | self.fina)
    }

    // The mask in a sequence, by whether a syllable of it stands before and whether one stands
    // behind.
    #[inline]
    fn between(self, before: bool, behind: bool) -> u32 {
        match (before, behind) {
            (false, false) => self.isol,
            (false, true) => self.init,
            (true, true) => self.medi,
            (true, false) => self.fina,
        }
    }

    // Gives each syllable the mask of its form.
    #[inline]
    fn set_in(self, glyphs: &mut [GlyphInfo]) {
        let mut start = 0;
        let mut before = false;
        while start < glyphs.len() {
            let end = start + first_syllable_len(&glyphs[start..]);
            let joins = may_join(&glyphs[start..end]);
            self.set_at(glyphs, start, end, before);
            before = joins;
            start = end;
        }
    }

    // Gives the syllable from `start` to `end` the mask of its form.
    #[inline]
    fn set_at(self, glyphs: &mut [GlyphInfo], start: usize, end: usize, before: bool) {
        let behind = may_join(&glyphs[end..]);
        self.set(&mut glyphs[start..end], before, behind);
    }

    // Whether a break between two syllables of a sequence would change the mask of one, by whether
    // one of it stands before them and whether one stands behind.
    #[inline]
    fn is_torn(self, before: bool, behind: bool) -> bool {
        self.between(before, true) != self.between(before, false)
            || self.between(true, behind) != self.between(false, behind)
    }

    // Whether a break between a syllable and the one that opens the rest would do so.
    #[inline]
    fn tears(self, syllable: &[GlyphInfo], rest: &[GlyphInfo], before: bool, behind: bool) -> bool {
        may_join(syllable) && may_join(rest) && self.is_torn(before, behind)
    }

    // Flags the syllable from `start` to `end` and the next one, where a break between them would
    // do so.
    #[inline]
    fn flag_pair(self, glyphs: &mut [GlyphInfo], start: usize, end: usize, before: bool) {
        if end == glyphs.len() {
            return;
        }
        let next = end + first_syllable_len(&glyphs[end..]);
        let behind = may_join(&glyphs[next..]);
        if self.tears(&glyphs[start..end], &glyphs[end..], before, behind) {
            unsafe_to_break_in(glyphs, start, next);
        }
    }

    // Flags each such pair.
    #[inline]
    fn flag_pairs(self, glyphs: &mut [GlyphInfo]) {
        let mut start = 0;
        let mut before = false;
        while start < glyphs.len() {
            let end = start + first_syllable_len(&glyphs[start..]);
            let joins = may_join(&glyphs[start..end]);
            self.flag_pair(glyphs, start, end, before);
            before = joins;
            start = end;
        }
    }

    // Gives a syllable the mask of its form.
    #[inline]
    fn set(self, syllable: &mut [GlyphInfo], before: bool, behind: bool) {
        if may_join(syllable) {
            replace_forms(syllable, self.all(), self.between(before, behind));
        }
    }
}

// The mask of the feature of a form, 0 where it holds for the whole text.
#[inline]
fn form_mask(map: &Map, tag: Tag) -> u32 {
    let mask = map.one_mask(tag);
    if mask == map.global_bits() {
        return 0;
    }
    mask
}

// Whether the syllable that begins the text stands in sequences: hieroglyphs and what is no cluster
// have no forms by their place.
#[inline]
fn may_join(glyphs: &[GlyphInfo]) -> bool {
    match glyphs.first() {
        None => false,
        Some(glyph) => {
            let kind = glyph.syllable % 16;
            kind != HIEROGLYPH_CLUSTER && kind != NON_CLUSTER
        }
    }
}

// Gives all these glyphs a mask in place of the bits of all forms.
#[inline]
fn replace_forms(glyphs: &mut [GlyphInfo], all: u32, mask: u32) {
    for glyph in glyphs.iter_mut() {
        glyph.mask = glyph.mask & !all | mask;
    }
}
