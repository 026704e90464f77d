// Generated from crates/shapers_hangul/src/ot_shaper_hangul/item.rt by rust/erase; edit the source.

//! The units of a Hangul text, and the tones that join them.

use crate::support::prelude::*;

use super::jamo::{
    compose_three, compose_two, decompose, follows, is_combined_s, is_combining_l, is_combining_t,
    is_combining_v, is_hangul_tone, is_l, is_lv, is_t, is_v,
};
use crate::generated::shapers_base::buffer::{
    BufferClusterLevel, GlyphInfo, merge_clusters_in, unsafe_to_break_in,
};
use crate::generated::shapers_base::font::Font;

// The features of leading, vowel and trailing jamo.
const LJMO: u8 = 1;

const VJMO: u8 = 2;

const TJMO: u8 = 3;

// The character of the dotted circle.
const DOTTED_CIRCLE: u32 = 0x25CC;

// What a unit of the text becomes.
#[derive(Clone, Copy, Default)]
pub(super) enum Unit {
    // Two characters: this syllable character.
    ComposedTwo(u32),
    // Three characters: this syllable character.
    ComposedThree(u32),
    // L V, marked.
    JamoTwo,
    // L V T, marked.
    JamoThree,
    // A syllable character: these L V, marked.
    PartsTwo(u32, u32),
    // A syllable character: these L V T, marked.
    PartsThree(u32, u32, u32),
    // LV and T: these L V, and T, marked.
    PartsBeforeT(u32, u32),
    // A syllable character: itself.
    Syllable,
    // A tone: itself and a circle.
    ToneCircle,
    // A tone: a circle and itself.
    CircleTone,
    // Any other character: itself, no syllable.
    #[default]
    Other,
}

// The tone directly after a syllable.
#[derive(Clone, Copy, Default)]
pub(super) enum JoinedTone {
    // There is none.
    #[default]
    Absent,
    // It moves before the syllable.
    Before,
    // It strikes over the syllable, and stays.
    Behind,
}

// A unit with its tone, and how many characters from its first on a break would tear apart.
#[derive(Clone, Copy, Default)]
pub(super) struct Item {
    unit: Unit,
    tone: JoinedTone,
    unsafe_len: usize,
}

// The character at place `i`, 0 where the text ends.
#[inline]
fn character_at(glyphs: &[GlyphInfo], i: usize) -> u32 {
    match glyphs.get(i) {
        Some(glyph) => glyph.glyph_id,
        None => 0,
    }
}

// Whether the font has the character with advance 0.
#[inline]
fn is_zero_width_char<F: Font>(font: &F, u: u32) -> bool {
    match font.nominal_glyph(u) {
        Some(glyph) => font.glyph_h_advance(glyph) == 0,
        None => false,
    }
}

// A tone without a syllable before it.
#[inline]
fn lone_tone<F: Font>(font: &F, circles: bool, u: u32) -> Unit {
    if !circles || !font.has_glyph(DOTTED_CIRCLE) {
        return Unit::Other;
    }
    if is_zero_width_char(font, u) {
        return Unit::CircleTone;
    }
    Unit::ToneCircle
}

// L V.
#[inline]
fn jamo_two<F: Font>(font: &F, l: u32, v: u32) -> Unit {
    if is_combining_l(l) && is_combining_v(v) {
        let lv = compose_two(l, v);
        if font.has_glyph(lv) {
            return Unit::ComposedTwo(lv);
        }
    }
    Unit::JamoTwo
}

// L V T.
#[inline]
fn jamo_three<F: Font>(font: &F, l: u32, v: u32, t: u32) -> Unit {
    if is_combining_l(l) && is_combining_v(v) && is_combining_t(t) {
        let lvt = compose_three(compose_two(l, v), t);
        if font.has_glyph(lvt) {
            return Unit::ComposedThree(lvt);
        }
    }
    Unit::JamoThree
}

// Whether the font has the jamo of a syllable character.
#[inline]
fn has_jamo_of<F: Font>(font: &F, s: u32) -> bool {
    let [l, v, t] = decompose(s);
    font.has_glyph(l) && font.has_glyph(v) && (is_lv(s) || font.has_glyph(t))
}

// A syllable character by its jamo.
#[inline]
fn parts(s: u32) -> Unit {
    let [l, v, t] = decompose(s);
    if is_lv(s) {
        return Unit::PartsTwo(l, v);
    }
    Unit::PartsThree(l, v, t)
}

// A syllable character before `v`.
fn syllable_unit<F: Font>(font: &F, s: u32, v: u32) -> Unit {
    if is_lv(s) && is_combining_t(v) {
        let composed = compose_three(s, v);
        if font.has_glyph(composed) {
            return Unit::ComposedTwo(composed);
        }
    }
    let has_glyph = font.has_glyph(s);
    if !has_glyph && has_jamo_of(font, s) {
        return parts(s);
    }
    if is_lv(s) && is_t(v) && has_jamo_of(font, s) {
        let [l, v, _] = decompose(s);
        return Unit::PartsBeforeT(l, v);
    }
    if has_glyph {
        return Unit::Syllable;
    }
    Unit::Other
}

// L V, and L V T.
#[inline]
fn jamo_unit<F: Font>(font: &F, l: u32, v: u32, t: u32) -> Unit {
    if is_t(t) {
        return jamo_three(font, l, v, t);
    }
    jamo_two(font, l, v)
}

// The unit of a character that no jamo follows.
#[inline]
fn lone_unit<F: Font>(font: &F, circles: bool, u: u32) -> Unit {
    if is_combined_s(u) {
        if font.has_glyph(u) {
            return Unit::Syllable;
        }
        if has_jamo_of(font, u) {
            return parts(u);
        }
        return Unit::Other;
    }
    if is_hangul_tone(u) {
        return lone_tone(font, circles, u);
    }
    Unit::Other
}

// The unit that the character `u` and the next two open.
#[inline]
fn first_unit<F: Font>(font: &F, circles: bool, u: u32, v: u32, t: u32) -> Unit {
    if is_hangul_tone(u) {
        return lone_tone(font, circles, u);
    }
    if is_l(u) && is_v(v) {
        return jamo_unit(font, u, v, t);
    }
    if is_combined_s(u) {
        return syllable_unit(font, u, v);
    }
    Unit::Other
}

// The tone `w` after a unit.
#[inline]
fn joined_tone<F: Font>(font: &F, unit: Unit, w: u32) -> JoinedTone {
    if !unit.is_syllable() || !is_hangul_tone(w) {
        return JoinedTone::Absent;
    }
    if is_zero_width_char(font, w) {
        return JoinedTone::Behind;
    }
    JoinedTone::Before
}

// Whether the font can't join LV and the T `v` behind it, nor, where T doesn't combine, part LV.
#[inline]
fn is_split<F: Font>(font: &F, s: u32, v: u32) -> bool {
    if !is_lv(s) || !is_t(v) {
        return false;
    }
    if is_combining_t(v) {
        return !font.has_glyph(compose_three(s, v));
    }
    !has_jamo_of(font, s)
}

// How many characters from `u` on are unsafe to break inside, `v` being the second.
#[inline]
fn unsafe_len<F: Font>(font: &F, unit: Unit, tone: JoinedTone, u: u32, v: u32) -> usize {
    if is_l(u) && is_v(v) {
        return unit.taken();
    }
    if unit.is_marked() && tone.len() == 1 {
        return unit.taken();
    }
    if is_split(font, u, v) {
        return 2;
    }
    0
}

// The item that begins the text. A character that jamo or a tone doesn't follow decides by itself.
fn read_item<F: Font>(font: &F, circles: bool, glyphs: &[GlyphInfo]) -> Item {
    let u = character_at(glyphs, 0);
    let v = character_at(glyphs, 1);
    if is_l(u) && is_v(v) {
        let unit = jamo_unit(font, u, v, character_at(glyphs, 2));
        let tone = joined_tone(font, unit, character_at(glyphs, unit.taken()));
        return Item {
            unit,
            tone,
            unsafe_len: unit.taken(),
        };
    }
    if !follows(v) {
        return Item {
            unit: lone_unit(font, circles, u),
            tone: JoinedTone::Absent,
            unsafe_len: 0,
        };
    }
    let unit = first_unit(font, circles, u, v, character_at(glyphs, 2));
    let tone = joined_tone(font, unit, character_at(glyphs, unit.taken()));
    Item {
        unit,
        tone,
        unsafe_len: unsafe_len(font, unit, tone, u, v),
    }
}

// Whether the character that begins the text stays as it is, as far as it and the next one decide.
#[inline]
pub(super) fn stays_alone<F: Font>(font: &F, circles: bool, glyphs: &[GlyphInfo]) -> bool {
    let u = character_at(glyphs, 0);
    let v = character_at(glyphs, 1);
    if is_combined_s(u) {
        return !follows(v) && font.has_glyph(u);
    }
    if is_hangul_tone(u) {
        // it takes nothing along, and stays where it gets no circle
        return !circles || !font.has_glyph(DOTTED_CIRCLE);
    }
    !follows(v)
}

// The item that begins the text, which stands within it.
#[inline]
pub(super) fn first_item<F: Font>(font: &F, circles: bool, glyphs: &[GlyphInfo]) -> Item {
    read_item(font, circles, glyphs)
}

impl JoinedTone {
    // How many characters it takes.
    #[inline]
    fn len(self) -> usize {
        match self {
            JoinedTone::Absent => 0,
            JoinedTone::Before | JoinedTone::Behind => 1,
        }
    }
}

impl Unit {
    // How many characters it takes.
    #[inline]
    fn taken(self) -> usize {
        match self {
            Unit::ComposedThree(_) | Unit::JamoThree => 3,
            Unit::ComposedTwo(_) | Unit::JamoTwo | Unit::PartsBeforeT(..) => 2,
            Unit::PartsTwo(..)
            | Unit::PartsThree(..)
            | Unit::Syllable
            | Unit::ToneCircle
            | Unit::CircleTone
            | Unit::Other => 1,
        }
    }

    // How many glyphs it becomes.
    #[inline]
    fn output_len(self) -> usize {
        match self {
            Unit::ComposedTwo(_) | Unit::ComposedThree(_) | Unit::Syllable | Unit::Other => 1,
            Unit::JamoTwo | Unit::PartsTwo(..) | Unit::ToneCircle | Unit::CircleTone => 2,
            Unit::JamoThree | Unit::PartsThree(..) | Unit::PartsBeforeT(..) => 3,
        }
    }

    // Whether it is a syllable.
    #[inline]
    fn is_syllable(self) -> bool {
        !matches!(self, Unit::ToneCircle | Unit::CircleTone | Unit::Other)
    }

    // Whether its glyphs are marked as jamo.
    #[inline]
    fn is_marked(self) -> bool {
        matches!(
            self,
            Unit::JamoTwo
                | Unit::JamoThree
                | Unit::PartsTwo(..)
                | Unit::PartsThree(..)
                | Unit::PartsBeforeT(..)
        )
    }
}

// The glyph as another character.
#[inline]
fn as_character(glyph: GlyphInfo, u: u32) -> GlyphInfo {
    GlyphInfo {
        glyph_id: u,
        ..glyph
    }
}

// The glyph marked as jamo.
#[inline]
fn as_jamo(glyph: GlyphInfo, feature: u8) -> GlyphInfo {
    GlyphInfo {
        auxiliary: feature,
        ..glyph
    }
}

// A copy of the glyph as another character, marked as jamo.
#[inline]
fn jamo_from(glyph: GlyphInfo, u: u32, feature: u8) -> GlyphInfo {
    as_jamo(as_character(glyph, u), feature)
}

// Adds a glyph to a list that has room for it.
#[inline]
fn push_within(list: &mut Vec<GlyphInfo>, glyph: GlyphInfo) {
    list.push(glyph).unwrap();
}

// Adds the glyph at place `i`.
#[inline]
fn put_from(glyphs: &[GlyphInfo], i: usize, list: &mut Vec<GlyphInfo>) {
    push_within(list, glyphs[i]);
}

impl Unit {
    // Adds what the unit that begins the text becomes.
    fn write(self, glyphs: &[GlyphInfo], list: &mut Vec<GlyphInfo>) {
        match self {
            Unit::ComposedTwo(s) | Unit::ComposedThree(s) => {
                push_within(list, as_character(glyphs[0], s));
            }
            Unit::JamoTwo => {
                push_within(list, as_jamo(glyphs[0], LJMO));
                push_within(list, as_jamo(glyphs[1], VJMO));
            }
            Unit::JamoThree => {
                push_within(list, as_jamo(glyphs[0], LJMO));
                push_within(list, as_jamo(glyphs[1], VJMO));
                push_within(list, as_jamo(glyphs[2], TJMO));
            }
            Unit::PartsTwo(l, v) => {
                push_within(list, jamo_from(glyphs[0], l, LJMO));
                push_within(list, jamo_from(glyphs[0], v, VJMO));
            }
            Unit::PartsThree(l, v, t) => {
                push_within(list, jamo_from(glyphs[0], l, LJMO));
                push_within(list, jamo_from(glyphs[0], v, VJMO));
                push_within(list, jamo_from(glyphs[0], t, TJMO));
            }
            Unit::PartsBeforeT(l, v) => {
                push_within(list, jamo_from(glyphs[0], l, LJMO));
                push_within(list, jamo_from(glyphs[0], v, VJMO));
                push_within(list, as_jamo(glyphs[1], TJMO));
            }
            Unit::ToneCircle => {
                push_within(list, glyphs[0]);
                push_within(list, as_character(glyphs[0], DOTTED_CIRCLE));
            }
            Unit::CircleTone => {
                push_within(list, as_character(glyphs[0], DOTTED_CIRCLE));
                push_within(list, glyphs[0]);
            }
            Unit::Syllable | Unit::Other => {
                push_within(list, glyphs[0]);
            }
        }
    }

    // Whether all that it takes merges at this level.
    #[inline]
    fn is_merged(self, level: BufferClusterLevel) -> bool {
        match level {
            BufferClusterLevel::MonotoneGraphemes => true,
            BufferClusterLevel::MonotoneCharacters => !self.is_marked(),
            BufferClusterLevel::Characters => false,
        }
    }
}

impl Item {
    // How many characters it takes.
    #[inline]
    pub(super) fn len(self) -> usize {
        self.unit.taken() + self.tone.len()
    }

    // How many glyphs it becomes.
    #[inline]
    pub(super) fn output_len(self) -> usize {
        self.unit.output_len() + self.tone.len()
    }

    // Whether it is one glyph that stays as it is.
    #[inline]
    pub(super) fn is_kept(self) -> bool {
        matches!(self.unit, Unit::Syllable | Unit::Other)
            && matches!(self.tone, JoinedTone::Absent)
            && self.unsafe_len == 0
    }

    // Flags what would be torn apart by a break in the item at `place`, and merges what it merges.
    #[inline]
    pub(super) fn join(self, level: BufferClusterLevel, glyphs: &mut [GlyphInfo], place: usize) {
        let taken = self.unit.taken();
        let end = place + taken;
        let merged = self.unit.is_merged(level);
        if !merged || self.unsafe_len > taken {
            unsafe_to_break_in(glyphs, place, place + self.unsafe_len);
        }
        if merged {
            merge_clusters_in(level, glyphs, place, end);
        }
        match self.tone {
            JoinedTone::Before => merge_clusters_in(level, glyphs, place, end + 1),
            JoinedTone::Absent | JoinedTone::Behind => {}
        }
    }

    // Adds what the item that begins the text becomes.
    #[inline]
    pub(super) fn write(self, glyphs: &[GlyphInfo], list: &mut Vec<GlyphInfo>) {
        let end = self.unit.taken();
        match self.tone {
            JoinedTone::Absent => self.unit.write(glyphs, list),
            JoinedTone::Before => {
                put_from(glyphs, end, list);
                self.unit.write(glyphs, list);
            }
            JoinedTone::Behind => {
                self.unit.write(glyphs, list);
                put_from(glyphs, end, list);
            }
        }
    }
}
