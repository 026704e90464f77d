//! What rustybuzz has otherwise than HarfRust: its types, its font, its tables, its cluster levels.

use core::ops::Deref;

use sengadlit::font::{Glyphs, GlyphsOnly};
use sengadlit::ot_shaper_syllabic::use_syllable;
use sengadlit::spans::setup_syllables_written;
use sengadlit::{
    Buffer, BufferClusterLevel, GeneralCategory, GlyphId, JoiningType, Pause, Plan, Shaper, Tables, Tag,
};

use crate::hb::buffer::*;
use crate::hb::face::hb_font_t;
use crate::hb::ot_layout::*;
use crate::hb::ot_layout_gsubgpos::{WouldApply, WouldApplyContext};
use crate::hb::unicode::{CharExt, GeneralCategoryExt};
use crate::hb::{hb_tag_t, Script};
use crate::BufferFlags;

pub use crate::hb::buffer::hb_glyph_info_t as Info;

pub type Codepoint = char;

// ---- Fonts ----

pub type FontRef<'f, 'a> = &'f hb_font_t<'a>;

pub fn font<'f, 'a>(font: FontRef<'f, 'a>) -> GlyphsOnly<FontRef<'f, 'a>> {
    GlyphsOnly(font)
}

impl Glyphs for hb_font_t<'_> {
    fn nominal_glyph(&self, c: u32) -> Option<GlyphId> {
        hb_font_t::get_nominal_glyph(self, c).map(|glyph| GlyphId(glyph.0))
    }

    fn has_glyph(&self, c: u32) -> bool {
        hb_font_t::has_glyph(self, c)
    }

    fn glyph_h_advance(&self, glyph: GlyphId) -> i32 {
        hb_font_t::glyph_h_advance(self, ttf_parser::GlyphId(glyph.0))
    }

    fn would_apply(&self, lookup: u16, glyphs: &[GlyphId], zero_context: bool) -> bool {
        self.would_apply_any(&[lookup], glyphs, zero_context)
    }

    // (of the features that Indic asks for, a font has no lookups of most)
    #[inline]
    fn would_apply_any(&self, lookups: &[u16], glyphs: &[GlyphId], zero_context: bool) -> bool {
        !lookups.is_empty() && any_would_apply(self, lookups, glyphs, zero_context)
    }

    // (`shape` takes the text by value, so that no caller sees what a panic leaves of it)
    fn may_panic(&self) -> bool {
        false
    }
}

fn any_would_apply(font: &hb_font_t, lookups: &[u16], glyphs: &[GlyphId], zero_context: bool) -> bool {
    if let [a, b] = *glyphs {
        let two = [ttf_parser::GlyphId(a.0), ttf_parser::GlyphId(b.0)];
        return any_applies(font, lookups, &two, zero_context);
    }
    let mut room = [ttf_parser::GlyphId(0); 8];
    any_applies(font, lookups, glyphs_in(&mut room, glyphs), zero_context)
}

#[inline]
fn any_applies(font: &hb_font_t, lookups: &[u16], glyphs: &[ttf_parser::GlyphId], zero_context: bool) -> bool {
    let Some(gsub) = font.gsub.as_ref() else {
        return false;
    };
    let context = WouldApplyContext { glyphs, zero_context };
    lookups.iter().filter_map(|lookup| gsub.get_lookup(*lookup)).any(|lookup| lookup.would_apply(&context))
}

/// These as rustybuzz's glyphs: hooks query two or three.
fn glyphs_in<'a>(room: &'a mut [ttf_parser::GlyphId; 8], glyphs: &[GlyphId]) -> &'a [ttf_parser::GlyphId] {
    for (to, from) in room.iter_mut().zip(glyphs) {
        to.0 = from.0;
    }
    &room[..glyphs.len()]
}

// ---- Tables ----

/// rustybuzz's tables of Unicode.
pub struct Ucd;

impl Tables for Ucd {
    fn joining_type(&self, c: char) -> JoiningType {
        use crate::hb::ot_shaper_arabic::hb_arabic_joining_type_t as Theirs;
        match crate::hb::ot_shaper_arabic_table::joining_type(c) {
            Theirs::U => JoiningType::U,
            Theirs::L => JoiningType::L,
            Theirs::R => JoiningType::R,
            Theirs::D => JoiningType::D,
            Theirs::GroupAlaph => JoiningType::GroupAlaph,
            Theirs::GroupDalathRish => JoiningType::GroupDalathRish,
            Theirs::T => JoiningType::T,
            Theirs::X => JoiningType::X,
        }
    }

    fn general_category(&self, c: char) -> GeneralCategory {
        GeneralCategory::from_number(c.general_category().to_rb() as u8).unwrap_or(GeneralCategory::Cn)
    }

    fn indic_categories(&self, c: u32) -> (u8, u8) {
        crate::hb::ot_shaper_indic_table::get_categories(c)
    }

    fn use_category(&self, c: u32) -> u8 {
        crate::hb::ot_shaper_use_table::hb_use_get_category(c)
    }

    fn compose(&self, a: char, b: char) -> Option<char> {
        crate::hb::unicode::compose(a, b)
    }

    fn decompose(&self, ab: char) -> Option<(char, char)> {
        crate::hb::unicode::decompose(ab)
    }
}

pub fn character(c: Codepoint) -> Option<char> {
    Some(c)
}

pub fn codepoint(c: char) -> Codepoint {
    c
}

pub fn context(characters: &[char]) -> impl Deref<Target = [char]> + '_ {
    characters
}

// ---- Glyphs ----

pub fn combining_class(info: &Info) -> u8 {
    _hb_glyph_info_get_modified_combining_class(info)
}

pub fn is_substituted(info: &Info) -> bool {
    _hb_glyph_info_substituted(info)
}

pub fn clear_substituted(info: &mut Info) {
    _hb_glyph_info_clear_substituted(info);
}

/// No bytes are reserved here.
pub fn reserve_syllables(_: Pause, _: &mut hb_buffer_t) {}

// ---- Syllables ----

/// Lets the host's machine find the syllables of a text that is to be set up. The universal machine's kinds are one more than
/// those of the hooks; what it passes over at the front has no byte, and stays in its order.
pub fn find_syllables(pause: Pause, buffer: &mut hb_buffer_t) {
    let find: fn(&mut hb_buffer_t) = match pause {
        Pause::SetupSyllablesIndic => crate::hb::ot_shaper_indic_machine::find_syllables_indic,
        Pause::SetupSyllablesKhmer => crate::hb::ot_shaper_khmer_machine::find_syllables_khmer,
        Pause::SetupSyllablesMyanmar => crate::hb::ot_shaper_myanmar_machine::find_syllables_myanmar,
        Pause::SetupSyllablesUse => crate::hb::ot_shaper_use_machine::find_syllables,
        _ => return,
    };
    find(buffer);
    if pause == Pause::SetupSyllablesUse {
        for info in &mut buffer.info[..buffer.len] {
            let byte = info.syllable().checked_sub(1);
            info.set_syllable(byte.unwrap_or(use_syllable::NUMERAL_CLUSTER));
        }
    }
}

/// Sets the syllables up that the machine has found. Returns whether the pause does so.
pub fn setup(pause: Pause, plan: &Plan, text: &mut Buffer) -> bool {
    setup_syllables_written(pause, plan, text)
}

/// The vowel constraints of Indic and the universal shaper.
pub fn circle_vowels(buffer: &mut hb_buffer_t) {
    crate::hb::ot_shaper_vowel_constraints::preprocess_text_vowel_constraints(buffer);
}

// ---- Settings ----

pub fn tag_of(tag: hb_tag_t) -> Tag {
    Tag(tag.to_bytes())
}

pub const fn hb_tag(tag: Tag) -> hb_tag_t {
    hb_tag_t::from_bytes(&tag.0)
}

/// One bit stands for the flags of concatenation and of tatweel.
pub fn flag_bits(flags: BufferFlags) -> u32 {
    (flags.bits() & 0x7F) | (flags & BufferFlags::PRODUCE_UNSAFE_TO_CONCAT).bits() << 1
}

/// Masks with glyph flags are noted.
pub fn note_masks(buffer: &mut hb_buffer_t) {
    if buffer.scratch_flags & HB_BUFFER_SCRATCH_FLAG_HAS_GLYPH_FLAGS == 0 {
        let masks = buffer.info.iter().fold(0, |all, info| all | info.mask);
        if masks & glyph_flag::DEFINED != 0 {
            buffer.scratch_flags |= HB_BUFFER_SCRATCH_FLAG_HAS_GLYPH_FLAGS;
        }
    }
}

/// No marks are placed by their classes but those that the hooks name.
pub const fn places_marks(_: Shaper) -> bool {
    false
}

pub fn cluster_level(level: hb_buffer_cluster_level_t, _: Option<Script>) -> BufferClusterLevel {
    match level {
        HB_BUFFER_CLUSTER_LEVEL_MONOTONE_CHARACTERS => BufferClusterLevel::MonotoneCharacters,
        HB_BUFFER_CLUSTER_LEVEL_CHARACTERS => BufferClusterLevel::Characters,
        _ => BufferClusterLevel::MonotoneGraphemes,
    }
}

// ---- Names of the nine files that tables and machines use ----

#[cfg(not(feature = "shadow"))]
pub mod names {
    pub mod ot_shaper_arabic {
        pub use sengadlit::JoiningType as hb_arabic_joining_type_t;
    }

    pub mod ot_shaper_indic {
        pub use sengadlit::plan::{ot_category_t, ot_position_t};
    }

    pub mod ot_shaper_use {
        pub use sengadlit::ot_shaper_use::category;
    }

    impl super::Info {
        pub(crate) fn indic_category(&self) -> u8 {
            self.ot_shaper_var_u8_category()
        }

        pub(crate) fn khmer_category(&self) -> u8 {
            self.ot_shaper_var_u8_category()
        }

        pub(crate) fn myanmar_category(&self) -> u8 {
            self.ot_shaper_var_u8_category()
        }

        pub(crate) fn use_category(&self) -> u8 {
            self.ot_shaper_var_u8_category()
        }
    }
}

// ---- The shadow ----

/// The host's own pauses, by number.
#[cfg(feature = "shadow")]
pub const STOCK_PAUSES: [crate::hb::ot_map::pause_func_t; 15] = [
    crate::hb::ot_shaper_indic::setup_syllables,
    crate::hb::ot_shaper_khmer::setup_syllables,
    crate::hb::ot_shaper_myanmar::setup_syllables,
    crate::hb::ot_shaper_use::setup_syllables,
    crate::hb::ot_shaper_indic::initial_reordering,
    crate::hb::ot_shaper_khmer::reorder_khmer,
    crate::hb::ot_shaper_myanmar::reorder_myanmar,
    crate::hb::ot_shaper_use::reorder_use,
    crate::hb::ot_shaper_indic::final_reordering,
    crate::hb::ot_shaper_arabic::record_stch,
    crate::hb::ot_shaper_use::record_rphf,
    crate::hb::ot_shaper_use::record_pref,
    crate::hb::ot_shape::syllabic_clear_var,
    crate::hb::ot_layout::_hb_clear_substitution_flags,
    crate::hb::ot_shaper_arabic::arabic_fallback_shape,
];

#[cfg(feature = "shadow")]
pub fn var_bits(_: &hb_buffer_t) -> u8 {
    0
}

#[cfg(feature = "shadow")]
pub fn set_var_bits(_: u8, _: &mut hb_buffer_t) {}
