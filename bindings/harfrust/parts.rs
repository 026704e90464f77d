//! What HarfRust has otherwise than rustybuzz: its types, its font, its cluster levels, and that syllables are found here.

use core::cell::{Cell, RefCell, RefMut};

use sengadlit::font::{Wide, WideGlyphs};
use sengadlit::ot_shape_normalize::NormalizeFont;
use sengadlit::spans::setup_syllables_found;
use sengadlit::{Buffer, BufferClusterLevel, Font, Pause, Plan, Shaper, Tag};

use crate::hb::buffer::*;
use crate::hb::font_funcs::FontFuncsDispatch;
use crate::hb::ot_layout::LayoutTable;
use crate::hb::ot_layout_gsubgpos::WouldApplyContext;
use crate::hb::{hb_tag_t, script, Script};
use crate::{BufferFlags, GlyphId};

mod text;

pub use crate::hb::buffer::GlyphInfo as Info;
pub use crate::hb::unicode::Codepoint;
pub use text::{data_without_shaper, prepare};

// ---- Fonts ----

pub type FontRef<'f, 'a, 'u> = &'f mut FontFuncsDispatch<'a, 'u>;

pub fn font<'f, 'a, 'u>(font: FontRef<'f, 'a, 'u>) -> Wide<FontRef<'f, 'a, 'u>> {
    Wide::new(font)
}

impl WideGlyphs for FontFuncsDispatch<'_, '_> {
    fn nominal_glyph(&mut self, c: u32) -> Option<u32> {
        FontFuncsDispatch::nominal_glyph(self, c).map(GlyphId::to_u32)
    }

    fn has_glyph(&mut self, c: u32) -> bool {
        FontFuncsDispatch::has_glyph(self, c)
    }

    fn glyph_h_advance(&mut self, glyph: u32) -> i32 {
        self.advance_width(GlyphId::new(glyph))
    }

    fn would_apply(&mut self, lookup: u16, glyphs: &[u32], zero_context: bool) -> bool {
        self.would_apply_any(&[lookup], glyphs, zero_context)
    }

    fn would_apply_any(&mut self, lookups: &[u16], glyphs: &[u32], zero_context: bool) -> bool {
        let font = self.font();
        let Some(gsub) = font.ot_tables.gsub.as_ref() else {
            return false;
        };
        let context = WouldApplyContext { glyphs: bytemuck::cast_slice(glyphs), zero_context };
        lookups
            .iter()
            .filter_map(|lookup| gsub.get_lookup(*lookup))
            .any(|lookup| lookup.would_apply(font, &context) == Some(true))
    }

    // (`shape` takes the text by value, so that no caller sees what a panic leaves of it)
    fn may_panic(&self) -> bool {
        false
    }
}

/// The number that stands for each that doesn't fit 16 bits, until a text is normalized.
const BEYOND: u16 = 0xFFFF;

/// A glyph whose number is below that.
pub fn narrow(number: u32) -> Option<sengadlit::GlyphId> {
    u16::try_from(number).ok().filter(|number| *number != BEYOND).map(sengadlit::GlyphId)
}

/// The host's font, of which normalization asks glyphs alone. A variant whose number doesn't fit 16 bits is none.
pub struct Numbers<'f, 'a, 'u> {
    font: RefCell<FontRef<'f, 'a, 'u>>,
    has_beyond: Cell<bool>,
    /// Some of the characters that the font was asked for, each with its glyph's number: most are asked for more than once.
    found: [Cell<[u32; 2]>; 64],
}

impl<'f, 'a, 'u> Numbers<'f, 'a, 'u> {
    pub fn of(font: FontRef<'f, 'a, 'u>) -> Self {
        // (no character has the number of an empty place)
        const EMPTY: Cell<[u32; 2]> = Cell::new([u32::MAX; 2]);
        Numbers { font: RefCell::new(font), has_beyond: Cell::new(false), found: [EMPTY; 64] }
    }

    /// The font itself.
    pub fn host(&self) -> RefMut<'_, FontFuncsDispatch<'a, 'u>> {
        RefMut::map(self.font.borrow_mut(), |font| &mut **font)
    }

    /// The number of a character's glyph.
    #[inline(always)]
    fn find(&self, c: u32) -> Option<u32> {
        match self.found[place_of(c)].get() {
            [of, number] if of == c => Some(number),
            _ => self.ask(c),
        }
    }

    /// The same by the font itself, which is asked again for what it lacks.
    #[inline(never)]
    fn ask(&self, c: u32) -> Option<u32> {
        let number = self.host().nominal_glyph(c)?.to_u32();
        self.found[place_of(c)].set([c, number]);
        Some(number)
    }

    /// Whether normalization was given a number that stands for another.
    pub fn has_beyond(&self) -> bool {
        self.has_beyond.get()
    }

    /// The number of a character's glyph, where normalization wrote this one. A space or a hyphen that the font lacks is drawn
    /// as the common one.
    pub fn whole(&self, c: u32, number: u16) -> u32 {
        if number != BEYOND {
            return number.into();
        }
        let drawn = if c == 0x2011 { 0x2010 } else { 0x20 };
        self.find(c).or_else(|| self.find(drawn)).unwrap_or(0)
    }
}

/// The place of a character among 64. (Syllables of Hangul have numbers that are alike in their last bits.)
#[inline(always)]
const fn place_of(c: u32) -> usize {
    (c.wrapping_mul(0x9E37_79B1) >> 26) as usize
}

impl Font for Numbers<'_, '_, '_> {
    #[inline]
    fn nominal_glyph(&self, c: u32) -> Option<sengadlit::GlyphId> {
        let number = self.find(c)?;
        Some(narrow(number).unwrap_or_else(|| {
            self.has_beyond.set(true);
            sengadlit::GlyphId(BEYOND)
        }))
    }

    #[inline]
    fn has_glyph(&self, c: u32) -> bool {
        self.find(c).is_some()
    }

    fn glyph_h_advance(&self, _: sengadlit::GlyphId) -> i32 {
        0
    }

    fn would_apply(&self, _: u16, _: &[sengadlit::GlyphId], _: bool) -> bool {
        false
    }

    fn has_feature(&self, _: Tag) -> bool {
        false
    }
}

impl NormalizeFont for Numbers<'_, '_, '_> {
    fn variation_glyph(&self, c: u32, selector: u32) -> Option<sengadlit::GlyphId> {
        narrow(self.host().variant_glyph(c, selector)?.to_u32())
    }
}

// ---- Tables ----

/// Unicode's tables.
pub use sengadlit::unicode::UnicodeTables as Ucd;

/// What is no character has no parts and is part of none.
pub fn character(c: Codepoint) -> Option<char> {
    char::from_u32(c)
}

pub fn codepoint(c: char) -> Codepoint {
    c.into()
}

pub use sengadlit::buffer::context_characters as context;

// ---- Glyphs ----

pub fn combining_class(info: &Info) -> u8 {
    info.modified_combining_class()
}

pub fn is_substituted(info: &Info) -> bool {
    info.substituted()
}

pub fn clear_substituted(info: &mut Info) {
    info.clear_substituted();
}

/// Lookups with a cache take the syllable bytes where these are free.
pub fn reserve_syllables(pause: Pause, buffer: &mut hb_buffer_t) {
    match pause {
        Pause::SetupSyllablesIndic
        | Pause::SetupSyllablesKhmer
        | Pause::SetupSyllablesMyanmar
        | Pause::SetupSyllablesUse => buffer.allocate_var(Info::SYLLABLE_VAR),
        Pause::SyllabicClearVar => buffer.deallocate_var(Info::SYLLABLE_VAR),
        _ => {}
    }
}

// ---- Syllables ----

/// No machine of the host's is needed.
pub fn find_syllables(_: Pause, _: &mut hb_buffer_t) {}

/// Finds the syllables of a text and sets them up. Returns whether the pause does so.
pub fn setup(pause: Pause, plan: &Plan, text: &mut Buffer) -> bool {
    setup_syllables_found(pause, plan, text)
}

/// Vowels are parted before (`text.rs`); in the shadow, where this is called, as the host does.
pub fn circle_vowels(_buffer: &mut hb_buffer_t) {
    #[cfg(feature = "shadow")]
    crate::hb::ot_shaper_vowel_constraints::preprocess_text_vowel_constraints(_buffer);
}

// ---- Settings ----

pub fn tag_of(tag: hb_tag_t) -> Tag {
    Tag(tag.to_be_bytes())
}

pub const fn hb_tag(tag: Tag) -> hb_tag_t {
    hb_tag_t::new(&tag.0)
}

pub fn flag_bits(flags: BufferFlags) -> u32 {
    flags.bits()
}

/// Nothing is noted of masks.
pub fn note_masks(_: &mut hb_buffer_t) {}

/// Hangul's marks are placed by their classes; HarfBuzz and rustybuzz don't place them.
pub const fn places_marks(shaper: Shaper) -> bool {
    matches!(shaper, Shaper::Hangul)
}

/// Level Graphemes is newer than the hooks: Thai and Hangul merge at it as at MonotoneGraphemes, and the other shapers
/// don't merge. At level MonotoneCharacters Hangul doesn't merge.
pub fn cluster_level(level: hb_buffer_cluster_level_t, script: Option<Script>) -> BufferClusterLevel {
    let is_hangul = script == Some(script::HANGUL);
    let is_thai = matches!(script, Some(script::THAI | script::LAO));
    match level {
        HB_BUFFER_CLUSTER_LEVEL_CHARACTERS => BufferClusterLevel::Characters,
        HB_BUFFER_CLUSTER_LEVEL_MONOTONE_CHARACTERS if is_hangul => BufferClusterLevel::Characters,
        HB_BUFFER_CLUSTER_LEVEL_MONOTONE_CHARACTERS => BufferClusterLevel::MonotoneCharacters,
        HB_BUFFER_CLUSTER_LEVEL_GRAPHEMES if !is_hangul && !is_thai => BufferClusterLevel::Characters,
        _ => BufferClusterLevel::MonotoneGraphemes,
    }
}

/// The level at which a text's graphemes form its clusters.
pub fn grapheme_level(level: hb_buffer_cluster_level_t) -> BufferClusterLevel {
    match level {
        HB_BUFFER_CLUSTER_LEVEL_GRAPHEMES => BufferClusterLevel::MonotoneGraphemes,
        _ => cluster_level(level, None),
    }
}

// ---- The shadow ----

/// The host's own pauses, by number.
#[cfg(feature = "shadow")]
pub const STOCK_PAUSES: [crate::hb::ot_map::pause_func_t; 15] = [
    crate::hb::ot_shaper_indic::setup_syllables,
    crate::hb::ot_shaper_khmer::setup_syllables,
    crate::hb::ot_shaper_myanmar::setup_syllables,
    crate::hb::ot_shaper_use::setup_syllables,
    crate::hb::ot_shaper_indic::initial_reordering,
    crate::hb::ot_shaper_khmer::reorder_khmer,
    crate::hb::ot_shaper_myanmar::reorder_myanmar,
    crate::hb::ot_shaper_use::reorder_use,
    crate::hb::ot_shaper_indic::final_reordering,
    crate::hb::ot_shaper_arabic::record_stch,
    crate::hb::ot_shaper_use::record_rphf,
    crate::hb::ot_shaper_use::record_pref,
    crate::hb::ot_shaper_syllabic::syllabic_clear_var,
    crate::hb::ot_layout::_hb_clear_substitution_flags,
    crate::hb::ot_shaper_arabic::arabic_fallback_shape,
];

#[cfg(feature = "shadow")]
pub fn var_bits(buffer: &hb_buffer_t) -> u8 {
    buffer.allocated_var_bits
}

#[cfg(feature = "shadow")]
pub fn set_var_bits(bits: u8, buffer: &mut hb_buffer_t) {
    buffer.allocated_var_bits = bits;
}
