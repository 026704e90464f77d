//! The pipeline's steps one by one: what `prepare_text` does to a text, and the pauses that
//! `run_stages` runs in a font without lookups.

use super::fractions::set_fractions;
use super::subjects::{Subject, subject_of};
use super::{Shaper, ShaperError};
use crate::way::Way;
use crate::whole_font::WholeFont;
use crate::word::{PREPROCESS, name_of_pause};
use sengadlit::ot_shape_normalize::ot_shape_normalize;
use sengadlit::ot_shape_prepare::{
    BEGINNING_OF_TEXT, CharRotation, ensure_native_direction, flag_zwnj_graphemes, form_clusters,
    insert_dotted_circle, preprocess_text_vowel_constraints, rotate_chars, set_unicode_properties,
};
use sengadlit::plan::BreakFlags;
use sengadlit::shaper::Hook;
use sengadlit::unicode::UnicodeTables;
use sengadlit::{Buffer, GlyphProps, Pause};

/// A step of the pipeline.
#[derive(Clone, Copy, Debug, PartialEq, Eq)]
pub(super) enum Call {
    GlobalMask,
    Properties,
    FirstCircle,
    Graphemes,
    Direction,
    Vowels,
    Joiners,
    Preprocessing,
    Rotation,
    Normalization,
    Fractions,
    Masks,
    Glyphs,
    Pause(Pause),
}

/// The steps of a text that goes this way, in order; the circle in front is for the beginning of one,
/// and the flags of joiners are for the choice `Sound`.
pub(super) fn calls_of(way: &Way, shaper: Shaper, is_beginning: bool) -> Vec<Call> {
    let mut calls = vec![Call::GlobalMask, Call::Properties];
    calls.extend(is_beginning.then_some(Call::FirstCircle));
    calls.extend([Call::Graphemes, Call::Direction]);
    match shaper {
        Shaper::Indic => {
            let is_sound = way.plan.plan().break_flags == BreakFlags::Sound;
            calls.push(Call::Vowels);
            calls.extend(is_sound.then_some(Call::Joiners));
        }
        Shaper::Universal => calls.push(Call::Vowels),
        _ if shaper.has_hook(Hook::PreprocessText) => calls.push(Call::Preprocessing),
        _ => {}
    }
    calls.extend([Call::Rotation, Call::Normalization, Call::Fractions]);
    calls.extend(shaper.has_hook(Hook::SetupMasks).then_some(Call::Masks));
    calls.push(Call::Glyphs);
    calls.extend(way.pauses().map(Call::Pause));
    calls
}

impl Call {
    /// What the crate calls it, and a pause as a line does.
    pub(super) fn name(self) -> String {
        match self {
            Call::GlobalMask => "initialize_masks".into(),
            Call::Properties => "set_unicode_properties".into(),
            Call::FirstCircle => "insert_dotted_circle".into(),
            Call::Graphemes => "form_clusters".into(),
            Call::Direction => "ensure_native_direction".into(),
            Call::Vowels => "preprocess_text_vowel_constraints".into(),
            Call::Joiners => "flag_zwnj_graphemes".into(),
            Call::Preprocessing => "preprocess_text".into(),
            Call::Rotation => "rotate_chars".into(),
            Call::Normalization => "ot_shape_normalize".into(),
            Call::Fractions => "set_fractions".into(),
            Call::Masks => "setup_masks".into(),
            Call::Glyphs => "map_glyphs".into(),
            Call::Pause(pause) => format!("run pause {}", name_of_pause(pause)),
        }
    }

    /// Where bindings/page/definitions.md defines it for a shaper.
    pub(super) fn subject(self, shaper: Option<Shaper>) -> Option<Subject> {
        match self {
            Call::GlobalMask | Call::Glyphs => Some(("shapers_pipeline", "Masks")),
            Call::Properties => Some(("shapers_prepare", "GlyphProperties")),
            Call::FirstCircle => Some(("shapers_prepare", "FirstCircle")),
            Call::Graphemes => Some(("shapers_prepare", "Graphemes")),
            Call::Direction => Some(("shapers_prepare", "NativeDirection")),
            Call::Vowels => Some(("shapers_prepare", "Vowels")),
            Call::Joiners => Some(("shapers_prepare", "JoinerFlags")),
            Call::Preprocessing => subject_of(PREPROCESS, shaper?),
            Call::Rotation => Some(("shapers_prepare", "Rotation")),
            Call::Normalization => Some(("shapers_normal", "Normalization")),
            Call::Fractions => Some(("shapers_pipeline", "Fractions")),
            Call::Masks => subject_of("run masks", shaper?),
            Call::Pause(_) => subject_of(&self.name(), shaper?),
        }
    }

    /// Whether it leaves characters as glyphs with the numbers of their glyphs beside them, where the
    /// marks of lookups stand later.
    pub(super) fn leaves_numbers(self) -> bool {
        matches!(self, Call::Normalization | Call::Fractions | Call::Masks)
    }

    /// Makes the call, on a buffer without positions. Glyphs are shown as characters: behind a call
    /// that makes or takes glyphs each has the number of its character again.
    pub(super) fn run(self, way: &Way, buffer: &mut Buffer) -> Result<(), ShaperError> {
        let (plan, font) = (way.plan.plan(), &way.font);
        match self {
            Call::GlobalMask => initialize_masks(plan.ot_map.global_bits(), buffer),
            Call::Properties => set_unicode_properties(&UnicodeTables, buffer),
            Call::FirstCircle => insert_first_circle(font, buffer)?,
            Call::Graphemes => form_clusters(buffer),
            Call::Direction => ensure_native_direction(buffer),
            Call::Vowels => preprocess_text_vowel_constraints(buffer)?,
            Call::Joiners => flag_zwnj_graphemes(plan.break_flags, buffer),
            Call::Preprocessing => {
                if let Some(shaper) = way.plan.shaper() {
                    shaper.preprocess_text(plan, font, buffer)?;
                }
            }
            Call::Rotation => rotate_chars(&UnicodeTables, font, &rotation_of(way), buffer),
            Call::Normalization => {
                let shaper = way.plan.shaper();
                ot_shape_normalize(shaper, plan, font, &UnicodeTables, &way.settings, buffer)?;
            }
            Call::Fractions => set_fractions(way.plan.masks(), buffer),
            Call::Masks => {
                if let Some(shaper) = way.plan.shaper() {
                    // (a shaper that has no masks of its own leaves the glyphs as they are)
                    let _ = shaper.setup_masks(plan, font, &UnicodeTables, buffer);
                }
            }
            Call::Glyphs => font.to_characters(buffer, map_glyphs),
            Call::Pause(pause) => way.pause(pause, buffer)?,
        }
        Ok(())
    }
}

// Gives each glyph the features of the whole text alone.
fn initialize_masks(mask: u32, buffer: &mut Buffer) {
    buffer.with_glyphs_mut(|glyphs| {
        for glyph in glyphs {
            glyph.mask = mask;
        }
    });
}

// Lines can't set the flag of a beginning, so it is set for the call alone.
fn insert_first_circle(font: &WholeFont, buffer: &mut Buffer) -> Result<(), ShaperError> {
    let flags = buffer.flags();
    buffer.set_flags(flags | BEGINNING_OF_TEXT);
    let inserted = insert_dotted_circle(&UnicodeTables, font, buffer);
    buffer.set_flags(flags);
    inserted
}

// What characters are rotated by: the direction that is wanted, which may not be the text's own.
fn rotation_of(way: &Way) -> CharRotation {
    let masks = way.plan.masks();
    CharRotation {
        direction: way.direction,
        rtlm_mask: masks.rtlm,
        has_vert: masks.vert != 0,
    }
}

// Each character becomes the glyph that normalization found for it.
fn map_glyphs(buffer: &mut Buffer) {
    buffer.with_glyphs_mut(|glyphs| {
        for glyph in glyphs {
            glyph.glyph_id = glyph.glyph_props.0.into();
            glyph.glyph_props = GlyphProps::NONE;
        }
    });
}
