// Generated from crates/shapers_arabic/src/ot_shaper_arabic/breaks.rt by rust/erase; edit the source.

//! The flags that the choice `Sound` adds: where the pieces of a broken text would lose a form.

use super::arabic_action_t::{FIN2, FIN3, FINA, MED2, MEDI, NONE};
use super::masks::{form_behind, is_mongolian};
use crate::generated::shapers_base::buffer::{GlyphInfo, Script, unsafe_to_break_in};
use crate::generated::shapers_base::plan::BreakFlags;

// Whether an Alaph takes this form from a letter that doesn't join on.
#[inline]
fn is_second_or_third(form: u8) -> bool {
    matches!(form, FIN2 | FIN3)
}

// Whether a letter takes this form from what stands before it.
#[inline]
fn is_taken(form: u8) -> bool {
    matches!(form, FINA | FIN2 | FIN3 | MEDI | MED2)
}

// Flags a letter in its final form, which ends before `end`: from the last place with a form on, or
// from the text's start on.
#[inline]
fn flag_form(glyphs: &mut [GlyphInfo], last: Option<usize>, end: usize, form: u8) {
    match last {
        None => {
            if is_taken(form) {
                unsafe_to_break_in(glyphs, 0, end);
            }
        }
        Some(last) => {
            if is_second_or_third(form) {
                unsafe_to_break_in(glyphs, last, end);
            }
        }
    }
}

// Flags each letter whose final form is FIN2 or FIN3 with the letter before it, and the first one
// where it took its form from the context.
#[inline]
fn flag_forms(glyphs: &mut [GlyphInfo]) {
    let mut last = None;
    for i in 0..glyphs.len() {
        let form = glyphs[i].auxiliary;
        if form != NONE {
            flag_form(glyphs, last, i + 1, form);
            last = Some(i);
        }
    }
}

// Flags each selector whose copied form isn't its own with the glyph before it.
#[inline]
fn flag_selectors(glyphs: &mut [GlyphInfo]) {
    let mut previous = None;
    for i in 0..glyphs.len() {
        let form = form_behind(previous, &glyphs[i]);
        if form != glyphs[i].auxiliary {
            unsafe_to_break_in(glyphs, i - 1, i + 1);
        }
        previous = Some(form);
    }
}

// Flags what Sound adds: selectors with the script Mongolian alone.
#[inline]
fn flag_sound(script: Option<Script>, glyphs: &mut [GlyphInfo]) {
    flag_forms(glyphs);
    if is_mongolian(script) {
        flag_selectors(glyphs);
    }
}

// Flags what the choice adds, in glyphs with their forms by the joining rule.
#[inline]
pub(super) fn flag_breaks(breaks: BreakFlags, script: Option<Script>, glyphs: &mut [GlyphInfo]) {
    match breaks {
        BreakFlags::AsCode => {}
        BreakFlags::Sound => flag_sound(script, glyphs),
    }
}
