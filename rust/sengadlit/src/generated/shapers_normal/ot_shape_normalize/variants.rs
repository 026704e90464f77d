// Generated from crates/shapers_normal/src/ot_shape_normalize/variants.rt by rust/erase; edit the source.

//! Variation selectors: a character and a selector become one glyph, if the font has it.

use crate::support::prelude::*;

use super::context::NormalizeContext;
use super::decomposing::{push_within, rest_from};
use super::sorting::{is_mark, join_in};
use crate::generated::shapers_base::buffer::{
    BufferClusterLevel, GeneralCategory, GlyphInfo, GlyphProps,
};

// What the byte of a mark's class holds of a selector that selects nothing, by HarfBuzz's number.
const SELECTOR: u8 = 4;

// Whether a character selects a form of the one before it.
#[inline]
fn selects_form(c: u32) -> bool {
    matches!(c, 0xFE00..=0xFE0F | 0xE0100..=0xE01EF)
}

// Whether a glyph is a selector.
#[inline]
pub(super) fn is_selector(glyph: &GlyphInfo) -> bool {
    selects_form(glyph.glyph_id)
}

// Whether one of these glyphs is a selector.
#[inline]
pub(super) fn has_selector(glyphs: &[GlyphInfo]) -> bool {
    glyphs.iter().any(is_selector)
}

// Whether a cluster is kept as it is: one of its glyphs is a selector, and it has others.
#[inline]
pub(super) fn is_kept(cluster: &[GlyphInfo]) -> bool {
    cluster.len() != 1 && has_selector(cluster)
}

// Brings each character and its selector that one glyph stands for into one cluster.
pub(super) fn join_variants<C: NormalizeContext>(
    context: &C,
    level: BufferClusterLevel,
    glyphs: &mut [GlyphInfo],
) {
    for i in 0..glyphs.len().saturating_sub(1) {
        join_variant(context, level, glyphs, i);
    }
}

// Brings the character at `i` and the selector behind it into one cluster, if one glyph stands for
// both.
#[inline]
fn join_variant<C: NormalizeContext>(
    context: &C,
    level: BufferClusterLevel,
    glyphs: &mut [GlyphInfo],
    i: usize,
) {
    if has_variant_at(context, glyphs, i) {
        join_in(level, glyphs, i, i + 2);
    }
}

// Whether one glyph stands for the character at `i` and the selector behind it.
#[inline]
fn has_variant_at<C: NormalizeContext>(context: &C, glyphs: &[GlyphInfo], i: usize) -> bool {
    let selector = &glyphs[i + 1];
    is_mark(selector)
        && is_selector(selector)
        && !is_selector_behind(glyphs, i)
        && context
            .variation_glyph(glyphs[i].glyph_id, selector.glyph_id)
            .is_some()
}

// Whether the glyph at `i` is a selector that follows a glyph.
#[inline]
fn is_selector_behind(glyphs: &[GlyphInfo], i: usize) -> bool {
    i > 0 && is_mark(&glyphs[i]) && is_selector(&glyphs[i])
}

// How much of the room is left behind a cluster that is kept, if there is enough.
pub(super) fn room_behind_forms<C: NormalizeContext>(
    context: &C,
    cluster: &[GlyphInfo],
    room: usize,
) -> Option<usize> {
    let mut left = room;
    let mut start = 0;
    while start < cluster.len() {
        let end = start + form_len(rest_from(cluster, start));
        let len = len_of_form(context, &cluster[start..end]);
        if left < len {
            return None;
        }
        left -= len;
        start = end;
    }
    Some(left)
}

// Adds a cluster that is kept.
pub(super) fn write_forms<C: NormalizeContext>(
    context: &C,
    cluster: &[GlyphInfo],
    to: &mut Vec<GlyphInfo>,
) {
    let mut start = 0;
    while start < cluster.len() {
        let end = start + form_len(rest_from(cluster, start));
        write_form(context, &cluster[start..end], to);
        start = end;
    }
}

// How many glyphs stand in front that are a character and the selectors behind it.
#[inline]
fn form_len(glyphs: &[GlyphInfo]) -> usize {
    1 + count_selectors(&glyphs[1..])
}

// How many selectors begin the list.
#[inline]
fn count_selectors(glyphs: &[GlyphInfo]) -> usize {
    glyphs.iter().take_while(|glyph| is_selector(glyph)).count()
}

// How many glyphs a character and its selectors become.
#[inline]
fn len_of_form<C: NormalizeContext>(context: &C, form: &[GlyphInfo]) -> usize {
    let [glyph, selector, ..] = form else {
        return form.len();
    };
    match context.variation_glyph(glyph.glyph_id, selector.glyph_id) {
        Some(_) => form.len() - 1,
        None => form.len(),
    }
}

// Adds what a character and its selectors become.
#[inline]
fn write_form<C: NormalizeContext>(context: &C, form: &[GlyphInfo], to: &mut Vec<GlyphInfo>) {
    let [glyph, selector, more @ ..] = form else {
        write_kept(context, form, to);
        return;
    };
    match context.variation_glyph(glyph.glyph_id, selector.glyph_id) {
        Some(variant) => {
            push_within(
                to,
                GlyphInfo {
                    glyph_props: GlyphProps(variant.0),
                    ..*glyph
                },
            );
        }
        None => {
            push_within(to, with_number(context, *glyph));
            push_within(
                to,
                with_number(context, selecting_nothing(context, *selector)),
            );
        }
    }
    write_kept(context, more, to);
}

// Adds glyphs that stay.
#[inline]
fn write_kept<C: NormalizeContext>(context: &C, glyphs: &[GlyphInfo], to: &mut Vec<GlyphInfo>) {
    for glyph in glyphs {
        push_within(to, with_number(context, *glyph));
    }
}

// A glyph with the number of its character's glyph, if the font has one.
#[inline]
pub(super) fn with_number<C: NormalizeContext>(context: &C, glyph: GlyphInfo) -> GlyphInfo {
    match context.nominal_glyph(glyph.glyph_id) {
        Some(own) => GlyphInfo {
            glyph_props: GlyphProps(own.0),
            ..glyph
        },
        None => glyph,
    }
}

// A selector that selects nothing.
#[inline]
fn selecting_nothing<C: NormalizeContext>(context: &C, glyph: GlyphInfo) -> GlyphInfo {
    let mut unicode_props = glyph.unicode_props;
    unicode_props.set_general_category(GeneralCategory::Cf);
    unicode_props.set_high_byte(SELECTOR);
    if context.draws_selectors() {
        unicode_props.set_ignorable(false);
    }
    GlyphInfo {
        unicode_props,
        ..glyph
    }
}
