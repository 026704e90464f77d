//! Glyphs that come into a text with positions take these away, so that no call over glyphs and positions meets one without
//! the other.
#![cfg(feature = "text")]

mod common;

use common::buffers::{letter, text_of};
use sengadlit::alloc::{Global, Vec as List};
use sengadlit::buffer::{
    Buffer, GeneralCategory, GlyphInfo, GlyphPosition, GlyphRewriting, Tag, UnicodeProps,
};
use sengadlit::font::{Font, GlyphId};
use sengadlit::ot_shape_position::{
    DefaultIgnorables, GlyphClasses, MetricsFont, hide_default_ignorables, set_space_widths,
    zero_mark_widths, zero_width_default_ignorables,
};

/// A font without glyphs.
struct Empty;

impl Font for Empty {
    fn nominal_glyph(&self, _: u32) -> Option<GlyphId> {
        None
    }

    fn glyph_h_advance(&self, _: GlyphId) -> i32 {
        0
    }

    fn would_apply(&self, _: u16, _: &[GlyphId], _: bool) -> bool {
        false
    }

    fn has_feature(&self, _: Tag) -> bool {
        false
    }
}

impl MetricsFont for Empty {
    fn units_per_em(&self) -> u16 {
        1000
    }

    fn glyph_v_advance(&self, _: GlyphId) -> i32 {
        0
    }

    fn glyph_v_origin(&self, _: GlyphId) -> (i32, i32) {
        (0, 0)
    }
}

/// Each glyph is a mark.
struct Marks;

impl GlyphClasses for Marks {
    fn is_mark(&self, _: &GlyphInfo) -> bool {
        true
    }
}

/// A rewriting to so many glyphs: spaces, and a letter behind them.
struct Spaces(usize);

impl GlyphRewriting for Spaces {
    fn rewrite(&self, _: &mut [GlyphInfo], to: &mut List<GlyphInfo>) {
        to.extend_from_slice(&spaces(self.0)).unwrap();
    }
}

/// A space that need not be drawn.
fn space() -> GlyphInfo {
    let mut unicode_props = UnicodeProps::new(GeneralCategory::Zs, 1);
    unicode_props.set_ignorable(true);
    GlyphInfo {
        unicode_props,
        ..letter(0x20, 0)
    }
}

/// So many glyphs: spaces, and a letter behind them.
fn spaces(len: usize) -> Vec<GlyphInfo> {
    let mut glyphs = vec![space(); len - 1];
    glyphs.push(letter(0x41, 0));
    glyphs
}

/// Texts of so many glyphs, one to four, which had three glyphs with positions before.
fn texts() -> Vec<Buffer> {
    let positioned = || {
        let mut text = text_of(&[0x41, 0x42, 0x43], 4);
        text.with_glyphs_mut(|glyphs| glyphs.fill(space()));
        let positions = List::from_elem(Global, GlyphPosition::ZERO, 3).unwrap();
        assert!(text.set_positions(positions));
        text
    };
    let mut pushed = positioned();
    pushed.push(letter(0x41, 0)).unwrap();
    let others = [1, 2, 4].into_iter().flat_map(|len| {
        let (mut replaced, mut rewritten) = (positioned(), positioned());
        replaced.replace_glyphs(List::from(spaces(len))).unwrap();
        rewritten.rewrite(len, &Spaces(len)).unwrap();
        [replaced, rewritten]
    });
    others.chain([pushed]).collect()
}

/// Makes a call with each of the texts, which leaves so many glyphs of each, and no position.
fn call_with_each(call: impl Fn(&mut Buffer), left: impl Fn(usize) -> usize) {
    for mut text in texts() {
        let len = text.len();
        call(&mut text);
        assert_eq!(text.len(), left(len));
        assert!(text.positions().is_empty());
    }
}

#[test]
fn widths_of_spaces() {
    call_with_each(|text| set_space_widths(&Empty, text), |len| len);
}

#[test]
fn widths_of_marks() {
    call_with_each(|text| zero_mark_widths(&Marks, true, text), |len| len);
}

#[test]
fn widths_of_ignorables() {
    let hide = DefaultIgnorables::Hide;
    call_with_each(|text| zero_width_default_ignorables(hide, text), |len| len);
}

#[test]
fn hidden_ignorables() {
    let hide = DefaultIgnorables::Hide;
    call_with_each(
        |text| hide_default_ignorables(hide, None, &Empty, text),
        |_| 1,
    );
}

#[test]
fn turned_stretches() {
    call_with_each(|text| text.reverse_range(0, text.len()), |len| len);
}
