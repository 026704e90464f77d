use super::*;
use crate::alloc::Global;
use crate::buffer::{Buffer, Script, ShaperError, Span, Tag};
use crate::plan::{Pause, Plan, Planner, Request};
use crate::shaper::{Shaper, run_pause};
use std::string::ToString;
use std::vec::Vec;

const CIRCLE: u32 = 0x25CC;

/// A font of this glyph for each character, which writes down each question for a lookup.
#[derive(Default)]
struct OneGlyph {
    number: u32,
    asked: Vec<(u16, Vec<u32>)>,
}

impl WideGlyphs for OneGlyph {
    fn nominal_glyph(&mut self, _c: u32) -> Option<u32> {
        Some(self.number)
    }

    fn glyph_h_advance(&mut self, glyph: u32) -> i32 {
        i32::try_from(glyph).unwrap() + 1
    }

    fn would_apply(&mut self, lookup: u16, glyphs: &[u32], _zero_context: bool) -> bool {
        self.asked.push((lookup, glyphs.to_vec()));
        lookup == 7
    }
}

impl Glyphs for u16 {
    fn nominal_glyph(&self, c: u32) -> Option<GlyphId> {
        (c == CIRCLE).then_some(GlyphId(*self))
    }

    fn glyph_h_advance(&self, glyph: GlyphId) -> i32 {
        glyph.0.into()
    }

    fn would_apply(&self, lookup: u16, glyphs: &[GlyphId], zero_context: bool) -> bool {
        lookup == 7 && glyphs == [GlyphId(*self)] && zero_context
    }
}

fn one_glyph(number: u32) -> Wide<OneGlyph> {
    Wide::new(OneGlyph {
        number,
        ..OneGlyph::default()
    })
}

/// The glyphs of a broken Khmer syllable after its reordering.
fn broken_syllable<F: Font>(font: &F) -> Result<Vec<u32>, ShaperError> {
    let plan = Plan::builder().build_for(Shaper::Khmer).unwrap();
    let mut buffer = Buffer::from("\u{17B6}");
    let spans = [Span { len: 1, kind: 1 }];
    run_pause(Pause::SetupSyllablesKhmer, &plan, font, &spans, &mut buffer)?;
    run_pause(Pause::ReorderKhmer, &plan, font, &[], &mut buffer)?;
    Ok(buffer.into_iter().map(|glyph| glyph.glyph_id).collect())
}

/// How many pauses Arabic requests, with a font of this feature alone.
fn pauses_of(feature: Tag) -> usize {
    let mut planner = Planner::new(Global, Some(Script(*b"Arab")));
    let font = FeaturesOnly(|tag| tag == feature);
    let collected = Shaper::Arabic.collect_features(&font, &mut planner);
    assert_eq!(collected, Ok(Some(())));
    let is_pause = |request: &&Request| matches!(request, Request::Pause(_));
    planner.requests().iter().filter(is_pause).count()
}

#[test]
fn a_font_of_features_collects_features() {
    // rclt takes the place of a pause
    assert_eq!(pauses_of(Tag(*b"rclt")) + 1, pauses_of(Tag(*b"calt")));
}

#[test]
#[should_panic = "a font for plan time alone has no result for a glyph"]
fn a_font_of_features_has_no_glyphs() {
    FeaturesOnly(|_: Tag| true).nominal_glyph(CIRCLE);
}

#[test]
#[should_panic = "a font for plan time alone has no result for a glyph"]
fn a_font_of_features_has_no_characters() {
    FeaturesOnly(|_: Tag| true).has_glyph(CIRCLE);
}

#[test]
#[should_panic = "a font for plan time alone has no result for an advance"]
fn a_font_of_features_has_no_advances() {
    FeaturesOnly(|_: Tag| true).glyph_h_advance(GlyphId(0));
}

#[test]
#[should_panic = "a font for plan time alone has no result for a lookup"]
fn a_font_of_features_has_no_lookups() {
    FeaturesOnly(|_: Tag| true).would_apply(0, &[], false);
}

#[test]
fn a_font_of_glyphs_answers_as_the_glyphs_do() {
    let font = GlyphsOnly(9);
    assert_eq!(broken_syllable(&font), Ok([9, 0x17B6].to_vec()));
    assert!(font.has_glyph(CIRCLE) && !font.has_glyph(0x41));
    assert_eq!(font.glyph_h_advance(GlyphId(3)), 3);
    assert!(font.would_apply(7, &[GlyphId(9)], true));
    assert!(font.would_apply_any(&[1, 7], &[GlyphId(9)], true));
    assert!(!font.would_apply_any(&[1, 7], &[GlyphId(9)], false));
}

#[test]
#[should_panic = "a font for shaping alone has no result for a feature"]
fn a_font_of_glyphs_has_no_features() {
    GlyphsOnly(9).has_feature(Tag(*b"rclt"));
}

#[test]
#[should_panic = "a font for shaping alone has no result for a feature"]
fn a_wide_font_has_no_features() {
    one_glyph(9).has_feature(Tag(*b"rclt"));
}

#[test]
fn a_wide_font_answers_as_far_as_16_bits_go() {
    let font = one_glyph(0xFFFF);
    assert_eq!(broken_syllable(&font), Ok([0xFFFF, 0x17B6].to_vec()));
    assert_eq!(font.check(), Ok(()));
    assert_eq!(font.glyph_h_advance(GlyphId(3)), 4);
}

#[test]
fn a_wide_font_notes_a_glyph_that_is_too_large() {
    let font = one_glyph(0x10000);
    assert_eq!(broken_syllable(&font), Ok([0x17B6].to_vec()));
    assert_eq!(font.check(), Err(GlyphTooLarge(0x10000)));
    assert_eq!(font.check(), Ok(()));
    assert!(font.has_glyph(0x41));
    assert_eq!(font.check(), Ok(()));
    let error = GlyphTooLarge(0x10000);
    assert_eq!(error.to_string(), "the glyph number 65536 is above 65535");
}

#[test]
fn a_wide_font_is_asked_for_lookups_until_one_would_apply() {
    let font = one_glyph(1);
    let glyphs = [GlyphId(2), GlyphId(3)];
    assert!(font.would_apply_any(&[5, 7, 8], &glyphs, false));
    assert!(!font.would_apply(6, &[], false));
    let asked = font.into_inner().asked;
    assert_eq!(
        asked,
        [(5, [2, 3].to_vec()), (7, [2, 3].to_vec()), (6, [].to_vec())]
    );
}

#[test]
fn a_wide_font_is_asked_for_no_lookup_of_a_glyph_that_is_too_large() {
    let font = one_glyph(1);
    assert!(!font.would_apply_any(&[7], &[GlyphId(2), GlyphId(0xFFFF)], false));
    assert_eq!(font.check(), Err(GlyphTooLarge(0xFFFF)));
    assert!(font.would_apply_any(&[7], &[GlyphId(2), GlyphId(0xFFFE)], false));
    assert_eq!(font.check(), Ok(()));
    assert_eq!(font.into_inner().asked, [(7, [2, 0xFFFE].to_vec())]);
}

#[test]
#[should_panic]
fn a_question_for_more_than_eight_glyphs_panics() {
    one_glyph(1).would_apply(7, &[GlyphId(0); 9], false);
}

#[test]
fn fonts_are_asked_through_references() {
    let font: &dyn Font = &GlyphsOnly(9);
    assert_eq!(broken_syllable(&font), Ok([9, 0x17B6].to_vec()));
    let glyphs: &dyn Glyphs = &9_u16;
    assert_eq!(
        broken_syllable(&GlyphsOnly(glyphs)),
        Ok([9, 0x17B6].to_vec())
    );
    let mut wide = OneGlyph::default();
    let glyphs: &mut dyn WideGlyphs = &mut wide;
    assert!(Wide::new(glyphs).would_apply(7, &[GlyphId(4)], false));
    assert_eq!(wide.asked, [(7, [4].to_vec())]);
}

#[test]
fn a_font_of_characters_answers_for_them() {
    let font = NominalOnly(|c| (c == CIRCLE).then_some(GlyphId(9)));
    assert_eq!(broken_syllable(&font), Ok([9, 0x17B6].to_vec()));
    assert!(font.has_glyph(CIRCLE) && !font.has_glyph(0x41));
}

#[test]
#[should_panic = "a font for characters alone has no result for an advance"]
fn a_font_of_characters_has_no_advances() {
    NominalOnly(|_| None).glyph_h_advance(GlyphId(0));
}

#[test]
#[should_panic = "a font for characters alone has no result for a lookup"]
fn a_font_of_characters_has_no_lookups() {
    NominalOnly(|_| None).would_apply(0, &[], false);
}

#[test]
#[should_panic = "a font for characters alone has no result for a feature"]
fn a_font_of_characters_has_no_features() {
    NominalOnly(|_| None).has_feature(Tag(*b"rclt"));
}

/// Glyphs whose provided methods return something else than their defaults: no glyph, but each character has
/// one, and lookups apply where there are as many as glyphs.
struct Overriding;

impl Glyphs for Overriding {
    fn nominal_glyph(&self, _c: u32) -> Option<GlyphId> {
        None
    }

    fn glyph_h_advance(&self, _glyph: GlyphId) -> i32 {
        0
    }

    fn would_apply(&self, _lookup: u16, _glyphs: &[GlyphId], _zero_context: bool) -> bool {
        false
    }

    fn has_glyph(&self, _c: u32) -> bool {
        true
    }

    fn would_apply_any(&self, lookups: &[u16], glyphs: &[GlyphId], zero_context: bool) -> bool {
        lookups.len() == glyphs.len() && zero_context
    }

    fn may_panic(&self) -> bool {
        false
    }
}

impl WideGlyphs for Overriding {
    fn nominal_glyph(&mut self, c: u32) -> Option<u32> {
        Glyphs::nominal_glyph(self, c).map(u32::from)
    }

    fn glyph_h_advance(&mut self, _glyph: u32) -> i32 {
        0
    }

    fn would_apply(&mut self, _lookup: u16, _glyphs: &[u32], _zero_context: bool) -> bool {
        false
    }

    fn has_glyph(&mut self, c: u32) -> bool {
        Glyphs::has_glyph(self, c)
    }

    fn would_apply_any(&mut self, lookups: &[u16], glyphs: &[u32], zero_context: bool) -> bool {
        assert!(!lookups.is_empty(), "a question without lookups");
        lookups.len() == glyphs.len() && zero_context
    }

    fn may_panic(&self) -> bool {
        Glyphs::may_panic(self)
    }
}

/// Whether a font's provided methods return what those of [`Overriding`] do.
fn overrides<F: Font>(font: F) -> bool {
    let three = [GlyphId(1), GlyphId(2), GlyphId(3)];
    font.has_glyph(0x41)
        && font.would_apply_any(&[4, 5, 6], &three, true)
        && font.would_apply_any(&[4; 8], &[GlyphId(7); 8], true)
        && !font.would_apply_any(&[4, 5], &three, true)
        && !font.would_apply_any(&[4, 5, 6], &three, false)
        && !font.may_panic()
}

#[test]
fn adapters_and_references_ask_provided_methods() {
    assert!(overrides(GlyphsOnly(Overriding)));
    assert!(overrides(GlyphsOnly(&Overriding)));
    let (glyphs, wide) = (GlyphsOnly(Overriding), Wide::new(Overriding));
    let (glyphs, wide): (&dyn Font, &dyn Font) = (&glyphs, &wide);
    assert!(overrides(glyphs) && overrides(wide));
    assert!(overrides(Wide::new(Overriding)));
    assert!(overrides(Wide::new(&mut Overriding)));
}

#[test]
fn a_question_without_lookups_is_asked_of_no_wide_font() {
    assert!(!Wide::new(Overriding).would_apply_any(&[], &[GlyphId(1)], true));
    // other fonts may return true
    let glyphs: &dyn Font = &GlyphsOnly(Overriding);
    assert!(glyphs.would_apply_any(&[], &[], true));
}

#[test]
fn fonts_of_a_callers_code_may_panic() {
    let nominal = NominalOnly(|_| None);
    let font: &dyn Font = &nominal;
    assert!(nominal.may_panic() && font.may_panic() && (&font).may_panic());
    assert!(FeaturesOnly(|_: Tag| false).may_panic());
    assert!(GlyphsOnly(3_u16).may_panic());
    assert!(one_glyph(3).may_panic());
}
