//! What a font has for a language is applied in texts of that language alone.
#![cfg(feature = "opentype")]

#[path = "common/lookup_font.rs"]
mod lookup_font;

use lookup_font::{font_with_gsub, words};
use sengadlit::{Direction, Face, Language, PlanCache, ShapePlan, UnicodeBuffer};
use sengadlit::{script, shape, shape_with_cache, shape_with_plan};

/// A table GSUB for Latin: nothing by default, B for A in Serbian, and C for A, as a required feature, in
/// Romanian.
fn substitutions() -> Vec<u8> {
    let mut table = words(&[1, 0, 10, 54, 80]);
    table.extend(words(&[1]));
    table.extend(b"latn");
    table.extend(words(&[8, 16, 2]));
    table.extend(b"ROM ");
    table.extend(words(&[22]));
    table.extend(b"SRB ");
    table.extend(words(&[28]));
    // language systems: by default, of Romanian, of Serbian
    table.extend(words(&[0, 0xFFFF, 0]));
    table.extend(words(&[0, 1, 0]));
    table.extend(words(&[0, 0xFFFF, 1, 0]));
    // features: the first has lookup 0, the second 1
    table.extend(words(&[2]));
    table.extend(b"locl");
    table.extend(words(&[14]));
    table.extend(b"locl");
    table.extend(words(&[20, 0, 1, 0, 0, 1, 1]));
    // lookups: the glyph behind A's, and the next one
    table.extend(words(&[2, 6, 26]));
    table.extend(words(&[1, 0, 1, 8, 1, 6, 1, 1, 1, 1]));
    table.extend(words(&[1, 0, 1, 8, 1, 6, 2, 1, 1, 1]));
    table
}

/// The small font with these substitutions.
fn font_with_languages() -> Vec<u8> {
    font_with_gsub(substitutions())
}

/// Languages with the glyph that they have for A.
const GLYPHS: [(Option<&str>, u32); 9] = [
    (None, 1),
    (Some("en"), 1),
    (Some("sr"), 2),
    (Some("sr-Latn-RS"), 2),
    (Some("ro"), 3),
    // (its tags are Moldavian, which the font lacks, and then Romanian)
    (Some("ro-MD"), 3),
    (Some("en-x-hbotsrb"), 2),
    (Some("sr-x-hbotrom"), 3),
    // (where no script of the text's own is found Latin is taken, in the text's language)
    (Some("sr-x-hbscthai"), 2),
];

fn text(language: Option<Language>) -> UnicodeBuffer {
    let mut text = UnicodeBuffer::new();
    text.push_str("A");
    if let Some(language) = language {
        text.set_language(language);
    }
    assert_eq!(text.language(), language);
    text
}

#[test]
fn languages_have_their_glyphs() {
    let data = font_with_languages();
    let face = Face::parse(&data, 0).unwrap();
    let mut cache = PlanCache::new();
    for (language, glyph) in GLYPHS {
        let language = language.map(|tag| tag.parse().unwrap());
        let glyphs = shape(&face, &[], text(language));
        assert_eq!(glyphs.glyph_infos()[0].glyph_id, glyph, "{language:?}");
        assert_eq!(glyphs.clear().language(), None);
        for _ in 0..2 {
            let glyphs = shape_with_cache(&face, &mut cache, &[], text(language));
            assert_eq!(glyphs.glyph_infos()[0].glyph_id, glyph, "{language:?}");
        }
    }
    assert_eq!(cache.len(), GLYPHS.len());
}

#[test]
fn a_plan_is_of_a_language() {
    let data = font_with_languages();
    let face = Face::parse(&data, 0).unwrap();
    let (direction, latin) = (Direction::LeftToRight, Some(script::LATIN));
    let romanian: Language = "ro".parse().unwrap();
    let plan = ShapePlan::new(&face, direction, latin, Some(&romanian), &[]);
    assert_eq!(plan.language(), Some(romanian));
    // (the plan's language counts, as its script does)
    let glyphs = shape_with_plan(&face, &plan, text(None));
    assert_eq!(glyphs.glyph_infos()[0].glyph_id, 3);
    let built = ShapePlan::builder().script(latin).language(romanian);
    let glyphs = shape_with_plan(&face, &built.build(&face).unwrap(), text(None));
    assert_eq!(glyphs.glyph_infos()[0].glyph_id, 3);
    let plan = ShapePlan::new(&face, direction, latin, None, &[]);
    assert_eq!(plan.language(), None);
}
