//! A font's bytes and a text to positioned glyphs in one call, by the small font of common/lookup_font.rs.
#![cfg(feature = "opentype")]

mod common;

use common::lookup_font::font;
use sengadlit::{
    Direction, Face, FaceError, Feature, SerializeFlags, ShapePlan, Shaper, UnicodeBuffer, script,
    shape, shape_with_plan, try_shape,
};

/// The glyphs of a text in the font, with these features.
fn shaped(text: &str, features: &[&str]) -> String {
    let data = font();
    let face = Face::parse(&data, 0).unwrap();
    let features: Vec<Feature> = features
        .iter()
        .map(|feature| feature.parse().unwrap())
        .collect();
    let mut buffer = UnicodeBuffer::new();
    buffer.push_str(text);
    shape(&face, &features, buffer).serialize(&face, SerializeFlags::default())
}

#[test]
fn letters_ligate_and_kern() {
    assert_eq!(shaped("ABC", &[]), "[gid4=0+1050|gid3=2+700]");
    assert_eq!(shaped("AC", &[]), "[gid1=0+600|gid3=1+700]");
    assert_eq!(shaped("", &[]), "[]");
}

#[test]
fn features_are_turned_off_and_in_ranges() {
    assert_eq!(
        shaped("ABC", &["-liga"]),
        "[gid1=0+600|gid2=1+650|gid3=2+700]"
    );
    assert_eq!(shaped("ABC", &["kern=0"]), "[gid4=0+1100|gid3=2+700]");
    assert_eq!(
        shaped("ABAB", &["-liga[0:2]"]),
        "[gid1=0+600|gid2=1+650|gid4=2+1100]"
    );
}

#[test]
fn hebrew_runs_from_the_right() {
    // (the font has no letter of it)
    assert_eq!(shaped("\u{05D0}\u{05D1}", &[]), "[gid0=2+500|gid0=0+500]");
}

#[test]
fn what_is_printed() {
    let data = font();
    let face = Face::parse(&data, 0).unwrap();
    let mut buffer = UnicodeBuffer::new();
    buffer.push_str("ABC");
    let glyphs = shape(&face, &[], buffer);
    let print = |flags| glyphs.serialize(&face, flags);
    assert_eq!(print(SerializeFlags::NO_GLYPH_NAMES), "[4=0+1050|3=2+700]");
    assert_eq!(print(SerializeFlags::NO_CLUSTERS), "[gid4+1050|gid3+700]");
    assert_eq!(print(SerializeFlags::NO_POSITIONS), "[gid4=0|gid3=2]");
    assert_eq!(print(SerializeFlags::NO_ADVANCES), "[gid4=0|gid3=2@1050,0]");
    let names_alone = SerializeFlags::NO_CLUSTERS | SerializeFlags::NO_POSITIONS;
    assert_eq!(print(names_alone), "[gid4|gid3]");
    // (a text may not be broken within a pair that is kerned)
    assert_eq!(
        print(SerializeFlags::GLYPH_FLAGS),
        "[gid4=0+1050|gid3=2+700#1]"
    );
}

// (HarfBuzz's hb_ot_shaper_categorize: a font for `latn` or `DFLT` alone isn't made for the universal shaper, and Khmer's
// shaper takes every font)
#[test]
fn a_plan_tells_the_shaper_of_its_script() {
    let data = font();
    let face = Face::parse(&data, 0).unwrap();
    let shaper = |script| {
        let plan = ShapePlan::builder().script(script).build(&face);
        plan.unwrap().shaper()
    };
    assert_eq!(shaper(script::LATIN), None);
    assert_eq!(shaper(script::KHMER), Some(Shaper::Khmer));
    assert_eq!(shaper(script::SINHALA), None);
}

// (HarfBuzz's hb_script_get_horizontal_direction)
#[test]
fn a_plan_has_the_direction_of_its_script() {
    let data = font();
    let face = Face::parse(&data, 0).unwrap();
    for (script, direction) in [
        (None, Direction::LeftToRight),
        (Some(script::THAI), Direction::LeftToRight),
        (Some(script::SYRIAC), Direction::RightToLeft),
    ] {
        let builder = ShapePlan::builder().script(script);
        assert_eq!(builder.build(&face).unwrap().direction(), direction);
        let builder = builder.direction(Direction::TopToBottom);
        let plan = builder.build(&face).unwrap();
        assert_eq!(plan.direction(), Direction::TopToBottom);
    }
}

#[test]
fn a_plan_and_a_buffer_serve_many_texts() {
    let data = font();
    let face = Face::parse(&data, 0).unwrap();
    let plan = ShapePlan::new(
        &face,
        Direction::LeftToRight,
        Some(script::LATIN),
        None,
        &[],
    );
    let mut buffer = UnicodeBuffer::new();
    for _ in 0..3 {
        buffer.push_str("AB");
        let glyphs = shape_with_plan(&face, &plan, buffer);
        assert!(glyphs.is_complete());
        assert_eq!((glyphs.len(), glyphs.glyph_infos()[0].glyph_id), (1, 4));
        assert_eq!(glyphs.glyph_positions()[0].x_advance, 1100);
        buffer = glyphs.clear();
        assert!(buffer.is_empty() && buffer.script().is_none());
        assert_eq!(buffer.direction(), Direction::Invalid);
    }
}

#[test]
fn properties_are_guessed() {
    let mut buffer = UnicodeBuffer::new();
    buffer.push_str("1 \u{0627}A");
    buffer.guess_segment_properties();
    assert_eq!(buffer.script(), Some(script::ARABIC));
    assert_eq!(buffer.direction(), Direction::RightToLeft);
    buffer.clear();
    buffer.push_str("12");
    buffer.guess_segment_properties();
    assert_eq!(
        (buffer.script(), buffer.direction()),
        (None, Direction::LeftToRight)
    );
    // what is set stays
    buffer.clear();
    buffer.set_direction(Direction::TopToBottom);
    buffer.add('\u{0627}', 7);
    buffer.guess_segment_properties();
    assert_eq!(buffer.direction(), Direction::TopToBottom);
}

#[test]
fn what_is_no_font() {
    assert_eq!(Face::parse(b"", 0).unwrap_err(), FaceError::UnknownMagic);
    assert_eq!(
        Face::parse(&font(), 1).unwrap_err(),
        FaceError::IndexOutOfRange
    );
    assert!(Face::from_slice(b"no font", 0).is_none());
    assert_eq!(FaceError::UnknownMagic.to_string(), "the file is no font");
    let data = font();
    let face = Face::from_slice(&data, 0).unwrap();
    assert_eq!((face.units_per_em(), face.glyph_count()), (1000, 5));
    assert_eq!(face.glyph_name(1), None);
}

#[test]
fn a_prepared_face_shapes_to_the_same_glyphs() {
    let data = font();
    let face = Face::parse(&data, 0).unwrap();
    let mut prepared = face.clone();
    prepared.prepare();
    let copy = prepared.clone();
    prepared.prepare();
    let scaled = (
        face.clone().with_scale(10, 7),
        copy.clone().with_scale(10, 7),
    );
    for text in [
        "ABC",
        "ABAB",
        "AC\u{301}",
        "\u{FF}\u{100}\u{1F600}\u{10FFFF}",
        "",
    ] {
        let glyphs = |face| shape_text(face, text);
        assert_eq!(glyphs(&prepared), glyphs(&face), "{text}");
        assert_eq!(glyphs(&copy), glyphs(&face), "{text}");
        assert_eq!(glyphs(&scaled.0), glyphs(&scaled.1), "{text}");
    }
}

/// The glyphs of a text by a face.
fn shape_text(face: &Face<'_>, text: &str) -> String {
    let mut buffer = UnicodeBuffer::new();
    buffer.push_str(text);
    shape(face, &[], buffer).serialize(face, SerializeFlags::default())
}

#[test]
fn spoilt_fonts_shape() {
    // each byte of the font set to each of four values: something is shaped, or it is no font
    let data = font();
    for place in 0..data.len() {
        for value in [0, 1, 0x7F, 0xFF] {
            let mut spoilt = data.clone();
            spoilt[place] = value;
            let Ok(mut face) = Face::parse(&spoilt, 0) else {
                continue;
            };
            let mut buffer = UnicodeBuffer::new();
            buffer.push_str("ABCABAC");
            let glyphs = try_shape(&face, &[], buffer).unwrap();
            assert!(glyphs.len() <= 65_536);
            let glyphs = glyphs.serialize(&face, SerializeFlags::default());
            face.prepare();
            assert_eq!(
                shape_text(&face, "ABCABAC"),
                glyphs,
                "byte {place}: {value}"
            );
        }
    }
}

#[test]
fn a_buffer_is_shaped_where_it_stands() {
    use sengadlit::{Buffer, font::Font, shaper::checked::CallError};
    let data = font();
    assert_eq!((Face::count(&data), Face::count(&data[1..])), (1, 0));
    let face = Face::parse(&data, 0).unwrap();
    let plan = ShapePlan::new(
        &face,
        Direction::LeftToRight,
        Some(script::LATIN),
        None,
        &[],
    );
    let own = face.font(plan.script());
    assert_eq!(own.glyph_h_advance(sengadlit::GlyphId(4)), 1100);
    let mut buffer = Buffer::from("ABC");
    plan.shape_buffer(&face, &own, &mut buffer).unwrap();
    let advances: Vec<_> = buffer.positions().iter().map(|at| at.x_advance).collect();
    assert_eq!(advances, [1050, 700]);
    // (it has positions now)
    let refused = plan.shape_buffer(&face, &own, &mut buffer);
    assert!(matches!(refused, Err(CallError::Condition(_))));
    assert_eq!(buffer.len(), 2);
}
