//! What a text, a plan and a cache of plans may set, and what is printed, by the small font of
//! common/lookup_font.rs.
#![cfg(feature = "opentype")]

mod common;

use common::lookup_font::{font, font_with, font_without_gpos, words};
use sengadlit::opentype::{Replacements, ShapeStep, try_shape_in_steps};
use sengadlit::plan::BreakFlags;
use sengadlit::{
    Buffer, BufferClusterLevel, BufferFlags, Direction, Face, Feature, GlyphExtents, GlyphId,
    PlanCache, SerializeFlags, ShapePlan, UnicodeBuffer, script, shape, shape_with_cache,
    try_shape_with_cache,
};
use std::cell::RefCell;

fn text(characters: &str) -> UnicodeBuffer {
    let mut buffer = UnicodeBuffer::new();
    buffer.push_str(characters);
    buffer
}

/// The glyphs of a text with these features, once it is set up.
fn shaped(characters: &str, features: &[&str], setup: impl Fn(&mut UnicodeBuffer)) -> String {
    let data = font();
    let face = Face::parse(&data, 0).unwrap();
    let features: Vec<Feature> = features.iter().map(|tag| tag.parse().unwrap()).collect();
    let mut buffer = text(characters);
    setup(&mut buffer);
    shape(&face, &features, buffer).serialize(&face, SerializeFlags::default())
}

#[test]
fn a_cache_makes_a_plan_once() {
    let data = font();
    let face = Face::parse(&data, 0).unwrap();
    let mut cache = PlanCache::new();
    assert!(cache.is_empty());
    let without: Feature = "-liga".parse().unwrap();
    for _ in 0..3 {
        let glyphs = shape_with_cache(&face, &mut cache, &[], text("AB"));
        assert_eq!((glyphs.len(), cache.len()), (1, 1));
    }
    let glyphs = shape_with_cache(&face, &mut cache, &[without], text("AB"));
    assert_eq!((glyphs.len(), cache.len()), (2, 2));
    let hebrew = try_shape_with_cache(&face, &mut cache, &[], text("\u{05D0}")).unwrap();
    assert_eq!(
        (hebrew.direction(), cache.len()),
        (Direction::RightToLeft, 3)
    );
    let mut upwards = text("AB");
    upwards.set_direction(Direction::BottomToTop);
    shape_with_cache(&face, &mut cache, &[], upwards);
    assert_eq!(cache.len(), 4);
    cache.clear();
    assert!(cache.is_empty());
}

#[test]
fn a_cache_keeps_64_plans() {
    let data = font();
    let face = Face::parse(&data, 0).unwrap();
    let mut cache = PlanCache::with_choices(ShapePlan::builder().break_flags(BreakFlags::Sound));
    let feature = |value| Feature::new(sengadlit::Tag(*b"aalt"), value, ..);
    for value in 0..100 {
        let plan = cache.plan(
            &face,
            Direction::LeftToRight,
            Some(script::LATIN),
            None,
            &[feature(value)],
        );
        assert_eq!(plan.unwrap().script(), Some(script::LATIN));
        let expected = usize::try_from(value + 1).unwrap().min(64);
        assert_eq!(cache.len(), expected);
    }
}

#[test]
fn ignorable_characters_go_stay_or_are_hidden() {
    // (the font has no glyph for ZWNJ, and no space that stands for it)
    let with_flags = |flags| shaped("A\u{200C}C", &[], |buffer| buffer.set_flags(flags));
    assert_eq!(with_flags(BufferFlags(0)), "[gid1=0+600|gid3=4+700]");
    assert_eq!(
        with_flags(BufferFlags::REMOVE_DEFAULT_IGNORABLES),
        "[gid1=0+600|gid3=4+700]"
    );
    let preserved = "[gid1=0+600|gid0=1+500|gid3=4+700]";
    assert_eq!(
        with_flags(BufferFlags::PRESERVE_DEFAULT_IGNORABLES),
        preserved
    );
    let both = BufferFlags::PRESERVE_DEFAULT_IGNORABLES | BufferFlags::REMOVE_DEFAULT_IGNORABLES;
    assert_eq!(with_flags(both), preserved);
    let hidden = shaped("A\u{200C}C", &[], |buffer| {
        buffer.set_invisible_glyph(Some(GlyphId(2)));
        assert_eq!(buffer.invisible_glyph(), Some(GlyphId(2)));
    });
    assert_eq!(hidden, "[gid1=0+600|gid2=1+0|gid3=4+700]");
}

#[test]
fn missing_characters_have_a_glyph() {
    assert_eq!(shaped("AD", &[], |_| ()), "[gid1=0+600|gid0=1+500]");
    let set = |buffer: &mut UnicodeBuffer| {
        buffer.set_not_found_glyph(Some(GlyphId(2)));
        assert_eq!(buffer.not_found_glyph(), Some(GlyphId(2)));
    };
    // lookups see it: it ligates, unless they are off
    assert_eq!(shaped("AD", &[], set), "[gid4=0+1100]");
    assert_eq!(shaped("AD", &["-liga"], set), "[gid1=0+600|gid2=1+650]");
    let none = ["-liga", "-kern"];
    assert_eq!(shaped("AD", &none, set), "[gid1=0+600|gid2=1+650]");
}

#[test]
fn selectors_without_a_variant_have_a_glyph() {
    assert_eq!(shaped("A\u{FE00}", &[], |_| ()), "[gid1=0+600]");
    let drawn = shaped("A\u{FE00}", &[], |buffer| {
        buffer.set_not_found_variation_selector_glyph(Some(70_000));
        let glyph = buffer.not_found_variation_selector_glyph();
        assert_eq!(glyph, Some(70_000));
    });
    assert_eq!(drawn, "[gid1=0+600|gid70000=0+0]");
}

#[test]
fn a_buffer_is_shaped_with_glyphs_for_what_the_font_lacks() {
    let data = font();
    let face = Face::parse(&data, 0).unwrap();
    let plan = ShapePlan::new(&face, Direction::LeftToRight, None, None, &[]);
    let mut buffer = Buffer::from("D");
    let replacements = Replacements {
        not_found: Some(GlyphId(3)),
        ..Replacements::default()
    };
    plan.shape_buffer_with(&face, &face.font(None), &replacements, &mut buffer)
        .unwrap();
    assert_eq!(buffer.get(0).glyph_id, 3);
    assert_eq!(buffer.position(0).x_advance, 700);
}

#[test]
fn graphemes_share_a_cluster() {
    let mut buffer = text("A\u{0301}B\u{0301}\u{0302}C");
    let clusters = |buffer: &UnicodeBuffer| -> Vec<u32> {
        buffer.characters().map(|(_, cluster)| cluster).collect()
    };
    assert_eq!(clusters(&buffer), [0, 1, 3, 4, 6, 8]);
    buffer.merge_graphemes();
    assert_eq!(clusters(&buffer), [0, 0, 3, 3, 3, 8]);
    buffer.reset_clusters();
    assert_eq!(clusters(&buffer), [0, 1, 2, 3, 4, 5]);
    buffer.set_cluster_level(BufferClusterLevel::Characters);
    assert_eq!(buffer.cluster_level(), BufferClusterLevel::Characters);
}

#[test]
fn characters_are_printed() {
    let mut buffer = text("A\u{10FFFF}");
    buffer.try_reserve(100).unwrap();
    assert_eq!(
        buffer.serialize(SerializeFlags::default()),
        "<U+0041=0|U+10FFFF=1>"
    );
    assert_eq!(
        buffer.serialize(SerializeFlags::NO_CLUSTERS),
        "<U+0041|U+10FFFF>"
    );
    buffer.clear();
    assert_eq!(buffer.serialize(SerializeFlags::default()), "<>");
}

#[test]
fn settings_outlive_a_text() {
    let data = font();
    let face = Face::parse(&data, 0).unwrap();
    let mut buffer = text("D");
    buffer.set_not_found_glyph(Some(GlyphId(2)));
    buffer.set_flags(BufferFlags::END_OF_TEXT);
    let buffer = shape(&face, &[], buffer).clear();
    assert_eq!(buffer.not_found_glyph(), Some(GlyphId(2)));
    assert_eq!(buffer.flags(), BufferFlags::END_OF_TEXT);
}

#[test]
fn lookups_are_told() {
    let data = font();
    let face = Face::parse(&data, 0).unwrap();
    let plan = ShapePlan::new(
        &face,
        Direction::LeftToRight,
        Some(script::LATIN),
        None,
        &[],
    );
    let steps = RefCell::new(vec![]);
    let told = |step, buffer: &Buffer| steps.borrow_mut().push((step, buffer.len()));
    try_shape_in_steps(&face, &plan, text("ABC"), &told).unwrap();
    let expected = [
        (ShapeStep::SubstitutionStarts(0), 3),
        (ShapeStep::SubstitutionEnds(0), 2),
        (ShapeStep::PositioningStarts(0), 2),
        (ShapeStep::PositioningEnds(0), 2),
    ];
    assert_eq!(steps.into_inner(), expected);
}

/// The font with outlines of A, of three points, and of B, which is empty, an axis, and names.
fn drawn_font() -> Vec<u8> {
    let outline = words(&[1, 20, 65_526, 320, 700]);
    let names = [
        &words(&[2, 0])[..],
        &[0; 28],
        &words(&[5, 0, 36, 258, 38, 37]),
    ];
    font_with(&[
        (*b"loca", words(&[0, 0, 5, 5, 5, 5])),
        (*b"glyf", outline),
        (*b"fvar", vec![0; 16]),
        (*b"post", [&names.concat()[..], b"\x03\"\\x"].concat()),
    ])
}

#[test]
fn boxes_names_and_axes() {
    let data = drawn_font();
    let face = Face::parse(&data, 0).unwrap();
    assert!(face.is_variable());
    assert!(!Face::parse(&font(), 0).unwrap().is_variable());
    // (the box begins at the side bearing of hmtx, which is 0)
    let of_a = GlyphExtents {
        x_bearing: 0,
        y_bearing: 700,
        width: 300,
        height: -710,
    };
    assert_eq!(face.glyph_extents(1), Some(of_a));
    assert_eq!(face.glyph_extents(2), Some(GlyphExtents::default()));
    assert_eq!(
        [5, 65_537].map(|glyph| face.glyph_extents(glyph)),
        [None; 2]
    );
    assert_eq!(face.glyph_outline(1).map(<[u8]>::len), Some(10));
    assert_eq!(
        (face.glyph_name(1), face.glyph_name(2)),
        (Some("A"), Some("\"\\x"))
    );
    assert_eq!((face.ascender(), face.descender()), (800, -200));
    assert_eq!(face.glyph_index('B'), Some(GlyphId(2)));
    assert_eq!(face.glyph_index('D'), None);
    assert_eq!(
        [1, 65_537].map(|glyph| face.glyph_hor_advance(glyph)),
        [600, 0]
    );
    let glyphs = shape(&face, &["-liga".parse().unwrap()], text("AB"));
    assert_eq!(
        glyphs.serialize(&face, SerializeFlags::GLYPH_EXTENTS),
        "[A=0+600<0,700,300,-710>|\"\\x=1+650<0,0,0,0>]"
    );
    assert_eq!(
        glyphs.serialize_json(&face, SerializeFlags::GLYPH_EXTENTS),
        concat!(
            r#"[{"g":"A","cl":0,"dx":0,"dy":0,"ax":600,"ay":0,"xb":0,"yb":700,"w":300,"h":-710},"#,
            r#"{"g":"\"\\x","cl":1,"dx":0,"dy":0,"ax":650,"ay":0,"xb":0,"yb":0,"w":0,"h":0}]"#
        )
    );
}

/// A pair of A and C that stands 100 units nearer, by the table `kern`: half of it moves each of the two, as
/// in HarfBuzz (`hb_kern_machine_t::kern`).
#[test]
fn pairs_by_the_table_kern() {
    let pairs = words(&[0, 1, 0, 20, 1, 1, 6, 0, 0, 1, 3, 0xFF9C]);
    let data = font_without_gpos(&[(*b"kern", pairs.clone())]);
    let face = Face::parse(&data, 0).unwrap();
    let shaped = |features: &[&str], characters: &str| {
        let features: Vec<Feature> = features.iter().map(|tag| tag.parse().unwrap()).collect();
        let glyphs = shape(&face, &features, text(characters));
        glyphs.serialize(&face, SerializeFlags::GLYPH_FLAGS)
    };
    assert_eq!(shaped(&[], "AC"), "[gid1=0+550|gid3=1@-50,0+650#1]");
    assert_eq!(shaped(&[], "CA"), "[gid3=0+700|gid1=1+600]");
    assert_eq!(shaped(&["-kern"], "AC"), "[gid1=0+600|gid3=1+700]");
    assert_eq!(shaped(&["-kern[:2]"], "ACAC").matches("+550").count(), 1);
    // Thai's shaper takes no such table, Hangul's does, and where GPOS kerns it isn't read
    for (script, advance) in [(script::THAI, 600), (script::HANGUL, 550)] {
        let mut buffer = text("AC");
        buffer.set_script(script);
        let glyphs = shape(&face, &[], buffer);
        assert_eq!(glyphs.glyph_positions()[0].x_advance, advance);
    }
    let data = font_with(&[(*b"kern", pairs)]);
    let face = Face::parse(&data, 0).unwrap();
    let glyphs = shape(&face, &[], text("AC"));
    assert_eq!(glyphs.glyph_positions()[0].x_advance, 600);
}

/// A list of pairs (format 0) of the table `kern`, with its coverage.
fn list_of_pairs(coverage: u16, pairs: &[[u16; 3]]) -> Vec<u16> {
    let count = u16::try_from(pairs.len()).unwrap();
    let head = [0, 14 + 6 * count, coverage, count, 0, 0, 0];
    [&head[..], pairs.as_flattened()].concat()
}

/// Tables `kern` of several kinds, each with how many texts of [`pairs_of_a_prepared_face`] it moves.
fn tables_of_pairs() -> Vec<(usize, Vec<Vec<u16>>)> {
    let (a_c, b_b, c_a) = ([1, 3, 0xFF9C], [2, 2, 40], [3, 1, 0xFFF1]);
    let pairs_of_b = list_of_pairs(1, &[b_b]);
    // A and C by their classes
    let classes = vec![0, 28, 0x201, 2, 14, 20, 26, 1, 1, 26, 3, 1, 0, 100];
    vec![
        (0, vec![list_of_pairs(1, &[])]),
        (4, vec![list_of_pairs(1, &[a_c])]),
        (2, vec![pairs_of_b.clone()]),
        (6, vec![list_of_pairs(1, &[a_c, c_a])]),
        // (a search by halves finds only the second one)
        (2, vec![list_of_pairs(1, &[c_a, b_b, a_c])]),
        (2, vec![pairs_of_b.clone(), list_of_pairs(0, &[c_a])]),
        (6, vec![pairs_of_b.clone(), classes]),
        // across the line
        (2, vec![pairs_of_b.clone(), list_of_pairs(5, &[b_b])]),
        // format 1 is none, and a subtable shorter than its header is the last one
        (
            0,
            vec![
                vec![0, 8, 0x101, 1],
                vec![0, 5, 1],
                list_of_pairs(1, &[a_c]),
            ],
        ),
        // more subtables than are looked through
        (2, vec![pairs_of_b; 17]),
    ]
}

/// A prepared face looks for pairs only where a text has a glyph that may begin one: it moves the same ones
/// as a face that isn't prepared.
#[test]
fn pairs_of_a_prepared_face() {
    let without = |tags: &[&str]| -> Vec<Feature> {
        let features = tags.iter().map(|tag| tag.parse().unwrap());
        features.collect()
    };
    let (kerned, unkerned) = (without(&["-liga"]), without(&["-liga", "-kern"]));
    for (moved, subtables) in tables_of_pairs() {
        let count = u16::try_from(subtables.len()).unwrap();
        let table = words(&[vec![0, count], subtables.concat()].concat());
        let data = font_without_gpos(&[(*b"kern", table)]);
        let face = Face::parse(&data, 0).unwrap();
        let mut prepared = face.clone();
        prepared.prepare();
        let mut count = 0;
        for direction in [Direction::LeftToRight, Direction::RightToLeft] {
            for characters in ["", "A", "AC", "CA", "BB", "BC", "ABC", "BACAB"] {
                let shaped = |face: &Face<'_>, features: &[Feature]| {
                    let mut buffer = text(characters);
                    buffer.set_direction(direction);
                    let glyphs = shape(face, features, buffer);
                    glyphs.serialize(face, SerializeFlags::GLYPH_FLAGS)
                };
                let glyphs = shaped(&face, &kerned);
                assert_eq!(shaped(&prepared, &kerned), glyphs);
                assert_eq!(shaped(&prepared.clone(), &kerned), glyphs);
                count += usize::from(glyphs != shaped(&face, &unkerned));
            }
        }
        assert_eq!(count, moved);
    }
}

/// Marks that the font lacks, over and under A and a ligature, by boxes. (hb-shape's answers.)
#[test]
fn marks_without_gpos() {
    // boxes of .notdef, from (10, 0) to (210, 300), and of A, from (20, -10) to (320, 700)
    let outlines = words(&[1, 10, 0, 210, 300, 1, 20, 65_526, 320, 700]);
    let more = [
        (*b"loca", words(&[0, 5, 10, 10, 10, 10])),
        (*b"glyf", outlines),
    ];
    let data = font_without_gpos(&more);
    let face = Face::parse(&data, 0).unwrap();
    let shaped = |face: &Face<'_>, characters: &str, setup: fn(&mut UnicodeBuffer)| {
        let mut buffer = text(characters);
        setup(&mut buffer);
        shape(face, &[], buffer).serialize(face, SerializeFlags::default())
    };
    let marked = "A\u{301}\u{302}\u{323}C";
    assert_eq!(
        shaped(&face, marked, |_| ()),
        "[gid1=0+600|gid0=0@-400,-372+0|gid0=0@-400,762+0|gid0=0@-400,1124+0|gid3=7+700]"
    );
    let ligature = "AB\u{301}\u{323}";
    assert_eq!(
        shaped(&face, ligature, |_| ()),
        "[gid4=0+1100|gid0=0@-375,-362+0|gid0=0@-375,62+0]"
    );
    let backward = |buffer: &mut UnicodeBuffer| buffer.set_direction(Direction::RightToLeft);
    assert_eq!(
        shaped(&face, ligature, backward),
        "[gid2=1+650|gid0=1@-425,-362+0|gid0=1@-425,62+0|gid1=0+600]"
    );
    // Thai's shaper leaves marks where they are
    let thai = |buffer: &mut UnicodeBuffer| buffer.set_script(script::THAI);
    assert_eq!(
        shaped(&face, ligature, thai),
        "[gid4=0+1100|gid0=0@-500,0+0|gid0=0@-500,0+0]"
    );
    let scaled = face.with_scale(100, 100);
    assert_eq!(
        shaped(&scaled, marked, |_| ()),
        "[gid1=0+60|gid0=0@-40,-37+0|gid0=0@-40,76+0|gid0=0@-40,112+0|gid3=7+70]"
    );
}

#[test]
fn json_as_hb_shape_prints_it() {
    let data = font();
    let face = Face::parse(&data, 0).unwrap();
    let glyphs = shape(&face, &[], text("ABC"));
    let print = |flags| glyphs.serialize_json(&face, flags);
    assert_eq!(
        print(SerializeFlags::NO_CLUSTERS | SerializeFlags::NO_ADVANCES),
        r#"[{"g":"gid4","dx":0,"dy":0},{"g":"gid3","dx":1050,"dy":0}]"#
    );
    let mut flags = SerializeFlags::NO_GLYPH_NAMES;
    flags |= SerializeFlags::NO_POSITIONS | SerializeFlags::GLYPH_FLAGS;
    assert_eq!(print(flags), r#"[{"g":4,"cl":0},{"g":3,"cl":2,"fl":1}]"#);
}

#[test]
fn positions_are_scaled() {
    let data = drawn_font();
    let face = Face::parse(&data, 0).unwrap().with_scale(10, 20);
    let glyphs = shape(&face, &[], text("ABCA"));
    // 1100, 50 less, of 1000: 11, and half a unit, which is rounded up
    assert_eq!(
        glyphs.serialize(
            &face,
            SerializeFlags::NO_GLYPH_NAMES | SerializeFlags::GLYPH_EXTENTS
        ),
        "[4=0+11<0,0,0,0>|3=2+7<0,0,0,0>|1=3+6<0,14,3,-14>]"
    );
    assert_eq!((face.ascender(), face.descender()), (16, -4));
    assert_eq!((face.glyph_hor_advance(3), face.units_per_em()), (7, 1000));
    let face = face.with_scale(500, 2000);
    let mut downwards = text("AB");
    downwards.set_direction(Direction::TopToBottom);
    let glyphs = shape(&face, &["-liga".parse().unwrap()], downwards);
    let heights = glyphs.glyph_positions().iter().map(|at| at.y_advance);
    assert!(heights.eq([-2000; 2]));
}
