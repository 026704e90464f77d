//! Unicode's NormalizationTest.txt through a font that has every character.

use sengadlit::alloc::Global;
use sengadlit::map::Map;
use sengadlit::ot_shape_normalize::{NormalizeFont, NormalizeSettings, Rounds, ot_shape_normalize};
use sengadlit::unicode::{
    UnicodeTables, compose, decompose, general_category, modified_combining_class,
};
use sengadlit::{Buffer, Font, GlyphId, Plan, Shaper, Tag};
use std::collections::{BTreeMap, HashMap};
use std::fs;
use std::path::Path;

/// A font that has every character.
struct Whole;

impl Font for Whole {
    fn nominal_glyph(&self, c: u32) -> Option<GlyphId> {
        u16::try_from(c % 0xFFFF).ok().map(GlyphId)
    }

    fn glyph_h_advance(&self, _: GlyphId) -> i32 {
        0
    }

    fn would_apply(&self, _: u16, _: &[GlyphId], _: bool) -> bool {
        false
    }

    fn has_feature(&self, _: Tag) -> bool {
        false
    }
}

impl NormalizeFont for Whole {
    fn variation_glyph(&self, _: u32, _: u32) -> Option<GlyphId> {
        None
    }
}

/// Why a shaper's text isn't in Unicode's composed form.
#[derive(Clone, Copy, Debug, PartialEq, Eq, PartialOrd, Ord)]
enum Reason {
    /// Two characters compose of which the second is no mark, as jamo: the third round takes marks
    /// alone.
    ComposesWithALetter,
    /// The shapers order a mark by another class than Unicode's.
    OtherClass,
    /// They order it otherwise than marks of the same class of Unicode's, so that the text isn't
    /// canonically equivalent.
    OtherOrder,
}

/// The marks that shapers order otherwise than marks of the same class of Unicode's: Tibetan's TSA
/// -PHRU and PADMA, Tai Tham's SAKOT.
const APART: [char; 3] = ['\u{0F39}', '\u{0FC6}', '\u{1A60}'];

type Classes = HashMap<u32, u8>;

fn data(name: &str) -> String {
    let folder = Path::new(env!("CARGO_MANIFEST_DIR")).join("../../unicode/data/ucd");
    fs::read_to_string(folder.join(name)).unwrap()
}

/// Unicode's own combining classes.
fn classes() -> Classes {
    data("UnicodeData.txt")
        .lines()
        .map(|line| {
            let fields: Vec<&str> = line.split(';').collect();
            let c = u32::from_str_radix(fields[0], 16).unwrap();
            (c, fields[3].parse().unwrap())
        })
        .collect()
}

/// Each line's text, its composed form and its decomposed form.
fn lines() -> Vec<[String; 3]> {
    data("NormalizationTest.txt")
        .lines()
        .filter(|line| !line.starts_with(['#', '@']))
        .map(|line| {
            let mut columns = line.split(';').map(characters);
            [(); 3].map(|()| columns.next().unwrap())
        })
        .collect()
}

fn characters(column: &str) -> String {
    column
        .split(' ')
        .map(|c| char::from_u32(u32::from_str_radix(c, 16).unwrap()).unwrap())
        .collect()
}

/// The text as a shaper has it that takes every letter apart and has no rule of its own.
fn normalized(plan: &Plan, text: &str) -> String {
    normalized_by(Shaper::Myanmar, plan, text)
}

/// The text as a shaper has it.
fn normalized_by(shaper: Shaper, plan: &Plan, text: &str) -> String {
    let mut buffer = Buffer::from_text(text, &UnicodeTables).unwrap();
    let settings = NormalizeSettings {
        rounds: Rounds::Always,
        ..NormalizeSettings::default()
    };
    let shaper = Some(shaper);
    ot_shape_normalize(shaper, plan, &Whole, &UnicodeTables, &settings, &mut buffer).unwrap();
    let glyphs = buffer.glyphs().iter();
    glyphs
        .map(|glyph| char::from_u32(glyph.glyph_id).unwrap())
        .collect()
}

/// Unicode's decomposed form.
fn decomposed(classes: &Classes, text: &str) -> String {
    let mut apart: Vec<char> = Vec::new();
    text.chars().for_each(|c| take_apart(c, &mut apart));
    let class = |c: &char| classes.get(&u32::from(*c)).copied().unwrap_or(0);
    for run in apart.chunk_by_mut(|_, c| class(c) != 0) {
        run.sort_by_key(class);
    }
    apart.into_iter().collect()
}

fn take_apart(c: char, apart: &mut Vec<char>) {
    match decompose(c) {
        Some((a, b)) => {
            take_apart(a, apart);
            if b != '\0' {
                take_apart(b, apart);
            }
        }
        None => apart.push(c),
    }
}

/// Why this text came of one that decomposes to `whole`, if there is a reason.
fn reason(classes: &Classes, whole: &str, ours: &str) -> Option<Reason> {
    let apart: Vec<char> = whole.chars().collect();
    let has_other_class = |c: &char| {
        let own = classes.get(&u32::from(*c)).copied().unwrap_or(0);
        general_category(*c).is_mark() && modified_combining_class(*c) != own
    };
    let composes_with_letter =
        |pair: &[char]| !general_category(pair[1]).is_mark() && compose(pair[0], pair[1]).is_some();
    if decomposed(classes, ours) != whole {
        whole.contains(APART).then_some(Reason::OtherOrder)
    } else if apart.windows(2).any(composes_with_letter) {
        Some(Reason::ComposesWithALetter)
    } else if apart.iter().any(has_other_class) {
        Some(Reason::OtherClass)
    } else {
        None
    }
}

/// A plan without features.
fn plan() -> Plan {
    let map = Map::from_slices(Global, &[], &[], &[], 0, None, false);
    Plan::new(None, map.unwrap().unwrap())
}

/// The smallest texts that aren't canonically equivalent to what they become (docs/PROOF.md).
#[test]
fn texts_that_change() {
    let below = "\u{316}".repeat(31);
    let long = format!("A\u{305}{below}\u{301}");
    let passed = format!("\u{C1}\u{305}{below}");
    let alef = "\u{627}\u{658}\u{653}";
    let points = "a\u{5B7}\u{5B0}\u{316}\u{323}";
    let plan = plan();
    let rows = [
        (Shaper::Myanmar, long.as_str(), passed.as_str()),
        (Shaper::Arabic, alef, "\u{622}\u{658}"),
        (Shaper::Myanmar, alef, alef),
        (Shaper::Hebrew, points, "\u{1EA1}\u{5B7}\u{316}\u{5B0}"),
        (Shaper::Myanmar, points, points),
        (Shaper::Khmer, "\u{17BE}", "\u{17C1}\u{17BE}"),
    ];
    let classes = classes();
    for (shaper, text, becomes) in rows {
        assert_eq!(normalized_by(shaper, &plan, text), becomes);
        let stays = decomposed(&classes, text) == decomposed(&classes, becomes);
        assert_eq!(stays, text == becomes);
    }
}

#[test]
fn each_line_is_composed_or_has_a_reason() {
    let classes = classes();
    let plan = plan();
    let mut composed = 0;
    let mut others: BTreeMap<Reason, usize> = BTreeMap::new();
    for [text, whole, apart] in lines() {
        for form in [&text, &whole, &apart] {
            let ours = normalized(&plan, form);
            if ours == whole {
                composed += 1;
                continue;
            }
            let reason = reason(&classes, &apart, &ours);
            let reason = reason.unwrap_or_else(|| panic!("{form:?} becomes {ours:?}"));
            *others.entry(reason).or_default() += 1;
        }
    }
    assert_eq!(composed, 26_075);
    let expected = [
        (Reason::ComposesWithALetter, 33_837),
        (Reason::OtherClass, 181),
        (Reason::OtherOrder, 9),
    ];
    assert_eq!(others, BTreeMap::from(expected));
}
