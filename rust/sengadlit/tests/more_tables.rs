//! Unicode's tables, the machines that find syllables, the choice of a shaper and what normalization
//! has of spaces, each over its whole domain, by sums that were recorded from tables equal to the
//! proved ones. (The tables of the hooks: tests/tables.rs.)
#![cfg(feature = "text")]

use sengadlit::buffer::{
    Buffer, BufferClusterLevel, Direction, GeneralCategory, GlyphInfo, Script, Tag, UnicodeProps,
};
use sengadlit::font::GlyphId;
use sengadlit::ot_shape_normalize::{NormalizeContext, Rounds, normalize};
use sengadlit::plan::NormalizationMode;
use sengadlit::shaper::Shaper;
use sengadlit::spans::{Indic, Khmer, Machine, Myanmar, Universal};
use sengadlit::unicode;

/// The sum of numbers, by FNV-1a: another number, or another order, gives another sum.
fn sum(numbers: impl IntoIterator<Item = u64>) -> u64 {
    let add = |sum: u64, number: u64| (sum ^ number).wrapping_mul(0x0100_0000_01B3);
    numbers.into_iter().fold(0xCBF2_9CE4_8422_2325, add)
}

/// What a character becomes, by its number, or that it becomes none.
fn number(character: Option<char>) -> u64 {
    character.map_or(u64::MAX, u64::from)
}

fn sum_of(table: impl Fn(char) -> u64) -> u64 {
    sum(('\0'..=char::MAX).map(table))
}

/// Numbers that are no character, too.
fn sum_of_categories(table: impl Fn(u32) -> (u8, u8)) -> u64 {
    let pair = |(category, position): (u8, u8)| u64::from(category) << 8 | u64::from(position);
    sum((0..0x11_0100).map(|c| pair(table(c))))
}

#[test]
fn table_of_unicodes_categories() {
    assert_eq!(
        sum_of(|c| unicode::general_category(c) as u64),
        0x6334_B7DA_5EC7_B548
    );
}

#[test]
fn table_of_unicodes_joining_types() {
    assert_eq!(
        sum_of(|c| unicode::joining_type(c).number().into()),
        0xC552_A272_6F8C_256A
    );
}

#[test]
fn table_of_unicodes_combining_classes() {
    assert_eq!(
        sum_of(|c| unicode::modified_combining_class(c).into()),
        0x7719_C292_DC08_A45E
    );
}

#[test]
fn table_of_unicodes_default_ignorables() {
    assert_eq!(
        sum_of(|c| unicode::is_default_ignorable(c).into()),
        0x5F48_F16D_07F0_3405
    );
}

#[test]
fn table_of_unicodes_mirrored_and_vertical_forms() {
    assert_eq!(
        sum_of(|c| number(unicode::mirrored(c))),
        0xE592_A1F1_C188_E0A1
    );
    assert_eq!(
        sum_of(|c| number(unicode::vertical_form(c))),
        0xB9BB_B6B3_B3B8_2026
    );
}

#[test]
fn table_of_unicodes_syllabic_categories() {
    assert_eq!(
        sum_of_categories(unicode::indic_categories),
        0x2979_24CE_F747_FA44
    );
    assert_eq!(
        sum_of_categories(|c| (unicode::universal_category(c), 0)),
        0xC811_8882_1AE1_0A25
    );
}

/// Each pair that a character comes apart to, and what the pair composes to.
#[test]
fn table_of_unicodes_pairs() {
    let pair = |c| {
        let (a, b) = unicode::decompose(c).unwrap_or(('\0', '\0'));
        u64::from(a) << 42 | u64::from(b) << 21 | number(unicode::compose(a, b)) & 0x1F_FFFF
    };
    assert_eq!(sum_of(pair), 0xDCAB_6722_BA73_5A31);
}

/// Of each state that categories lead to: where each category leads, and what ends there.
fn sum_of_machine(machine: &impl Machine) -> u64 {
    let mut states = vec![machine.start()];
    let mut numbers = vec![u64::from(machine.other())];
    let mut at = 0;
    while let Some(&state) = states.get(at) {
        at += 1;
        let kind = machine.kind(state).map_or(0x100, u64::from);
        numbers.push(
            kind << 2 | u64::from(machine.is_dead(state)) << 1 | u64::from(machine.cycles(state)),
        );
        if machine.is_dead(state) {
            continue;
        }
        for category in 0..=u8::MAX {
            let next = machine.next(state, category);
            numbers.push(next.into());
            if !states.contains(&next) {
                states.push(next);
            }
        }
    }
    sum(numbers)
}

#[test]
fn table_of_machines() {
    assert_eq!(sum_of_machine(&Indic), 0x3524_8BC9_AE15_8F7F);
    assert_eq!(sum_of_machine(&Khmer), 0x6AE5_1F9B_FCA6_0F56);
    assert_eq!(sum_of_machine(&Myanmar), 0x2448_B072_9F2F_31A1);
    assert_eq!(sum_of_machine(&Universal), 0xB313_3EA1_E634_8C29);
}

const DIRECTIONS: [Direction; 4] = [
    Direction::LeftToRight,
    Direction::RightToLeft,
    Direction::TopToBottom,
    Direction::BottomToTop,
];

/// The shapers of a script, for each direction and each tag that may matter.
fn shapers_of(script: Script) -> Vec<u64> {
    let tags = [b"DFLT", b"latn", b"mymr", b"dev2", b"dev3"].map(|tag| Some(Tag(*tag)));
    let tags = || tags.into_iter().chain([None]);
    let chosen = |direction| tags().map(move |tag| Shaper::for_script(script, direction, tag));
    let number = |shaper: Option<Shaper>| shaper.map_or(9, |shaper| shaper as u64);
    DIRECTIONS
        .into_iter()
        .flat_map(chosen)
        .map(number)
        .collect()
}

#[test]
fn table_of_scripts() {
    let letters = |place: u32| (0..26).map(move |i| (if place == 0 { b'A' } else { b'a' }) + i);
    let mut numbers = Vec::new();
    for a in letters(0) {
        for b in letters(1) {
            for c in letters(2) {
                for d in letters(3) {
                    let script = Script([a, b, c, d]);
                    // (a script that has none without a tag has none)
                    match Shaper::for_script(script, Direction::LeftToRight, None) {
                        Some(_) => numbers.extend(shapers_of(script)),
                        None => numbers.push(9),
                    }
                }
            }
        }
    }
    assert_eq!(sum(numbers), 0x326B_DDD2_D3E8_2693);
}

/// A context for which each number from `APART` on comes apart to a letter and the character of what
/// is left of the number, and all characters are default ignorable marks. Its font has all characters,
/// or a space and a hyphen alone.
struct Context {
    has_all: bool,
}

const APART: u32 = 0x20_0000;

impl NormalizeContext for Context {
    fn normalization_preference(&self) -> NormalizationMode {
        NormalizationMode::CD
    }

    fn decompose(&self, ab: u32) -> Option<(u32, u32)> {
        ab.checked_sub(APART).map(|b| (0x41, b))
    }

    fn compose(&self, _a: u32, _b: u32) -> Option<u32> {
        None
    }

    fn nominal_glyph(&self, c: u32) -> Option<GlyphId> {
        let is_there = if self.has_all {
            c < APART
        } else {
            [0x20, 0x2010].contains(&c)
        };
        is_there.then_some(GlyphId(if c == 0x20 { 3 } else { 4 }))
    }

    fn variation_glyph(&self, _c: u32, _selector: u32) -> Option<GlyphId> {
        None
    }

    fn draws_selectors(&self) -> bool {
        false
    }

    fn general_category(&self, _c: u32) -> GeneralCategory {
        GeneralCategory::Mn
    }

    fn modified_combining_class(&self, _c: u32) -> u8 {
        230
    }

    fn is_default_ignorable(&self, _c: u32) -> bool {
        true
    }

    fn invisible_glyph(&self) -> Option<GlyphId> {
        None
    }

    fn reorder_marks(&self, _: BufferClusterLevel, _: &mut [GlyphInfo], _: usize, _: usize) {}
}

/// The sum of what numbers in clusters of their own become.
fn sum_of_normalized(
    context: &Context,
    numbers: std::ops::Range<u32>,
    category: GeneralCategory,
) -> u64 {
    let glyph = |c| GlyphInfo {
        glyph_id: c,
        cluster: c,
        unicode_props: UnicodeProps::new(category, 0),
        ..GlyphInfo::DEFAULT
    };
    let mut buffer: Buffer = numbers.map(glyph).collect();
    normalize(context, Rounds::AsCode, &mut buffer).unwrap();
    let words = |glyph: &GlyphInfo| {
        let props = glyph.unicode_props;
        let bits = u8::from(props.is_ignorable()) << 3
            | u8::from(props.is_continuation()) << 4
            | u8::from(props.is_hidden()) << 5;
        let bytes = [props.high_byte(), bits];
        u64::from(glyph.glyph_id) << 32
            | u64::from(glyph.glyph_props.0) << 16
            | u64::from(u16::from_be_bytes(bytes))
    };
    sum(buffer.glyphs().iter().map(words))
}

/// Which characters are drawn as spaces, and of which kind, if the font lacks them.
#[test]
fn table_of_spaces() {
    let sum = sum_of_normalized(
        &Context { has_all: false },
        0..0x11_0000,
        GeneralCategory::Zs,
    );
    assert_eq!(sum, 0x5524_3C41_9C78_5325);
}

/// Which default ignorable characters are hidden where a character comes apart to them.
#[test]
fn table_of_hidden_characters() {
    let sum = sum_of_normalized(
        &Context { has_all: true },
        APART..APART + 0x11_0000,
        GeneralCategory::Lo,
    );
    assert_eq!(sum, 0x5BBC_ACF7_BAA0_A787);
}
