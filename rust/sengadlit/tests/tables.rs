//! The tables over the whole of their domains, by sums that were recorded from tables equal to the
//! proved ones: what a hook does with each character, category or class, in each place where it can
//! matter. A sum that differs tells that a table has changed; the sources say where.

mod common;

use common::buffers::{buffer_of, letter, mark, set_advances};
use common::fonts::JOINING_TYPES;
use common::plans::{FEATURES, plan_of, plan_with};
use sengadlit::buffer::{
    Buffer, Direction, GeneralCategory, GlyphInfo, GlyphProps, LigProps, Span, Tag, UnicodeProps,
};
use sengadlit::font::{Font, GlyphId, NominalOnly, Tables};
use sengadlit::plan::{Category, JoiningType, Pause, Plan, Position};
use sengadlit::shaper::{Shaper, run_pause};
use std::ops::RangeInclusive;

/// The sum of numbers, by FNV-1a: another number, or another order, gives another sum.
struct Sum(u64);

impl Sum {
    fn new() -> Self {
        Sum(0xCBF2_9CE4_8422_2325)
    }

    fn add(&mut self, number: impl Into<u64>) {
        self.0 = (self.0 ^ number.into()).wrapping_mul(0x0100_0000_01B3);
    }

    fn add_glyphs(&mut self, glyphs: &[GlyphInfo]) {
        for glyph in glyphs {
            self.add(glyph.glyph_id);
            self.add(glyph.cluster);
            self.add(glyph.mask);
            let bytes = [
                glyph.syllable,
                glyph.category,
                glyph.auxiliary,
                glyph.lig_props.component(),
            ];
            self.add(u32::from_be_bytes(bytes));
            self.add(glyph.unicode_props.modified_combining_class());
        }
    }
}

/// Tables by the private use characters 100000 on, which say what they have; nothing composes.
struct Told;

/// A character of a joining type.
fn of_type(joining_type: JoiningType) -> u32 {
    0x10_0000 + u32::from(joining_type.number())
}

impl Tables for Told {
    fn joining_type(&self, c: char) -> JoiningType {
        let number = u32::from(c).checked_sub(0x10_0000);
        let number = number.and_then(|number| u8::try_from(number).ok());
        number
            .and_then(JoiningType::from_number)
            .unwrap_or(JoiningType::U)
    }

    fn general_category(&self, _c: char) -> GeneralCategory {
        GeneralCategory::Lo
    }

    fn indic_categories(&self, c: u32) -> (Category, Position) {
        (c as u8, (c >> 8) as u8)
    }

    fn use_category(&self, c: u32) -> Category {
        c as u8
    }

    fn compose(&self, _a: char, _b: char) -> Option<char> {
        None
    }

    fn decompose(&self, _ab: char) -> Option<(char, char)> {
        None
    }
}

/// Tables in which each character has a category and each pair composes.
struct Composing(GeneralCategory);

impl Tables for Composing {
    fn general_category(&self, _c: char) -> GeneralCategory {
        self.0
    }

    fn compose(&self, a: char, _b: char) -> Option<char> {
        Some(a)
    }

    fn decompose(&self, ab: char) -> Option<(char, char)> {
        Some((ab, ab))
    }

    fn joining_type(&self, c: char) -> JoiningType {
        Told.joining_type(c)
    }

    fn indic_categories(&self, c: u32) -> (Category, Position) {
        Told.indic_categories(c)
    }

    fn use_category(&self, c: u32) -> Category {
        Told.use_category(c)
    }
}

/// A font with all glyphs but syllables of Hangul, marks without width, and every lookup.
struct Whole;

impl Font for Whole {
    fn nominal_glyph(&self, c: u32) -> Option<GlyphId> {
        (!(0xAC00..0xD7A4).contains(&c)).then_some(GlyphId(c as u16))
    }

    fn has_glyph(&self, c: u32) -> bool {
        self.nominal_glyph(c).is_some()
    }

    fn glyph_h_advance(&self, glyph: GlyphId) -> i32 {
        i32::from(glyph.0 % 2) * 100
    }

    fn would_apply(&self, _lookup: u16, _glyphs: &[GlyphId], _zero_context: bool) -> bool {
        true
    }

    fn has_feature(&self, _tag: Tag) -> bool {
        true
    }
}

const EVERY: RangeInclusive<char> = '\0'..=char::MAX;

/// The sum of what a call makes of a text for each of these characters and each context, where 0 stands
/// for the character.
fn sum_of_texts(
    characters: impl Iterator<Item = char>,
    contexts: &[&[u32]],
    call: impl Fn(&mut Buffer),
) -> u64 {
    let (mut sum, mut buffer) = (Sum::new(), Buffer::default());
    let mut characters = characters.peekable();
    while let Some(character) = characters.next() {
        for other in contexts.iter().copied().flatten() {
            let c = if *other == 0 {
                character.into()
            } else {
                *other
            };
            buffer.push(letter(c, buffer.len() as u32)).unwrap();
        }
        if buffer.len() > 1000 || characters.peek().is_none() {
            call(&mut buffer);
            for glyph in buffer.glyphs() {
                let bytes = [glyph.mask as u8, glyph.category, glyph.auxiliary, 0];
                sum.add(u64::from(glyph.glyph_id) << 32 | u64::from(glyph.cluster));
                sum.add(u32::from_be_bytes(bytes));
            }
            buffer.truncate(0);
        }
    }
    sum.0
}

/// The sum of the forms of these glyphs, by Arabic's `setup_masks`.
fn sum_of_forms(texts: impl Iterator<Item = Vec<GlyphInfo>>) -> u64 {
    let plan = plan_with_masks(Shaper::Arabic, b"Syrc");
    let mut sum = Sum::new();
    for text in texts {
        let mut buffer = buffer_of(&text, 100_000);
        let done = Shaper::Arabic.setup_masks(&plan, &Whole, &Told, &mut buffer);
        assert!(done.is_some());
        sum.add_glyphs(buffer.glyphs());
    }
    sum.0
}

#[test]
fn table_of_joining() {
    let letters = (0..8_usize.pow(4)).map(|i| {
        let types = [i / 512, i / 64 % 8, i / 8 % 8, i % 8].map(|i| of_type(JOINING_TYPES[i]));
        (0..).zip(types).map(|(i, c)| letter(c, i)).collect()
    });
    assert_eq!(sum_of_forms(letters), 0xF575_AF90_BBC4_BD61);
}

#[test]
fn table_of_categories_passed_over() {
    let dual = letter(of_type(JoiningType::D), 0);
    let texts = JOINING_TYPES.iter().flat_map(|joining_type| {
        GeneralCategory::ALL.map(|general_category| {
            let middle = letter(of_type(*joining_type), 1);
            vec![
                dual,
                GlyphInfo {
                    unicode_props: UnicodeProps::new(general_category, 0),
                    ..middle
                },
                dual,
            ]
        })
    });
    assert_eq!(sum_of_forms(texts), 0x805D_AA58_360D_45D0);
}

#[test]
fn table_of_selectors() {
    let plan = plan_of(Shaper::Arabic, b"Mong");
    let dual = of_type(JoiningType::D);
    let sum = sum_of_texts(EVERY, &[&[dual, dual, 0]], |buffer| {
        assert!(
            Shaper::Arabic
                .setup_masks(&plan, &Whole, &Told, buffer)
                .is_some()
        );
    });
    assert_eq!(sum, 0x97B1_59C2_9C25_9785);
}

#[test]
fn table_of_modifiers() {
    let plan = plan_of(Shaper::Arabic, b"Arab");
    let mut sum = Sum::new();
    let mut buffer = buffer_of(&[mark(0x64E, 0, 27); 2], 2);
    for c in EVERY.map(u32::from) {
        for class in [220, 230] {
            buffer.set(0, mark(0x64E, 0, 27));
            buffer.set(1, mark(c, 0, class));
            assert!(
                Shaper::Arabic
                    .reorder_marks(&plan, &mut buffer, 0, 2)
                    .is_some()
            );
            sum.add(buffer.glyphs()[0].glyph_id);
            let props = buffer.glyphs()[0].unicode_props;
            sum.add(props.modified_combining_class());
        }
    }
    assert_eq!(sum.0, 0xD68E_C3D7_93AD_5B15);
}

#[test]
fn table_of_combining_classes() {
    let mut sum = Sum::new();
    for (shaper, script) in [(Shaper::Arabic, b"Arab"), (Shaper::Hebrew, b"Hebr")] {
        let plan = plan_of(shaper, script);
        let classes = [
            0, 10, 14, 15, 16, 17, 18, 19, 20, 21, 22, 23, 24, 25, 26, 27, 219, 220, 221,
        ]
        .into_iter()
        .chain(229..=231);
        let classes: Vec<u8> = classes.collect();
        for (i, a) in classes.iter().enumerate() {
            for (b, c) in classes[i..]
                .iter()
                .flat_map(|b| classes.iter().map(move |c| (b, c)))
            {
                let marks = [(0x654, *a), (0x655, *b), (0x64E, *c)];
                let marks = (0..).zip(marks).map(|(i, (id, class))| mark(id, i, class));
                let mut buffer: Buffer = marks.collect();
                assert!(shaper.reorder_marks(&plan, &mut buffer, 0, 3).is_some());
                sum.add_glyphs(buffer.glyphs());
            }
        }
    }
    assert_eq!(sum.0, 0xE69E_1ED9_7AE5_61D3);
}

#[test]
fn table_of_categories_in_words() {
    let plan = plan_of(Shaper::Arabic, b"Arab");
    let mut sum = Sum::new();
    for general_category in GeneralCategory::ALL {
        // what lookups did in the low three bits, and the bits IGNORABLE and CONTINUATION
        for marks in 0..32_u16 {
            let bits = UnicodeProps((marks >> 3 & 1) << 5 | (marks >> 4) << 7);
            let word = GlyphInfo {
                unicode_props: UnicodeProps::new(general_category, 0) | bits,
                glyph_props: GlyphProps((marks & 7) << 4),
                ..letter(1, 0)
            };
            let tile = |auxiliary| GlyphInfo {
                auxiliary,
                ..letter(3, 1)
            };
            let mut buffer = buffer_of(&[word, tile(8), tile(9), tile(8)], 1000);
            buffer.set_direction(Direction::RightToLeft);
            buffer.set_has_stch(true);
            set_advances(&mut buffer, &[950, 100, 100, 100]);
            let returned = Shaper::Arabic.postprocess_glyphs(&plan, &Whole, &mut buffer);
            assert_eq!(returned, Ok(Some(())));
            sum.add_glyphs(buffer.glyphs());
        }
    }
    assert_eq!(sum.0, 0x0516_1B2E_DBD0_FD65);
}

/// A glyph that is one of several for one is a tile, fixed where its component is even, and repeated
/// where it's odd; a ligature itself has component 0.
#[test]
fn table_of_tiles() {
    let plan = plan_with(Shaper::Arabic, b"Arab", &[(b"stch", 8)]);
    for lig_props in 0..=u8::MAX {
        for glyph_props in 0..=0x1FF_u16 {
            let glyph = GlyphInfo {
                lig_props: LigProps(lig_props),
                glyph_props: GlyphProps(glyph_props),
                auxiliary: 5,
                ..letter(1, 0)
            };
            let is_tile = glyph_props & 0x40 != 0;
            let is_repeated = lig_props & 0x10 == 0 && lig_props & 1 == 1;
            let auxiliary = match (is_tile, is_repeated) {
                (true, true) => 9,
                (true, false) => 8,
                (false, _) => 5,
            };
            let mut buffer = buffer_of(&[glyph], 1);
            run_pause(Pause::RecordStch, &plan, &Whole, &[], &mut buffer).unwrap();
            assert_eq!(buffer.get(0), GlyphInfo { auxiliary, ..glyph });
            assert_eq!(buffer.has_stch(), is_tile);
        }
    }
}

#[test]
fn table_of_jamo() {
    let plan = plan_of(Shaper::Hangul, b"Hang");
    let contexts: [&[u32]; 7] = [
        &[0x61, 0],
        &[0x61, 0x1100, 0],
        &[0x61, 0xA960, 0],
        &[0x61, 0x1100, 0x1161, 0],
        &[0x61, 0, 0x1161],
        &[0x61, 0xAC00, 0],
        &[0x61, 0, 0x302E],
    ];
    let near = ('\u{10F0}'..='\u{1210}')
        .chain('\u{3020}'..='\u{3040}')
        .chain('\u{A950}'..='\u{A990}')
        .chain('\u{ABF0}'..='\u{AD00}')
        .chain('\u{D700}'..='\u{D7FF}');
    let by_jamo = |buffer: &mut Buffer| {
        Shaper::Hangul
            .preprocess_text(&plan, &Whole, buffer)
            .unwrap();
    };
    let by_syllables = |buffer: &mut Buffer| {
        Shaper::Hangul
            .preprocess_text(&plan, &Syllables, buffer)
            .unwrap();
    };
    let sums = [
        sum_of_texts(near.clone(), &contexts, by_jamo),
        sum_of_texts(near, &contexts, by_syllables),
        sum_of_texts(EVERY, &[&[0x1100, 0]], by_jamo),
    ];
    assert_eq!(
        sums,
        [
            0x926F_7606_3508_163F,
            0x992C_CF24_5A21_17B9,
            0x5F30_7B31_EF20_6E61
        ]
    );
}

/// A font with syllables of Hangul.
struct Syllables;

impl Font for Syllables {
    fn nominal_glyph(&self, c: u32) -> Option<GlyphId> {
        Some(GlyphId(c as u16))
    }

    fn glyph_h_advance(&self, glyph: GlyphId) -> i32 {
        Whole.glyph_h_advance(glyph)
    }

    fn would_apply(&self, _lookup: u16, _glyphs: &[GlyphId], _zero_context: bool) -> bool {
        false
    }

    fn has_feature(&self, _tag: Tag) -> bool {
        false
    }
}

#[test]
fn table_of_thai() {
    let plan = plan_of(Shaper::Thai, b"Thai");
    // a base of each type before it, marks of each type before and behind it
    let mut contexts: Vec<&[u32]> = vec![
        &[0, 0xE48],
        &[0, 0xE31, 0xE48],
        &[0, 0xE34],
        &[0, 0xE38],
        &[0, 0xE38, 0xE38],
        &[0x61, 0, 0xE33],
        &[0xE01, 0xE31, 0, 0xE33],
    ];
    for base in [&0xE01, &0xE1B, &0xE0D, &0xE0E, &0x61] {
        contexts.push(std::slice::from_ref(base));
    }
    let behind: Vec<_> = [0xE01, 0xE1B, 0xE0D, 0xE0E, 0x61]
        .into_iter()
        .flat_map(|base| [vec![base, 0], vec![base, 0xE31, 0], vec![base, 0xE38, 0]])
        .collect();
    contexts.extend(behind.iter().map(Vec::as_slice));
    let windows = NominalOnly(|c| (!(0xF880..0xF8A0).contains(&c)).then_some(GlyphId(1)));
    let macintosh = NominalOnly(|c| (!(0xF700..0xF720).contains(&c)).then_some(GlyphId(1)));
    let near = || '\u{DF0}'..='\u{F10}';
    let by_windows = |buffer: &mut Buffer| {
        Shaper::Thai
            .preprocess_text(&plan, &windows, buffer)
            .unwrap();
    };
    let by_macintosh = |buffer: &mut Buffer| {
        Shaper::Thai
            .preprocess_text(&plan, &macintosh, buffer)
            .unwrap();
    };
    let lao = plan_of(Shaper::Thai, b"Laoo");
    let in_lao = |buffer: &mut Buffer| {
        Shaper::Thai
            .preprocess_text(&lao, &windows, buffer)
            .unwrap();
    };
    let sums = [
        sum_of_texts(near(), &contexts, by_windows),
        sum_of_texts(near(), &contexts, by_macintosh),
        sum_of_texts(
            near(),
            &[&[0xEB4, 0], &[0, 0xEB3], &[0xEB4, 0, 0xEB3]],
            in_lao,
        ),
        sum_of_texts(EVERY, &[&[0xE1B, 0, 0xE33]], by_windows),
    ];
    assert_eq!(
        sums,
        [
            0x8217_D63B_4BC9_A689,
            0x4BAF_FD5E_4BC9_A689,
            0xBB8A_FDE5_800D_FA6F,
            0x1C4E_CAE1_B405_675B
        ]
    );
}

fn lacking<T>() -> T {
    panic!("the shaper lacks the hook")
}

#[test]
fn table_of_hebrew_forms() {
    let plan = plan_of(Shaper::Hebrew, b"Hebr");
    let hebrew = ('\u{590}'..='\u{600}').chain('\u{FB1D}'..='\u{FB50}');
    let near = hebrew
        .clone()
        .flat_map(|a| hebrew.clone().map(move |b| (a, b)));
    let far = EVERY
        .map(|a| (a, '\u{5BC}'))
        .chain(EVERY.map(|b| ('\u{5E9}', b)));
    let mut sum = Sum::new();
    for (a, b) in near.chain(far) {
        let composed = Shaper::Hebrew
            .compose(&plan, &Told, a, b)
            .unwrap_or_else(lacking);
        sum.add(composed.map_or(0, u32::from));
    }
    assert_eq!(sum.0, 0x779F_AE37_B687_C1EA);
}

#[test]
fn table_of_decompositions() {
    let mut sum = Sum::new();
    for (shaper, script) in [(Shaper::Indic, b"Beng"), (Shaper::Khmer, b"Khmr")] {
        let plan = plan_of(shaper, script);
        for ab in EVERY {
            let alone = shaper.decompose(&plan, &Told, ab).unwrap_or_else(lacking);
            let by_tables = shaper
                .decompose(&plan, &Composing(GeneralCategory::Lo), ab)
                .unwrap_or_else(lacking);
            for (a, b) in [alone, by_tables].into_iter().flatten() {
                sum.add(u32::from(a));
                sum.add(u32::from(b));
            }
            sum.add(alone.is_some());
        }
    }
    assert_eq!(sum.0, 0xEEA5_67CE_F998_65E4);
}

#[test]
fn table_of_compositions() {
    let mut sum = Sum::new();
    let shapers = [
        (Shaper::Indic, b"Beng"),
        (Shaper::Khmer, b"Khmr"),
        (Shaper::Universal, b"Tibt"),
    ];
    for (shaper, script) in shapers {
        let plan = plan_of(shaper, script);
        for category in GeneralCategory::ALL {
            let composed = shaper
                .compose(&plan, &Composing(category), 'a', 'b')
                .unwrap_or_else(lacking);
            sum.add(composed.is_some());
        }
        for a in EVERY {
            let tables = Composing(GeneralCategory::Lo);
            let composed = shaper
                .compose(&plan, &tables, a, '\u{9BC}')
                .unwrap_or_else(lacking);
            sum.add(composed.map_or(0, u32::from));
        }
    }
    assert_eq!(sum.0, 0x61D8_7038_CB28_F774);
}

/// The categories and positions that a syllable's glyphs are drawn from, two behind the first.
type Glyph = (Category, Position);

/// The sum of what pauses make of syllables, each of a glyph, two others, and a last one.
fn sum_of_syllables(
    plan: &Plan,
    pauses: &[Pause],
    kinds: &[u8],
    first: Glyph,
    others: &[Glyph],
    last: Glyph,
) -> u64 {
    let mut sum = Sum::new();
    for kind in kinds {
        for (a, b) in others
            .iter()
            .flat_map(|a| others.iter().map(move |b| (a, b)))
        {
            let glyphs = (0..)
                .zip([first, *a, *b, last])
                .map(|(i, (category, auxiliary))| GlyphInfo {
                    category,
                    auxiliary,
                    syllable: 0x10 | kind,
                    ..letter(i + 1, i)
                });
            let mut buffer: Buffer = glyphs.collect();
            buffer.set_script(plan.script);
            for pause in pauses {
                run_pause(*pause, plan, &Whole, &[], &mut buffer).unwrap();
            }
            sum.add_glyphs(buffer.glyphs());
        }
    }
    sum.0
}

/// A plan with a mask for each feature that a reordering reads.
fn plan_with_masks(shaper: Shaper, script: &[u8; 4]) -> Plan {
    let features: Vec<_> = (0..)
        .zip(FEATURES)
        .map(|(i, tag)| (tag, 8_u32 << (i % 29)))
        .collect();
    plan_with(shaper, script, &features)
}

#[test]
fn table_of_indic_syllables() {
    let others: Vec<Glyph> = (0..24)
        .flat_map(|category| [4, 8].map(|it| (category, it)))
        .collect();
    let positions: Vec<Glyph> = (0..16)
        .flat_map(|position| [7, 1].map(|it| (it, position)))
        .collect();
    let scripts = [
        b"Deva", b"Beng", b"Guru", b"Gujr", b"Orya", b"Taml", b"Telu", b"Knda", b"Mlym", b"Sinh",
    ];
    let mut sum = Sum::new();
    for script in scripts {
        let plan = plan_with_masks(Shaper::Indic, script);
        let pauses = [Pause::InitialReordering, Pause::FinalReordering];
        for others in [&others, &positions] {
            sum.add(sum_of_syllables(
                &plan,
                &pauses,
                &[0, 1, 5],
                (1, 4),
                others,
                (1, 4),
            ));
        }
    }
    assert_eq!(sum.0, 0x48B5_0356_17C8_A739);
}

#[test]
fn table_of_other_syllables() {
    let categories: Vec<Glyph> = (0..=u8::MAX).map(|category| (category, 0)).collect();
    let sums = [
        (Shaper::Khmer, b"Khmr", Pause::ReorderKhmer),
        (Shaper::Myanmar, b"Mymr", Pause::ReorderMyanmar),
        (Shaper::Universal, b"Bali", Pause::ReorderUse),
    ]
    .map(|(shaper, script, pause)| {
        let plan = plan_with_masks(shaper, script);
        sum_of_syllables(&plan, &[pause], &[0], (1, 0), &categories, (1, 0))
    });
    assert_eq!(
        sums,
        [
            0x5E85_128A_7EA9_6C75,
            0x7E42_0793_B10E_C402,
            0x9C44_4FA8_4DFF_A1C9
        ]
    );
}

#[test]
fn table_of_kinds() {
    let mut sum = Sum::new();
    let pauses = [
        (
            Shaper::Indic,
            b"Deva",
            Pause::SetupSyllablesIndic,
            Pause::InitialReordering,
        ),
        (
            Shaper::Khmer,
            b"Khmr",
            Pause::SetupSyllablesKhmer,
            Pause::ReorderKhmer,
        ),
        (
            Shaper::Myanmar,
            b"Mymr",
            Pause::SetupSyllablesMyanmar,
            Pause::ReorderMyanmar,
        ),
        (
            Shaper::Universal,
            b"Bali",
            Pause::SetupSyllablesUse,
            Pause::ReorderUse,
        ),
    ];
    for (shaper, script, setup, reorder) in pauses {
        let plan = plan_with_masks(shaper, script);
        for (kind, category) in (0..16).flat_map(|kind| (0..64).map(move |it| (kind, it))) {
            let letters = [category, 7, 1];
            let glyphs = (0..).zip(letters).map(|(i, category)| GlyphInfo {
                category,
                ..letter(i, i)
            });
            let mut buffer: Buffer = glyphs.collect();
            let spans = [Span { len: 3, kind }];
            run_pause(setup, &plan, &Whole, &spans, &mut buffer).unwrap();
            let returned = run_pause(reorder, &plan, &Whole, &[], &mut buffer);
            sum.add(u8::from(returned.is_ok()));
            sum.add_glyphs(buffer.glyphs());
        }
    }
    assert_eq!(sum.0, 0x2846_DE8B_2078_84BB);
}

#[test]
fn table_of_masks() {
    let mut sum = Sum::new();
    let shapers = [
        (Shaper::Indic, b"Deva"),
        (Shaper::Khmer, b"Khmr"),
        (Shaper::Myanmar, b"Mymr"),
        (Shaper::Universal, b"Bali"),
    ];
    for (shaper, script) in shapers {
        let plan = plan_with_masks(shaper, script);
        sum.add(sum_of_texts(EVERY, &[&[0]], |buffer| {
            assert!(shaper.setup_masks(&plan, &Whole, &Told, buffer).is_some());
        }));
    }
    let plan = plan_with_masks(Shaper::Hangul, b"Hang");
    for auxiliary in 0..4 {
        let mut buffer: Buffer = [GlyphInfo {
            auxiliary,
            ..letter(1, 0)
        }]
        .into_iter()
        .collect();
        let done = Shaper::Hangul.setup_masks(&plan, &Whole, &Told, &mut buffer);
        assert!(done.is_some());
        sum.add_glyphs(buffer.glyphs());
    }
    assert_eq!(sum.0, 0xFD4E_3745_95BD_71B9);
}
