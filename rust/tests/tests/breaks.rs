//! Texts that are broken where no flag forbids it: what joining makes of the pieces, each by itself,
//! is what it makes of the whole. HarfBuzz tests itself so by `hb-shape --verify`. Texts put together
//! where no flag forbids it keep their forms, and edits stay near.

use sengadlit::alloc::Global;
use sengadlit::buffer::{BufferFlags, GeneralCategory, UnicodeProps};
use sengadlit::font::NominalOnly;
use sengadlit::map::FeatureMap;
use sengadlit::plan::{BreakFlags, Category, JoiningType, Position};
use sengadlit::{Buffer, GlyphInfo, Plan, Script, Shaper, Tables, Tag};
use sengadlit_tests::End;
use sengadlit_tests::numbers::Numbers;
use sengadlit_tests::pieces::{breaks_at, edited, is_bare, is_clear, piece, put_together, shown};
use std::fs;
use std::ops::Range;
use std::path::Path;

/// The characters that texts are made of, by the joining types that they stand for.
const MIXES: [&str; 8] = [
    "ULRDAETXx",
    "DT",
    "RAE",
    "RDAT",
    "DRTX",
    "LDAE",
    "DT\u{180B}\u{180C}",
    "ULRDAETXx\u{180B}\u{180F}",
];

/// How many texts of each mix are broken.
const TEXTS: u64 = 10_000;

/// How long a text may become that is put together or edited.
const LIMIT: usize = 32;

/// A letter stands for the joining type of its name: A and E for the groups of Alaph and of Dalath
/// and Rish, X for a mark and x for a letter whose type the table doesn't tell.
struct Letters;

impl Tables for Letters {
    fn joining_type(&self, c: char) -> JoiningType {
        match c {
            'L' => JoiningType::L,
            'R' => JoiningType::R,
            'D' => JoiningType::D,
            'A' => JoiningType::GroupAlaph,
            'E' => JoiningType::GroupDalathRish,
            'T' | '\u{180B}'..='\u{180D}' | '\u{180F}' => JoiningType::T,
            'X' | 'x' => JoiningType::X,
            _ => JoiningType::U,
        }
    }

    fn general_category(&self, c: char) -> GeneralCategory {
        match c {
            'T' | 'X' | '\u{180B}'..='\u{180D}' | '\u{180F}' => GeneralCategory::Mn,
            _ => GeneralCategory::Lo,
        }
    }

    fn indic_categories(&self, _c: u32) -> (Category, Position) {
        (0, 14)
    }

    fn use_category(&self, c: u32) -> Category {
        (c % 5) as Category
    }

    fn compose(&self, _a: char, _b: char) -> Option<char> {
        None
    }

    fn decompose(&self, _ab: char) -> Option<(char, char)> {
        None
    }
}

/// A text between its contexts, and the plan that it is joined by.
struct Text {
    shaper: Shaper,
    plan: Plan,
    buffer: Buffer,
}

impl Text {
    fn join(&self, buffer: &mut Buffer) {
        let font = NominalOnly(|_| None);
        let done = self.shaper.setup_masks(&self.plan, &font, &Letters, buffer);
        assert_eq!(done, Some(()));
    }

    /// What joining makes of these places of the text by themselves.
    fn joined(&self, places: Range<usize>) -> Vec<GlyphInfo> {
        let mut piece = piece(&self.buffer, places);
        self.join(&mut piece);
        piece.glyphs().to_vec()
    }

    fn breaks_at(&self, whole: &[GlyphInfo], place: usize) -> bool {
        breaks_at(&self.buffer, whole, place, |buffer| self.join(buffer))
    }

    /// Whether the piece before a place keeps what it has in the whole.
    fn first_keeps(&self, whole: &[GlyphInfo], place: usize) -> bool {
        let first = self.joined(0..place);
        first.iter().map(shown).eq(whole[..place].iter().map(shown))
    }

    fn rises(&self) -> bool {
        let glyphs = self.buffer.glyphs();
        glyphs.is_sorted_by(|a, b| a.cluster < b.cluster)
    }

    fn falls(&self) -> bool {
        let glyphs = self.buffer.glyphs();
        glyphs.is_sorted_by(|a, b| a.cluster > b.cluster)
    }

    /// Whether each glyph is a cluster of its own, clusters rise or fall, and none was flagged. No
    /// mask of a form has a glyph flag here, and selectors are transparent.
    fn is_fresh(&self) -> bool {
        let unflagged = self.buffer.glyphs().iter().all(|glyph| glyph.mask & 5 == 0);
        (self.rises() || self.falls()) && unflagged
    }

    fn is_mongolian(&self) -> bool {
        self.plan.script == Some(Script(*b"Mong"))
    }

    /// How many selectors of Mongolian open these glyphs: they take the form of what is before them.
    fn opening_selectors(&self, glyphs: &[GlyphInfo]) -> usize {
        let is_selector = |glyph: &&GlyphInfo| matches!(glyph.glyph_id, 0x180B..=0x180D | 0x180F);
        match self.plan.script {
            Some(Script([b'M', b'o', b'n', b'g'])) => glyphs.iter().take_while(is_selector).count(),
            _ => 0,
        }
    }

    /// A letter at this place and the selectors directly behind it, or nothing.
    fn near(&self, glyphs: &[GlyphInfo], letter: Option<usize>) -> Range<usize> {
        match letter {
            Some(place) => place..place + 1 + self.opening_selectors(&glyphs[place + 1..]),
            None => 0..0,
        }
    }
}

/// Whether joining doesn't look past the character.
fn is_letter(character: char) -> bool {
    Letters.general_category(character) != GeneralCategory::Mn
}

fn is_letter_glyph(glyph: &GlyphInfo) -> bool {
    char::from_u32(glyph.glyph_id).is_some_and(is_letter)
}

/// Whether two stretches have the same glyphs, clusters and glyph flags apart.
fn are_same(one: &[GlyphInfo], two: &[GlyphInfo]) -> bool {
    one.iter().map(shown).eq(two.iter().map(shown))
}

/// The plan of a script, with masks of forms that share no bit.
fn plan(shaper: Shaper, script: Script, breaks: BreakFlags) -> Plan {
    let tags = [
        *b"isol", *b"fina", *b"fin2", *b"fin3", *b"medi", *b"med2", *b"init",
    ];
    let features: Vec<_> = (0..)
        .zip(tags)
        .map(|(stage, tag)| FeatureMap::new(Tag(tag), 8 << stage, stage))
        .collect();
    let stages = vec![0..0; features.len()];
    let plan = Plan::builder()
        .script(script)
        .features(&features)
        .stages(&stages)
        .break_flags(breaks);
    plan.build_for(shaper).unwrap()
}

/// Characters of a mix, fewer than `end`.
fn characters(numbers: &mut Numbers, mix: &[char], end: usize) -> Vec<char> {
    (0..numbers.below(end))
        .map(|_| numbers.one_of(mix))
        .collect()
}

/// Clusters of a text: each its own, rising or falling, or any.
fn clusters(numbers: &mut Numbers, count: usize) -> Vec<u32> {
    let rising = 0..count as u32;
    match numbers.below(4) {
        0 => rising.rev().collect(),
        1 => rising.map(|_| numbers.below(4) as u32).collect(),
        2 => rising.map(|place| place / 2).collect(),
        _ => rising.collect(),
    }
}

/// A text of a mix, drawn by lot, and the plan that it is joined by.
fn random_text(numbers: &mut Numbers, mix: &str, breaks: BreakFlags) -> Text {
    let is_mongolian = mix.contains('\u{180B}');
    let script = Script(*if is_mongolian { b"Mong" } else { b"Syrc" });
    let shaper = numbers.one_of(&[Shaper::Arabic, Shaper::Universal]);
    let buffer = random_buffer(numbers, mix);
    Text {
        shaper,
        plan: plan(shaper, script, breaks),
        buffer,
    }
}

/// A text of a mix between its contexts, drawn by lot; in one of eight a glyph is flagged before it is joined.
fn random_buffer(numbers: &mut Numbers, mix: &str) -> Buffer {
    let mix: Vec<char> = mix.chars().collect();
    let text = characters(numbers, &mix, 9);
    let clusters = clusters(numbers, text.len());
    let mut buffer = Buffer::new(Global, LIMIT);
    let flagged = numbers.below(64);
    for (place, (&character, cluster)) in text.iter().zip(clusters).enumerate() {
        let mut glyph = GlyphInfo::of_character(character, cluster);
        glyph.unicode_props = UnicodeProps::new(Letters.general_category(character), 0);
        if place == flagged {
            glyph.mask = numbers.below(8) as u32;
        }
        buffer.push(glyph).unwrap();
    }
    buffer.set_flags(BufferFlags(numbers.one_of(&[0, 0x40, 0x80, 0xC0])));
    buffer.set_pre_context(&characters(numbers, &mix, 4));
    buffer.set_post_context(&characters(numbers, &mix, 4));
    buffer
}

/// Breaks texts of every mix, and calls the test with each text, the whole and each place in it.
fn at_each_place(breaks: BreakFlags, mut test: impl FnMut(&Text, &[GlyphInfo], usize)) {
    for (mix, seed) in MIXES.into_iter().zip(0..) {
        let mut numbers = Numbers::new(seed);
        for _ in 0..TEXTS {
            let text = random_text(&mut numbers, mix, breaks);
            let whole = text.joined(0..text.buffer.len());
            for place in 1..text.buffer.len() {
                test(&text, &whole, place);
            }
        }
    }
}

#[test]
fn with_sound_a_text_may_be_broken_at_every_clear_place() {
    let (mut clear, mut others) = (0, 0);
    at_each_place(BreakFlags::Sound, |text, whole, place| {
        if is_clear(whole, place) {
            clear += 1;
            assert!(
                text.breaks_at(whole, place),
                "{:x?} at {place}",
                text.buffer.glyphs()
            );
        } else {
            others += 1;
        }
    });
    assert!(clear > 30_000 && others > 30_000, "{clear} and {others}");
}

#[test]
fn with_sound_no_flag_of_a_fresh_text_is_needless() {
    let (mut rising, mut falling, mut mongolian) = (0, 0, 0);
    at_each_place(BreakFlags::Sound, |text, whole, place| {
        if text.is_fresh() {
            rising += usize::from(text.rises());
            falling += usize::from(text.falls());
            mongolian += usize::from(text.is_mongolian());
            assert_eq!(
                is_clear(whole, place),
                text.breaks_at(whole, place),
                "{:x?} at {place}",
                text.buffer.glyphs()
            );
        }
    });
    let counts = [rising, falling, mongolian];
    assert!(counts.iter().all(|&count| count > 20_000), "{counts:?}");
}

#[test]
fn the_first_piece_keeps_its_forms_at_every_clear_place() {
    for breaks in [BreakFlags::AsCode, BreakFlags::Sound] {
        let (mut kept, mut lost) = (0, 0);
        at_each_place(breaks, |text, whole, place| {
            if is_clear(whole, place) {
                assert!(
                    text.first_keeps(whole, place),
                    "{:x?} at {place}",
                    text.buffer.glyphs()
                );
                *if text.breaks_at(whole, place) {
                    &mut kept
                } else {
                    &mut lost
                } += 1;
            }
        });
        let loses = breaks == BreakFlags::AsCode;
        assert!(kept > 30_000 && (lost > 1000) == loses, "{kept}, {lost}");
    }
}

#[test]
fn as_the_code_flags_it_the_first_piece_keeps_no_forms_where_a_fresh_text_is_not_clear() {
    let (mut rising, mut falling, mut mongolian) = (0, 0, 0);
    at_each_place(BreakFlags::AsCode, |text, whole, place| {
        if text.is_fresh() && !is_clear(whole, place) {
            rising += usize::from(text.rises());
            falling += usize::from(text.falls());
            mongolian += usize::from(text.is_mongolian());
            assert!(
                !text.first_keeps(whole, place),
                "{:x?} at {place}",
                text.buffer.glyphs()
            );
        }
    });
    let counts = [rising, falling, mongolian];
    assert!(counts.iter().all(|&count| count > 5000), "{counts:?}");
}

/// A glyph as the program prints it: its cluster, its flags, and the line without these.
struct Printed {
    cluster: u32,
    flags: u32,
    shown: String,
}

/// The glyphs that a script prints with the choice `Sound`, unless it is refused.
fn printed(lines: &[String]) -> Option<Vec<Printed>> {
    let script = lines
        .join("\n")
        .replace("run masks", "set breaks sound\nrun masks");
    let end = End::of(script.as_bytes());
    if end.status != 0 {
        return None;
    }
    let glyphs = String::from_utf8(end.printed).unwrap();
    let fields = glyphs
        .lines()
        .map(|line| line.split(' ').collect::<Vec<_>>());
    let glyphs = fields.map(|fields| {
        let mask = u32::from_str_radix(fields[2], 16).unwrap();
        Printed {
            cluster: fields[1].parse().unwrap(),
            flags: mask & 5,
            shown: format!("{} {:08x} {}", fields[0], mask & !7, fields[3..].join(" ")),
        }
    });
    Some(glyphs.collect())
}

/// The lines with some characters of the text alone, of which the inner context is empty.
fn piece_of(lines: &[String], places: Range<usize>, len: usize) -> Vec<String> {
    let mut lines = lines.to_vec();
    for line in &mut lines {
        if let Some(text) = line.strip_prefix("text ") {
            let characters: Vec<&str> = text.split(' ').collect();
            *line = format!("text {}", characters[places.clone()].join(" "));
        } else if line.starts_with("context 0") && places.start > 0 {
            *line = "context 0".into();
        } else if line.starts_with("context 1") && places.end < len {
            *line = "context 1".into();
        }
    }
    lines
}

/// Breaks the text of the lines of a row at each clear place, where the pieces must be the whole: at
/// how many places.
fn broken_everywhere(lines: &[String]) -> usize {
    let Some(whole) = printed(lines) else {
        return 0;
    };
    let is_clear = |place: &usize| {
        let (left, right) = (whole[place - 1].cluster, whole[*place].cluster);
        let mut greater = whole
            .iter()
            .filter(|glyph| glyph.cluster == left.max(right));
        left != right && greater.all(|glyph| glyph.flags == 0)
    };
    let clear: Vec<usize> = (1..whole.len()).filter(is_clear).collect();
    for &place in &clear {
        let mut pieces = printed(&piece_of(lines, 0..place, whole.len())).unwrap();
        pieces.extend(printed(&piece_of(lines, place..whole.len(), whole.len())).unwrap());
        let shown =
            |glyphs: &[Printed]| glyphs.iter().map(|it| it.shown.clone()).collect::<Vec<_>>();
        assert_eq!(shown(&pieces), shown(&whole), "{lines:?} at {place}");
    }
    clear.len()
}

#[test]
fn texts_of_the_worked_rows_may_be_broken_at_every_clear_place() {
    let data = Path::new(env!("CARGO_MANIFEST_DIR")).join("../../crates/hbhook_rows/data");
    let mut count = 0;
    for file in ["arabic.rows", "universal.rows"] {
        let rows = fs::read_to_string(data.join(file)).unwrap();
        for row in rows.split("\n\n") {
            let lines = row.lines().filter_map(|line| line.strip_prefix("> "));
            let mut lines: Vec<String> = lines.map(String::from).collect();
            let Some(end) = lines.iter().position(|line| line.starts_with("run ")) else {
                continue;
            };
            lines.truncate(end + 1);
            // (glyphs that lines change by their places don't stand in pieces)
            if lines[end] == "run masks" && !lines.iter().any(|line| line.starts_with("at ")) {
                count += broken_everywhere(&lines);
            }
        }
    }
    assert!(count > 20, "{count}");
}

/// Puts the text and another together wherever no flag forbids it, and returns in how many ways.
fn put_together_everywhere(text: &Text, two: &Buffer) -> usize {
    let one = text.joined(0..text.buffer.len());
    let mut joined = two.copy().unwrap();
    text.join(&mut joined);
    let other = joined.glyphs();
    let letter_follows = two.post_context().iter().copied().any(is_letter);
    let has_own_letter =
        |place: &usize| !letter_follows || other[*place..].iter().any(is_letter_glyph);
    let starts = (1..other.len()).filter(|&place| is_bare(other, place));
    let starts: Vec<_> = starts.filter(has_own_letter).collect();
    let ends = (1..one.len()).filter(|&place| is_clear(&one, place));
    let mut count = 0;
    for end in ends {
        for &start in &starts {
            let mut both = put_together(&text.buffer, end, two, start);
            text.join(&mut both);
            let both = both.glyphs();
            let selectors = text.opening_selectors(&other[start..]);
            assert!(
                are_same(&both[..end], &one[..end])
                    && are_same(&both[end + selectors..], &other[start + selectors..]),
                "{:x?} up to {end} and {:x?} from {start} on",
                text.buffer.glyphs(),
                two.glyphs()
            );
            count += 1;
        }
    }
    count
}

#[test]
fn texts_may_be_put_together_where_no_flag_forbids_it() {
    let mut counts = [0, 0];
    for (breaks, count) in [BreakFlags::AsCode, BreakFlags::Sound]
        .into_iter()
        .zip(&mut counts)
    {
        for (mix, seed) in MIXES.into_iter().zip(100..) {
            let mut numbers = Numbers::new(seed);
            for _ in 0..TEXTS {
                let text = random_text(&mut numbers, mix, breaks);
                let mut two = random_buffer(&mut numbers, mix);
                two.set_flags(BufferFlags(two.flags().0 | 0x40));
                *count += put_together_everywhere(&text, &two);
            }
        }
    }
    assert!(counts.into_iter().all(|count| count > 10_000), "{counts:?}");
}

/// Edits the text, and returns how many glyphs beside the edit changed.
fn edit(text: &Text, places: Range<usize>, others: &[GlyphInfo]) -> usize {
    let Range { start, end } = places;
    let shift = start + others.len();
    let one = text.joined(0..text.buffer.len());
    let mut two = edited(&text.buffer, places, others);
    text.join(&mut two);
    let two = two.glyphs();
    let before = &one[..start];
    let last = text.near(before, before.iter().rposition(is_letter_glyph));
    let behind = &one[end..];
    let opening = text.opening_selectors(behind);
    let first = text.near(behind, behind.iter().position(is_letter_glyph));
    let mut count = 0;
    for place in 0..before.len() {
        let stays = shown(&one[place]) == shown(&two[place]);
        assert!(
            stays || last.contains(&place),
            "{one:x?}, {two:x?} at {place}"
        );
        count += usize::from(!stays);
    }
    for place in 0..behind.len() {
        let stays = shown(&behind[place]) == shown(&two[shift + place]);
        assert!(
            stays || place < opening || first.contains(&place),
            "{one:x?}, {two:x?} at {place} behind {end}"
        );
        count += usize::from(!stays);
    }
    count
}

#[test]
fn edits_stay_near() {
    let mut counts = [0, 0];
    for (breaks, count) in [BreakFlags::AsCode, BreakFlags::Sound]
        .into_iter()
        .zip(&mut counts)
    {
        for (mix, seed) in MIXES.into_iter().zip(200..) {
            let mut numbers = Numbers::new(seed);
            for _ in 0..TEXTS {
                let text = random_text(&mut numbers, mix, breaks);
                let others = random_buffer(&mut numbers, mix);
                let others = &others.glyphs()[..others.len().min(3)];
                let end = numbers.below(text.buffer.len() + 1);
                let start = numbers.below(end + 1);
                *count += edit(&text, start..end, others);
            }
        }
    }
    assert!(counts.into_iter().all(|count| count > 10_000), "{counts:?}");
}
