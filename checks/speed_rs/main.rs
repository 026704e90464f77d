//! Calls of the crate on made texts; `checks/speed` counts what runs within `counted`. Ten texts have a hundred characters, and
//! two have two thousand whose clusters fall, where a walk that looks for a cluster's first glyph each time would be quadratic.
//! Two more have two thousand whose clusters fall so that neighbouring syllables share one: there each merge floods all that
//! stands before it, and time would be quadratic if what merges flood weren't carried along and written once.
//! Three texts of a hundred characters are shaped in a font, each by a face that is prepared and by one that is only parsed.
//! For each call a line tells its name, the glyphs, and a sum of what it left.

use std::hint::black_box;

use sengadlit::font::NominalOnly;
use sengadlit::spans::setup_syllables_found;
use sengadlit::unicode::UnicodeTables;
use sengadlit::{
    Buffer, Direction, Face, FeatureMap, GlyphBuffer, GlyphId, Pause, Plan, Script, ShapePlan, Shaper, Tag,
    UnicodeBuffer, run_pause, script, shape_with_plan,
};

/// A call: its name, the shaper and script, what the text repeats, the pauses before, and the hook or pause that is counted.
type Case = (&'static str, Shaper, Script, &'static str, &'static [Pause], Counted);

#[derive(Clone, Copy)]
enum Counted {
    PreprocessText,
    SetupMasks,
    SetupSyllables(Pause),
    Pause(Pause),
}

const CASES: [Case; 10] = [
    ("Thai, SARA AM", Shaper::Thai, script::THAI, "\u{E01}\u{E48}\u{E33}\u{E19}", &[], Counted::PreprocessText),
    ("Hangul, jamo", Shaper::Hangul, script::HANGUL, "\u{1112}\u{1161}\u{11AB}", &[], Counted::PreprocessText),
    (
        "joining, Arabic",
        Shaper::Arabic,
        script::ARABIC,
        "\u{627}\u{644}\u{639}\u{631}\u{628} ",
        &[],
        Counted::SetupMasks,
    ),
    (
        "syllables, Devanagari",
        Shaper::Indic,
        script::DEVANAGARI,
        "\u{928}\u{92E}\u{938}\u{94D}\u{924}\u{947} ",
        &[],
        Counted::SetupSyllables(Pause::SetupSyllablesIndic),
    ),
    (
        "initial, Devanagari",
        Shaper::Indic,
        script::DEVANAGARI,
        "\u{939}\u{93F}\u{928}\u{94D}\u{926}\u{940} ",
        &[Pause::SetupSyllablesIndic],
        Counted::Pause(Pause::InitialReordering),
    ),
    (
        "final, Devanagari",
        Shaper::Indic,
        script::DEVANAGARI,
        "\u{939}\u{93F}\u{928}\u{94D}\u{926}\u{940} ",
        &[Pause::SetupSyllablesIndic, Pause::InitialReordering],
        Counted::Pause(Pause::FinalReordering),
    ),
    (
        "order, Khmer",
        Shaper::Khmer,
        script::KHMER,
        "\u{1780}\u{17C1}\u{1781}\u{17D2}\u{179A}\u{1798} ",
        &[Pause::SetupSyllablesKhmer],
        Counted::Pause(Pause::ReorderKhmer),
    ),
    (
        "order, Myanmar",
        Shaper::Myanmar,
        script::MYANMAR,
        "\u{1019}\u{103C}\u{1031}\u{1000}\u{102C} ",
        &[Pause::SetupSyllablesMyanmar],
        Counted::Pause(Pause::ReorderMyanmar),
    ),
    (
        "order, Javanese",
        Shaper::Universal,
        Script(*b"Java"),
        "\u{A98F}\u{A9BA}\u{A9A4}\u{A9C0}\u{A9A0} ",
        &[Pause::SetupSyllablesUse],
        Counted::Pause(Pause::ReorderUse),
    ),
    (
        "clearing, Javanese",
        Shaper::Universal,
        Script(*b"Java"),
        "\u{A98F}\u{A9BA}\u{A9A4}\u{A9C0}\u{A9A0} ",
        &[Pause::SetupSyllablesUse],
        Counted::Pause(Pause::SyllabicClearVar),
    ),
];

/// Calls on long texts, as an engine that numbers clusters from the end makes them.
const FALLING: [Case; 2] = [
    (
        "order, Khmer, clusters fall",
        Shaper::Khmer,
        script::KHMER,
        "\u{1780}\u{17C1}\u{1781}\u{17D2}\u{179A}\u{1798} ",
        &[Pause::SetupSyllablesKhmer],
        Counted::Pause(Pause::ReorderKhmer),
    ),
    (
        "order, Myanmar, clusters fall",
        Shaper::Myanmar,
        script::MYANMAR,
        "\u{1019}\u{103C}\u{1031}\u{1000}\u{102C} ",
        &[Pause::SetupSyllablesMyanmar],
        Counted::Pause(Pause::ReorderMyanmar),
    ),
];

/// Calls on long texts in which the last glyph of each syllable, which has two, is in the cluster of the next one's first.
const SHARING: [Case; 2] = [
    ("Hangul, clusters shared", Shaper::Hangul, script::HANGUL, "\u{1112}\u{1161}", &[], Counted::PreprocessText),
    (
        "order, Khmer, clusters shared",
        Shaper::Khmer,
        script::KHMER,
        "\u{1780}\u{17C1}",
        &[Pause::SetupSyllablesKhmer],
        Counted::Pause(Pause::ReorderKhmer),
    ),
];

/// What a text in a font repeats, with its script and direction. In a prepared face each spares what no contract can promise:
/// the first the lookups that can begin nowhere in a text, the second searches for the glyphs of pairs and their classes, the
/// third searches for the glyphs that subtables of GSUB begin with.
const IN_A_FONT: [(&str, Script, Direction, &str); 3] = [
    ("no lookup, Latin", script::LATIN, Direction::LeftToRight, "n"),
    ("kerning, Latin", script::LATIN, Direction::LeftToRight, "AVAWAY"),
    ("forms, Arabic", script::ARABIC, Direction::RightToLeft, "\u{628}\u{628}\u{628}\u{628}\u{628} "),
];

/// The features that have masks, as a font with all of them has.
const FEATURES: [&[u8; 4]; 16] = [
    b"isol", b"fina", b"fin2", b"fin3", b"medi", b"med2", b"init", b"rphf", b"half", b"pref", b"blwf", b"abvf",
    b"pstf", b"cfar", b"ljmo", b"vjmo",
];

fn plan(shaper: Shaper, script: Script) -> Plan {
    let features: Vec<_> =
        FEATURES.iter().zip(3..).map(|(tag, bit)| FeatureMap::new(Tag(**tag), 1 << bit, 0)).collect();
    Plan::builder()
        .script(script)
        .features(&features)
        .found_script(true)
        .build_for(shaper)
        .expect("masks touch no flag")
}

/// Makes the call that is counted.
#[inline(never)]
fn counted(how: Counted, shaper: Shaper, plan: &Plan, buffer: &mut Buffer) {
    call(how, shaper, plan, buffer);
}

#[inline(never)]
fn call(how: Counted, shaper: Shaper, plan: &Plan, buffer: &mut Buffer) {
    let font = NominalOnly(|c| u16::try_from(c).ok().map(GlyphId));
    match how {
        Counted::PreprocessText => {
            shaper.preprocess_text(plan, &font, buffer).expect("there is memory");
        }
        Counted::SetupMasks => {
            let _ = shaper.setup_masks(plan, &font, &UnicodeTables, buffer);
        }
        Counted::SetupSyllables(pause) => {
            assert!(setup_syllables_found(pause, plan, buffer));
        }
        Counted::Pause(pause) => {
            run_pause(pause, plan, &font, &[], buffer).expect("there is memory");
        }
    }
}

/// Shapes the text that is counted.
#[inline(never)]
fn counted_in_a_font(face: &Face<'_>, plan: &ShapePlan, text: UnicodeBuffer) -> GlyphBuffer {
    shape_with_plan(face, plan, text)
}

/// What was counted so far is dumped.
#[inline(never)]
fn case_ends() {
    black_box(());
}

/// Numbers the clusters of a text from its end on.
fn let_clusters_fall(cluster_of: fn(u32) -> u32, buffer: &mut Buffer) {
    buffer.with_glyphs_mut(|glyphs| {
        for (glyph, place) in glyphs.iter_mut().rev().zip(0..) {
            glyph.cluster = cluster_of(place);
        }
    });
}

/// Shapes a text by a face, once to have the buffer's room, and once more, which is counted.
fn shape_in_a_font(face: &Face<'_>, script: Script, direction: Direction, text: &str) -> GlyphBuffer {
    let plan = ShapePlan::new(face, direction, Some(script), None, &[]);
    let filled = |mut buffer: UnicodeBuffer| {
        buffer.push_str(text);
        buffer.set_script(script);
        buffer.set_direction(direction);
        buffer
    };
    let first = shape_with_plan(face, &plan, filled(UnicodeBuffer::new()));
    counted_in_a_font(face, &plan, filled(first.clear()))
}

fn shape_in_fonts() {
    let [parsed, mut prepared] =
        [(); 2].map(|()| Face::parse(include_bytes!("../../fonts/sample.ttf"), 0).expect("a font"));
    prepared.prepare();
    for (name, script, direction, unit) in IN_A_FONT {
        let text: String = unit.chars().cycle().take(100).collect();
        for (face, how) in [(&prepared, "prepared"), (&parsed, "parsed")] {
            let glyphs = shape_in_a_font(face, script, direction, &text);
            case_ends();
            let left = glyphs.glyph_infos().iter().zip(glyphs.glyph_positions()).zip(1u64..);
            let sum: u64 = left
                .map(|((info, position), place)| {
                    place * (u64::from(info.glyph_id ^ info.cluster) + u64::from(position.x_advance.unsigned_abs()))
                })
                .sum();
            println!("{name}, {how}|{}|{sum}", glyphs.len());
        }
    }
}

fn main() {
    let short = CASES.iter().map(|case| (case, 100, None));
    let falling: fn(u32) -> u32 = |place| place;
    let sharing: fn(u32) -> u32 = |place| place.div_ceil(2);
    let long = FALLING.iter().map(|case| (case, 2_000, Some(falling)));
    let longer = SHARING.iter().map(|case| (case, 2_000, Some(sharing)));
    for (&(name, shaper, script, unit, before, how), length, cluster_of) in short.chain(long).chain(longer) {
        let plan = plan(shaper, script);
        let text: String = unit.chars().cycle().take(length).collect();
        let mut buffer = Buffer::from_text(&text, &UnicodeTables).expect("there is memory");
        buffer.set_script(Some(script));
        if let Some(cluster_of) = cluster_of {
            let_clusters_fall(cluster_of, &mut buffer);
        }
        if !matches!(how, Counted::PreprocessText | Counted::SetupMasks) {
            call(Counted::SetupMasks, shaper, &plan, &mut buffer);
        }
        for &pause in before {
            let how = match pause {
                Pause::SetupSyllablesIndic
                | Pause::SetupSyllablesKhmer
                | Pause::SetupSyllablesMyanmar
                | Pause::SetupSyllablesUse => Counted::SetupSyllables(pause),
                _ => Counted::Pause(pause),
            };
            call(how, shaper, &plan, &mut buffer);
        }
        counted(how, shaper, &plan, &mut buffer);
        case_ends();
        let left = buffer.glyphs().iter().zip(1..);
        let sum: u64 = left.map(|(glyph, place)| place * u64::from(glyph.glyph_id ^ glyph.mask ^ glyph.cluster)).sum();
        println!("{name}|{}|{sum}", buffer.len());
    }
    shape_in_fonts();
}
