//! Texts that are broken at the clear places that hooks and pauses leave: what these make of the
//! pieces, each by itself, is what they make of the whole. docs/PROOF.md has the laws.

use sengadlit::alloc::Global;
use sengadlit::buffer::{BufferFlags, Direction, GeneralCategory, UnicodeProps};
use sengadlit::categories::{indic, khmer, myanmar, universal};
use sengadlit::font::NominalOnly;
use sengadlit::map::FeatureMap;
use sengadlit::ot_shaper_arabic::arabic_action_t::{
    ISOL, NONE, STRETCHING_FIXED, STRETCHING_REPEATING,
};
use sengadlit::plan::BreakFlags;
use sengadlit::{
    Buffer, BufferClusterLevel, Font, GlyphId, GlyphInfo, GlyphPosition, Pause, Plan, Script,
    Shaper, Span, Tag, run_pause, script,
};
use sengadlit_tests::numbers::{Numbers, mixed};
use sengadlit_tests::pieces::is_clear;
use std::ops::Range;

/// How many texts are broken for each hook: 10,000, or as many as `SENGADLIT_TEXTS` says.
fn texts() -> u64 {
    let count = std::env::var("SENGADLIT_TEXTS").ok();
    count.map_or(10_000, |count| count.parse().unwrap())
}

/// How long a text may become.
const LIMIT: usize = 64;

/// Clusters that rise along the text or fall, by steps of 0 to 2.
fn monotone_clusters(numbers: &mut Numbers, count: usize) -> Vec<u32> {
    let mut cluster = 0;
    let mut clusters: Vec<_> = (0..count)
        .map(|_| {
            cluster += numbers.below(3) as u32;
            cluster
        })
        .collect();
    if numbers.once_in(2) {
        clusters.reverse();
    }
    clusters
}

/// A buffer of these glyphs, at one of the levels that merge.
fn buffer_of(numbers: &mut Numbers, glyphs: &[GlyphInfo]) -> Buffer {
    let mut buffer = Buffer::new(Global, LIMIT);
    buffer.replace_glyphs(glyphs.to_vec().into()).unwrap();
    buffer.set_cluster_level(numbers.one_of(&[
        BufferClusterLevel::MonotoneGraphemes,
        BufferClusterLevel::MonotoneCharacters,
    ]));
    buffer
}

/// These places of a buffer as a text of their own, positions among it.
fn piece(buffer: &Buffer, places: Range<usize>) -> Buffer {
    let mut piece = buffer.copy().unwrap();
    assert!(piece.set_positions(Vec::new().into()));
    piece
        .replace_glyphs(buffer.glyphs()[places.clone()].to_vec().into())
        .unwrap();
    if !buffer.positions().is_empty() {
        assert!(piece.set_positions(buffer.positions()[places].to_vec().into()));
    }
    piece
}

/// The glyph without its glyph flags, these bits of its mask and the serial of its syllable.
fn shown(glyph: &GlyphInfo, hidden: u32) -> GlyphInfo {
    GlyphInfo {
        mask: glyph.mask & !(7 | hidden),
        syllable: glyph.syllable & 0xF,
        ..*glyph
    }
}

/// Whether the whole is these pieces, one after the other, clusters and positions among it.
fn is_joined(whole: &Buffer, front: &Buffer, back: &Buffer, hidden: u32) -> bool {
    let pieces = front.glyphs().iter().chain(back.glyphs());
    let positions = front.positions().iter().chain(back.positions());
    let hide = |glyph| shown(glyph, hidden);
    pieces.map(hide).eq(whole.glyphs().iter().map(hide)) && positions.eq(whole.positions())
}

/// What was counted: clear places, of which each may be broken, and the others where clusters change.
#[derive(Debug, Default)]
struct Counts {
    clear: usize,
    flagged: usize,
}

/// Where the cluster `behind` begins in the text before a hook, directly behind the cluster `before`:
/// the hook may have merged other clusters into them, but never one with one beyond the cut.
fn beginning(glyphs: &[GlyphInfo], before: u32, behind: u32) -> usize {
    let is_behind = |glyph: &GlyphInfo| match before < behind {
        true => glyph.cluster >= behind,
        false => glyph.cluster < before,
    };
    glyphs.iter().position(is_behind).unwrap()
}

/// Breaks a text at each clear place that a hook leaves. The text before it is cut where the cluster
/// that begins at that place begins.
fn break_text(buffer: &Buffer, counts: &mut Counts, hook: impl Fn(&mut Buffer)) {
    let mut whole = buffer.copy().unwrap();
    hook(&mut whole);
    let glyphs = whole.glyphs();
    for place in 1..whole.len() {
        if !is_clear(glyphs, place) {
            counts.flagged += usize::from(glyphs[place - 1].cluster != glyphs[place].cluster);
            continue;
        }
        counts.clear += 1;
        let cut = beginning(
            buffer.glyphs(),
            glyphs[place - 1].cluster,
            glyphs[place].cluster,
        );
        let mut front = piece(buffer, 0..cut);
        let mut back = piece(buffer, cut..buffer.len());
        hook(&mut front);
        hook(&mut back);
        assert!(
            front.len() == place && is_joined(&whole, &front, &back, 0),
            "{:x?} at {place}",
            buffer.glyphs()
        );
    }
}

/// A set-up of syllables and the pauses directly after it, with what they read.
struct Pauses<'a, F> {
    pauses: &'a [Pause],
    plan: &'a Plan,
    font: &'a F,
    /// The bits of masks that differ between a text and its pieces.
    hidden: u32,
}

impl<F: Font> Pauses<'_, F> {
    fn run(&self, spans: &[Span], buffer: &mut Buffer) {
        for pause in self.pauses {
            run_pause(*pause, self.plan, self.font, spans, buffer).unwrap();
        }
    }

    /// Breaks a text at each clear place that the pauses leave: it is a border of two spans.
    fn break_text(&self, spans: &[Span], buffer: &Buffer, counts: &mut Counts) {
        let mut whole = buffer.copy().unwrap();
        self.run(spans, &mut whole);
        let glyphs = whole.glyphs();
        for place in 1..whole.len() {
            if !is_clear(glyphs, place) {
                counts.flagged += usize::from(glyphs[place - 1].cluster != glyphs[place].cluster);
                continue;
            }
            counts.clear += 1;
            let broken = (1..spans.len()).any(|count| {
                let cut = spans[..count].iter().map(|span| span.len).sum();
                let mut front = piece(buffer, 0..cut);
                let mut back = piece(buffer, cut..buffer.len());
                self.run(&spans[..count], &mut front);
                self.run(&spans[count..], &mut back);
                front.len() == place && is_joined(&whole, &front, &back, self.hidden)
            });
            assert!(broken, "{:x?} by {spans:?} at {place}", buffer.glyphs());
        }
    }
}

/// Spans that cover so many glyphs.
fn random_spans(numbers: &mut Numbers, count: usize, kinds: usize) -> Vec<Span> {
    let mut spans = Vec::new();
    let mut left = count;
    while left > 0 {
        let len = 1 + numbers.below(left.min(6));
        left -= len;
        let kind = numbers.below(kinds) as u8;
        spans.push(Span { len, kind });
    }
    spans
}

/// Glyphs of these categories, and where the shaper has any of these positions.
fn random_glyphs(numbers: &mut Numbers, categories: &[u8], positions: &[u8]) -> Vec<GlyphInfo> {
    let count = numbers.below(10);
    let clusters = monotone_clusters(numbers, count);
    let glyph = |cluster| GlyphInfo {
        glyph_id: 0x100 + numbers.below(4) as u32,
        cluster,
        mask: (numbers.below(4) as u32) << 20,
        category: numbers.one_of(categories),
        auxiliary: numbers.one_of(positions),
        syllable: numbers.byte(),
        ..GlyphInfo::DEFAULT
    };
    clusters.into_iter().map(glyph).collect()
}

/// A font with a dotted circle, or without one.
fn circles(numbers: &mut Numbers) -> impl Font {
    let has_circle = !numbers.once_in(4);
    NominalOnly(move |c| (has_circle && c == 0x25CC).then_some(GlyphId(0xCC)))
}

fn plan_of(shaper: Shaper, script: Script, features: &[FeatureMap]) -> Plan {
    flagging(shaper, script, features, BreakFlags::AsCode)
}

/// A plan that flags breaks by this choice.
fn flagging(
    shaper: Shaper,
    script: Script,
    features: &[FeatureMap],
    break_flags: BreakFlags,
) -> Plan {
    let stages = vec![0..0; features.len()];
    let plan = Plan::builder()
        .script(script)
        .features(features)
        .stages(&stages)
        .break_flags(break_flags);
    plan.build_for(shaper).unwrap()
}

fn features(tags: &[&[u8; 4]]) -> Vec<FeatureMap> {
    let feature = |(stage, tag): (usize, &&[u8; 4])| FeatureMap::new(Tag(**tag), 8 << stage, stage);
    tags.iter().enumerate().map(feature).collect()
}

#[test]
fn khmer_breaks_at_every_clear_place() {
    use khmer::{C, DOTTEDCIRCLE, H, Ra, Robatic, V, VAbv, VBlw, VPre, VPst, Xgroup, Ygroup, ZWNJ};
    let categories = [
        C,
        DOTTEDCIRCLE,
        H,
        H,
        Ra,
        Ra,
        Robatic,
        V,
        VAbv,
        VBlw,
        VPre,
        VPre,
        VPst,
        Xgroup,
        Ygroup,
        ZWNJ,
    ];
    let tags = features(&[b"pref", b"blwf", b"abvf", b"pstf", b"cfar"]);
    let plan = plan_of(Shaper::Khmer, script::KHMER, &tags);
    let mut counts = Counts::default();
    let mut numbers = Numbers::new(1);
    for _ in 0..texts() {
        let glyphs = random_glyphs(&mut numbers, &categories, &[0]);
        let spans = random_spans(&mut numbers, glyphs.len(), 3);
        let buffer = buffer_of(&mut numbers, &glyphs);
        let pauses = Pauses {
            pauses: &[Pause::SetupSyllablesKhmer, Pause::ReorderKhmer],
            plan: &plan,
            font: &circles(&mut numbers),
            hidden: 0,
        };
        pauses.break_text(&spans, &buffer, &mut counts);
    }
    assert!(counts.clear > 1000 && counts.flagged > 1000, "{counts:?}");
}

#[test]
fn myanmar_breaks_at_every_clear_place() {
    use myanmar::{A, As, C, DB, H, MR, MW, PT, Ra, SM, VAbv, VBlw, VPre, VPst, VS, ZWNJ};
    let categories = [
        A, As, C, C, DB, H, H, MR, MW, PT, Ra, Ra, SM, VAbv, VBlw, VPre, VPre, VPst, VS, ZWNJ,
    ];
    let plan = plan_of(Shaper::Myanmar, script::MYANMAR, &[]);
    let mut counts = Counts::default();
    let mut numbers = Numbers::new(2);
    for _ in 0..texts() {
        let glyphs = random_glyphs(&mut numbers, &categories, &[0]);
        let spans = random_spans(&mut numbers, glyphs.len(), 4);
        let buffer = buffer_of(&mut numbers, &glyphs);
        let pauses = Pauses {
            pauses: &[Pause::SetupSyllablesMyanmar, Pause::ReorderMyanmar],
            plan: &plan,
            font: &circles(&mut numbers),
            hidden: 0,
        };
        pauses.break_text(&spans, &buffer, &mut counts);
    }
    assert!(counts.clear > 1000 && counts.flagged > 1000, "{counts:?}");
}

/// Makes a base of a second repha that opens a span: no syllable of the grammar opens with two.
fn part_rephas(spans: &[Span], glyphs: &mut [GlyphInfo]) {
    let mut rest = glyphs;
    for span in spans {
        let (syllable, behind) = rest.split_at_mut(span.len);
        if let [first, second, ..] = syllable {
            if first.category == universal::R && second.category == universal::R {
                second.category = universal::B;
            }
        }
        rest = behind;
    }
}

/// Glyphs of the universal shaper in spans of all kinds.
fn universal_text(numbers: &mut Numbers) -> (Vec<Span>, Buffer) {
    use universal::{
        B, CS, FAbv, H, HVM, IS, J, MPre, O, R, SUB, VAbv, VBlw, VMPre, VPre, VPst, ZWNJ,
    };
    let categories = [
        B, B, CS, FAbv, H, HVM, IS, J, MPre, O, R, R, SUB, VAbv, VBlw, VMPre, VPre, VPre, VPst,
        ZWNJ,
    ];
    let mut glyphs = random_glyphs(numbers, &categories, &[0]);
    let spans = random_spans(numbers, glyphs.len(), 9);
    part_rephas(&spans, &mut glyphs);
    let buffer = buffer_of(numbers, &glyphs);
    (spans, buffer)
}

/// Breaks texts of the universal shaper, by a plan of these features.
fn universal_breaks(tags: &[FeatureMap], break_flags: BreakFlags, hidden: u32, seed: u64) {
    let plan = flagging(Shaper::Universal, script::BALINESE, tags, break_flags);
    let mut counts = Counts::default();
    let mut numbers = Numbers::new(seed);
    for _ in 0..texts() {
        let (spans, buffer) = universal_text(&mut numbers);
        let pauses = Pauses {
            pauses: &[Pause::SetupSyllablesUse, Pause::ReorderUse],
            plan: &plan,
            font: &circles(&mut numbers),
            hidden,
        };
        pauses.break_text(&spans, &buffer, &mut counts);
    }
    assert!(counts.clear > 1000 && counts.flagged > 1000, "{counts:?}");
}

#[test]
fn universal_breaks_at_every_clear_place_but_for_masks_of_forms() {
    let tags = features(&[b"isol", b"init", b"medi", b"fina", b"rphf", b"pref"]);
    universal_breaks(&tags, BreakFlags::AsCode, 8 | 16 | 32 | 64, 3);
}

#[test]
fn universal_breaks_with_sound_flags_at_every_clear_place() {
    let four = features(&[b"isol", b"init", b"medi", b"fina", b"rphf", b"pref"]);
    universal_breaks(&four, BreakFlags::Sound, 0, 12);
    let last = features(&[b"fina", b"rphf"]);
    universal_breaks(&last, BreakFlags::Sound, 0, 13);
}

/// Where two syllables meet that a set-up leaves clear by the code's flags and not by those of Sound,
/// a break there changes a mask.
#[test]
fn no_flag_by_forms_is_needless() {
    let font = NominalOnly(|_| None);
    let mut numbers = Numbers::new(14);
    let mut added = 0;
    for tags in [
        &[b"isol", b"init", b"medi", b"fina"][..],
        &[b"fina"],
        &[b"init", b"medi"],
    ] {
        let tags = features(tags);
        let of = |flags| flagging(Shaper::Universal, script::BALINESE, &tags, flags);
        let (code, sound) = (of(BreakFlags::AsCode), of(BreakFlags::Sound));
        for _ in 0..texts() {
            let (spans, buffer) = universal_text(&mut numbers);
            let setup = |plan: &Plan, buffer: &mut Buffer, spans: &[Span]| {
                run_pause(Pause::SetupSyllablesUse, plan, &font, spans, buffer).unwrap();
            };
            let mut flagged = buffer.copy().unwrap();
            let mut whole = buffer.copy().unwrap();
            setup(&sound, &mut flagged, &spans);
            setup(&code, &mut whole, &spans);
            let mut cut = 0;
            for (count, span) in spans.iter().enumerate().skip(1) {
                cut += spans[count - 1].len;
                if !is_clear(whole.glyphs(), cut) || is_clear(flagged.glyphs(), cut) {
                    continue;
                }
                added += 1;
                let mut front = piece(&buffer, 0..cut);
                let mut back = piece(&buffer, cut..buffer.len());
                setup(&code, &mut front, &spans[..count]);
                setup(&code, &mut back, &spans[count..]);
                assert!(
                    !is_joined(&whole, &front, &back, 0),
                    "{:x?} by {spans:?} before {span:?}",
                    buffer.glyphs()
                );
            }
        }
    }
    assert!(added > 1000, "{added}");
}

/// A font whose results are those of these functions.
struct FontOf<N, A, L> {
    nominal: N,
    advance: A,
    applies: L,
}

impl<N, A, L> Font for FontOf<N, A, L>
where
    N: Fn(u32) -> Option<GlyphId>,
    A: Fn(GlyphId) -> i32,
    L: Fn(u16, &[GlyphId], bool) -> bool,
{
    fn nominal_glyph(&self, c: u32) -> Option<GlyphId> {
        (self.nominal)(c)
    }

    fn glyph_h_advance(&self, glyph: GlyphId) -> i32 {
        (self.advance)(glyph)
    }

    fn would_apply(&self, lookup: u16, glyphs: &[GlyphId], zero_context: bool) -> bool {
        (self.applies)(lookup, glyphs, zero_context)
    }

    fn has_feature(&self, _tag: Tag) -> bool {
        false
    }
}

/// A font that has each character but the dotted circle, and applies each lookup to some glyphs.
fn indic_font(numbers: &mut Numbers) -> impl Font {
    let seed = numbers.draw();
    let has_circle = !numbers.once_in(4);
    FontOf {
        nominal: move |c| (has_circle || c != 0x25CC).then_some(GlyphId(c as u16)),
        advance: |_| 0,
        applies: move |lookup, glyphs: &[GlyphId], zero_context| {
            let start = seed ^ u64::from(lookup) ^ u64::from(zero_context) << 20;
            let of_glyphs = glyphs
                .iter()
                .fold(start, |number, glyph| mixed(number ^ u64::from(glyph.0)));
            mixed(of_glyphs) & 3 == 0
        },
    }
}

/// A font with some characters of Hangul, of which some have a width.
fn hangul_font(numbers: &mut Numbers) -> impl Font {
    let seed = numbers.draw();
    FontOf {
        nominal: move |c| (mixed(seed ^ u64::from(c)) & 3 != 0).then_some(GlyphId(c as u16)),
        advance: move |glyph: GlyphId| i32::from(mixed(seed ^ u64::from(glyph.0)) & 4 != 0),
        applies: |_, _: &[GlyphId], _| false,
    }
}

/// A font whose glyphs are as wide as their numbers say.
fn wide_font() -> impl Font {
    FontOf {
        nominal: |_| None,
        advance: |glyph: GlyphId| i32::from(glyph.0),
        applies: |_, _: &[GlyphId], _| false,
    }
}

/// Gives glyphs clusters for which Indic's law holds: each span begins one, and where they fall, what
/// no consonant or vowel is has the cluster of the glyph before it.
fn indic_clusters(numbers: &mut Numbers, spans: &[Span], glyphs: &mut [GlyphInfo]) {
    let falls = numbers.once_in(2);
    let mut cluster = if falls { 100 } else { 0 };
    let mut start = 0;
    for span in spans {
        for (place, glyph) in glyphs[start..start + span.len].iter_mut().enumerate() {
            let is_letter =
                [indic::C, indic::Ra, indic::V, indic::PLACEHOLDER].contains(&glyph.category);
            if place == 0 || (numbers.once_in(2) && (is_letter || !falls)) {
                cluster = if falls { cluster - 1 } else { cluster + 1 };
            }
            glyph.cluster = cluster;
        }
        start += span.len;
    }
}

fn is_monotone(glyphs: &[GlyphInfo]) -> bool {
    glyphs.is_sorted_by(|a, b| a.cluster <= b.cluster)
        || glyphs.is_sorted_by(|a, b| a.cluster >= b.cluster)
}

/// Indic's scripts: their specifications differ in the base, the reph and the left matra.
const INDIC: [&[u8; 4]; 6] = [b"Deva", b"Beng", b"Mlym", b"Taml", b"Telu", b"Orya"];

/// A plan of one of these scripts, each of whose features has a lookup.
fn indic_plan(numbers: &mut Numbers) -> Plan {
    let tags = features(&[b"rphf", b"pref", b"blwf", b"pstf", b"init", b"half"]);
    let stages: Vec<_> = (0..tags.len()).map(|stage| stage..stage + 1).collect();
    let lookups: Vec<u16> = (0..tags.len() as u16).collect();
    let plan = Plan::builder()
        .script(Script(*numbers.one_of(&INDIC)))
        .features(&tags)
        .stages(&stages)
        .lookups(&lookups)
        .chosen_script(numbers.one_of(&[None, Some(Tag(*b"dev2")), Some(Tag(*b"dev3"))]));
    plan.build_for(Shaper::Indic).unwrap()
}

/// Breaks texts behind the pauses, where their clusters rise or fall then.
fn indic_breaks(pauses: &[Pause], seed: u64) {
    use indic::{C, CM, CS, H, M, N, PLACEHOLDER as GB, RS, Ra, Repha, SM, V, ZWJ, ZWNJ};
    let categories = [
        C, C, C, CM, CS, H, H, H, M, M, N, GB, RS, Ra, Ra, Repha, SM, V, ZWJ, ZWNJ,
    ];
    let mut counts = Counts::default();
    let mut numbers = Numbers::new(seed);
    for _ in 0..texts() {
        let mut glyphs = random_glyphs(&mut numbers, &categories, &[2, 3, 4, 6, 8, 11, 12, 13, 14]);
        let spans = random_spans(&mut numbers, glyphs.len(), 6);
        indic_clusters(&mut numbers, &spans, &mut glyphs);
        let buffer = buffer_of(&mut numbers, &glyphs);
        let plan = indic_plan(&mut numbers);
        let pauses = Pauses {
            pauses,
            plan: &plan,
            font: &indic_font(&mut numbers),
            hidden: plan.ot_map.one_mask(Tag(*b"init")),
        };
        let mut whole = buffer.copy().unwrap();
        pauses.run(&spans, &mut whole);
        if is_monotone(whole.glyphs()) {
            pauses.break_text(&spans, &buffer, &mut counts);
        }
    }
    assert!(counts.clear > 1000 && counts.flagged > 1000, "{counts:?}");
}

#[test]
fn indic_breaks_after_the_initial_reordering() {
    indic_breaks(&[Pause::SetupSyllablesIndic, Pause::InitialReordering], 4);
}

#[test]
fn indic_breaks_after_both_reorderings() {
    let pauses = [
        Pause::SetupSyllablesIndic,
        Pause::InitialReordering,
        Pause::FinalReordering,
    ];
    indic_breaks(&pauses, 5);
}

/// A Thai text; where marks join, each is in the cluster of the glyph before it.
fn thai_text(numbers: &mut Numbers, marks_join: bool) -> Vec<GlyphInfo> {
    const MARKS: [u32; 9] = [
        0x0E31, 0x0E34, 0x0E38, 0x0E3A, 0x0E47, 0x0E48, 0x0E4D, 0x0E4E, 0x0EC8,
    ];
    const LETTERS: [u32; 10] = [
        0x0E01, 0x0E0D, 0x0E0E, 0x0E1B, 0x0E33, 0x0E33, 0x0EB3, 0x0E32, 0x41, 0x0E80,
    ];
    let count = numbers.below(10);
    let clusters = monotone_clusters(numbers, count);
    let mut glyphs: Vec<GlyphInfo> = Vec::new();
    for mut cluster in clusters {
        let is_mark = numbers.once_in(2);
        if let (true, true, Some(last)) = (is_mark, marks_join, glyphs.last()) {
            cluster = last.cluster;
        }
        let (glyph_id, general_category) = match is_mark {
            true => (numbers.one_of(&MARKS), GeneralCategory::Mn),
            false => (numbers.one_of(&LETTERS), GeneralCategory::Lo),
        };
        glyphs.push(GlyphInfo {
            glyph_id,
            cluster,
            unicode_props: UnicodeProps::new(general_category, 0),
            ..GlyphInfo::DEFAULT
        });
    }
    if !is_monotone(&glyphs) {
        return Vec::new();
    }
    glyphs
}

#[test]
fn thai_breaks_where_clusters_meet_behind_sara_am() {
    let plan = Plan::builder().script(script::THAI).found_script(true);
    let plan = plan.build_for(Shaper::Thai).unwrap();
    let font = NominalOnly(|_| None);
    let mut numbers = Numbers::new(6);
    let mut counts = Counts::default();
    for _ in 0..texts() {
        let glyphs = thai_text(&mut numbers, false);
        let buffer = buffer_of(&mut numbers, &glyphs);
        let hook = |buffer: &mut Buffer| {
            Shaper::Thai.preprocess_text(&plan, &font, buffer).unwrap();
        };
        break_text(&buffer, &mut counts, hook);
    }
    assert!(counts.clear > 1000, "{counts:?}");
}

#[test]
fn thai_forms_break_where_marks_share_the_cluster_before_them() {
    let plan = plan_of(Shaper::Thai, script::THAI, &[]);
    let mut numbers = Numbers::new(7);
    let mut counts = Counts::default();
    for _ in 0..texts() {
        let glyphs = thai_text(&mut numbers, true);
        let buffer = buffer_of(&mut numbers, &glyphs);
        let seed = numbers.draw();
        let font =
            NominalOnly(move |c| (mixed(seed ^ u64::from(c)) & 3 != 0).then_some(GlyphId(1)));
        // once SARA AM is taken apart
        let mut apart = buffer.copy().unwrap();
        let found = Plan::builder().script(script::THAI).found_script(true);
        let found = found.build_for(Shaper::Thai).unwrap();
        Shaper::Thai
            .preprocess_text(&found, &font, &mut apart)
            .unwrap();
        let pairs = apart.glyphs().windows(2);
        let mut strays = pairs
            .filter(|pair| is_thai_mark(pair[1].glyph_id) && pair[0].cluster != pair[1].cluster);
        if strays.next().is_some() {
            continue;
        }
        let hook = |buffer: &mut Buffer| {
            Shaper::Thai.preprocess_text(&plan, &font, buffer).unwrap();
        };
        break_text(&buffer, &mut counts, hook);
    }
    assert!(counts.clear > 1000, "{counts:?}");
}

#[test]
fn thai_forms_break_with_sound_flags_at_every_clear_place() {
    let plan = flagging(Shaper::Thai, script::THAI, &[], BreakFlags::Sound);
    let mut numbers = Numbers::new(15);
    let mut counts = Counts::default();
    for _ in 0..texts() {
        let glyphs = thai_text(&mut numbers, false);
        let buffer = buffer_of(&mut numbers, &glyphs);
        let seed = numbers.draw();
        let font =
            NominalOnly(move |c| (mixed(seed ^ u64::from(c)) & 3 != 0).then_some(GlyphId(1)));
        let hook = |buffer: &mut Buffer| {
            Shaper::Thai.preprocess_text(&plan, &font, buffer).unwrap();
        };
        break_text(&buffer, &mut counts, hook);
    }
    assert!(counts.clear > 1000 && counts.flagged > 1000, "{counts:?}");
}

/// Whether the character takes part in the choice of forms, as a mark.
fn is_thai_mark(c: u32) -> bool {
    matches!(c, 0x0E31 | 0x0E34..=0x0E3A | 0x0E47..=0x0E4E)
}

/// A text of Hangul; where tones join, each is in the cluster of the glyph before it.
fn hangul_text(numbers: &mut Numbers, tones_join: bool) -> Vec<GlyphInfo> {
    const CHARACTERS: [u32; 16] = [
        0x1100, 0x1101, 0x115F, 0xA960, 0x1161, 0x1162, 0x1160, 0xD7B0, 0x11A8, 0x11A9, 0x11C3,
        0xD7CB, 0xAC00, 0xAC01, 0xAC1C, 0x41,
    ];
    let count = numbers.below(10);
    let mut glyphs: Vec<GlyphInfo> = Vec::new();
    for mut cluster in monotone_clusters(numbers, count) {
        let mut glyph_id = numbers.one_of(&CHARACTERS);
        if numbers.once_in(4) {
            glyph_id = numbers.one_of(&[0x302E, 0x302F]);
            if let (true, Some(last)) = (tones_join, glyphs.last()) {
                cluster = last.cluster;
            }
        }
        glyphs.push(GlyphInfo {
            glyph_id,
            cluster,
            ..GlyphInfo::DEFAULT
        });
    }
    glyphs
}

#[test]
fn hangul_breaks_by_graphemes_where_tones_share_the_cluster_before_them() {
    let plan = plan_of(Shaper::Hangul, Script(*b"Hang"), &[]);
    let mut numbers = Numbers::new(8);
    let mut counts = Counts::default();
    for _ in 0..texts() {
        let glyphs = hangul_text(&mut numbers, true);
        if !is_monotone(&glyphs) {
            continue;
        }
        let mut buffer = buffer_of(&mut numbers, &glyphs);
        buffer.set_cluster_level(BufferClusterLevel::MonotoneGraphemes);
        buffer.set_flags(BufferFlags(numbers.one_of(&[0, 0x10])));
        let font = hangul_font(&mut numbers);
        let hook = |buffer: &mut Buffer| {
            let done = Shaper::Hangul.preprocess_text(&plan, &font, buffer);
            done.unwrap();
        };
        break_text(&buffer, &mut counts, hook);
    }
    assert!(counts.clear > 1000, "{counts:?}");
}

#[test]
fn hangul_breaks_with_sound_flags_at_every_clear_place() {
    let plan = flagging(Shaper::Hangul, Script(*b"Hang"), &[], BreakFlags::Sound);
    let mut numbers = Numbers::new(16);
    let mut counts = Counts::default();
    for _ in 0..texts() {
        let glyphs = hangul_text(&mut numbers, false);
        let mut buffer = buffer_of(&mut numbers, &glyphs);
        buffer.set_flags(BufferFlags(numbers.one_of(&[0, 0x10])));
        let font = hangul_font(&mut numbers);
        let hook = |buffer: &mut Buffer| {
            let done = Shaper::Hangul.preprocess_text(&plan, &font, buffer);
            done.unwrap();
        };
        break_text(&buffer, &mut counts, hook);
    }
    assert!(counts.clear > 1000 && counts.flagged > 500, "{counts:?}");
}

/// A text with a run of marks of these classes, in order; the run is in one cluster, or flagged.
fn marked_text(numbers: &mut Numbers, classes: &[u8]) -> (Buffer, Range<usize>) {
    let start = numbers.below(4);
    let end = start + numbers.below(6);
    let count = end + numbers.below(4);
    let mut of_run: Vec<u8> = (start..end).map(|_| numbers.one_of(classes)).collect();
    of_run.sort_unstable();
    let classes = vec![0; start]
        .into_iter()
        .chain(of_run)
        .chain(vec![0; count - end]);
    let clusters = monotone_clusters(numbers, count);
    let mut glyphs: Vec<_> = clusters
        .into_iter()
        .zip(classes)
        .map(|(cluster, class)| {
            let category = match class {
                0 => GeneralCategory::Lo,
                _ => GeneralCategory::Mn,
            };
            GlyphInfo {
                glyph_id: numbers.one_of(&[0x0654, 0x0655, 0x0658, 0x06DC, 0x05B7, 0x41]),
                cluster,
                unicode_props: UnicodeProps::new(category, class),
                ..GlyphInfo::DEFAULT
            }
        })
        .collect();
    let is_one = numbers.once_in(2);
    if let (true, Some(first)) = (
        is_one,
        glyphs[start..end].first().map(|glyph| glyph.cluster),
    ) {
        glyphs[start..end]
            .iter_mut()
            .for_each(|glyph| glyph.cluster = first);
    }
    let mut buffer = buffer_of(numbers, &glyphs);
    if !is_one {
        buffer.unsafe_to_break(start, end);
    }
    (buffer, start..end)
}

/// Breaks a text at each clear place behind the order of its marks, of which each half has its part.
fn break_run(shaper: Shaper, buffer: &Buffer, run: &Range<usize>, counts: &mut Counts) {
    let plan = plan_of(shaper, script::HEBREW, &[]);
    let order = |buffer: &mut Buffer, run: Range<usize>| {
        let done = shaper.reorder_marks(&plan, buffer, run.start, run.end);
        assert_eq!(done, Some(()));
    };
    let mut whole = buffer.copy().unwrap();
    order(&mut whole, run.clone());
    for place in 1..whole.len() {
        if !is_clear(whole.glyphs(), place) {
            continue;
        }
        counts.clear += 1;
        let mut front = piece(buffer, 0..place);
        let mut back = piece(buffer, place..buffer.len());
        order(&mut front, run.start.min(place)..run.end.min(place));
        order(
            &mut back,
            run.start.max(place) - place..run.end.max(place) - place,
        );
        assert!(
            is_joined(&whole, &front, &back, 0),
            "{:x?} with {run:?} at {place}",
            buffer.glyphs()
        );
    }
}

fn break_marks(shaper: Shaper, classes: &[u8], seed: u64) {
    let mut numbers = Numbers::new(seed);
    let mut counts = Counts::default();
    for _ in 0..texts() {
        let (buffer, run) = marked_text(&mut numbers, classes);
        if is_monotone(buffer.glyphs()) {
            break_run(shaper, &buffer, &run, &mut counts);
        }
    }
    assert!(counts.clear > 1000, "{counts:?}");
}

#[test]
fn marks_of_hebrew_break_at_every_clear_place() {
    break_marks(Shaper::Hebrew, &[10, 17, 18, 19, 20, 21, 22, 23, 24, 25], 9);
}

#[test]
fn marks_of_arabic_break_at_every_clear_place() {
    break_marks(Shaper::Arabic, &[22, 26, 27, 220, 230, 230], 10);
}

/// A text with tiles of stretched marks among letters and spaces, with positions.
fn stretched_text(numbers: &mut Numbers) -> Buffer {
    const ACTIONS: [u8; 4] = [ISOL, NONE, STRETCHING_FIXED, STRETCHING_REPEATING];
    const CATEGORIES: [GeneralCategory; 3] = [
        GeneralCategory::Lo,
        GeneralCategory::Mn,
        GeneralCategory::Zs,
    ];
    let count = numbers.below(12);
    let clusters = monotone_clusters(numbers, count);
    let glyph = |cluster| GlyphInfo {
        glyph_id: numbers.below(6) as u32,
        cluster,
        auxiliary: numbers.one_of(&ACTIONS),
        unicode_props: UnicodeProps::new(numbers.one_of(&CATEGORIES), 0),
        ..GlyphInfo::DEFAULT
    };
    let glyphs: Vec<_> = clusters.into_iter().map(glyph).collect();
    let position = |glyph: &GlyphInfo| GlyphPosition {
        x_advance: 1 + glyph.glyph_id as i32 * numbers.below(4) as i32,
        ..GlyphPosition::ZERO
    };
    let positions: Vec<_> = glyphs.iter().map(position).collect();
    let mut buffer = buffer_of(numbers, &glyphs);
    buffer.set_max_len(4096);
    assert!(buffer.set_positions(positions.into()));
    buffer.set_has_stch(true);
    buffer.set_direction(numbers.one_of(&[Direction::LeftToRight, Direction::RightToLeft]));
    buffer
}

#[test]
fn stretched_marks_break_at_every_clear_place_with_positions() {
    let plan = plan_of(Shaper::Arabic, script::SYRIAC, &features(&[b"stch"]));
    let font = wide_font();
    let mut numbers = Numbers::new(11);
    let mut counts = Counts::default();
    for _ in 0..texts() {
        let buffer = stretched_text(&mut numbers);
        let hook = |buffer: &mut Buffer| {
            let done = Shaper::Arabic.postprocess_glyphs(&plan, &font, buffer);
            done.unwrap();
        };
        break_text(&buffer, &mut counts, hook);
    }
    assert!(counts.clear > 1000, "{counts:?}");
}
