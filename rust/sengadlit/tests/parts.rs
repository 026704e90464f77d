//! Calls beside the hooks, each held to the hook that it does a part of.

mod common;

use common::buffers::{Contents, buffer_of};
use common::fonts::PlainFont;
use common::plans::{PAUSES, plan_of, plan_with};
use sengadlit::buffer::{Buffer, GlyphInfo, ShaperError, Span};
use sengadlit::ot_shaper_hangul::setup_masks_in;
use sengadlit::ot_shaper_use::setup_syllables_use_by_bytes;
use sengadlit::plan::{Pause, Plan, PlanData};
use sengadlit::shaper::{Shaper, pause_fits, pause_may_change, run_pause};

/// A text of glyphs each in its own cluster, with these syllable bytes and auxiliary bytes.
fn glyphs_of(syllables: &[u8], auxiliaries: &[u8]) -> Vec<GlyphInfo> {
    syllables
        .iter()
        .zip(auxiliaries)
        .zip(0..)
        .map(|((&syllable, &auxiliary), cluster)| GlyphInfo {
            syllable,
            auxiliary,
            category: 1,
            ..GlyphInfo::of_character('\u{1B13}', cluster)
        })
        .collect()
}

#[test]
fn bytes_set_up_what_their_spans_do() {
    let masks: [(&[u8; 4], u32); 3] = [(b"rphf", 0x100), (b"init", 0x20), (b"fina", 0x80)];
    let spans = [(3, 2), (1, 7), (2, 8)].map(|(len, kind)| Span { len, kind });
    for script in [b"Bali", b"Mong"] {
        let plan = plan_with(Shaper::Universal, script, &masks);
        let mut by_spans: Buffer = glyphs_of(&[0; 6], &[0; 6]).into_iter().collect();
        run_pause(
            Pause::SetupSyllablesUse,
            &plan,
            &PlainFont(100),
            &spans,
            &mut by_spans,
        )
        .unwrap();
        let bytes = [0x12, 0x12, 0x12, 0x27, 0x38, 0x38];
        let mut by_bytes: Buffer = glyphs_of(&bytes, &[0; 6]).into_iter().collect();
        setup_syllables_use_by_bytes(&plan, &mut by_bytes);
        assert_eq!(Contents::of(&by_bytes), Contents::of(&by_spans));
        assert!(by_bytes.has_broken_syllable());
    }
}

#[test]
fn jamo_take_their_masks_in_a_slice() {
    let masks: [(&[u8; 4], u32); 3] = [(b"ljmo", 0x10), (b"vjmo", 0x20), (b"tjmo", 0x40)];
    let plan = plan_with(Shaper::Hangul, b"Hang", &masks);
    let PlanData::Hangul(hangul_plan) = &plan.plan_data else {
        unreachable!()
    };
    let mut glyphs = glyphs_of(&[0; 5], &[0, 1, 2, 3, 4]);
    setup_masks_in(hangul_plan, &mut glyphs);
    let masks: Vec<_> = glyphs.iter().map(|glyph| glyph.mask).collect();
    assert_eq!(masks, [0, 0x10, 0x20, 0x40, 0]);
}

/// Whether the pause changes this text, taken as one syllable.
fn changes(pause: Pause, plan: &Plan, text: &[GlyphInfo]) -> bool {
    let mut buffer = buffer_of(text, text.len());
    let before = Contents::of(&buffer);
    let spans = [Span {
        len: text.len(),
        kind: 2,
    }];
    run_pause(pause, plan, &PlainFont(100), &spans, &mut buffer).unwrap();
    Contents::of(&buffer) != before
}

#[test]
fn a_pause_that_may_not_change_changes_nothing() {
    let mut text = glyphs_of(&[0x12; 3], &[0; 3]);
    for glyph in &mut text {
        glyph.mask = 0x100;
        glyph.glyph_props.set_substituted(true);
        glyph.glyph_props.set_multiplied(true);
    }
    let mut idle = Vec::new();
    for shaper in Shaper::ALL {
        for pause in PAUSES {
            let plan = plan_of(shaper, b"Bali");
            if pause_fits(pause, &plan) && !pause_may_change(pause, &plan) {
                assert!(!changes(pause, &plan, &text), "{pause:?} of {shaper:?}");
                idle.push((shaper, pause));
            }
        }
    }
    assert!(idle.contains(&(Shaper::Arabic, Pause::RecordStch)));
    assert!(idle.contains(&(Shaper::Universal, Pause::RecordRphf)));
    assert!(idle.contains(&(Shaper::Hebrew, Pause::ArabicFallbackShape)));
    assert_eq!(idle.len(), Shaper::ALL.len() + 2);
    for (shaper, pause, tag) in [
        (Shaper::Arabic, Pause::RecordStch, b"stch"),
        (Shaper::Universal, Pause::RecordRphf, b"rphf"),
    ] {
        let plan = plan_with(shaper, b"Bali", &[(tag, 0x100)]);
        assert!(pause_may_change(pause, &plan) && changes(pause, &plan, &text));
    }
}

#[test]
fn spans_are_read_by_the_pauses_that_say_so() {
    for pause in Pause::ALL {
        let shapers = Shaper::ALL.map(|shaper| plan_of(shaper, b"Beng"));
        let plan = shapers.iter().find(|plan| pause_fits(pause, plan)).unwrap();
        let mut empty = buffer_of(&[], 0);
        let spans = [Span { len: 1, kind: 0 }];
        let result = run_pause(pause, plan, &PlainFont(100), &spans, &mut empty);
        assert_eq!(
            result == Err(ShaperError::SpansDontCover),
            pause.reads_spans(),
            "{pause:?}"
        );
    }
}
