//! Scripts that differ between the plan and the buffer, which no line of the program can state.

mod common;

use common::buffers::buffer_of;
use common::fonts::PlainFont;
use common::plans::plan_of;
use sengadlit::buffer::{GlyphInfo, Script};
use sengadlit::plan::{Category, Pause, Position};
use sengadlit::shaper::{Shaper, run_pause};

/// The category and the position of each glyph of a syllable.
type Syllable = [(Category, Position); 4];

/// Where the glyphs of a syllable stood before a pause, for the scripts of the plan and of the buffer.
fn order(pause: Pause, plan: &[u8; 4], buffer: &[u8; 4], syllable: Syllable) -> Vec<u32> {
    let glyphs: Vec<_> = (0..)
        .zip(syllable)
        .map(|(place, (category, auxiliary))| GlyphInfo {
            glyph_id: place,
            cluster: place,
            syllable: 0x10,
            category,
            auxiliary,
            ..GlyphInfo::DEFAULT
        })
        .collect();
    let mut text = buffer_of(&glyphs, 10);
    text.set_script(Some(Script(*buffer)));
    let plan = plan_of(Shaper::Indic, plan);
    run_pause(pause, &plan, &PlainFont(7), &[], &mut text).unwrap();
    text.glyphs().iter().map(|glyph| glyph.glyph_id).collect()
}

/// A joiner goes before a halant in a buffer of Kannada, where also no halant passes another; the older
/// specification is that of the plan's script.
#[test]
fn initial_reordering_reads_both() {
    let joiner = [(15, 4), (4, 4), (6, 4), (1, 4)];
    let halants = [(1, 4), (4, 4), (1, 8), (4, 4)];
    let halant = [(1, 4), (4, 4), (1, 8), (7, 9)];
    for (plan, buffer, syllable, wanted) in [
        (b"Deva", b"Knda", joiner, [0, 2, 1, 3]),
        (b"Knda", b"Deva", joiner, [0, 1, 2, 3]),
        (b"Deva", b"Knda", halants, [0, 1, 2, 3]),
        (b"Knda", b"Deva", halants, [0, 2, 1, 3]),
        (b"Deva", b"Sinh", halant, [0, 2, 1, 3]),
        (b"Sinh", b"Deva", halant, [0, 1, 2, 3]),
    ] {
        let got = order(Pause::InitialReordering, plan, buffer, syllable);
        assert_eq!(got, wanted);
    }
}

/// A left matra goes right before the base where the buffer's script has no half forms, and a reph where
/// the plan's script has it.
#[test]
fn final_reordering_reads_both() {
    let matra = [(7, 2), (1, 3), (1, 3), (1, 4)];
    let reph = [(14, 1), (1, 4), (0, 9), (0, 9)];
    for (plan, buffer, syllable, wanted) in [
        (b"Deva", b"Mlym", matra, [1, 2, 0, 3]),
        (b"Deva", b"Taml", matra, [1, 2, 0, 3]),
        (b"Mlym", b"Deva", matra, [0, 1, 2, 3]),
        (b"Taml", b"Deva", matra, [0, 1, 2, 3]),
        (b"Orya", b"Deva", reph, [1, 0, 2, 3]),
        (b"Deva", b"Orya", reph, [1, 2, 3, 0]),
    ] {
        let got = order(Pause::FinalReordering, plan, buffer, syllable);
        assert_eq!(got, wanted);
    }
}
