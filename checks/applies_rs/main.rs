//! Reorders texts drawn by lot, with the copy of the crate that `checks/applies` makes.

#[path = "../../rust/sengadlit/tests/common/mod.rs"]
mod common;

use common::buffers::{Glyphs, number_of, numbered, random_buffer};
use common::{fonts::LotFont, fonts::Steady, numbers::Numbers, plans::random_plan};
use sengadlit::{GlyphInfo, Pause, Script, Shaper, run_pause, written::written};
use std::{ops::Range, process::ExitCode};

const TEXTS: u64 = 20_000;
const REORDERINGS: [(Pause, Shaper); 5] = [
    (Pause::ReorderKhmer, Shaper::Khmer),
    (Pause::ReorderMyanmar, Shaper::Myanmar),
    (Pause::ReorderUse, Shaper::Universal),
    (Pause::InitialReordering, Shaper::Indic),
    (Pause::FinalReordering, Shaper::Indic),
];
/// Categories that move or are passed: Ra, H, ZWJ, C, M, SM, MPst, VPre, VPst, As; the universal
/// shaper's R and H.
const MOVING: [u8; 12] = [15, 4, 6, 1, 7, 8, 13, 22, 23, 32, 18, 12];

/// Gives every second glyph such a category, and some syllables Ra, H, ZWJ in front.
fn set_categories(numbers: &mut Numbers, glyphs: &mut [GlyphInfo]) {
    for syllable in glyphs.chunk_by_mut(|a, b| a.syllable == b.syllable) {
        let opening = numbers.one_of(&[0, 0, 0, 3]);
        for (i, glyph) in syllable.iter_mut().enumerate() {
            if i < opening {
                glyph.category = MOVING[i];
                glyph.glyph_props = numbered(number_of(glyph));
            } else if numbers.once_in(2) {
                glyph.category = numbers.one_of(&MOVING);
                glyph.auxiliary = numbers.one_of(&[1, 2, 4, 8]);
            }
        }
    }
}

/// Reorders a text of up to 60 glyphs, and counts the syllables that move, as `count`.
fn reorder(
    (pause, shaper): (Pause, Shaper),
    seed: u64,
    slips: bool,
    counts: &mut [usize; 2],
) -> Result<(), String> {
    let mut numbers = Numbers::new(seed);
    let mut plan = random_plan(&mut numbers, shaper);
    // (scripts with an older specification)
    let script = numbers.one_of(&[b"Beng", b"Deva", b"Knda", b"Mlym"]);
    plan.script = Some(Script(*script));
    let plan = shaper.with_data(plan);
    let mut buffer = random_buffer(&mut numbers, Glyphs::Letters);
    buffer.set_script(plan.script);
    buffer.set_max_len(1000);
    buffer.with_glyphs_mut(|glyphs| set_categories(&mut numbers, glyphs));
    let written = written(slips, || {
        run_pause(pause, &plan, &LotFont(Steady(seed)), &[], &mut buffer).unwrap();
    });
    count(buffer.glyphs(), &written, counts).map_err(|why| format!("text {seed}: {why}"))
}

/// Counts the syllables that moved, and those that several placements wrote; refuses one that is
/// written twice, or moved and isn't written.
fn count(
    glyphs: &[GlyphInfo],
    written: &[(Range<usize>, usize)],
    counts: &mut [usize; 2],
) -> Result<(), String> {
    let (mut start, mut known) = (0, 0);
    for syllable in glyphs.chunk_by(|a, b| a.syllable == b.syllable) {
        let place = start..start + syllable.len();
        let here: Vec<_> = written.iter().filter(|(it, _)| *it == place).collect();
        // (a glyph's number is its old place; 0 is a dotted circle's, too)
        let old_places = syllable.iter().map(number_of).filter(|it| *it > 0);
        let moved = !old_places.is_sorted();
        if here.len() > 1 || here.is_empty() && moved {
            return Err(format!("{place:?} has {} writings", here.len()));
        }
        counts[0] += usize::from(moved);
        counts[1] += here.iter().filter(|(_, moves)| *moves > 1).count();
        (start, known) = (place.end, known + here.len());
    }
    if known < written.len() {
        return Err("what is written is no syllable".to_string());
    }
    Ok(())
}

fn main() -> ExitCode {
    let mut failed = 0;
    for of in REORDERINGS {
        let mut counts = [0; 2];
        let plain = (0..TEXTS).try_for_each(|seed| reorder(of, seed, false, &mut counts));
        let slipped = (0..TEXTS).try_for_each(|seed| reorder(of, seed, true, &mut [0; 2]));
        let [moved, by_several] = counts;
        println!("{of:?}: {plain:?}, {moved} move, {by_several} by several; slips: {slipped:?}");
        let enough = moved >= 1000 && (of.1 != Shaper::Indic || by_several >= 100);
        let is_fine = plain.is_ok() && enough;
        failed += usize::from(!is_fine) + usize::from(slipped.is_ok());
    }
    println!("{} passed, {failed} failed", 2 * REORDERINGS.len() - failed);
    ExitCode::from(u8::from(failed > 0))
}
