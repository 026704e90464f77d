// Generated from crates/shapers_pipeline/src/lengths.rt by rust/erase; edit the source.

//! How long a text gets.

use crate::generated::rustybuzz_shapers::shaper::Shaper;
use crate::generated::shapers_base::plan::Pause;
use crate::generated::shapers_normal::ot_shape_normalize;
use crate::generated::shapers_pipeline::lookups::Lookups;
use crate::generated::shapers_pipeline::stages::lookups_of_stage;
use crate::generated::shapers_plan::ot_map::{Stage, StageLookup};
use crate::generated::shapers_plan::ot_shape_plan::EnginePlan;

/// For how many glyphs a text of so many characters needs room, whatever becomes of it before Arabic
/// marks stretch: with this [`max_len`] neither its preparation nor a stage refuses with [`TooLong`]. At
/// most the greatest number.
///
/// How many glyphs stretched marks add goes by the widths of their words, which the lookups decide:
/// nothing bounds it by the length of the text.
///
/// <details><summary>Contract</summary>
///
/// # Contract
///
/// ```text
/// ensures { let growth = L.growth_of lookups.now in
///     let bound = shaped_bound plan.now.shaper growth plan.now.lookups plan.now.stages len in
///     result ≡ min bound (2 ^ 64 - 1) }
/// ```
///
/// - `shaped_bound`: `crates/shapers_pipeline/specs/Lengths.antt`
///
/// </details>
///
/// [`TooLong`]: crate::ShaperError::TooLong
/// [`max_len`]: crate::Buffer::max_len
pub fn length_bound<L: Lookups>(plan: &EnginePlan, lookups: &L, len: usize) -> usize {
    let preprocessed = len
        .saturating_add(1)
        .saturating_mul(preprocess_growth(plan.shaper()));
    let prepared = ot_shape_normalize::length_bound(preprocessed);
    stages_bound(plan.stages(), plan.lookups(), lookups, prepared)
}

// How many times as long preprocessing makes a text at most.
#[inline]
fn preprocess_growth(shaper: Option<Shaper>) -> usize {
    match shaper {
        Some(Shaper::Hangul) => 3,
        Some(Shaper::Thai | Shaper::Indic | Shaper::Universal) => 2,
        _ => 1,
    }
}

// How long a text of so many glyphs gets at most by these stages.
fn stages_bound<L: Lookups>(
    stages: &[Stage],
    list: &[StageLookup],
    lookups: &L,
    len: usize,
) -> usize {
    let mut bound = len;
    for stage in stages {
        let looked_up = looked_up_bound(lookups_of_stage(*stage, list), lookups, bound);
        bound = looked_up.saturating_mul(pause_growth(stage.pause));
    }
    bound
}

// By these lookups, one after another.
fn looked_up_bound<L: Lookups>(list: &[StageLookup], lookups: &L, len: usize) -> usize {
    let mut bound = len;
    for lookup in list {
        bound = bound.saturating_mul(lookups.growth(lookup));
    }
    bound
}

// How many times as long a pause makes a text at most.
#[inline]
fn pause_growth(pause: Option<Pause>) -> usize {
    match pause {
        Some(
            Pause::InitialReordering
            | Pause::ReorderKhmer
            | Pause::ReorderMyanmar
            | Pause::ReorderUse,
        ) => 2,
        _ => 1,
    }
}
