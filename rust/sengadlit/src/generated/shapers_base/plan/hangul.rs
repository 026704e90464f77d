// Generated from crates/shapers_base/src/plan/hangul.rt by rust/erase; edit the source.

/// What Hangul keeps in the plan.
#[derive(Clone, Copy, Debug, PartialEq, Eq, Hash)]
pub struct HangulPlan {
    /// The masks of the features of unmarked glyphs (none) and of leading, vowel and trailing jamo.
    pub mask_array: [u32; 4],
}
