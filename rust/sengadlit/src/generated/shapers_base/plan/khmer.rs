// Generated from crates/shapers_base/src/plan/khmer.rt by rust/erase; edit the source.

/// What Khmer keeps in the plan.
#[derive(Clone, Copy, Debug, PartialEq, Eq, Hash)]
pub struct KhmerPlan {
    /// The masks of `pref`, `blwf`, `abvf`, `pstf` and `cfar`, and 0 for `pres`, `abvs`, `blws` and
    /// `psts`, which hold for the whole text.
    pub mask_array: [u32; 9],
}
