// Generated from crates/shapers_base/src/plan/arabic.rt by rust/erase; edit the source.

use super::breaks::BreakFlags;

/// Where the tiles of a stretched mark begin to be laid, beside the word that they stretch over.
#[derive(Clone, Copy, Debug, PartialEq, Eq, Default, Hash)]
pub enum StretchStart {
    /// Half of what the fixed tiles leave of the word, or its edge where copies overlap.
    #[default]
    AsCode,
    /// So that what is laid is centred on the word.
    Centred,
}

/// What the shaper of Arabic keeps in the plan.
#[derive(Clone, Copy, Debug, PartialEq, Eq, Hash)]
pub struct ArabicPlan {
    /// The masks of `isol`, `fina`, `fin2`, `fin3`, `medi`, `med2` and `init`, and 0 for no form.
    pub mask_array: [u32; 8],
    /// Whether the font stretches marks, by `stch`.
    pub has_stch: bool,
    /// Where the tiles of a stretched mark begin.
    pub stretch_start: StretchStart,
    /// Which places are flagged unsafe to break.
    pub break_flags: BreakFlags,
}
