// Generated from crates/shapers_plan/src/ot_shape_plan/choices.rt by rust/erase; edit the source.

use crate::generated::shapers_base::plan::{BaseSearch, BreakFlags, StretchStart, ZeroContext};

/// What a caller chooses where a shaper can go more than one way.
#[derive(Clone, Copy, Debug, PartialEq, Eq, Default, Hash)]
pub struct ShapeChoices {
    /// Where the tiles of a stretched mark begin.
    pub stretch_start: StretchStart,
    /// Which places are flagged unsafe to break.
    pub break_flags: BreakFlags,
    /// Among which consonants Indic looks for the base of a syllable.
    pub base_search: BaseSearch,
    /// Where Indic's questions to the font leave out rules that need context.
    pub zero_context: ZeroContext,
}
