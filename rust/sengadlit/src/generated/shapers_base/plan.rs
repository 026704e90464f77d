// Generated from crates/shapers_base/src/plan.rt by rust/erase; edit the source.

//! The planner and the plan: what the shapers request of a font, and what they decided for one
//! script and font before they see a text. With them what two shapers or more name.

use crate::generated::shapers_base::buffer::Script;
pub use crate::generated::shapers_base::buffer::ShaperError;
use crate::generated::shapers_base::map::Map;

mod arabic;
mod breaks;
mod hangul;
mod indic;
mod joining;
mod khmer;
pub mod ot_category_t;
pub mod ot_position_t;
mod pause;
mod planner;
mod record;
mod universal;

pub use arabic::{ArabicPlan, StretchStart};
pub use breaks::BreakFlags;
pub use hangul::HangulPlan;
pub use indic::{
    BaseSearch, BlwfMode, IndicConfig, IndicPlan, IndicWouldSubstituteFeature, RephMode,
    RephPosition, ZeroContext,
};
pub use joining::JoiningType;
pub use khmer::KhmerPlan;
pub use pause::Pause;
pub use planner::{Planner, Request};
pub use record::{NormalizationMode, ZeroWidthMarks};
pub use universal::UniversalPlan;

/// The category of a character among those of [`ot_category_t`] or of the universal shaper.
///
/// [`ot_category_t`]: crate::plan::ot_category_t
pub type Category = u8;

/// The position of a glyph in its syllable, among those of [`ot_position_t`].
///
/// [`ot_position_t`]: crate::plan::ot_position_t
pub type Position = u8;

/// What a shaper does to a text of one script. A later version may add fields.
#[derive(Debug, PartialEq, Eq)]
#[non_exhaustive]
pub struct Plan {
    /// The script of the text, where it is known.
    pub script: Option<Script>,
    /// The features and lookups of the font.
    pub ot_map: Map,
    /// Whether GPOS places marks.
    pub has_gpos_mark: bool,
    /// Where the tiles of a stretched mark begin.
    pub stretch_start: StretchStart,
    /// Which places are flagged unsafe to break.
    pub break_flags: BreakFlags,
    /// Among which consonants Indic looks for the base of a syllable.
    pub base_search: BaseSearch,
    /// Where Indic's questions to the font leave out rules that need context.
    pub zero_context: ZeroContext,
    /// What the shaper itself keeps.
    pub plan_data: PlanData,
}

impl Plan {
    /// A plan whose shaper keeps nothing yet, for a font whose GPOS places no marks; tiles begin
    /// and breaks are flagged as the code of HarfBuzz has it, and Indic's base is looked for as in
    /// rustybuzz 0.20.1.
    ///
    /// <details><summary>Contract</summary>
    ///
    /// # Contract
    ///
    /// ```text
    /// ensures { result ≡ new_plan script ot_map }
    /// ```
    ///
    /// - `new_plan`: `crates/shapers_base/specs/Plan.antt`
    ///
    /// </details>
    #[inline]
    pub fn new(script: Option<Script>, ot_map: Map) -> Self {
        Plan {
            script,
            ot_map,
            has_gpos_mark: false,
            stretch_start: StretchStart::AsCode,
            break_flags: BreakFlags::AsCode,
            base_search: BaseSearch::WithoutMedials,
            zero_context: ZeroContext::OldSpec,
            plan_data: PlanData::None,
        }
    }
}

/// What a shaper keeps in the plan.
#[derive(Debug, PartialEq, Eq, Hash, Clone)]
pub enum PlanData {
    /// Nothing.
    None,
    /// The masks of the joining forms.
    Arabic(ArabicPlan),
    /// What Hangul keeps.
    Hangul(HangulPlan),
    /// What the universal shaper keeps.
    Universal(UniversalPlan),
    /// The masks of Khmer's basic features.
    Khmer(KhmerPlan),
    /// What the shaper of the Indic scripts keeps.
    Indic(IndicPlan),
}

impl PlanData {
    /// What Arabic keeps, if these are its data.
    ///
    /// <details><summary>Contract</summary>
    ///
    /// # Contract
    ///
    /// ```text
    /// ensures { option_copied result ≡ as_arabic self.now }
    /// ```
    ///
    /// - `as_arabic`: `crates/shapers_base/specs/Plan.antt`
    ///
    /// </details>
    #[inline]
    pub fn arabic(&self) -> Option<&ArabicPlan> {
        match self {
            PlanData::Arabic(kept) => Some(kept),
            _ => None,
        }
    }

    /// What Hangul keeps, if these are its data.
    ///
    /// <details><summary>Contract</summary>
    ///
    /// # Contract
    ///
    /// ```text
    /// ensures { option_copied result ≡ as_hangul self.now }
    /// ```
    ///
    /// - `as_hangul`: `crates/shapers_base/specs/Plan.antt`
    ///
    /// </details>
    #[inline]
    pub fn hangul(&self) -> Option<&HangulPlan> {
        match self {
            PlanData::Hangul(kept) => Some(kept),
            _ => None,
        }
    }

    /// What the universal shaper keeps, if these are its data.
    ///
    /// <details><summary>Contract</summary>
    ///
    /// # Contract
    ///
    /// ```text
    /// ensures { option_copied result ≡ as_universal self.now }
    /// ```
    ///
    /// - `as_universal`: `crates/shapers_base/specs/Plan.antt`
    ///
    /// </details>
    #[inline]
    pub fn universal(&self) -> Option<&UniversalPlan> {
        match self {
            PlanData::Universal(kept) => Some(kept),
            _ => None,
        }
    }

    /// What Khmer keeps, if these are its data.
    ///
    /// <details><summary>Contract</summary>
    ///
    /// # Contract
    ///
    /// ```text
    /// ensures { option_copied result ≡ as_khmer self.now }
    /// ```
    ///
    /// - `as_khmer`: `crates/shapers_base/specs/Plan.antt`
    ///
    /// </details>
    #[inline]
    pub fn khmer(&self) -> Option<&KhmerPlan> {
        match self {
            PlanData::Khmer(kept) => Some(kept),
            _ => None,
        }
    }

    /// What the shaper of the Indic scripts keeps, if these are its data.
    ///
    /// <details><summary>Contract</summary>
    ///
    /// # Contract
    ///
    /// ```text
    /// ensures { option_copied result ≡ as_indic self.now }
    /// ```
    ///
    /// - `as_indic`: `crates/shapers_base/specs/Plan.antt`
    ///
    /// </details>
    #[inline]
    pub fn indic(&self) -> Option<&IndicPlan> {
        match self {
            PlanData::Indic(kept) => Some(kept),
            _ => None,
        }
    }
}

/// What [`preprocess_text`] left to its caller.
///
/// [`preprocess_text`]: crate::Shaper::preprocess_text
#[derive(Clone, Copy, Debug, PartialEq, Eq, Hash)]
pub enum Preprocess {
    /// Nothing: the text is rewritten.
    Done,
    /// The caller runs the vowel constraints; nothing changed.
    CallerRunsVowelConstraints,
}
