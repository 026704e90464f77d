// Generated from crates/shapers_indic_final/src/ot_shaper_indic_final/rules.rt by rust/erase; edit the source.

//! What the final reordering reads of the plan and the font.

use crate::generated::shapers_base::buffer::Script;
use crate::generated::shapers_base::font::{Font, GlyphId};
use crate::generated::shapers_base::plan::{IndicPlan, RephPosition};
use crate::generated::shapers_indic::ot_shaper_indic::indic_feature::{INIT, PREF};
use crate::generated::shapers_indic::ot_shaper_indic::virama_glyph;

const MALAYALAM: Script = Script(*b"Mlym");

const TAMIL: Script = Script(*b"Taml");

/// What the final reordering reads of the plan and the font.
#[derive(Clone, Copy, Debug, PartialEq, Eq, Hash)]
pub struct Rules {
    /// Where the script wants its reph.
    pub reph_pos: RephPosition,
    /// The glyph of its virama, if it has one and the font knows it.
    pub virama: Option<GlyphId>,
    /// The mask of `pref`, without glyph flag bits.
    pub pref: u32,
    /// The mask of `init`, without glyph flag bits.
    pub init: u32,
}

impl Rules {
    /// The rules by a plan and a font.
    ///
    /// <details><summary>Contract</summary>
    ///
    /// # Contract
    ///
    /// ```text
    /// ensures { result ≡ final_rules (F.font face.now) plan.now }
    /// ```
    ///
    /// - `final_rules`: `crates/shapers_indic_final/specs/FinalRules.antt`
    ///
    /// </details>
    #[inline]
    pub fn new<F: Font>(plan: &IndicPlan, face: &F) -> Self {
        Rules {
            reph_pos: plan.config.reph_pos,
            virama: virama_glyph(plan, face),
            pref: plan.mask_array[PREF] & !7,
            init: plan.mask_array[INIT] & !7,
        }
    }
}

// Whether a script is Malayalam.
#[inline]
pub(super) fn is_malayalam(script: Option<Script>) -> bool {
    script == Some(MALAYALAM)
}

// Whether a script has neither half forms nor explicit viramas: Malayalam and Tamil.
#[inline]
pub(super) fn has_no_half_forms(script: Option<Script>) -> bool {
    is_malayalam(script) || script == Some(TAMIL)
}
