// Generated from crates/shapers_pipeline/src/preprocessing.rt by rust/erase; edit the source.

//! What a shaper's hooks do to a text before its lookups.

use crate::generated::rustybuzz_shapers::shaper::Shaper;
use crate::generated::rustybuzz_shapers::shaper::checked::Condition;
use crate::generated::shapers_base::buffer::{Buffer, ShaperError};
use crate::generated::shapers_base::font::{Font, Tables};
use crate::generated::shapers_base::plan::Plan;
use crate::generated::shapers_prepare::ot_shape_prepare::{
    flag_zwnj_graphemes, preprocess_text_vowel_constraints,
};

// Rewrites a text as its shaper wants it. The shapers that leave the vowel constraints to their
// caller have no other preprocessing, but for the flags that the choice adds in Indic texts.
pub(crate) fn preprocess_text<F: Font>(
    shaper: Option<Shaper>,
    plan: &Plan,
    face: &F,
    buffer: &mut Buffer,
) -> Result<(), ShaperError> {
    match shaper {
        Some(Shaper::Indic) => {
            preprocess_text_vowel_constraints(buffer)?;
            flag_zwnj_graphemes(plan.break_flags, buffer);
            Ok(())
        }
        Some(Shaper::Universal) => preprocess_text_vowel_constraints(buffer),
        Some(shaper) => {
            shaper.preprocess_text(plan, face, buffer)?;
            Ok(())
        }
        None => Ok(()),
    }
}

// Whether the plan has the data that the shaper's masks are read from.
#[inline]
pub(crate) fn plan_fits(shaper: Option<Shaper>, plan: &Plan) -> bool {
    match shaper {
        Some(shaper) => shaper.plan_fits(plan),
        None => true,
    }
}

// Sets the masks and categories of the shaper, or returns the condition of it that the glyphs don't
// meet; the buffer is unchanged then.
pub(crate) fn setup_masks<F: Font, T: Tables>(
    shaper: Option<Shaper>,
    plan: &Plan,
    face: &F,
    tables: &T,
    buffer: &mut Buffer,
) -> Result<(), Condition> {
    let Some(shaper) = shaper else {
        return Ok(());
    };
    if !shaper.glyphs_fit(plan, buffer) {
        return Err(Condition::Glyphs);
    }
    // (a shaper that has no masks of its own leaves the glyphs as they are)
    let _ = shaper.setup_masks(plan, face, tables, buffer);
    Ok(())
}
