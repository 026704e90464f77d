// Generated from crates/shapers_universal/src/ot_shaper_use/masks.rt by rust/erase; edit the source.

//! The masks of joining and the categories of the universal shaper.

use crate::generated::shapers_arabic::ot_shaper_arabic::setup_masks_inner;
use crate::generated::shapers_base::buffer::{Buffer, GlyphChange, GlyphInfo, change_each_in};
use crate::generated::shapers_base::font::Tables;
use crate::generated::shapers_base::plan::{Plan, PlanData};

/// Gives each letter its form, the form's mask and the glyph flags of joining, where the plan has a
/// plan of Arabic, and each glyph the category of its character in the universal shaper. It can't
/// refuse and takes no memory.
///
/// <details><summary>Contract</summary>
///
/// # Contract
///
/// ```text
/// requires data { is_universal plan.now.plan_data ≡ true }
/// requires characters { CanJoin (arabic_of plan.now.plan_data) buffer.old.glyphs }
/// ensures masks { let arabic = arabic_of plan.now.plan_data in
///     MasksAreSet arabic plan.now.script (T.tables tables.now) buffer.old buffer.new }
/// ensures breaks { let arabic = arabic_of plan.now.plan_data in
///     BreaksAsJoining arabic plan.now.script (T.tables tables.now) buffer.old buffer.new }
/// ```
///
/// - `arabic_of`, `is_universal`: `crates/shapers_universal/specs/PlanData.antt`
/// - `BreaksAsJoining`, `CanJoin`, `MasksAreSet`: `crates/shapers_universal/specs/UniversalMasks.antt`
///
/// </details>
#[inline]
pub fn setup_masks<T: Tables>(plan: &Plan, tables: &T, buffer: &mut Buffer) {
    match &plan.plan_data {
        PlanData::Universal(universal_plan) => match &universal_plan.arabic_plan {
            Some(arabic_plan) => {
                // (joining reads the letters around the text before it writes: tables that panic
                // there leave the text as it was, and elsewhere an empty buffer)
                setup_masks_inner(arabic_plan, plan.script, buffer, tables);
                set_categories(tables, buffer);
            }
            None => set_categories(tables, buffer),
        },
        _ => unreachable!("the plan has no data of the universal shaper"),
    }
}

// Gives each glyph the category of its character.
#[inline]
fn set_categories<T: Tables>(tables: &T, buffer: &mut Buffer) {
    buffer.change_outside(&Categories { tables });
}

/// Gives each of these glyphs the category of its character in the universal shaper.
///
/// <details><summary>Contract</summary>
///
/// # Contract
///
/// ```text
/// ensures { glyphs.new ≡ map (categorized (T.tables tables.now).universal) glyphs.old }
/// ```
///
/// - `categorized`: `crates/shapers_universal/specs/UniversalMasks.antt`
///
/// </details>
#[inline]
pub fn set_categories_in<T: Tables>(tables: &T, glyphs: &mut [GlyphInfo]) {
    change_each_in(glyphs, &Categories { tables });
}

// The tables that tell categories.
#[derive(Clone, Copy)]
struct Categories<'a, T: Tables> {
    tables: &'a T,
}

impl<'a, T: Tables> GlyphChange for Categories<'a, T> {
    #[inline]
    fn change(&self, glyph: &mut GlyphInfo) {
        glyph.category = self.tables.use_category(glyph.glyph_id);
    }
}
