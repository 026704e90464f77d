// Generated from crates/shapers_stretch/src/ot_shaper_arabic_stretch/recording.rt by rust/erase; edit the source.

//! The pause behind `stch`: glyphs that it multiplied are the tiles of a mark.

use crate::generated::shapers_arabic::ot_shaper_arabic::arabic_action_t::{
    STRETCHING_FIXED, STRETCHING_REPEATING,
};
use crate::generated::shapers_base::buffer::{Buffer, GlyphInfo};
use crate::generated::shapers_base::plan::{Plan, PlanData};

/// Where the font stretches marks, gives each multiplied glyph the action of its tile, which
/// repeats if the glyph's component is odd, and marks the buffer if there is one. It can't refuse
/// and takes no memory. (OpenType `stch`.)
///
/// <details><summary>Contract</summary>
///
/// # Contract
///
/// ```text
/// requires { IsArabic plan.now.plan_data }
/// ensures { buffer.new ≡ tiles_recorded plan.now.plan_data buffer.old }
/// ```
///
/// - `IsArabic`: `crates/shapers_arabic/specs/PlanData.antt`
/// - `tiles_recorded`: `crates/shapers_stretch/specs/Recorded.antt`
///
/// </details>
#[inline]
pub fn record_stch(plan: &Plan, buffer: &mut Buffer) {
    match &plan.plan_data {
        PlanData::Arabic(arabic_plan) => {
            if arabic_plan.has_stch {
                record_tiles(buffer);
            }
        }
        _ => unreachable!("the plan has no data of the Arabic shaper"),
    }
}

// Gives each multiplied glyph the action of its tile, and marks the buffer if there is one.
#[inline]
fn record_tiles(buffer: &mut Buffer) {
    if buffer.with_glyphs_mut(record_stch_in) {
        buffer.set_has_stch(true);
    }
}

/// Gives each multiplied glyph of the slice the action of its tile, and returns whether there was
/// one. (OpenType `stch`.)
///
/// <details><summary>Contract</summary>
///
/// # Contract
///
/// ```text
/// ensures glyphs { glyphs.new ≡ map recorded glyphs.old }
/// ensures answer { result ≡ list_any (λ g. is_multiplied g.glyph_props) glyphs.old }
/// ```
///
/// - `is_multiplied`: `crates/shapers_buffer/specs/Properties.antt`
/// - `recorded`: `crates/shapers_stretch/specs/Recorded.antt`
///
/// </details>
#[inline]
pub fn record_stch_in(glyphs: &mut [GlyphInfo]) -> bool {
    let mut has_stch = false;
    for glyph in glyphs.iter_mut() {
        if glyph.glyph_props.is_multiplied() {
            glyph.auxiliary = tile_action(glyph.lig_props.component());
            has_stch = true;
        }
    }
    has_stch
}

// The tile that a multiplied glyph of this component is.
#[inline]
fn tile_action(component: u8) -> u8 {
    if component % 2 == 1 {
        STRETCHING_REPEATING
    } else {
        STRETCHING_FIXED
    }
}
