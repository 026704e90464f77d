// Generated from crates/shapers_pipeline/src/positions.rt by rust/erase; edit the source.

//! Positions: what is done around GPOS.

use crate::generated::rustybuzz_shapers::shaper::Shaper;
use crate::generated::shapers_base::buffer::{Buffer, Direction, ShaperError};
use crate::generated::shapers_base::plan::ZeroWidthMarks;
use crate::generated::shapers_pipeline::fractions::goes_forward;
use crate::generated::shapers_pipeline::lookups::Lookups;
use crate::generated::shapers_pipeline::settings::ShapeSettings;
use crate::generated::shapers_plan::ot_map::StageLookup;
use crate::generated::shapers_plan::ot_shape_plan::EnginePlan;
use crate::generated::shapers_position::ot_shape_position::{
    MetricsFont, hide_default_ignorables, set_advances, set_space_widths, zero_mark_widths,
    zero_width_default_ignorables,
};

// Gives the glyphs of a text positions, in the order that it is drawn in, and hides those that need
// not be drawn.
pub(crate) fn position_text<F: MetricsFont, L: Lookups>(
    plan: &EnginePlan,
    settings: &ShapeSettings,
    font: &F,
    lookups: &L,
    buffer: &mut Buffer,
) -> Result<(), ShaperError> {
    let applies_gpos = plan.applies_gpos();
    let zeroing = zeroing_of(plan.shaper());
    place_glyphs(font, buffer)?;
    zero_marks_if(is_early(zeroing), applies_gpos, lookups, buffer);
    apply_positioning_if(applies_gpos, lookups, plan.positioning(), buffer)?;
    zero_marks_if(is_late(zeroing), applies_gpos, lookups, buffer);
    zero_width_default_ignorables(settings.ignorables, buffer);
    lookups.finish_positions(buffer);
    reverse_if_backward(buffer);
    let invisible_glyph = settings.normalize.invisible_glyph;
    hide_default_ignorables(settings.ignorables, invisible_glyph, font, buffer);
    Ok(())
}

// Gives each glyph its advance, and a space that the font lacks its width.
fn place_glyphs<F: MetricsFont>(font: &F, buffer: &mut Buffer) -> Result<(), ShaperError> {
    set_advances(font, buffer)?;
    set_space_widths(font, buffer);
    Ok(())
}

// When marks lose their advances.
#[inline]
fn zeroing_of(shaper: Option<Shaper>) -> ZeroWidthMarks {
    match shaper {
        Some(shaper) => shaper.zero_width_marks(),
        None => ZeroWidthMarks::GDEF_LATE,
    }
}

#[inline]
fn is_early(zeroing: ZeroWidthMarks) -> bool {
    matches!(zeroing, ZeroWidthMarks::GDEF_EARLY)
}

#[inline]
fn is_late(zeroing: ZeroWidthMarks) -> bool {
    matches!(zeroing, ZeroWidthMarks::GDEF_LATE)
}

// Whether marks without an advance hang over the glyph before them: without GPOS, where the text
// goes forward. Where it goes backward they will hang over the one behind them.
#[inline]
fn hangs_marks(applies_gpos: bool, direction: Direction) -> bool {
    !applies_gpos && goes_forward(direction)
}

// Takes marks their advances, if this is the time.
fn zero_marks_if<L: Lookups>(is_time: bool, applies_gpos: bool, lookups: &L, buffer: &mut Buffer) {
    if !is_time {
        return;
    }
    let hangs = hangs_marks(applies_gpos, buffer.direction());
    zero_mark_widths(lookups, hangs, buffer);
}

// Applies lookups of GPOS, one after another, if it is applied.
fn apply_positioning_if<L: Lookups>(
    applies_gpos: bool,
    lookups: &L,
    list: &[StageLookup],
    buffer: &mut Buffer,
) -> Result<(), ShaperError> {
    if applies_gpos {
        lookups.position_all(list, buffer)
    } else {
        Ok(())
    }
}

// Turns a text to the order that it is drawn in.
fn reverse_if_backward(buffer: &mut Buffer) {
    if matches!(
        buffer.direction(),
        Direction::RightToLeft | Direction::BottomToTop
    ) {
        buffer.reverse();
    }
}
