//! The table `kern`, in fonts whose GPOS doesn't kern.

use crate::buffer::{Buffer, Direction, Tag};
use crate::generated::opentype_face::bytes::{table_at, u16_at};
use crate::generated::opentype_gpos::kern_lefts::{KernLefts, kern_by_lefts};
use crate::map::TableIndex;
use crate::ot_shape_plan::{EnginePlan, FontFeatures};
use crate::ot_shape_position::{
    DefaultIgnorables, GlyphClasses, zero_mark_widths, zero_width_default_ignorables,
};
use crate::plan::ZeroWidthMarks;
use crate::shaper::Shaper;

/// The bit of a subtable's coverage by which it moves glyphs across their line.
const ACROSS: u16 = 4;

/// The feature of kerning.
const KERN: Tag = Tag(*b"kern");

/// The bits of glyphs that the table `kern` moves by a plan; 0 where it moves none: GPOS has the feature, or
/// the shaper is one that doesn't take the table. (HarfBuzz's `hb_ot_shape_planner_t::compile`.)
pub(super) fn kern_mask(plan: &EnginePlan, features: &impl FontFeatures) -> u32 {
    let has_feature = features.feature_lookups(TableIndex::GPOS, KERN).is_some();
    let takes_table = positions_by_itself(plan.shaper());
    if has_feature && plan.applies_gpos() || !takes_table {
        0
    } else {
        plan.plan().ot_map.one_mask(KERN)
    }
}

/// Whether a shaper moves pairs and places marks where GPOS doesn't. (HarfBuzz 12.3.2's `fallback_position`,
/// which Hangul has there, too.)
pub(super) fn positions_by_itself(shaper: Option<Shaper>) -> bool {
    shaper.is_none_or(|shaper| shaper.fallback_position() || shaper == Shaper::Hangul)
}

/// The table of a font, and how a plan has it applied.
pub(super) struct Kerning<'a> {
    pub lefts: &'a KernLefts<'a>,
    pub mask: u32,
    pub ignorables: DefaultIgnorables,
}

impl Kerning<'_> {
    /// Whether a subtable moves glyphs across their line.
    pub fn moves_across(&self) -> bool {
        let table = self.lefts.table();
        let mut rest = table_at(table, 4);
        for _ in 0..u16_at(table, 2) {
            let length = u16_at(rest, 2);
            if length < 6 {
                return false;
            }
            if u16_at(rest, 4) & ACROSS != 0 {
                return true;
            }
            rest = table_at(rest, length.into());
        }
        false
    }

    /// Moves pairs of glyphs by the table. What marks and ignorable glyphs got they lose again, since they
    /// lost their advances before this.
    pub fn apply(&self, plan: &EnginePlan, classes: &impl GlyphClasses, buffer: &mut Buffer) {
        if self.mask == 0 || self.lefts.table().is_empty() {
            return;
        }
        kern_by_lefts(self.lefts, self.mask, buffer);
        let zeroing = plan.shaper().map(Shaper::zero_width_marks);
        if zeroing.is_none_or(|zeroing| zeroing == ZeroWidthMarks::GDEF_LATE) {
            let is_forward = matches!(
                buffer.direction(),
                Direction::LeftToRight | Direction::TopToBottom
            );
            zero_mark_widths(classes, is_forward && !plan.applies_gpos(), buffer);
        }
        zero_width_default_ignorables(self.ignorables, buffer);
    }
}
