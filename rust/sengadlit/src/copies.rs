//! Copies of what owns lists, which may be refused memory, and buffers that are equal.

use crate::alloc::{AllocError, Global, Vec};
use crate::buffer::{Buffer, ShaperError};
use crate::map::Map;
use crate::ot_shape_plan::EnginePlan;
use crate::plan::{Plan, Planner};
use core::ops::Range;

/// Buffers are equal that hold the same glyphs, positions and settings. What room they have, which
/// places are listed in them and what lookups have left is of no account.
impl PartialEq for Buffer {
    fn eq(&self, other: &Self) -> bool {
        self.glyphs() == other.glyphs()
            && self.positions() == other.positions()
            && self.settings() == other.settings()
    }
}

impl Eq for Buffer {}

impl Buffer {
    /// An equal buffer, with the same places listed: [`copy`](Buffer::copy) by the name that Rust
    /// gives a clone that may be refused.
    ///
    /// # Errors
    ///
    /// [`ShaperError::Memory`] where memory is refused.
    #[inline]
    pub fn try_clone(&self) -> Result<Self, ShaperError> {
        self.copy()
    }
}

impl Map {
    /// An equal map.
    ///
    /// # Errors
    ///
    /// Memory is refused.
    pub fn try_clone(&self) -> Result<Self, AllocError> {
        let mut stages = Vec::with_capacity(Global, self.stages.len())?;
        for Range { start, end } in &self.stages {
            stages.push(*start..*end)?;
        }
        Ok(Map {
            features: Vec::from_slice(Global, &self.features)?,
            stages,
            lookups: Vec::from_slice(Global, &self.lookups)?,
            ..*self
        })
    }
}

impl Plan {
    /// An equal plan.
    ///
    /// # Errors
    ///
    /// Memory is refused.
    pub fn try_clone(&self) -> Result<Self, AllocError> {
        Ok(Plan {
            ot_map: self.ot_map.try_clone()?,
            plan_data: self.plan_data.clone(),
            ..*self
        })
    }
}

impl Planner {
    /// An equal planner.
    ///
    /// # Errors
    ///
    /// Memory is refused.
    pub fn try_clone(&self) -> Result<Self, AllocError> {
        Ok(Planner {
            requests: Vec::from_slice(Global, &self.requests)?,
            ..*self
        })
    }
}

impl EnginePlan {
    /// An equal plan.
    ///
    /// # Errors
    ///
    /// Memory is refused.
    pub fn try_clone(&self) -> Result<Self, AllocError> {
        Ok(EnginePlan {
            plan: self.plan.try_clone()?,
            substitutions: Vec::from_slice(Global, &self.substitutions)?,
            lookups: Vec::from_slice(Global, &self.lookups)?,
            positioning: Vec::from_slice(Global, &self.positioning)?,
            ranges: Vec::from_slice(Global, &self.ranges)?,
            ..*self
        })
    }
}

#[cfg(test)]
mod tests {
    use crate::alloc::{Global, Vec};
    use crate::buffer::{
        Buffer, BufferClusterLevel, BufferFlags, Direction, GlyphInfo, GlyphPosition, LigProps,
    };
    use crate::font::NominalOnly;
    use crate::map::{FeatureMap, TableIndex};
    use crate::ot_shape_plan::{EnginePlan, UserFeature};
    use crate::plan::{Pause, Plan, Planner};
    use crate::shaper::Shaper;
    use crate::test_font::TestFont;
    use crate::{Script, Tag};

    #[test]
    fn a_buffers_copy_is_equal_until_one_changes() {
        let mut buffer = Buffer::from("ab");
        let copy = buffer.try_clone().unwrap();
        assert_eq!(copy, buffer);
        buffer.set_place(1, 0);
        assert_eq!(copy, buffer);
        buffer.set_max_len(2);
        assert_ne!(copy, buffer);
        let glyph = GlyphInfo {
            lig_props: LigProps(1),
            ..copy.get(1)
        };
        let mut other = copy.try_clone().unwrap();
        other.set(1, glyph);
        assert_ne!(copy, other);
    }

    #[test]
    fn buffers_with_other_positions_differ() {
        let (mut buffer, plain) = (Buffer::from("ab"), Buffer::from("ab"));
        let zero = Vec::from_elem(Global, GlyphPosition::ZERO, 2).unwrap();
        assert!(buffer.set_positions(zero));
        assert_ne!(buffer, plain);
        let mut moved = buffer.try_clone().unwrap();
        assert_eq!(moved, buffer);
        let x_offset = GlyphPosition {
            x_offset: 1,
            ..GlyphPosition::ZERO
        };
        moved.set_position(1, x_offset);
        assert_ne!(moved, buffer);
    }

    // Each setting counts, and so does each glyph's place.
    #[test]
    fn buffers_with_other_settings_differ() {
        let plain = Buffer::from("ab");
        let changes: [fn(&mut Buffer); 7] = [
            |buffer| buffer.set_script(Some(Script(*b"Thai"))),
            |buffer| buffer.set_direction(Direction::RightToLeft),
            |buffer| buffer.set_cluster_level(BufferClusterLevel::Characters),
            |buffer| buffer.set_flags(BufferFlags::DO_NOT_INSERT_DOTTED_CIRCLE),
            |buffer| buffer.set_contexts("c", ""),
            |buffer| buffer.set_contexts("", "c"),
            |buffer| buffer.with_glyphs_mut(|glyphs| glyphs.swap(0, 1)),
        ];
        for (number, change) in changes.iter().enumerate() {
            let mut changed = plain.try_clone().unwrap();
            change(&mut changed);
            assert_ne!(changed, plain, "change {number}");
            assert_eq!(changed, changed.try_clone().unwrap(), "change {number}");
        }
    }

    /// A font in which each feature of both tables has lookup 5.
    const LATIN: TestFont = TestFont {
        tables: &[TableIndex::GSUB, TableIndex::GPOS],
        script: Tag(*b"latn"),
        lookups: |_, _| Some(&[5]),
    };

    #[test]
    fn a_copied_plan_of_a_text_has_all_lists() {
        let font = NominalOnly(|_| None);
        let (script, left) = (Some(Script(*b"Latn")), Direction::LeftToRight);
        let user = UserFeature {
            tag: Tag(*b"salt"),
            value: 1,
            start: 2,
            end: 4,
        };
        let plan = EnginePlan::new(Global, script, left, &font, &LATIN, &[user]).unwrap();
        let copy = plan.try_clone().unwrap();
        assert_eq!(copy, plan);
        let lens = |plan: &EnginePlan| {
            let lists = (plan.lookups().len(), plan.positioning().len());
            (lists, plan.ranges().len(), plan.stages().len())
        };
        let ((lookups, positioning), ranges, stages) = lens(&copy);
        assert!(lookups > 0 && positioning > 0 && ranges > 0 && stages > 0);
        assert_eq!(lens(&copy), lens(&plan));
    }

    #[test]
    fn a_plans_copy_is_equal_until_one_changes() {
        let features = [FeatureMap::new(Tag(*b"pref"), 0x10, 0)];
        let plan = Plan::builder()
            .script(Script(*b"Khmr"))
            .features(&features)
            .stages(&[0..1, 1..2])
            .lookups(&[14, 15])
            .global_mask(0x100)
            .build_for(Shaper::Khmer)
            .unwrap();
        let mut copy = plan.try_clone().unwrap();
        assert_eq!(copy, plan);
        copy.has_gpos_mark = true;
        assert_ne!(copy, plan);
        let other = Plan::builder().features(&features).build().unwrap();
        assert_ne!(other.ot_map, plan.ot_map);
    }

    #[test]
    fn a_planners_copy_is_equal_until_one_changes() {
        let mut planner = Planner::new(Global, None);
        planner.enable_feature(Tag(*b"ccmp"), 0, 1).unwrap();
        let copy = planner.try_clone().unwrap();
        assert_eq!(copy, planner);
        planner.add_gsub_pause(Some(Pause::RecordStch)).unwrap();
        assert_ne!(copy, planner);
    }
}
