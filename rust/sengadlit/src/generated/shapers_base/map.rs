// Generated from crates/shapers_base/src/map.rt by rust/erase; edit the source.

//! The map from features to masks and lookups, as far as the shapers read it. It knows GSUB alone.

use crate::support::prelude::*;

use crate::generated::shapers_base::buffer::{ShaperError, Tag};
use crate::support::alloc::Global;
use core::ops::Range;

/// No wish.
pub const F_NONE: u32 = 0;
/// The feature holds for the whole text.
pub const F_GLOBAL: u32 = 1;
/// Something stands in for the feature where the font lacks it.
pub const F_HAS_FALLBACK: u32 = 2;
/// The feature sees zero width non-joiners.
pub const F_MANUAL_ZWNJ: u32 = 4;
/// The feature sees zero width joiners.
pub const F_MANUAL_ZWJ: u32 = 8;
/// The feature sees both kinds of joiners.
pub const F_MANUAL_JOINERS: u32 = F_MANUAL_ZWNJ | F_MANUAL_ZWJ;
/// The feature stays within a syllable.
pub const F_PER_SYLLABLE: u32 = 64;

/// One of the two tables of a font that features stand in.
#[derive(Clone, Copy, Debug, PartialEq, Eq, Hash)]
pub enum TableIndex {
    /// The table of substitutions.
    GSUB,
    /// The table of positions.
    GPOS,
}

/// A feature of the map.
#[derive(Clone, Copy, Debug, PartialEq, Eq, Hash)]
pub struct FeatureMap {
    /// The tag of the feature.
    pub tag: Tag,
    /// The bits of a glyph's mask that turn the feature on.
    pub mask: u32,
    /// The stage that its lookups run in.
    pub stage: usize,
}

/// The map that the font's GSUB table and the wanted features make.
#[derive(Debug, PartialEq, Eq)]
pub struct Map {
    pub(crate) features: Vec<FeatureMap>,
    pub(crate) stages: Vec<Range<usize>>,
    pub(crate) lookups: Vec<u16>,
    pub(crate) global_mask: u32,
    pub(crate) chosen_script: Option<Tag>,
    pub(crate) found_script: bool,
}

impl Map {
    /// A map of these features, stages and lookups. None if a stage isn't a range of the list of
    /// lookups, or if a feature's mask touches a glyph flag bit. It takes no memory.
    ///
    /// <details><summary>Contract</summary>
    ///
    /// # Contract
    ///
    /// ```text
    /// ensures { let map : Map = record {
    ///   features = features.items;
    ///   stages = stages.items;
    ///   lookups = lookups.items;
    ///   global = global_mask;
    ///   chosen = chosen_script;
    ///   found = found_script;
    /// } in
    ///     result ≡ (if can_be_map map then Some map else None) }
    /// ```
    ///
    /// - `Map`, `can_be_map`: `crates/shapers_base/specs/Map.antt`
    ///
    /// </details>
    pub fn new(
        features: Vec<FeatureMap>,
        stages: Vec<Range<usize>>,
        lookups: Vec<u16>,
        global_mask: u32,
        chosen_script: Option<Tag>,
        found_script: bool,
    ) -> Option<Self> {
        if !are_ranges(stages.as_slice(), lookups.len()) || !are_off_flags(features.as_slice()) {
            return None;
        }
        Some(Map {
            features,
            stages,
            lookups,
            global_mask,
            chosen_script,
            found_script,
        })
    }

    /// A map of copies of these, by the same rule as `new`. The only refusal is [`Memory`], and none
    /// comes where they can't be a map's.
    ///
    /// # Errors
    ///
    /// [`Memory`].
    ///
    /// <details><summary>Contract</summary>
    ///
    /// # Contract
    ///
    /// ```text
    /// ensures answer { let map : Map = record {
    ///   features = features.now;
    ///   stages = stages.now;
    ///   lookups = lookups.now;
    ///   global = global_mask;
    ///   chosen = chosen_script;
    ///   found = found_script;
    /// } in
    ///     IfOk result (λ answer. answer ≡ (if can_be_map map then Some map else None)) }
    /// ensures refusal { IsOkUnless result Memory }
    /// ensures none { let map : Map = record {
    ///   features = features.now;
    ///   stages = stages.now;
    ///   lookups = lookups.now;
    ///   global = global_mask;
    ///   chosen = chosen_script;
    ///   found = found_script;
    /// } in
    ///     can_be_map map ≡ false → IsOk result }
    /// ```
    ///
    /// - `Map`, `can_be_map`: `crates/shapers_base/specs/Map.antt`
    ///
    /// </details>
    ///
    /// [`Memory`]: crate::ShaperError::Memory
    pub fn from_slices(
        alloc: Global,
        features: &[FeatureMap],
        stages: &[Range<usize>],
        lookups: &[u16],
        global_mask: u32,
        chosen_script: Option<Tag>,
        found_script: bool,
    ) -> Result<Option<Self>, ShaperError> {
        if !are_ranges(stages, lookups.len()) || !are_off_flags(features) {
            return Ok(None);
        }
        Ok(Self::new(
            copied(alloc, features)?,
            copied_stages(alloc, stages)?,
            copied(alloc, lookups)?,
            global_mask,
            chosen_script,
            found_script,
        ))
    }

    /// The mask of the first feature by this tag, or 0. It touches no glyph flag bit.
    ///
    /// <details><summary>Contract</summary>
    ///
    /// # Contract
    ///
    /// ```text
    /// ensures first { result ≡ mask_of tag self.now }
    /// ensures off_flags { result % 8 ≡ 0 }
    /// ```
    ///
    /// - `mask_of`: `crates/shapers_base/specs/Map.antt`
    ///
    /// </details>
    #[inline]
    pub fn one_mask(&self, tag: Tag) -> u32 {
        match first_feature(self.features.as_slice(), tag) {
            Some(feature) => feature.mask,
            None => 0,
        }
    }

    /// The stage of the first feature by this tag.
    ///
    /// <details><summary>Contract</summary>
    ///
    /// # Contract
    ///
    /// ```text
    /// ensures { result ≡ of_gsub table_index (stage_of tag self.now) None }
    /// ```
    ///
    /// - `of_gsub`, `stage_of`: `crates/shapers_base/specs/Map.antt`
    ///
    /// </details>
    #[inline]
    pub fn stage_of(&self, table_index: TableIndex, tag: Tag) -> Option<usize> {
        match table_index {
            TableIndex::GSUB => Some(first_feature(self.features.as_slice(), tag)?.stage),
            TableIndex::GPOS => None,
        }
    }

    /// The places of a stage in the list of lookups: `0..0` if there is no such stage.
    ///
    /// <details><summary>Contract</summary>
    ///
    /// # Contract
    ///
    /// ```text
    /// ensures range { result ≡ of_gsub table_index (range_of stage self.now) no_range }
    /// ensures in_order { result.start ≤ result.end }
    /// ensures in_range { result.end ≤ length self.now.lookups }
    /// ```
    ///
    /// - `no_range`, `of_gsub`, `range_of`: `crates/shapers_base/specs/Map.antt`
    ///
    /// </details>
    #[inline]
    pub fn stage_lookup_range(&self, table_index: TableIndex, stage: usize) -> Range<usize> {
        if table_index == TableIndex::GPOS || stage >= self.stages.len() {
            return 0..0;
        }
        let range = &self.stages[stage];
        range.start..range.end
    }

    /// The lookups of a range of the list, as far as it goes.
    ///
    /// <details><summary>Contract</summary>
    ///
    /// # Contract
    ///
    /// ```text
    /// ensures { result.now ≡ lookups_in range.now self.now }
    /// ```
    ///
    /// - `lookups_in`: `crates/shapers_base/specs/Map.antt`
    ///
    /// </details>
    #[inline]
    pub fn lookups(&self, range: &Range<usize>) -> &[u16] {
        let end = range.end.min(self.lookups.len());
        let start = range.start.min(end);
        &self.lookups[start..end]
    }

    /// The lookup at this place of the list.
    ///
    /// <details><summary>Contract</summary>
    ///
    /// # Contract
    ///
    /// ```text
    /// ensures { result ≡ of_gsub table_index (slice_get self.now.lookups index) None }
    /// ```
    ///
    /// - `of_gsub`: `crates/shapers_base/specs/Map.antt`
    ///
    /// </details>
    #[inline]
    pub fn lookup(&self, table_index: TableIndex, index: usize) -> Option<u16> {
        match table_index {
            TableIndex::GSUB => self.lookups.get(index).copied(),
            TableIndex::GPOS => None,
        }
    }

    /// The script of the font that was chosen for the text.
    ///
    /// <details><summary>Contract</summary>
    ///
    /// # Contract
    ///
    /// ```text
    /// ensures { result ≡ of_gsub table_index self.now.chosen None }
    /// ```
    ///
    /// - `of_gsub`: `crates/shapers_base/specs/Map.antt`
    ///
    /// </details>
    #[inline]
    pub fn chosen_script(&self, table_index: TableIndex) -> Option<Tag> {
        match table_index {
            TableIndex::GSUB => self.chosen_script,
            TableIndex::GPOS => None,
        }
    }

    /// Whether the table has the script that was requested.
    ///
    /// <details><summary>Contract</summary>
    ///
    /// # Contract
    ///
    /// ```text
    /// ensures { result ≡ of_gsub table_index self.now.found false }
    /// ```
    ///
    /// - `of_gsub`: `crates/shapers_base/specs/Map.antt`
    ///
    /// </details>
    #[inline]
    pub fn found_script(&self, table_index: TableIndex) -> bool {
        match table_index {
            TableIndex::GSUB => self.found_script,
            TableIndex::GPOS => false,
        }
    }

    /// The bits of the features that hold for the whole text.
    ///
    /// <details><summary>Contract</summary>
    ///
    /// # Contract
    ///
    /// ```text
    /// ensures { result ≡ self.now.global }
    /// ```
    ///
    /// </details>
    #[inline]
    pub fn global_bits(&self) -> u32 {
        self.global_mask
    }
}

// The first of these features that has this tag.
#[inline]
fn first_feature(features: &[FeatureMap], tag: Tag) -> Option<FeatureMap> {
    features.iter().copied().find(|feature| feature.tag == tag)
}

// A copy of these.
#[inline]
fn copied<T: Copy>(alloc: Global, items: &[T]) -> Result<Vec<T>, ShaperError> {
    let mut copy = Vec::new(alloc);
    copy.extend_from_slice(items)?;
    Ok(copy)
}

// A copy of these stages.
#[inline]
fn copied_stages(alloc: Global, stages: &[Range<usize>]) -> Result<Vec<Range<usize>>, ShaperError> {
    let mut copy = Vec::new(alloc);
    copy.reserve(stages.len())?;
    for stage in stages {
        copy.push(stage.start..stage.end)
            .map_err(|_| ShaperError::Memory)?;
    }
    Ok(copy)
}

// Whether each stage is a range of a list of this length.
#[inline]
fn are_ranges(stages: &[Range<usize>], lookups_len: usize) -> bool {
    stages
        .iter()
        .all(|stage| stage.start <= stage.end && stage.end <= lookups_len)
}

// Whether no feature's mask touches a glyph flag bit, one of the low three.
#[inline]
fn are_off_flags(features: &[FeatureMap]) -> bool {
    features.iter().all(|feature| feature.mask % 8 == 0)
}
