// Generated from crates/shapers_plan/src/ot_map/compiling.rt by rust/erase; edit the source.

//! What a list of requests makes of a font.

use crate::support::prelude::*;

use super::FontFeatures;
use super::lookups::{Stage, StageLookup, Stages, collect_stages, list_stage, required_stage};
use super::masks::{MappedFeature, global_mask, mapped};
use super::requests::joined_by_tag;
use crate::generated::shapers_base::buffer::ShaperError;
use crate::generated::shapers_base::map::{FeatureMap, Map, TableIndex};
use crate::generated::shapers_base::plan::Request;
use crate::support::alloc::Global;
use core::ops::Range;

/// What a list of requests makes of a font.
pub(crate) struct CompiledMap {
    /// The features with their bits.
    pub(crate) features: Vec<MappedFeature>,
    /// The stages of substitutions.
    pub(crate) stages: Vec<Stage>,
    /// Their lookups, stage by stage.
    pub(crate) lookups: Vec<StageLookup>,
    /// The lookups of positioning.
    pub(crate) positioning: Vec<StageLookup>,
    /// The map that a shaper's hooks read.
    pub(crate) map: Map,
}

impl CompiledMap {
    /// What a list of requests makes of a font.
    ///
    /// # Errors
    ///
    /// [`Memory`].
    ///
    /// [`Memory`]: crate::ShaperError::Memory
    pub(crate) fn new<L: FontFeatures>(
        alloc: Global,
        font: &L,
        requests: &[Request],
    ) -> Result<Self, ShaperError> {
        let infos = joined_by_tag(alloc, requests)?;
        let features = mapped(alloc, font, infos.as_slice())?;
        let required = required_stage(font, infos.as_slice());
        let found = collect_stages(alloc, font, features.as_slice(), required, requests)?;
        let mut positioning = Vec::with_capacity(alloc, features.len())?;
        list_stage(
            &mut positioning,
            font,
            TableIndex::GPOS,
            features.as_slice(),
            true,
            None,
        )?;
        let map = make_map(alloc, font, features.as_slice(), &found)?;
        Ok(CompiledMap {
            features,
            stages: found.stages,
            lookups: found.lookups,
            positioning,
            map,
        })
    }
}

// The map that a shaper's hooks read.
fn make_map<L: FontFeatures>(
    alloc: Global,
    font: &L,
    features: &[MappedFeature],
    found: &Stages,
) -> Result<Map, ShaperError> {
    let map = Map::new(
        features_of_map(alloc, features)?,
        ranges_of_map(alloc, found.stages.as_slice())?,
        lookups_of_map(alloc, found.lookups.as_slice())?,
        global_mask(features),
        font.chosen_script(TableIndex::GSUB),
        font.found_script(TableIndex::GSUB),
    );
    match map {
        Some(map) => Ok(map),
        None => unreachable!("stages and masks are a map's"),
    }
}

fn features_of_map(
    alloc: Global,
    features: &[MappedFeature],
) -> Result<Vec<FeatureMap>, ShaperError> {
    let mut list = Vec::with_capacity(alloc, features.len())?;
    for feature in features {
        let entry = FeatureMap {
            tag: feature.tag,
            mask: feature.one_mask,
            stage: feature.stage,
        };
        list.push(entry).map_err(|_| ShaperError::Memory)?;
    }
    Ok(list)
}

fn ranges_of_map(alloc: Global, stages: &[Stage]) -> Result<Vec<Range<usize>>, ShaperError> {
    let mut list = Vec::with_capacity(alloc, stages.len())?;
    for stage in stages {
        list.push(stage.start..stage.end)
            .map_err(|_| ShaperError::Memory)?;
    }
    Ok(list)
}

fn lookups_of_map(alloc: Global, lookups: &[StageLookup]) -> Result<Vec<u16>, ShaperError> {
    let mut list = Vec::with_capacity(alloc, lookups.len())?;
    for lookup in lookups {
        list.push(lookup.index).map_err(|_| ShaperError::Memory)?;
    }
    Ok(list)
}
