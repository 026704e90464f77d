// Generated from crates/shapers_plan/src/ot_shape_plan/making.rt by rust/erase; edit the source.

//! The parts of a plan that its map gives.

use crate::support::prelude::*;

use super::collecting::is_for_all;
use super::{DriverMasks, ShapeChoices, UserFeature, UserRange};
use crate::generated::rustybuzz_shapers::shaper::Shaper;
use crate::generated::shapers_base::buffer::{Script, ShaperError, Tag};
use crate::generated::shapers_base::map::{Map, TableIndex};
use crate::generated::shapers_base::plan::Plan;
use crate::generated::shapers_plan::ot_map::{FontFeatures, MappedFeature};
use crate::support::alloc::Global;

/// The masks of the features that the driver turns on.
///
/// <details><summary>Contract</summary>
///
/// # Contract
///
/// ```text
/// ensures { result ≡ driver_masks map.now }
/// ```
///
/// - `driver_masks`: `crates/shapers_plan/specs/Planning.antt`
///
/// </details>
pub fn driver_masks(map: &Map) -> DriverMasks {
    DriverMasks {
        frac: map.one_mask(Tag(*b"frac")),
        numr: map.one_mask(Tag(*b"numr")),
        dnom: map.one_mask(Tag(*b"dnom")),
        rtlm: map.one_mask(Tag(*b"rtlm")),
        vert: map.one_mask(Tag(*b"vert")),
    }
}

/// The plan that the shaper's hooks read, with the data that it keeps.
pub(super) fn hooks_plan(
    shaper: Option<Shaper>,
    script: Option<Script>,
    choices: ShapeChoices,
    map: Map,
) -> Plan {
    let has_mark = map.one_mask(Tag(*b"mark")) != 0;
    let mut plan = Plan::new(script, map);
    plan.has_gpos_mark = has_mark;
    plan.stretch_start = choices.stretch_start;
    plan.break_flags = choices.break_flags;
    plan.base_search = choices.base_search;
    plan.zero_context = choices.zero_context;
    match shaper {
        Some(shaper) => shaper.with_data(plan),
        None => plan,
    }
}

/// Whether GPOS is applied. Of a script that a shaper doesn't know there, it may place marks badly.
pub(super) fn takes_gpos<L: FontFeatures>(shaper: Option<Shaper>, features: &L) -> bool {
    features.has_table(TableIndex::GPOS)
        && match shaper {
            Some(shaper) => suits(shaper.gpos_tag(), features.chosen_script(TableIndex::GPOS)),
            None => true,
        }
}

// Whether a shaper that wants this script in GPOS, or any, takes the one that was chosen there.
fn suits(wanted: Option<Tag>, chosen: Option<Tag>) -> bool {
    match (wanted, chosen) {
        (None, _) => true,
        (Some(_), None) => false,
        (Some(wanted), Some(tag)) => tag == wanted,
    }
}

/// What the user's features do to ranges of the text.
///
/// # Errors
///
/// [`Memory`].
///
/// [`Memory`]: crate::ShaperError::Memory
pub(super) fn user_ranges(
    alloc: Global,
    features: &[MappedFeature],
    users: &[UserFeature],
) -> Result<Vec<UserRange>, ShaperError> {
    let mut list = Vec::new(alloc);
    for user in users {
        if let Some(range) = range_of_user(features, user) {
            list.push(range).map_err(|_| ShaperError::Memory)?;
        }
    }
    Ok(list)
}

// What a feature of the user's does to a range.
fn range_of_user(features: &[MappedFeature], user: &UserFeature) -> Option<UserRange> {
    if is_for_all(user) {
        return None;
    }
    let feature = feature_of(features, user.tag)?;
    Some(UserRange {
        mask: feature.mask,
        value: feature.value_in(user.value),
        start: user.start,
        end: user.end,
    })
}

// The feature by this tag.
fn feature_of(features: &[MappedFeature], tag: Tag) -> Option<MappedFeature> {
    features.iter().copied().find(|feature| feature.tag == tag)
}
