// Generated from crates/shapers_plan/src/ot_map/requests.rt by rust/erase; edit the source.

//! Requests for features, joined by tag.

use crate::support::prelude::*;

use super::ordered::{Last, Numbered, put_in_order};
use crate::generated::shapers_base::buffer::{ShaperError, Tag};
use crate::generated::shapers_base::map::{F_GLOBAL, F_HAS_FALLBACK};
use crate::generated::shapers_base::plan::Request;
use crate::support::alloc::Global;

/// A feature as it is requested.
#[derive(Clone, Copy, Debug, PartialEq, Eq, Hash)]
pub(super) struct FeatureInfo {
    /// The feature's tag.
    pub(super) tag: Tag,
    /// The flags of the first request.
    pub(super) flags: u32,
    /// Whether the values hold for the whole text.
    pub(super) is_global: bool,
    /// Whether something stands in where the font lacks the feature.
    pub(super) has_fallback: bool,
    /// The greatest value; 0 turns the feature off.
    pub(super) max_value: u32,
    /// The value where nothing else is set.
    pub(super) default_value: u32,
    /// How many pauses stand before it.
    pub(super) stage: usize,
}

impl FeatureInfo {
    #[inline]
    fn new(tag: Tag, flags: u32, value: u32, stage: usize) -> Self {
        let is_global = flags & F_GLOBAL != 0;
        FeatureInfo {
            tag,
            flags,
            is_global,
            has_fallback: flags & F_HAS_FALLBACK != 0,
            max_value: value,
            default_value: if is_global { value } else { 0 },
            stage,
        }
    }
}

impl Numbered for FeatureInfo {
    #[inline]
    fn number(&self) -> u32 {
        u32::from_be_bytes(self.tag.0)
    }

    #[inline]
    fn joined(self, later: Self) -> Self {
        FeatureInfo {
            tag: self.tag,
            flags: self.flags,
            is_global: later.is_global,
            has_fallback: self.has_fallback || later.has_fallback,
            max_value: if later.is_global {
                later.max_value
            } else {
                self.max_value.max(later.max_value)
            },
            default_value: if later.is_global {
                later.default_value
            } else {
                self.default_value
            },
            stage: self.stage.min(later.stage),
        }
    }
}

/// The features that are requested, one for each tag, in the order of the tags.
///
/// # Errors
///
/// [`Memory`].
///
/// [`Memory`]: crate::ShaperError::Memory
pub(super) fn joined_by_tag(
    alloc: Global,
    requests: &[Request],
) -> Result<Vec<FeatureInfo>, ShaperError> {
    let mut infos = Vec::with_capacity(alloc, requests.len())?;
    let mut last = Last::NONE;
    let mut stage = 0;
    for request in requests {
        match *request {
            Request::Feature(tag, flags, value) => {
                let info = FeatureInfo::new(tag, flags, value, stage);
                put_in_order(&mut infos, &mut last, info)?;
            }
            Request::Pause(_) => stage += 1,
        }
    }
    Ok(infos)
}
