// Generated from crates/shapers_plan/src/ot_map/masks.rt by rust/erase; edit the source.

//! The bits of a glyph's mask that features get.

use crate::support::prelude::*;

use super::FontFeatures;
use super::requests::FeatureInfo;
use crate::generated::shapers_base::buffer::{ShaperError, Tag};
use crate::generated::shapers_base::map::TableIndex;
use crate::support::alloc::Global;

/// Where the chosen script lacks the feature, that of any script serves.
pub const F_GLOBAL_SEARCH: u32 = 16;
/// The feature picks among alternates at random.
pub const F_RANDOM: u32 = 32;

/// The first bit of a mask that a feature gets, above the glyph flags.
const FIRST_BIT: u32 = 4;
/// The bit of the features that hold for the whole text.
const GLOBAL_BIT: u32 = 31;
/// No feature gets more bits.
const MAX_BITS: u32 = 8;

/// A feature that has its bits.
#[derive(Clone, Copy, Debug, PartialEq, Eq, Hash)]
pub(crate) struct MappedFeature {
    /// The feature's tag.
    pub(crate) tag: Tag,
    /// The flags of its first request.
    pub(crate) flags: u32,
    /// Its bits.
    pub(crate) mask: u32,
    /// The lowest of them.
    pub(crate) one_mask: u32,
    /// Its value where nothing else is set.
    pub(crate) default_value: u32,
    /// How many pauses stand before it.
    pub(crate) stage: usize,
}

impl MappedFeature {
    // A feature with so many bits, from this one on.
    fn new(info: &FeatureInfo, next_bit: u32) -> Self {
        let (mask, one_mask) = if is_on_everywhere(info) {
            (1 << GLOBAL_BIT, 1 << GLOBAL_BIT)
        } else {
            let one_mask = 1u32 << next_bit;
            ((1 << (next_bit + count_bits(info))) - one_mask, one_mask)
        };
        MappedFeature {
            tag: info.tag,
            flags: info.flags,
            mask,
            one_mask,
            default_value: info.default_value,
            stage: info.stage,
        }
    }

    /// A value in the bits of the feature; what doesn't fit is cut off.
    pub(crate) fn value_in(&self, value: u32) -> u32 {
        value.wrapping_mul(self.one_mask) & self.mask
    }
}

// Whether a feature is on for the whole text, and has no other value anywhere.
fn is_on_everywhere(info: &FeatureInfo) -> bool {
    info.is_global && info.max_value == 1
}

// How many bits of its own a feature takes.
fn count_bits(info: &FeatureInfo) -> u32 {
    if is_on_everywhere(info) {
        return 0;
    }
    MAX_BITS.min(32 - info.max_value.leading_zeros())
}

/// The lookups of a feature: those of the chosen script, or if the request says so of any script.
pub(super) fn lookups_of<L: FontFeatures>(
    font: &L,
    table: TableIndex,
    tag: Tag,
    flags: u32,
) -> Option<&[u16]> {
    // (most features have lookups in the table, and are looked for once)
    let lookups = font.feature_lookups(table, tag);
    if lookups.is_some() || flags & F_GLOBAL_SEARCH == 0 || in_script(font, tag) {
        return lookups;
    }
    font.any_feature_lookups(table, tag)
}

// Whether the chosen script has a feature.
fn in_script<L: FontFeatures>(font: &L, tag: Tag) -> bool {
    font.feature_lookups(TableIndex::GSUB, tag).is_some()
        || font.feature_lookups(TableIndex::GPOS, tag).is_some()
}

// Whether some script has a feature.
fn in_any_script<L: FontFeatures>(font: &L, tag: Tag) -> bool {
    font.any_feature_lookups(TableIndex::GSUB, tag).is_some()
        || font.any_feature_lookups(TableIndex::GPOS, tag).is_some()
}

// Whether the font has a feature, or something stands in for it.
fn is_served<L: FontFeatures>(font: &L, info: &FeatureInfo) -> bool {
    if info.has_fallback || in_script(font, info.tag) {
        return true;
    }
    info.flags & F_GLOBAL_SEARCH != 0 && in_any_script(font, info.tag)
}

/// Gives bits to the features in their order: those that are on, have room, and that the font or
/// something else serves.
///
/// # Errors
///
/// [`Memory`].
///
/// [`Memory`]: crate::ShaperError::Memory
pub(super) fn mapped<L: FontFeatures>(
    alloc: Global,
    font: &L,
    infos: &[FeatureInfo],
) -> Result<Vec<MappedFeature>, ShaperError> {
    let mut features = Vec::with_capacity(alloc, infos.len())?;
    let mut next_bit = FIRST_BIT;
    for info in infos {
        let bits = count_bits(info);
        if info.max_value > 0 && next_bit + bits < GLOBAL_BIT && is_served(font, info) {
            features
                .push(MappedFeature::new(info, next_bit))
                .map_err(|_| ShaperError::Memory)?;
            next_bit += bits;
        }
    }
    Ok(features)
}

/// The mask of a glyph that no range of the user's reaches.
pub(super) fn global_mask(features: &[MappedFeature]) -> u32 {
    let mut mask = 1 << GLOBAL_BIT;
    for feature in features {
        mask |= feature.value_in(feature.default_value);
    }
    mask
}
