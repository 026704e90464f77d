//! The map: those of the requested features that the font's GSUB table has, with their masks, stages
//! and lookups.

pub use crate::features::FeatureFlags;
pub use crate::generated::shapers_base::map::{
    F_GLOBAL, F_HAS_FALLBACK, F_MANUAL_JOINERS, F_MANUAL_ZWJ, F_MANUAL_ZWNJ, F_NONE,
    F_PER_SYLLABLE, FeatureMap, Map, TableIndex,
};
