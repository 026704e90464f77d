// Generated from crates/shapers_khmer/src/ot_shaper_khmer/khmer_feature.rt by rust/erase; edit the source.

//! The places of the basic features in the shaper's list of them.

/// The forms before the base (`pref`).
pub const PREF: usize = 0;

/// The forms below the base (`blwf`).
pub const BLWF: usize = 1;

/// The forms above the base (`abvf`).
pub const ABVF: usize = 2;

/// The forms behind the base (`pstf`).
pub const PSTF: usize = 3;

/// The forms of conjuncts behind Ro (`cfar`).
pub const CFAR: usize = 4;
