// Generated from crates/shapers_indic/src/ot_shaper_indic/indic_feature.rt by rust/erase; edit the source.

//! The places of the features in the shaper's list of them.

/// Nukta forms (`nukt`).
pub const NUKT: usize = 0;

/// Akhand ligatures (`akhn`).
pub const AKHN: usize = 1;

/// The reph (`rphf`).
pub const RPHF: usize = 2;

/// Rakar forms (`rkrf`).
pub const RKRF: usize = 3;

/// Forms before the base (`pref`).
pub const PREF: usize = 4;

/// Forms below the base (`blwf`).
pub const BLWF: usize = 5;

/// Forms above the base (`abvf`).
pub const ABVF: usize = 6;

/// Half forms (`half`).
pub const HALF: usize = 7;

/// Forms behind the base (`pstf`).
pub const PSTF: usize = 8;

/// Vattu variants (`vatu`).
pub const VATU: usize = 9;

/// Conjuncts (`cjct`).
pub const CJCT: usize = 10;

/// Initial forms (`init`).
pub const INIT: usize = 11;

/// Substitutions before the base (`pres`).
pub const PRES: usize = 12;

/// Substitutions above the base (`abvs`).
pub const ABVS: usize = 13;

/// Substitutions below the base (`blws`).
pub const BLWS: usize = 14;

/// Substitutions behind the base (`psts`).
pub const PSTS: usize = 15;

/// Halant forms (`haln`).
pub const HALN: usize = 16;
