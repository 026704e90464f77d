// Generated from crates/shapers_buffer/src/buffer/modified_combining_class.rt by rust/erase; edit the source.

//! The canonical combining classes that the shapers tell apart, as HarfBuzz renumbers them so that
//! marks of one script sort in its reading order.

/// Hebrew sheva.
pub const CCC10: u8 = 22;

/// Hebrew hiriq.
pub const CCC14: u8 = 23;

/// Hebrew patah.
pub const CCC17: u8 = 20;

/// Hebrew qamats.
pub const CCC18: u8 = 21;

/// Hebrew meteg.
pub const CCC22: u8 = 25;

/// Hebrew point varika.
pub const CCC26: u8 = 26;

/// Marks below.
pub const BELOW: u8 = 220;
