// Generated from crates/shapers_unicode/src/tables.rt by rust/erase; edit the source.

//! The tables in two levels: each property's blocks.

pub(crate) mod character;
pub(crate) mod composition;
pub(crate) mod indic;
pub(crate) mod joining;
pub(crate) mod mapping;
pub(crate) mod mirrored;
pub(crate) mod pictographic;
pub(crate) mod universal;
