// Generated from crates/shapers_plan/src/ot_shape_plan/user.rt by rust/erase; edit the source.

use crate::generated::shapers_base::buffer::Tag;

/// A feature that the user requests, from one cluster up to another.
#[derive(Clone, Copy, Debug, PartialEq, Eq, Hash)]
pub struct UserFeature {
    /// The feature's tag.
    pub tag: Tag,
    /// Its value: 0 turns it off, 1 on; some features take more.
    pub value: u32,
    /// The first cluster.
    pub start: u32,
    /// The cluster behind the last. From 0 to `u32::MAX` the feature holds for the whole text.
    pub end: u32,
}

/// What a user's feature becomes where it doesn't hold for the whole text: in glyphs of the
/// clusters from `start` up to `end` the bits of `mask` become those of `value`.
#[derive(Clone, Copy, Debug, PartialEq, Eq, Hash)]
pub struct UserRange {
    /// The bits of the feature.
    pub mask: u32,
    /// Which of them are set.
    pub value: u32,
    /// The first cluster.
    pub start: u32,
    /// The cluster behind the last.
    pub end: u32,
}
