// Generated from crates/shapers_pipeline/src/settings.rt by rust/erase; edit the source.

//! The caller's settings.

use crate::generated::shapers_pipeline::normalizing::NormalizeSettings;
use crate::generated::shapers_position::ot_shape_position::DefaultIgnorables;

/// The caller's settings of `shape`.
#[derive(Clone, Copy, Debug, PartialEq, Eq, Hash)]
pub struct ShapeSettings {
    /// Those of normalization. The glyph for what isn't drawn stands for hidden glyphs, too.
    pub normalize: NormalizeSettings,
    /// What becomes of glyphs of characters that need not be drawn.
    pub ignorables: DefaultIgnorables,
}
