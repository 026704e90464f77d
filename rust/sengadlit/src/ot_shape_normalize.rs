//! Normalization: the characters of a text become those that the font has glyphs for, in the order
//! that its lookups expect. [`ot_shape_normalize`] reads a shaper, a font and Unicode's tables;
//! [`normalize`] reads a caller's type that stands for all three.
//!
//! ```
//! use sengadlit::ot_shape_normalize::{
//!     NormalizeFont, NormalizeSettings, Rounds, ot_shape_normalize,
//! };
//! use sengadlit::unicode::UnicodeTables;
//! use sengadlit::{Buffer, Font, GlyphId, Plan, Shaper, Tag};
//!
//! /// A font with a glyph for each character below U+10000, by its number.
//! struct ByNumber;
//!
//! impl Font for ByNumber {
//!     fn nominal_glyph(&self, c: u32) -> Option<GlyphId> {
//!         u16::try_from(c).ok().map(GlyphId)
//!     }
//! #   fn glyph_h_advance(&self, _: GlyphId) -> i32 { 0 }
//! #   fn would_apply(&self, _: u16, _: &[GlyphId], _: bool) -> bool { false }
//! #   fn has_feature(&self, _: Tag) -> bool { false }
//!     // and what else the hooks read
//! }
//!
//! impl NormalizeFont for ByNumber {
//!     fn variation_glyph(&self, _c: u32, _selector: u32) -> Option<GlyphId> {
//!         None
//!     }
//! }
//!
//! # let map = sengadlit::Map::from_slices(sengadlit::alloc::Global, &[], &[], &[], 0, None, false);
//! # let plan = Plan::new(None, map?.unwrap());
//! // U+1026 comes apart and is composed again, as it is in a longer text
//! let mut buffer = Buffer::from_text("\u{1026}", &UnicodeTables)?;
//! let settings = NormalizeSettings {
//!     rounds: Rounds::Always,
//!     ..NormalizeSettings::default()
//! };
//! let myanmar = Some(Shaper::Myanmar);
//! ot_shape_normalize(myanmar, &plan, &ByNumber, &UnicodeTables, &settings, &mut buffer)?;
//! assert_eq!(buffer.len(), 1);
//! // the character, and the number of its glyph
//! assert_eq!(buffer.get(0).glyph_id, 0x1026);
//! assert_eq!(buffer.get(0).glyph_props.0, 0x1026);
//! # Ok::<(), sengadlit::ShaperError>(())
//! ```

pub use crate::generated::shapers_normal::ot_shape_normalize::{
    MAX_COMBINING_MARKS, MAX_STEPS, NormalizeContext, Rounds, decompose, length_bound, normalize,
    order_marks_in, recompose_in, sort_marks_in,
};
pub use crate::generated::shapers_pipeline::{
    NormalizeFont, NormalizeSettings, NormalizeTables, ot_shape_normalize,
};
