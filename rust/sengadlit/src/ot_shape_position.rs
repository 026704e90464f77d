//! What is done to glyphs around a font's positioning lookups and behind them, in the order of
//! HarfBuzz's steps:
//!
//! 1. [`set_advances`] gives each glyph a position, with its advance in the font (and in vertical
//!    text its origin), and [`set_space_widths`] spaces that the font lacks the width that they stand
//!    for, both by a [`MetricsFont`];
//! 2. [`zero_mark_widths`] takes marks their advance, before the lookups or behind them, as the
//!    shaper wants it ([`Shaper::zero_width_marks`](crate::Shaper::zero_width_marks));
//! 3. [`zero_width_default_ignorables`] does so for glyphs of characters that need not be drawn;
//! 4. a text that runs backward is turned into drawing order ([`Buffer::reverse`](crate::Buffer::reverse));
//! 5. [`hide_default_ignorables`] draws those glyphs by an invisible one, or takes them out;
//! 6. [`propagate_flags`], behind all else, gives the glyphs of a cluster the same flags.
//!
//! ```
//! use sengadlit::font::NominalOnly;
//! use sengadlit::ot_shape_position::{DefaultIgnorables, hide_default_ignorables};
//! use sengadlit::buffer::UnicodeProps;
//! use sengadlit::{Buffer, GlyphInfo};
//!
//! // a letter, and a joiner behind it that no lookup used, in a font without a space
//! let joiner = GlyphInfo {
//!     unicode_props: UnicodeProps::IGNORABLE,
//!     ..GlyphInfo::of_character('\u{200D}', 0)
//! };
//! let mut buffer: Buffer = [GlyphInfo::of_character('\u{627}', 2), joiner].into_iter().collect();
//! let font = NominalOnly(|_| None);
//! hide_default_ignorables(DefaultIgnorables::Hide, None, &font, &mut buffer);
//!
//! // the letter stands for the joiner's text, too
//! let glyphs: Vec<_> = buffer.glyphs().iter().map(|glyph| (glyph.glyph_id, glyph.cluster)).collect();
//! assert_eq!(glyphs, [(0x627, 0)]);
//! ```

pub use crate::generated::shapers_position::ot_shape_position::{
    DefaultIgnorables, GlyphClasses, MetricsFont, hide_default_ignorables, propagate_flags,
    set_advances, set_space_widths, zero_mark_widths, zero_width_default_ignorables,
};
