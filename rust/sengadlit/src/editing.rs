//! What cursors, terminals and editors need of a shaped text: where a caret may stand, and what is
//! shaped again where a stretch of the text is replaced.
//!
//! [`caret_stops`] gives the places of a text between its clusters, for either direction:
//!
//! ```
//! use sengadlit::alloc::{Global, Vec};
//! use sengadlit::editing::caret_stops;
//! use sengadlit::{Direction, GlyphInfo, ShaperError};
//!
//! // of seven characters the second and third are drawn as one glyph
//! let glyphs = [0, 1, 3, 4, 5, 6].map(|cluster| GlyphInfo { cluster, ..GlyphInfo::DEFAULT });
//! let mut stops = Vec::new(Global);
//! caret_stops(&glyphs, Direction::LeftToRight, &mut stops)?;
//! assert_eq!(&stops[..], [0, 1, 3, 4, 5, 6]);
//! # Ok::<(), ShaperError>(())
//! ```
//!
//! [`reshape`] tells which stretch of a text is shaped again after an edit, in any script. With the module
//! `opentype`, `GlyphBuffer::reshape` does all of it in one call. Whoever has lookups of their own shapes
//! the stretch, asks whether its glyphs may go between the old ones, and puts them there:
//!
//! ```
//! # #[cfg(feature = "opentype")] {
//! use sengadlit::editing::{TextEdit, reshape};
//! use sengadlit::{Direction, Face, ShapePlan, UnicodeBuffer, script, shape_with_plan};
//!
//! # let data = std::fs::read("../../fonts/sample.ttf")?;
//! let face = Face::parse(&data, 0)?;
//! let plan = ShapePlan::new(&face, Direction::LeftToRight, Some(script::LATIN), None, &[]);
//! let shape = |text: &str, before: &str, after: &str| {
//!     let mut buffer = UnicodeBuffer::new();
//!     buffer.push_str(text);
//!     buffer.set_pre_context(before);
//!     buffer.set_post_context(after);
//!     shape_with_plan(&face, &plan, buffer)
//! };
//! let mut glyphs = shape("where the old word was", "", "");
//!
//! // `old` became `newer`
//! let text = "where the newer word was";
//! let edit = TextEdit { start: 10, old_end: 13, new_end: 15 };
//! let mut stretch = reshape(text, edit, glyphs.run());
//! let piece = loop {
//!     let (before, after) = (&text[..stretch.text.start], &text[stretch.text.end..]);
//!     let piece = shape(&text[stretch.text.clone()], before, after);
//!     match stretch.widened(text, edit, glyphs.run(), piece.run()) {
//!         Some(widened) => stretch = widened,
//!         None => break piece,
//!     }
//! };
//! glyphs.splice(&stretch, edit, &piece)?;
//! assert_eq!(glyphs.glyph_infos().last().map(|glyph| glyph.cluster), Some(23));
//! # }
//! # Ok::<(), Box<dyn std::error::Error>>(())
//! ```
//!
//! That its glyphs are those of the text shaped whole is tested, not proved: see [`reshape`]. What is
//! proved is how far an edit reaches in the hooks of scripts with syllables. [`affected`] takes a text and
//! an edit of it:
//!
//! ```
//! use sengadlit::alloc::Global;
//! use sengadlit::editing::{Edit, Unaffected, affected};
//! use sengadlit::spans::Khmer;
//! use sengadlit::{GlyphInfo, ShaperError};
//!
//! // KA, KA and ZWNJ, and KA; a vowel sign comes behind the joiner, and the middle KA and ZWNJ become
//! // one syllable with it
//! let glyph = |category| GlyphInfo { category, ..GlyphInfo::DEFAULT };
//! let text = [1, 1, 5, 1].map(glyph);
//! let edit = Edit { start: 3, end: 3, glyphs: &[glyph(20)] };
//! let left = affected(&Khmer, &text, &edit, Global)?;
//! assert_eq!(left, Unaffected { front: 1, back: 1 });
//! # Ok::<(), ShaperError>(())
//! ```
//!
//! [`affected_spans`] does with the spans of the text before and after, as
//! [`Shaper::spans_of`](crate::Shaper::spans_of) gives them.

#[cfg(feature = "tables")]
mod stretch;

#[cfg(feature = "tables")]
pub use stretch::{EditedText, ShapedRun, Stretch, TextEdit, reshape};

pub use crate::generated::shapers_editing::{
    Edit, Unaffected, affected, affected_spans, caret_stops,
};
