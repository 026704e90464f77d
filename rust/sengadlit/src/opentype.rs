//! From a font's bytes and a text to positioned glyphs, in one call.
//!
//! ```no_run
//! let data = std::fs::read("NotoSansKhmer-Regular.ttf")?;
//! let face = sengadlit::Face::parse(&data, 0)?;
//! let mut text = sengadlit::UnicodeBuffer::new();
//! text.push_str("ខ្មែរ");
//! let glyphs = sengadlit::shape(&face, &[], text);
//! println!("{}", glyphs.serialize(&face, sengadlit::SerializeFlags::default()));
//! # Ok::<(), Box<dyn std::error::Error>>(())
//! ```
//!
//! The names are rustybuzz's. What isn't done: variations (a variable font is shaped at its default
//! instance), AAT and Graphite, and texts of several fonts, scripts, languages or directions, which
//! callers split.
//!
//! # Many texts
//!
//! What is decided before a text is seen, by its script, direction, language and features, is a
//! [`ShapePlan`]. A [`PlanCache`] makes each once; the buffer of a text that is shaped serves the next. A
//! font's tables are searched at each glyph unless [`Face::prepare`] has made others of them.
//!
//! ```
//! use sengadlit::{Face, Feature, PlanCache, UnicodeBuffer, shape_with_cache};
//!
//! fn numbers(face: &Face, features: &[Feature], lines: &[&str]) -> Vec<u32> {
//!     let (mut plans, mut buffer) = (PlanCache::new(), UnicodeBuffer::new());
//!     let mut numbers = vec![];
//!     for line in lines {
//!         buffer.push_str(line);
//!         let glyphs = shape_with_cache(face, &mut plans, features, buffer);
//!         numbers.extend(glyphs.glyph_infos().iter().map(|glyph| glyph.glyph_id));
//!         buffer = glyphs.clear();
//!     }
//!     numbers
//! }
//! ```
//!
//! # Choices
//!
//! [`shape`](shape()) takes HarfBuzz's. Others are those of the text ([`UnicodeBuffer`]: flags, cluster
//! level, glyphs for what the font lacks), of the plan ([`ShapePlan::builder`]: flags of breaks,
//! normalization, Indic's base), and of the face ([`Face::with_scale`]).
//!
//! # Refusals
//!
//! `shape` never fails: where memory is refused, or a text grows beyond 256 times its length, there are
//! no glyphs, and [`GlyphBuffer::is_complete`] returns false. [`try_shape`] has the reason, and gives the
//! text back. A font that is spoilt shapes in some way.

mod cache;
mod drawn_font;
mod face;
mod feature;
mod from_str;
mod glyph_buffer;
mod in_place;
mod kerning;
mod marks;
mod plan;
mod reshaping;
mod scale;
mod serialize;
mod settings;
mod shaping;
mod steps;
mod unicode_buffer;

pub use cache::PlanCache;
pub use face::{Face, FaceError, GlyphExtents};
pub use feature::{Feature, FeatureError};
pub use from_str::{DirectionError, ScriptError};
pub use glyph_buffer::GlyphBuffer;
pub use in_place::{OpenTypeFont, printed};
pub use plan::{ShapePlan, ShapePlanBuilder};
pub use serialize::SerializeFlags;
pub use settings::Replacements;
pub use shaping::{
    ShapeError, shape, shape_with_cache, shape_with_plan, try_shape, try_shape_in_steps,
    try_shape_with_cache, try_shape_with_plan,
};
pub use steps::ShapeStep;
pub use unicode_buffer::UnicodeBuffer;
