//! Script shapers of text layout: Arabic, Hangul, Hebrew, the Indic scripts, Khmer, Myanmar, Thai and
//! Lao, and the universal shaper.
//!
//! The module `opentype` takes a font's bytes and a text to positioned glyphs in one call, with
//! rustybuzz's names.
//! The hooks of rustybuzz's shapers, which rewrite a buffer of glyphs between Unicode text and a font's
//! lookups, serve engines with lookups of their own; what is around them is the caller's then. Beside the
//! hooks, [`spans`] finds the syllables that they take, `unicode` has Unicode's tables, and `ot_shape`
//! takes a text the whole way with a caller's font and lookups. The crate has no dependencies and no
//! `unsafe`, and needs `alloc` alone.
//!
//! It is generated from proved sources, by deleting their contracts, and its functions are called
//! beside those that were proved, with the same arguments; the contract of each is in its
//! documentation. The repository's docs/TRUST.md says what that shows, and of which functions.
//!
//! # Quick start: a font file and a text
//!
//! ```no_run
//! # #[cfg(feature = "opentype")] {
//! let data = std::fs::read("NotoSansKhmer-Regular.ttf")?;
//! let face = sengadlit::Face::parse(&data, 0)?;
//! let mut text = sengadlit::UnicodeBuffer::new();
//! text.push_str("ខ្មែរ");
//! let glyphs = sengadlit::shape(&face, &[], text);
//! println!("{}", glyphs.serialize(&face, sengadlit::SerializeFlags::default()));
//! # }
//! # Ok::<(), Box<dyn std::error::Error>>(())
//! ```
//!
//! # The names at the root
//!
//! | names | for |
//! |---|---|
//! | `Face`, `FaceError`, `GlyphExtents` | a font file |
//! | `UnicodeBuffer`, `Feature`, `Language`, `LanguageError`; [`Script`], [`Direction`], [`Tag`], [`BufferFlags`], [`BufferClusterLevel`] | a text, and what is known and wanted of it |
//! | `shape`, `try_shape`, `ShapeError` | a text is shaped |
//! | `ShapePlan`, `PlanCache`, `shape_with_plan`, `shape_with_cache`, `try_shape_with_plan`, `try_shape_with_cache` | many texts are shaped |
//! | `GlyphBuffer`, `SerializeFlags`; [`GlyphInfo`], [`GlyphPosition`] | glyphs with their positions |
//! | [`Buffer`], [`Shaper`], [`checked_run_pause`], [`run_pause`], [`Pause`], [`Span`], [`CallError`], [`Condition`], [`ShaperError`] | the hooks, and what they rewrite |
//! | [`Plan`], [`PlanData`], [`Planner`], [`Request`], [`Preprocess`], [`JoiningType`], [`Map`], [`FeatureMap`] | what a shaper decides before a text is seen |
//! | [`Font`], [`GlyphId`], [`Tables`] | what hooks read of a font and of Unicode |
//! | [`GeneralCategory`], [`GlyphProps`], [`LigProps`], [`UnicodeProps`], [`UnknownNumber`] | what a glyph keeps of its character and of lookups, and numbers of enums |
//!
//! # A hook alone
//!
//! Thai: SARA AM becomes NIKHAHIT and SARA AA, and NIKHAHIT goes before the tone.
//!
//! ```
//! use sengadlit::font::NominalOnly;
//! use sengadlit::{Buffer, GlyphId, Plan, Shaper, script};
//!
//! // a font with a glyph for each character of Thai
//! let number = |c: u32| u16::try_from(c).ok()?.checked_sub(0x0E00);
//! let font = NominalOnly(|c| number(c).filter(|number| *number < 0x80).map(GlyphId));
//!
//! let plan = Plan::builder().script(script::THAI).build_for(Shaper::Thai)?;
//! let mut buffer = Buffer::from("\u{0E14}\u{0E4B}\u{0E33}");
//! Shaper::Thai.checked_preprocess_text(&plan, &font, &mut buffer)?;
//!
//! let characters: Vec<u32> = buffer.glyphs().iter().map(|glyph| glyph.glyph_id).collect();
//! assert_eq!(characters, [0x0E14, 0x0E4D, 0x0E4B, 0x0E32]);
//! # Ok::<(), Box<dyn std::error::Error>>(())
//! ```
//!
//! # The hooks in the order of a pipeline
//!
//! Each is a method of [`Shaper`]; one that the shaper lacks returns `None` and changes
//! nothing, and [`Shaper::has_hook`] says which it has. The names with `checked` test the conditions of
//! a call ([below](#the-callers-part)) before they make it; without it they are the rules' names, which
//! don't test.
//!
//! 1. *Plan time*, once for a script and a font: [`collect_features`] and [`override_features`] fill
//!    a [`Planner`] with features and pauses. From those that the font has, [`Plan::from_requests`]
//!    makes a [`Plan`]; a caller with a map of its own takes [`Plan::builder`] and
//!    [`Shaper::with_data`] (or [`create_data`]).
//! 2. *Text*: [`Shaper::for_script`] chooses the shaper. [`Buffer`] takes the characters, their
//!    clusters and general categories, `Buffer::from_text` a text with all that Unicode says of it.
//!    [`checked_preprocess_text`], or [`preprocess_text`], rewrites them.
//! 3. *Normalization*: [`decompose`], [`compose`], and between them [`checked_reorder_marks`], or
//!    [`reorder_marks`], for each run of characters with a combining class, once it is sorted by it;
//!    [`normalization_preference`] says how.
//! 4. [`checked_setup_masks`], or [`setup_masks`], sets each character's category ([`categories`]) and
//!    the features that it takes, whose bits it adds to the mask. Then characters become glyphs.
//! 5. *Lookups*, stage by stage. Between two stages [`checked_run_pause`], or [`run_pause`], runs the
//!    pauses that the planner has there: syllables are set up from [`Span`]s (or as they are found, by
//!    [`spans::setup_syllables_found`]), reordered, recorded. A lookup may take
//!    [`Buffer::replace_range`] and [`Buffer::ligate`], which set the marks that pauses read.
//! 6. *Positioning*: [`zero_width_marks`], [`fallback_position`] and [`gpos_tag`] say how. Then
//!    [`checked_postprocess_glyphs`], or [`postprocess_glyphs`], stretches each mark over the word before it in the buffer, which has
//!    visual order by then: a text from right to left is reversed.
//!
//! [`Buffer::clear`] makes the buffer ready for another text. With the feature `text`, `ot_shape` takes
//! a text through all of these steps, with a caller's lookups, in at most 15 lines.
//!
//! A Khmer word between steps 4 and 5:
//!
//! ```
//! # use sengadlit::font::NominalOnly;
//! # let font = NominalOnly(|_| None);
//! use sengadlit::ot_shaper_syllabic::khmer_syllable::CONSONANT_SYLLABLE;
//! use sengadlit::plan::ot_category_t::{OT_C, OT_VPre};
//! use sengadlit::{Buffer, GlyphInfo, Pause, Plan, Shaper, Span, checked_run_pause, script};
//!
//! let plan = Plan::builder().script(script::KHMER).build_for(Shaper::Khmer)?;
//! let letter = |c, cluster, category| GlyphInfo { category, ..GlyphInfo::of_character(c, cluster) };
//! // KA, and the vowel sign E, which is drawn in front of it
//! let letters = [letter('\u{1780}', 0, OT_C), letter('\u{17C1}', 3, OT_VPre)];
//! let mut buffer: Buffer = letters.into_iter().collect();
//! let spans = [Span { len: 2, kind: CONSONANT_SYLLABLE }];
//! checked_run_pause(Pause::SetupSyllablesKhmer, &plan, &font, &spans, &mut buffer)?;
//! checked_run_pause(Pause::ReorderKhmer, &plan, &font, &[], &mut buffer)?;
//!
//! let glyphs: Vec<_> = buffer.glyphs().iter().map(|glyph| (glyph.glyph_id, glyph.cluster)).collect();
//! assert_eq!(glyphs, [(0x17C1, 0), (0x1780, 0)]);
//! # Ok::<(), Box<dyn std::error::Error>>(())
//! ```
//!
//! # The caller's part
//!
//! - **Conditions.** Some calls have conditions, `requires` in the contract. The checked ones test them
//!   before they change anything, and return the first that isn't met ([`shaper::checked`]). The others
//!   don't test: where a condition isn't met, the result is unspecified and the call may panic; memory
//!   stays safe. [`Shaper::with_data`] and [`Plan::builder`] make plans that fit.
//!
//!   | tests its conditions | doesn't | conditions |
//!   |---|---|---|
//!   | [`checked_preprocess_text`] | [`preprocess_text`] | the buffer has no positions |
//!   | [`checked_setup_masks`] | [`setup_masks`] | the same; for Arabic, Hangul and universal: the plan has the shaper's data; for Arabic, and for universal where letters join: glyphs are characters |
//!   | [`checked_reorder_marks`] | [`reorder_marks`] | the buffer has no positions; `start <= end`, and `end` is within the buffer; for Arabic, at most 32 places |
//!   | [`checked_run_pause`] | [`run_pause`] | the buffer has no positions; kinds of spans are at most 15; the plan has the data that the pause reads |
//!   | [`checked_postprocess_glyphs`] | [`postprocess_glyphs`] | one position per glyph; for Arabic, its data in the plan, and glyph numbers of at most 65535 |
//! - **Fonts and tables.** A [`Font`] and [`Tables`] return the same result for the same arguments. A
//!   font that overrides [`Font::has_glyph`] or [`Font::would_apply_any`] returns what the provided
//!   method would, and one that overrides [`Font::may_panic`] doesn't panic.
//! - **Refusals.** A call that returns a [`ShaperError`] has changed nothing.
//! - **Panics.** A hook or pause whose font or tables panic leaves the buffer as it was, or empty:
//!   see [`Font`](crate::font::Font#what-a-panic-leaves).
//!
//! # What is stable
//!
//! The names in the public modules, their signatures and meaning; the numbers of enums and flags;
//! the layout of [`GlyphInfo`], [`GlyphPosition`] and [`Span`] (`repr(C)`, as their documentation
//! states it). Before 1.0 a new minor version may change them, and CHANGELOG.md says how. Not stable:
//! the wording of contracts, what `Debug` prints, the order in which a font is called, and the fields
//! of [`Plan`], which is built by [`Plan::builder`] or [`Plan::new`] so that a new one breaks nobody.
//!
//! # Features
//!
//! - `std` (on by default): a refused request for memory becomes a `std::io::Error`. Without it the
//!   crate is `no_std`.
//! - `tables` (on by default): Unicode's tables, in the module `unicode` (135 KB), with
//!   `Buffer::from_text`.
//! - `text` (on by default, with `tables`): from a text to its glyphs, in the modules `ot_shape`,
//!   `ot_shape_prepare`, `ot_shape_normalize` and `ot_shape_position` (43 KB of code on x86-64,
//!   positions apart).
//! - `opentype` (on by default, with `text`): font files, and a text shaped in one call, in the module
//!   `opentype`.
//!
//! [`collect_features`]: Shaper::collect_features
//! [`override_features`]: Shaper::override_features
//! [`create_data`]: Shaper::create_data
//! [`checked_preprocess_text`]: Shaper::checked_preprocess_text
//! [`preprocess_text`]: Shaper::preprocess_text
//! [`decompose`]: Shaper::decompose
//! [`compose`]: Shaper::compose
//! [`checked_reorder_marks`]: Shaper::checked_reorder_marks
//! [`reorder_marks`]: Shaper::reorder_marks
//! [`normalization_preference`]: Shaper::normalization_preference
//! [`checked_setup_masks`]: Shaper::checked_setup_masks
//! [`setup_masks`]: Shaper::setup_masks
//! [`zero_width_marks`]: Shaper::zero_width_marks
//! [`fallback_position`]: Shaper::fallback_position
//! [`gpos_tag`]: Shaper::gpos_tag
//! [`checked_postprocess_glyphs`]: Shaper::checked_postprocess_glyphs
//! [`postprocess_glyphs`]: Shaper::postprocess_glyphs
#![no_std]
#![forbid(unsafe_code)]
#![deny(missing_docs, missing_debug_implementations)]
#![cfg_attr(not(test), warn(clippy::pedantic))]
#![allow(
    clippy::must_use_candidate,
    reason = "the sources have no such attribute, and a result that isn't used does no harm"
)]

extern crate alloc as rust_alloc;
#[cfg(any(test, feature = "std"))]
extern crate std;

mod builder;
mod copies;
mod features;
mod fonts;
mod numbers;
mod properties;
mod references;
mod substituting;
mod support;
#[cfg(test)]
mod test_font;
mod text;
mod values;

/// The modules that the eraser makes of the sources, one for each crate of theirs.
#[allow(
    non_camel_case_types,
    non_upper_case_globals,
    unused_imports,
    reason = "names as the sources and OpenType have them; the sources name again what other crates take"
)]
#[allow(
    clippy::bool_to_int_with_if,
    clippy::cast_possible_truncation,
    clippy::cast_possible_wrap,
    clippy::comparison_chain,
    clippy::decimal_bitwise_operands,
    clippy::doc_markdown,
    clippy::elidable_lifetime_names,
    clippy::explicit_iter_loop,
    clippy::inline_always,
    clippy::large_enum_variant,
    clippy::len_zero,
    clippy::manual_contains,
    clippy::manual_find,
    clippy::manual_map,
    clippy::manual_range_contains,
    clippy::match_same_arms,
    clippy::needless_pass_by_value,
    clippy::needless_range_loop,
    clippy::nonminimal_bool,
    clippy::option_option,
    clippy::question_mark,
    clippy::range_plus_one,
    clippy::semicolon_if_nothing_returned,
    clippy::similar_names,
    clippy::single_match_else,
    clippy::struct_excessive_bools,
    clippy::too_many_arguments,
    clippy::trivially_copy_pass_by_ref,
    clippy::unreadable_literal,
    reason = "the sources' forms: each cast is proved to lose nothing, and tables have a line per case"
)]
mod generated {
    #[cfg(feature = "opentype")]
    #[allow(dead_code, reason = "readers of fonts say more than shaping asks yet")]
    pub mod opentype_face;
    #[cfg(feature = "opentype")]
    #[allow(dead_code, reason = "readers of fonts say more than shaping asks yet")]
    pub(crate) mod opentype_font;
    #[cfg(feature = "opentype")]
    #[allow(dead_code, reason = "readers of fonts say more than shaping asks yet")]
    pub(crate) mod opentype_gpos;
    #[cfg(feature = "opentype")]
    #[allow(dead_code, reason = "readers of fonts say more than shaping asks yet")]
    pub(crate) mod opentype_gsub;
    #[cfg(feature = "opentype")]
    #[allow(dead_code, reason = "readers of fonts say more than shaping asks yet")]
    pub(crate) mod opentype_layout;
    pub(crate) mod rustybuzz_shapers;
    pub(crate) mod shapers_arabic;
    pub(crate) mod shapers_base;
    #[allow(
        dead_code,
        reason = "what hooks need of the buffer is the crate's alone, and some builds need less"
    )]
    pub(crate) mod shapers_buffer;
    pub(crate) mod shapers_choice;
    pub(crate) mod shapers_clusters;
    pub(crate) mod shapers_editing;
    pub(crate) mod shapers_hangul;
    pub(crate) mod shapers_indic;
    pub(crate) mod shapers_indic_final;
    pub(crate) mod shapers_indic_initial;
    pub(crate) mod shapers_khmer;
    pub(crate) mod shapers_myanmar;
    #[cfg(feature = "text")]
    pub(crate) mod shapers_normal;
    #[cfg(feature = "text")]
    pub(crate) mod shapers_pipeline;
    pub(crate) mod shapers_plan;
    #[cfg(feature = "text")]
    pub(crate) mod shapers_position;
    #[cfg(feature = "text")]
    pub(crate) mod shapers_prepare;
    pub(crate) mod shapers_spans;
    pub(crate) mod shapers_stretch;
    pub(crate) mod shapers_syllabic;
    pub(crate) mod shapers_text;
    #[cfg(feature = "tables")]
    pub(crate) mod shapers_unicode;
    pub(crate) mod shapers_universal;
}

pub mod alloc;
pub mod buffer;
pub mod categories;
pub mod editing;
pub mod font;
#[cfg(feature = "opentype")]
pub mod language;
pub mod map;
#[cfg(feature = "opentype")]
pub mod opentype;
#[cfg(feature = "text")]
pub mod ot_shape;
#[cfg(feature = "text")]
pub mod ot_shape_normalize;
pub mod ot_shape_plan;
#[cfg(feature = "text")]
pub mod ot_shape_position;
#[cfg(feature = "text")]
pub mod ot_shape_prepare;
pub mod ot_shaper_arabic;
pub mod ot_shaper_hangul;
pub mod ot_shaper_hebrew;
pub mod ot_shaper_indic;
pub mod ot_shaper_khmer;
pub mod ot_shaper_myanmar;
pub mod ot_shaper_syllabic;
pub mod ot_shaper_thai;
pub mod ot_shaper_use;
pub mod plan;
pub mod rustybuzz;
pub mod script;
pub mod shaper;
pub mod spans;
#[cfg(feature = "tables")]
pub mod unicode;

pub use buffer::{
    Buffer, BufferClusterLevel, BufferFlags, Direction, GeneralCategory, GlyphInfo, GlyphPosition,
    GlyphProps, LigProps, Script, ShaperError, Span, Tag, UnicodeProps,
};
pub use font::{Font, GlyphId, Tables};
#[cfg(feature = "opentype")]
#[doc(hidden)]
pub use generated::opentype_face;
#[cfg(feature = "opentype")]
pub use language::{Language, LanguageError};
pub use map::{FeatureMap, Map};
pub use numbers::UnknownNumber;
#[cfg(feature = "opentype")]
pub use opentype::{
    Face, FaceError, Feature, GlyphBuffer, GlyphExtents, PlanCache, SerializeFlags, ShapeError,
    ShapePlan, UnicodeBuffer, shape, shape_with_cache, shape_with_plan, try_shape,
    try_shape_with_cache, try_shape_with_plan,
};
pub use plan::{JoiningType, Pause, Plan, PlanData, Planner, Preprocess, Request};
pub use shaper::checked::{CallError, Condition, checked_run_pause};
pub use shaper::{Shaper, run_pause};

/// What is shared between threads, or moved to another one.
const _: () = {
    const fn crosses_threads<T: Send + Sync>() {}
    crosses_threads::<Buffer>();
    crosses_threads::<GlyphInfo>();
    crosses_threads::<GlyphPosition>();
    crosses_threads::<Map>();
    crosses_threads::<Plan>();
    crosses_threads::<Planner>();
    crosses_threads::<Shaper>();
    crosses_threads::<ShaperError>();
    crosses_threads::<Span>();
    crosses_threads::<alloc::Vec<GlyphInfo>>();
    crosses_threads::<plan::PlanBuilder<'_>>();
};

/// The code of README.md, which is tested as this page's is.
#[cfg(all(doctest, feature = "opentype"))]
#[doc = include_str!("../README.md")]
struct Readme;
