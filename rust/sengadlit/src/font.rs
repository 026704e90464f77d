//! What the shapers read of a font and of Unicode's tables.
//!
//! [`Font`] is a whole font. An adapter makes a [`Font`] of less; its other methods panic, so that no
//! result is a guess:
//!
//! | made of | adapter | serves |
//! |---|---|---|
//! | [`Features`], or a function of a tag | [`FeaturesOnly`] | plan time |
//! | [`Glyphs`] | [`GlyphsOnly`] | every hook and pause after plan time |
//! | [`WideGlyphs`]: numbers of 32 bits, `&mut self` | [`Wide`] | the same |
//! | a function of a character | [`NominalOnly`] | Thai, Lao, Khmer, Myanmar, universal |
//!
//! The page of [`Font`] has a whole one, of ttf-parser.

pub use crate::fonts::{
    Features, FeaturesOnly, GlyphTooLarge, Glyphs, GlyphsOnly, NominalOnly, Wide, WideGlyphs,
};
pub use crate::generated::shapers_base::font::GlyphId;

/// A font, or what [`GlyphsOnly`] and the other adapters make of less.
///
/// # A font of ttf-parser
///
/// ```
#[doc = include_str!("fonts/ttf_parser_stand_in.txt")]
/// use sengadlit::font::{GlyphId, Glyphs, GlyphsOnly};
/// use ttf_parser::gsub::SubstitutionSubtable;
/// use ttf_parser::opentype_layout::Lookup;
///
/// struct TtfFont<'a>(ttf_parser::Face<'a>);
///
/// impl Glyphs for TtfFont<'_> {
///     fn nominal_glyph(&self, c: u32) -> Option<GlyphId> {
///         let glyph = self.0.glyph_index(char::from_u32(c)?)?;
///         Some(GlyphId(glyph.0))
///     }
///
///     fn glyph_h_advance(&self, glyph: GlyphId) -> i32 {
///         let advance = self.0.glyph_hor_advance(ttf_parser::GlyphId(glyph.0));
///         advance.unwrap_or(0).into()
///     }
///
///     // Indic alone makes this call, for lookups of its basic features: these are single
///     // substitutions and ligatures, which need no context.
///     fn would_apply(&self, lookup: u16, glyphs: &[GlyphId], _zero_context: bool) -> bool {
///         let lookups = self.0.tables().gsub.map(|gsub| gsub.lookups);
///         let glyphs: Vec<_> = glyphs.iter().map(|glyph| ttf_parser::GlyphId(glyph.0)).collect();
///         lookups
///             .and_then(|lookups| lookups.get(lookup))
///             .is_some_and(|lookup| substitutes(&lookup, &glyphs))
///     }
/// }
///
/// fn substitutes(lookup: &Lookup, glyphs: &[ttf_parser::GlyphId]) -> bool {
///     let Some((first, others)) = glyphs.split_first() else { return false };
///     let mut subtables = lookup.subtables.into_iter::<SubstitutionSubtable>();
///     subtables.any(|subtable| match subtable {
///         SubstitutionSubtable::Single(single) => {
///             others.is_empty() && single.coverage().get(*first).is_some()
///         }
///         SubstitutionSubtable::Ligature(ligatures) => {
///             let set = ligatures.coverage.get(*first);
///             let set = set.and_then(|set| ligatures.ligature_sets.get(set));
///             set.is_some_and(|set| {
///                 set.into_iter().any(|ligature| ligature.components.into_iter().eq(others.iter().copied()))
///             })
///         }
///         _ => false,
///     })
/// }
///
/// # let face = ttf_parser::Face(core::marker::PhantomData);
/// let font = GlyphsOnly(TtfFont(face));
/// # use sengadlit::Font;
/// # assert_eq!(font.nominal_glyph(0x41), Some(GlyphId(1)));
/// # assert!(font.would_apply(0, &[GlyphId(1), GlyphId(2)], false));
/// # assert!(!font.would_apply(0, &[GlyphId(1)], false));
/// ```
///
/// # What a panic leaves
///
/// A font may panic; the hook or pause that called it then leaves the buffer as it was, or empty. An
/// empty buffer has the settings of a new one, but after Thai's [`preprocess_text`] its own. A planner
/// is as it was. The buffer can be used again. If [`may_panic`](Font::may_panic) returned false,
/// [`InitialReordering`] leaves what it had written.
///
/// | as it was | empty |
/// |---|---|
/// | Hangul's [`preprocess_text`], and the pauses [`ReorderKhmer`], [`ReorderMyanmar`], [`ReorderUse`] and [`FinalReordering`] | Thai's [`preprocess_text`], the pause [`InitialReordering`], Arabic's [`postprocess_glyphs`] |
///
/// [`preprocess_text`]: crate::Shaper::preprocess_text
/// [`postprocess_glyphs`]: crate::Shaper::postprocess_glyphs
/// [`InitialReordering`]: crate::Pause::InitialReordering
/// [`FinalReordering`]: crate::Pause::FinalReordering
/// [`ReorderKhmer`]: crate::Pause::ReorderKhmer
/// [`ReorderMyanmar`]: crate::Pause::ReorderMyanmar
/// [`ReorderUse`]: crate::Pause::ReorderUse
pub use crate::generated::shapers_base::font::Font;

/// Tables, as a caller gives them to the hooks.
///
/// # What a panic leaves
///
/// Where tables panic, [`setup_masks`](crate::Shaper::setup_masks) leaves the buffer as it was, or
/// empty: with its own settings, but with those of a new one in the universal shaper where letters
/// join. What sets categories on a slice leaves what it wrote so far.
pub use crate::generated::shapers_base::font::Tables;
