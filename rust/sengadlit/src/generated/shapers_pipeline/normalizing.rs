// Generated from crates/shapers_pipeline/src/normalizing.rt by rust/erase; edit the source.

//! Normalization of a text for a shaper.

mod context;
mod hooks;
mod tables;

use crate::generated::rustybuzz_shapers::shaper::Shaper;
use crate::generated::shapers_base::buffer::{Buffer, ShaperError};
use crate::generated::shapers_base::font::GlyphId;
use crate::generated::shapers_base::plan::Plan;
use crate::generated::shapers_normal::ot_shape_normalize::{Rounds, normalize};
use context::ShaperContext;
pub use tables::{NormalizeFont, NormalizeTables};

/// The caller's settings.
#[derive(Clone, Copy, Debug, PartialEq, Eq, Default, Hash)]
pub struct NormalizeSettings {
    /// When marks are ordered and composed.
    pub rounds: Rounds,
    /// The glyph for what isn't drawn, which stands for spaces that the font lacks if it has no
    /// common space.
    pub invisible_glyph: Option<GlyphId>,
    /// Whether the caller has a glyph for selectors that select nothing: they aren't ignorable
    /// then.
    pub draws_selectors: bool,
}

/// Normalizes a text without positions, whose glyphs are characters with their properties, for a
/// shaper with its plan, a font and Unicode's tables: by the shaper's own `decompose`, `compose`
/// and [`reorder_marks`], and where it lacks one by the tables. `glyph_props` is then the number
/// of each character's glyph. None stands for the shaper of a script that needs none.
///
/// # Errors
///
/// [`TooLong`] where the text taken apart is longer than the buffer may be, and [`Memory`]; nothing
/// has changed then. A text of which nothing comes apart takes no memory. (HarfBuzz's normalizer;
/// Unicode Standard Annex 15.)
///
/// # Panics
///
/// Where the font or the tables do. May panic, or leave an unspecified text, where the buffer has positions.
///
/// <details><summary>Contract</summary>
///
/// # Contract
///
/// ```text
/// requires { buffer.old.positions ≡ [] }
/// ensures ok { let context = shaper_context shaper plan.now
///     (F.font font.now) (F.variants font.now) (T.tables tables.now) (T.texts tables.now)
///     settings.now.invisible_glyph settings.now.draws_selectors in
///     let text =
///     normalized context settings.now.rounds buffer.old.level buffer.old.glyphs in
///     OnOk result (buffer.new ≡ record buffer.old { glyphs = text }) }
/// ensures length { let context = shaper_context shaper plan.now
///     (F.font font.now) (F.variants font.now) (T.tables tables.now) (T.texts tables.now)
///     settings.now.invisible_glyph settings.now.draws_selectors in
///     RefusesLength buffer.old.max_len
///     (length (first_round context buffer.old.level buffer.old.glyphs)) result }
/// ensures memory { let context = shaper_context shaper plan.now
///     (F.font font.now) (F.variants font.now) (T.tables tables.now) (T.texts tables.now)
///     settings.now.invisible_glyph settings.now.draws_selectors in
///     is_whole context buffer.old.glyphs ≡ true → IsOk result }
/// ensures in_place { let context = shaper_context shaper plan.now
///     (F.font font.now) (F.variants font.now) (T.tables tables.now) (T.texts tables.now)
///     settings.now.invisible_glyph settings.now.draws_selectors in
///     stays_together context buffer.old.glyphs ≡ true → IsOk result }
/// ensures err { OnErr result (buffer.new ≡ buffer.old) }
/// ```
///
/// - `RefusesLength`: `crates/shapers_buffer/specs/Refusals.antt`
/// - `first_round`, `is_whole`, `stays_together`: `crates/shapers_normal/specs/Decomposition.antt`
/// - `normalized`: `crates/shapers_normal/specs/Normalization.antt`
/// - `shaper_context`: `crates/shapers_pipeline/specs/ByShaper.antt`
///
/// </details>
///
/// [`Memory`]: crate::ShaperError::Memory
/// [`TooLong`]: crate::ShaperError::TooLong
/// [`reorder_marks`]: crate::Shaper::reorder_marks
pub fn ot_shape_normalize<F: NormalizeFont, T: NormalizeTables>(
    shaper: Option<Shaper>,
    plan: &Plan,
    font: &F,
    tables: &T,
    settings: &NormalizeSettings,
    buffer: &mut Buffer,
) -> Result<(), ShaperError> {
    let context = ShaperContext {
        shaper,
        plan,
        font,
        tables,
        invisible_glyph: settings.invisible_glyph,
        draws_selectors: settings.draws_selectors,
    };
    normalize(&context, settings.rounds, buffer)
}
