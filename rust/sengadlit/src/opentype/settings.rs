//! What a text says of how it is shaped, beside its script, direction and language.

use crate::buffer::{Buffer, BufferFlags, GeneralCategory, GlyphInfo, GlyphPosition};
use crate::font::GlyphId;
use crate::ot_shape::ShapeSettings;
use crate::ot_shape_normalize::{NormalizeSettings, Rounds};
use crate::ot_shape_position::DefaultIgnorables;
use crate::ot_shape_prepare::BEGINNING_OF_TEXT;

/// The flags of a text that is shaped in one call, with rustybuzz's numbers.
impl BufferFlags {
    /// The text is the beginning of a paragraph: a mark that nothing carries gets a dotted circle.
    pub const BEGINNING_OF_TEXT: Self = BEGINNING_OF_TEXT;
    /// The text is the end of a paragraph. Nothing depends on it.
    pub const END_OF_TEXT: Self = BufferFlags(0x04);
    /// Glyphs of characters that need not be drawn stay as they are.
    pub const PRESERVE_DEFAULT_IGNORABLES: Self = BufferFlags(0x08);
    /// Glyphs of characters that need not be drawn go, unless they are preserved.
    pub const REMOVE_DEFAULT_IGNORABLES: Self = BufferFlags(0x10);
}

/// No flags.
impl Default for BufferFlags {
    fn default() -> Self {
        BufferFlags(0)
    }
}

/// The high byte of a character's properties that says that it is a variation selector which selected
/// nothing, where its category is Cf.
const SELECTOR: u8 = 4;

/// Which glyphs stand for what the font lacks or nobody draws.
#[derive(Clone, Copy, Debug, Default, PartialEq, Eq, Hash)]
pub struct Replacements {
    /// The glyph of characters that aren't drawn; the font's space where there is none.
    pub invisible: Option<GlyphId>,
    /// The glyph of characters that the font lacks; glyph 0 where there is none.
    pub not_found: Option<GlyphId>,
    /// The glyph of variation selectors that select nothing; where there is none they aren't drawn.
    pub not_found_selector: Option<u32>,
}

impl Replacements {
    /// The settings of a text with these flags.
    pub(super) fn settings(&self, rounds: Rounds, flags: BufferFlags) -> ShapeSettings {
        ShapeSettings {
            normalize: NormalizeSettings {
                rounds,
                invisible_glyph: self.invisible,
                draws_selectors: self.not_found_selector.is_some(),
            },
            ignorables: if flags.contains(BufferFlags::PRESERVE_DEFAULT_IGNORABLES) {
                DefaultIgnorables::Preserve
            } else if flags.contains(BufferFlags::REMOVE_DEFAULT_IGNORABLES) {
                DefaultIgnorables::Remove
            } else {
                DefaultIgnorables::Hide
            },
        }
    }

    /// Draws each variation selector that selected nothing by its glyph, if there is one, at no width.
    /// (HarfBuzz's `hb_ot_deal_with_variation_selectors`.)
    pub(super) fn draw_selectors(&self, buffer: &mut Buffer) {
        let Some(glyph_id) = self.not_found_selector else {
            return;
        };
        for place in 0..buffer.len() {
            let info = buffer.get(place);
            if is_selector(&info) {
                buffer.set(place, GlyphInfo { glyph_id, ..info });
                buffer.set_position(place, GlyphPosition::ZERO);
            }
        }
    }
}

fn is_selector(info: &GlyphInfo) -> bool {
    let props = info.unicode_props;
    props.general_category() == GeneralCategory::Cf && props.high_byte() == SELECTOR
}
