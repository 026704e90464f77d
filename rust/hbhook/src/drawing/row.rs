//! A row of boxes: the glyphs of a buffer, and what is shown of them.

use super::label::Style;
use super::names::{Name, auxiliary_name, category_name};
use super::numbers::Numbers;
use crate::generated::hbhook_commands::Feature;
use sengadlit::{Face, GlyphInfo, GlyphPosition, Shaper, Tag};

/// The glyph flags among the bits of a mask.
pub(super) const GLYPH_FLAGS: u32 = 7;

/// The glyphs of a buffer, where they stood before a hook, and what names there are for them.
#[derive(Clone, Copy)]
pub(crate) struct Row<'a> {
    pub glyphs: &'a [GlyphInfo],
    pub positions: &'a [GlyphPosition],
    /// The glyphs before the hook.
    pub before: &'a [GlyphInfo],
    /// For each glyph its place before the hook; none where nothing is to be shown of it.
    pub origins: &'a [usize],
    pub shaper: Option<Shaper>,
    pub features: &'a [Feature],
    pub numbers: &'a Numbers,
    /// The font whose glyphs these are; none where they are still characters, or of lines.
    pub face: Option<&'a Face<'a>>,
    /// Whether the row is drawn from right to left.
    pub is_rtl: bool,
}

/// A line of small text in a box, and how it looks.
pub(super) struct Detail {
    pub style: Style,
    pub text: String,
}

impl Row<'_> {
    /// Whether some glyph stands at another place than before, or has another number.
    pub(super) fn has_changed(&self) -> bool {
        let has_moved = self
            .origins
            .iter()
            .enumerate()
            .any(|(i, place)| i != *place);
        let number = |glyph: &GlyphInfo| glyph.glyph_id;
        has_moved
            || !self
                .before
                .iter()
                .map(number)
                .eq(self.glyphs.iter().map(number))
    }

    /// The most details that a box of the row has.
    pub(super) fn most_details(&self) -> usize {
        let details = self.glyphs.iter().map(|glyph| self.details(glyph).len());
        details.max().unwrap_or(0)
    }

    /// The glyph flags that some glyph of the row has.
    pub(super) fn glyph_flags(&self) -> u32 {
        let masks = self.glyphs.iter().map(|glyph| glyph.mask);
        masks.fold(0, |flags, mask| flags | mask) & GLYPH_FLAGS
    }

    /// Whether a glyph of the row is in a syllable.
    pub(super) fn has_syllables(&self) -> bool {
        self.glyphs.iter().any(|glyph| glyph.syllable != 0)
    }

    /// What is shown of a glyph: category, auxiliary byte and combining class where they aren't 0,
    /// and its masks.
    pub(super) fn details(&self, glyph: &GlyphInfo) -> Vec<Detail> {
        let class = glyph.unicode_props.high_byte();
        let bytes = [
            (
                Style::Category,
                self.category_name(glyph),
                "category",
                glyph.category,
            ),
            (
                Style::Auxiliary,
                self.auxiliary_name(glyph),
                "aux",
                glyph.auxiliary,
            ),
            (Style::Auxiliary, None, "class", class),
        ];
        let set = bytes.into_iter().filter(|(.., byte)| *byte != 0);
        let named = set.map(|(style, name, of, byte)| Detail {
            style,
            text: name.map_or_else(|| format!("{of} {byte}"), |name| name.short.into()),
        });
        named.chain(self.masks(glyph.mask & !GLYPH_FLAGS)).collect()
    }

    /// What the shaper calls a glyph's category.
    pub(crate) fn category_name(&self, glyph: &GlyphInfo) -> Option<Name> {
        category_name(self.shaper?, glyph.category)
    }

    /// What the shaper calls a glyph's auxiliary byte.
    pub(crate) fn auxiliary_name(&self, glyph: &GlyphInfo) -> Option<Name> {
        auxiliary_name(self.shaper?, glyph.auxiliary)
    }

    // The features that a mask turns on, and the bits that no feature has.
    fn masks(&self, mask: u32) -> impl Iterator<Item = Detail> {
        let on = self
            .features
            .iter()
            .filter(move |feature| mask & feature.mask != 0);
        let unnamed = on.clone().fold(mask, |rest, feature| rest & !feature.mask);
        let rest = (unnamed != 0).then(|| format!("+{unnamed:x}"));
        let texts = on.map(|feature| tag_name(feature.tag)).chain(rest);
        texts.map(|text| Detail {
            style: Style::Mask,
            text,
        })
    }
}

/// A tag as a name, by its four characters.
pub(super) fn tag_name(tag: Tag) -> String {
    tag.0.map(char::from).iter().collect()
}
