//! The properties of a glyph as the macros and functions of HarfBuzz's hb-ot-layout.hh read and set
//! them, beside what the sources have of them, and how they are shown.

use crate::buffer::{GeneralCategory, GlyphInfo, GlyphProps, LigProps, UnicodeProps};
use core::fmt;

/// What lookups leave in a glyph whatever its class (HarfBuzz's `HB_OT_LAYOUT_GLYPH_PROPS_PRESERVE`).
const LEFT_BY_LOOKUPS: GlyphProps =
    GlyphProps(GlyphProps::SUBSTITUTED.0 | GlyphProps::LIGATED.0 | GlyphProps::MULTIPLIED.0);

/// The bit of a glyph that is a ligature itself (HarfBuzz's `IS_LIG_BASE`).
const IS_LIGATURE: u8 = 0x10;

impl GlyphProps {
    /// Whether `GDEF`'s class of the glyph is a base (`_hb_glyph_info_is_base_glyph`).
    #[inline]
    pub const fn is_base_glyph(self) -> bool {
        self.contains(GlyphProps::BASE_GLYPH)
    }

    /// Whether `GDEF`'s class of the glyph is a ligature (`_hb_glyph_info_is_ligature`).
    #[inline]
    pub const fn is_ligature(self) -> bool {
        self.contains(GlyphProps::LIGATURE)
    }

    /// Whether `GDEF`'s class of the glyph is a mark (`_hb_glyph_info_is_mark`).
    #[inline]
    pub const fn is_mark(self) -> bool {
        self.contains(GlyphProps::MARK)
    }

    /// A mark of this class of `GDEF`'s `MarkAttachClassDef`, in the high byte, as `get_glyph_props`
    /// of HarfBuzz's OT/Layout/GDEF has it.
    #[inline]
    #[must_use]
    pub const fn mark(attachment_class: u8) -> Self {
        GlyphProps(GlyphProps::MARK.0 | (attachment_class as u16) << 8)
    }

    /// The high byte: a mark's class of `GDEF`'s `MarkAttachClassDef`, 0 for none.
    #[inline]
    pub const fn mark_attachment_class(self) -> u8 {
        (self.0 >> 8) as u8
    }

    /// Gives the glyph another class, with a mark's attachment class. What lookups did stays, as in
    /// HarfBuzz's `_set_glyph_class`.
    #[inline]
    pub const fn set_class(&mut self, class: GlyphProps) {
        *self = self
            .intersection(LEFT_BY_LOOKUPS)
            .union(class.difference(LEFT_BY_LOOKUPS));
    }
}

impl LigProps {
    /// A ligature itself, by its number, 1 to 7, and how many components it has, of which the low four
    /// bits count (`_hb_glyph_info_set_lig_props_for_ligature`).
    #[inline]
    #[must_use]
    pub const fn ligature(number: u8, components: u8) -> Self {
        LigProps(number << 5 | IS_LIGATURE | components & 15)
    }

    /// A mark that belongs to a component, counted from 1, of the ligature of this number; of number 0
    /// one of several glyphs for one, counted from 0 (`_hb_glyph_info_set_lig_props_for_mark`).
    #[inline]
    #[must_use]
    pub const fn mark(number: u8, component: u8) -> Self {
        LigProps(number << 5 | component & 15)
    }

    /// The number of the ligature that the glyph is or belongs to, 0 for none (`_hb_glyph_info_get_lig_id`).
    #[inline]
    pub const fn number(self) -> u8 {
        self.0 >> 5
    }

    /// Whether the glyph is a ligature itself (`_hb_glyph_info_ligated_internal`).
    #[inline]
    pub const fn is_ligature(self) -> bool {
        self.0 & IS_LIGATURE != 0
    }
}

impl UnicodeProps {
    /// Whether the character is the zero width joiner (`_hb_glyph_info_is_zwj`).
    #[inline]
    pub fn is_zero_width_joiner(self) -> bool {
        self.is_format() && self.high_byte() & 1 != 0
    }

    /// Whether the character is the zero width non-joiner (`_hb_glyph_info_is_zwnj`).
    #[inline]
    pub fn is_zero_width_non_joiner(self) -> bool {
        self.is_format() && self.high_byte() & 2 != 0
    }

    /// Which width a space stands for that the font lacks, by HarfBuzz's `space_t`; `None` for a
    /// character that is no space (`_hb_glyph_info_get_unicode_space_fallback_type`).
    #[inline]
    pub fn space_kind(self) -> Option<u8> {
        (self.general_category() == GeneralCategory::Zs).then(|| self.high_byte())
    }

    fn is_format(self) -> bool {
        self.general_category() == GeneralCategory::Cf
    }
}

impl GlyphInfo {
    /// Whether the glyph need not be drawn: its character may stay undrawn, and no lookup put the
    /// glyph in (`_hb_glyph_info_is_default_ignorable`).
    #[inline]
    pub fn is_default_ignorable(&self) -> bool {
        self.unicode_props.is_ignorable() && !self.glyph_props.is_substituted()
    }

    /// For how many components the glyph counts in a ligature of it with others: those that it has
    /// itself, as a ligature by `GDEF`'s class that a lookup made, else 1
    /// (`_hb_glyph_info_get_lig_num_comps`).
    #[inline]
    pub const fn component_count(&self) -> u8 {
        if self.glyph_props.is_ligature() && self.lig_props.is_ligature() {
            self.lig_props.0 & 15
        } else {
            1
        }
    }
}

/// The names of the bits, as in Rust: `GlyphProps(MARK | SUBSTITUTED)`. What has no name is a number.
impl fmt::Debug for GlyphProps {
    fn fmt(&self, f: &mut fmt::Formatter<'_>) -> fmt::Result {
        f.write_str("GlyphProps(")?;
        if self.is_empty() {
            f.write_str("NONE")?;
        }
        let names = GlyphProps::FLAGS.iter().map(|(name, flag)| (*name, flag.0));
        write_flags(self.0, names, f)?;
        f.write_str(")")
    }
}

/// The number and what it stands for: `LigProps(2, ligature of 3)`, `LigProps(2, component 1)`, `LigProps(NONE)`.
impl fmt::Debug for LigProps {
    fn fmt(&self, f: &mut fmt::Formatter<'_>) -> fmt::Result {
        let (number, low) = (self.number(), self.0 & 15);
        match (self.is_ligature(), self.0) {
            (true, _) => write!(f, "LigProps({number}, ligature of {low})"),
            (false, 0) => f.write_str("LigProps(NONE)"),
            (false, _) => write!(f, "LigProps({number}, component {low})"),
        }
    }
}

/// Category, high byte and bits: `UnicodeProps(Mn, 230, CONTINUATION)`, `UnicodeProps(Lo)`. A number
/// that is no category's stands for itself.
impl fmt::Debug for UnicodeProps {
    fn fmt(&self, f: &mut fmt::Formatter<'_>) -> fmt::Result {
        let number = (self.0 & 31) as u8;
        match GeneralCategory::from_number(number) {
            Some(category) => write!(f, "UnicodeProps({category:?}")?,
            None => write!(f, "UnicodeProps({number}")?,
        }
        if self.high_byte() != 0 {
            write!(f, ", {}", self.high_byte())?;
        }
        let bits = self.intersection(UnicodeProps::all());
        if !bits.is_empty() {
            f.write_str(", ")?;
        }
        let names = UnicodeProps::FLAGS
            .iter()
            .map(|(name, flag)| (*name, flag.0));
        write_flags(bits.0, names, f)?;
        f.write_str(")")
    }
}

// The names of bits with `|` between them, and a number for what has none.
fn write_flags(
    bits: u16,
    names: impl Iterator<Item = (&'static str, u16)>,
    f: &mut fmt::Formatter<'_>,
) -> fmt::Result {
    let (mut rest, mut between) = (bits, "");
    for (name, flag) in names.filter(|(_, flag)| bits & flag == *flag) {
        write!(f, "{between}{name}")?;
        (rest, between) = (rest & !flag, " | ");
    }
    match rest {
        0 => Ok(()),
        rest => write!(f, "{between}{rest:#x}"),
    }
}

#[cfg(test)]
mod tests;
