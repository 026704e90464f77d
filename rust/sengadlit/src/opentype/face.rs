//! A font file.

pub use crate::generated::opentype_face::directory::FaceError;

use super::scale::Scale;
use crate::alloc::Global;
use crate::font::GlyphId;
use crate::generated::opentype_face::bytes::i16_at;
use crate::generated::opentype_face::directory::{directory, face_count, table};
use crate::generated::opentype_face::face;
use crate::generated::opentype_face::outlines::{box_bottom, box_top, box_width, has_box};
use crate::generated::opentype_font::font::OpenTypeFont;
use crate::generated::opentype_font::text_tags::TextTags;
use crate::generated::opentype_gpos::kern_lefts::KernLefts;
use crate::generated::opentype_layout::face_tables::{FaceTables, PreparedFace};
use core::fmt;

/// The tag `fvar` as a number: the table of a font's axes.
const FVAR: u32 = u32::from_be_bytes(*b"fvar");

/// The tag `kern`: the table of pairs in fonts that have no GPOS.
const KERN: u32 = u32::from_be_bytes(*b"kern");

/// A font file, or one font of a collection, over its bytes. It is a few references: what a text needs
/// is read from the bytes each time, unless [`prepare`](Self::prepare) has made tables of it.
///
/// A variable font is its default instance (see [`is_variable`](Self::is_variable)). What only AAT's or
/// Graphite's tables say isn't read.
#[derive(Debug)]
#[allow(
    clippy::struct_field_names,
    reason = "it is a face of the generated crate"
)]
pub struct Face<'a> {
    pub(super) face: face::Face<'a>,
    /// How many bytes the font's file has, which bounds what `prepare` makes.
    file_len: usize,
    prepared: Option<PreparedFace<'a>>,
    /// The table `kern`, empty where the font has none.
    pub(super) kern: KernLefts<'a>,
    pub(super) scale: Option<Scale>,
    is_variable: bool,
}

impl<'a> Face<'a> {
    /// Reads the directory of a font's bytes; `index` chooses a font of a collection, and is 0 else.
    ///
    /// # Errors
    ///
    /// The bytes are no font, or it lacks a table that each font has.
    pub fn parse(data: &'a [u8], index: u32) -> Result<Self, FaceError> {
        let directory = directory(data, index)?;
        Ok(Face {
            face: face::parse(data, index)?,
            file_len: data.len(),
            prepared: None,
            kern: KernLefts::of(table(data, directory, KERN)),
            scale: None,
            is_variable: !table(data, directory, FVAR).is_empty(),
        })
    }

    /// The same without a reason where there is no font, as rustybuzz has it.
    pub fn from_slice(data: &'a [u8], index: u32) -> Option<Self> {
        Face::parse(data, index).ok()
    }

    /// How many fonts the bytes have: one, those of a collection, or none.
    pub fn count(data: &[u8]) -> u32 {
        face_count(data)
    }

    /// Makes tables of the font's characters, classes and lookups, by which texts are shaped faster, with
    /// the same glyphs, and finds which glyphs begin pairs of the table `kern`. It takes as long as a hundred
    /// words or so, in fonts of Chinese or Korean a thousand, so that it pays for a face that shapes many
    /// texts. The tables take 512 KiB at most, or half as much as the font's file, where that is more; what
    /// they have no room for is read from the font's bytes. Where memory is refused there are fewer tables,
    /// or none.
    pub fn prepare(&mut self) {
        if self.prepared.is_none() {
            self.prepared = Some(PreparedFace::new(Global, &self.face, self.file_len));
            self.kern = KernLefts::new(self.kern.table());
        }
    }

    /// The same font in other units: an em has so many across and up. Advances, what lookups add to them,
    /// offsets and boxes are scaled, each rounded by itself. (HarfBuzz's `hb_font_set_scale`, which rounds
    /// each value where several lookups add to one.)
    #[must_use]
    pub fn with_scale(self, x: i32, y: i32) -> Self {
        let units_per_em = self.units_per_em();
        let scale = Some(Scale { x, y, units_per_em });
        Face { scale, ..self }
    }

    /// How many font units an em has.
    pub fn units_per_em(&self) -> u16 {
        self.face.units_per_em()
    }

    /// How many glyphs the font has.
    pub fn glyph_count(&self) -> u16 {
        self.face.glyph_count()
    }

    /// Whether the font has axes (the table `fvar`), so that what is shaped is its default instance.
    pub fn is_variable(&self) -> bool {
        self.is_variable
    }

    /// How high lines reach above their base line.
    pub fn ascender(&self) -> i32 {
        self.up(self.face.ascender())
    }

    /// How high lines reach above their base line at their lowest: mostly a negative number.
    pub fn descender(&self) -> i32 {
        self.up(self.face.descender())
    }

    /// The glyph of a character, if the font has one (the table `cmap`).
    pub fn glyph_index(&self, character: char) -> Option<GlyphId> {
        self.face.nominal_glyph(character.into()).map(GlyphId)
    }

    /// How far a glyph moves the pen in horizontal text; 0 for a glyph that the font lacks.
    pub fn glyph_hor_advance(&self, glyph: u32) -> i32 {
        let advance = u16::try_from(glyph).map_or(0, |glyph| self.face.h_advance(glyph));
        let units = advance.into();
        self.scale.map_or(units, |scale| scale.across(units))
    }

    /// The name of a glyph, if the font's table `post` has one.
    pub fn glyph_name(&self, glyph: u32) -> Option<&str> {
        let name = self.face.glyph_name(u16::try_from(glyph).ok()?);
        core::str::from_utf8(name)
            .ok()
            .filter(|name| !name.is_empty())
    }

    /// The description of a glyph in the table `glyf`, which is empty for a glyph without contours.
    /// `None` where the font lacks the glyph or the table, as fonts with `CFF ` do.
    pub fn glyph_outline(&self, glyph: u32) -> Option<&[u8]> {
        self.face.outline(u16::try_from(glyph).ok()?)
    }

    /// The box around a glyph, if the table `glyf` has the glyph. (HarfBuzz's
    /// `hb_font_get_glyph_extents`, which begins at the left side bearing of `hmtx`.)
    pub fn glyph_extents(&self, glyph: u32) -> Option<GlyphExtents> {
        let number = u16::try_from(glyph).ok()?;
        let outline = self.face.outline(number)?;
        if !has_box(outline) {
            return Some(GlyphExtents::default());
        }
        let left = if self.face.hmtx.is_empty() {
            i16_at(outline, 2).min(i16_at(outline, 6))
        } else {
            self.face.left_side_bearing(number)
        };
        let (top, bottom) = (box_top(outline), box_bottom(outline));
        let units = GlyphExtents {
            x_bearing: left.into(),
            y_bearing: top.into(),
            width: box_width(outline).into(),
            height: i32::from(bottom) - i32::from(top),
        };
        Some(self.scale.map_or(units, |scale| scale.extents(units)))
    }

    fn up(&self, units: i32) -> i32 {
        self.scale.map_or(units, |scale| scale.up(units))
    }

    /// The font as it is for texts with these tags of OpenType.
    // (made in each arm, so that the tables are written where they stay)
    #[inline]
    pub(super) fn for_tags(&self, tags: TextTags) -> OpenTypeFont<'_> {
        match &self.prepared {
            Some(prepared) => OpenTypeFont {
                tables: prepared.tables(),
                tags,
            },
            None => OpenTypeFont {
                tables: FaceTables::of(&self.face),
                tags,
            },
        }
    }
}

/// A copy of a face that is prepared is prepared anew: it has tables of its own.
impl Clone for Face<'_> {
    fn clone(&self) -> Self {
        let mut copy = Face {
            prepared: None,
            kern: KernLefts::of(self.kern.table()),
            ..*self
        };
        if self.prepared.is_some() {
            copy.prepare();
        }
        copy
    }
}

/// The box around a glyph: from its upper left corner to the right and down, so that the
/// height is negative or 0. (HarfBuzz's `hb_glyph_extents_t`.)
#[derive(Clone, Copy, Debug, Default, PartialEq, Eq, Hash)]
pub struct GlyphExtents {
    /// Where the box begins, to the right of the glyph's origin.
    pub x_bearing: i32,
    /// How high the upper edge lies above the base line.
    pub y_bearing: i32,
    /// How wide the box is.
    pub width: i32,
    /// How far the lower edge lies above the upper one.
    pub height: i32,
}

impl fmt::Display for FaceError {
    fn fmt(&self, f: &mut fmt::Formatter<'_>) -> fmt::Result {
        f.write_str(match self {
            FaceError::UnknownMagic => "the file is no font",
            FaceError::IndexOutOfRange => "the file has no font of this index",
            FaceError::MissingHead => "the font lacks the table head",
            FaceError::MissingMaxp => "the font lacks the table maxp",
        })
    }
}

impl core::error::Error for FaceError {}
