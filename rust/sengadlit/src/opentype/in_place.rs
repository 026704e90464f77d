//! Texts that are shaped where they stand, for callers with a [`Buffer`] or a font of their own.

use super::drawn_font::DrawnFont;
use super::kerning::Kerning;
use super::marks::MarkPlacing;
use super::serialize::Serialized;
use super::steps::{Steps, Told};
use super::{Face, Replacements, SerializeFlags, ShapePlan};
use crate::buffer::{Buffer, GlyphInfo, GlyphPosition, Script};
pub use crate::generated::opentype_font::font::OpenTypeFont;
use crate::generated::shapers_buffer::buffer::least_cluster;
use crate::language::text_tags;
use crate::ot_shape;
use crate::ot_shape_normalize::NormalizeFont;
use crate::ot_shape_position::MetricsFont;
use crate::ot_shape_prepare::set_unicode_properties;
use crate::shaper::checked::CallError;
use crate::unicode::UnicodeTables;
use core::cell::Cell;
use core::fmt;

impl Face<'_> {
    /// The face as the hooks and `ot_shape` read it, for texts of a script.
    pub fn font(&self, script: Option<Script>) -> OpenTypeFont<'_> {
        self.for_tags(text_tags(script, None))
    }
}

impl Buffer {
    /// Brings the characters of each grapheme into one cluster, as
    /// [`UnicodeBuffer::merge_graphemes`](super::UnicodeBuffer::merge_graphemes) does.
    pub fn merge_graphemes(&mut self) {
        set_unicode_properties(&UnicodeTables, self);
        self.with_glyphs_mut(|glyphs| {
            let graphemes = glyphs.chunk_by_mut(|_, next| next.unicode_props.is_continuation());
            for grapheme in graphemes {
                let least = least_cluster(grapheme);
                for glyph in grapheme {
                    glyph.cluster = least;
                }
            }
        });
    }
}

/// Glyphs of a [`Buffer`] in one line, as hb-shape prints them: by the names of a face, if there is one, and
/// with positions, if there are some. The alternate form (`{:#}`) is that of `--output-format=json`.
pub fn printed<'a>(
    face: Option<&'a Face<'a>>,
    glyphs: &'a [GlyphInfo],
    positions: &'a [GlyphPosition],
    flags: SerializeFlags,
) -> impl fmt::Display + 'a {
    Serialized {
        infos: glyphs,
        positions,
        face,
        flags,
    }
}

impl ShapePlan {
    /// Shapes a text of characters in its buffer, whose script and direction stay. Characters and widths
    /// are those of `font`, which is [`Face::font`] or has some of its own (hinted widths, another
    /// `cmap`); lookups are those of the face that the plan was made for. The buffer's flags say what
    /// becomes of characters that need not be drawn.
    ///
    /// # Errors
    ///
    /// As [`try_shape_with_plan`](super::try_shape_with_plan), and a condition of
    /// [`ot_shape::shape`]'s that isn't met: there are positions, or glyphs that are no characters.
    /// Nothing has changed then.
    pub fn shape_buffer<F: NormalizeFont + MetricsFont>(
        &self,
        face: &Face<'_>,
        font: &F,
        buffer: &mut Buffer,
    ) -> Result<(), CallError> {
        self.shape_buffer_with(face, font, &Replacements::default(), buffer)
    }

    /// The same, with glyphs for what the font lacks.
    ///
    /// # Errors
    ///
    /// As [`shape_buffer`](Self::shape_buffer).
    pub fn shape_buffer_with<F: NormalizeFont + MetricsFont>(
        &self,
        face: &Face<'_>,
        font: &F,
        replacements: &Replacements,
        buffer: &mut Buffer,
    ) -> Result<(), CallError> {
        self.shape_and_tell(
            face,
            &face.for_tags(self.tags),
            font,
            replacements,
            None,
            buffer,
        )
    }

    /// The same with the face's own font, [`Face::font`], whose lookups are applied, and told if there is
    /// somebody to tell.
    #[inline]
    pub(super) fn shape_and_tell<F: NormalizeFont + MetricsFont>(
        &self,
        face: &Face<'_>,
        own: &OpenTypeFont<'_>,
        font: &F,
        replacements: &Replacements,
        told: Told<'_>,
        buffer: &mut Buffer,
    ) -> Result<(), CallError> {
        let is_scaled = &Cell::new(false);
        let settings = replacements.settings(self.rounds, buffer.flags());
        let kerning = Kerning {
            lefts: &face.kern,
            mask: self.kern_mask,
            ignorables: settings.ignorables,
        };
        let steps = Steps {
            font: own,
            plan: &self.plan,
            not_found: replacements.not_found,
            marks: MarkPlacing::new(face, &self.plan, &kerning),
            kerning,
            scale: face.scale,
            is_scaled,
            told,
        };
        let font = DrawnFont {
            font,
            instead: steps.not_found.filter(|_| !steps.has_lookups()),
            scale: face.scale,
            is_scaled,
        };
        let (plan, tables) = (&self.plan, &UnicodeTables);
        ot_shape::shape(plan, &settings, &font, tables, &steps, buffer)?;
        if !steps.has_lookups() {
            steps.put_not_found(buffer);
        }
        replacements.draw_selectors(buffer);
        Ok(())
    }
}
