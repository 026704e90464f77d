//! The lookups of a text, one by one.

use super::kerning::Kerning;
use super::marks::MarkPlacing;
use super::scale::Scale;
use crate::buffer::{Buffer, GlyphInfo, GlyphProps, ShaperError};
use crate::font::GlyphId;
use crate::generated::opentype_font::font::OpenTypeFont;
use crate::ot_shape::Lookups;
use crate::ot_shape_plan::{EnginePlan, StageLookup};
use crate::ot_shape_position::GlyphClasses;
use core::cell::Cell;
use core::ptr;

/// A step of shaping, for [`try_shape_in_steps`](super::try_shape_in_steps): a lookup of GSUB or GPOS,
/// by its number in the table.
#[derive(Clone, Copy, Debug, PartialEq, Eq, Hash)]
pub enum ShapeStep {
    /// A lookup of GSUB is about to be applied.
    SubstitutionStarts(u16),
    /// A lookup of GSUB has been applied.
    SubstitutionEnds(u16),
    /// A lookup of GPOS is about to be applied.
    PositioningStarts(u16),
    /// A lookup of GPOS has been applied.
    PositioningEnds(u16),
}

/// Who is told of steps, with the glyphs as they are then.
pub(super) type Told<'a> = Option<&'a dyn Fn(ShapeStep, &Buffer)>;

/// The lookups of a font, which are told as they are applied, before the first of which the glyph for
/// characters that the font lacks is put in, and behind the last of which pairs are moved by the table `kern`,
/// positions are scaled, and marks placed in a font without GPOS.
pub(super) struct Steps<'a> {
    pub font: &'a OpenTypeFont<'a>,
    pub plan: &'a EnginePlan,
    pub not_found: Option<GlyphId>,
    pub kerning: Kerning<'a>,
    pub marks: Option<MarkPlacing<'a>>,
    pub scale: Option<Scale>,
    pub is_scaled: &'a Cell<bool>,
    pub told: Told<'a>,
}

impl Steps<'_> {
    fn tell(&self, step: ShapeStep, buffer: &Buffer) {
        if let Some(told) = self.told {
            told(step, buffer);
        }
    }

    /// Whether the plan has lookups of GSUB.
    pub fn has_lookups(&self) -> bool {
        !self.plan.lookups().is_empty()
    }

    /// Puts the glyph for missing characters in place of glyph 0, where lookups are the plan's first.
    // (most texts have no such glyph: the question is put first, since a plan may have many stages)
    #[inline]
    fn put_not_found_before(&self, list: &[StageLookup], buffer: &mut Buffer) {
        if self.not_found.is_none() {
            return;
        }
        let (lookups, positioning) = (self.plan.lookups(), self.plan.positioning());
        let Some(first) = lookups.first().or(positioning.first()) else {
            return;
        };
        if list.first().is_some_and(|next| ptr::eq(first, next)) {
            self.put_not_found(buffer);
        }
    }

    /// Puts the glyph for missing characters in place of glyph 0.
    pub fn put_not_found(&self, buffer: &mut Buffer) {
        let Some(instead) = self.not_found else {
            return;
        };
        buffer.with_glyphs_mut(|glyphs| {
            for glyph in glyphs.iter_mut().filter(|glyph| glyph.glyph_id == 0) {
                glyph.glyph_id = instead.into();
            }
        });
    }
}

impl GlyphClasses for Steps<'_> {
    fn is_mark(&self, glyph: &GlyphInfo) -> bool {
        self.font.is_mark(glyph)
    }
}

impl Lookups for Steps<'_> {
    fn glyph_props(&self, glyph: &GlyphInfo) -> GlyphProps {
        match self.not_found {
            Some(instead) if glyph.glyph_id == 0 => self.font.glyph_props(&GlyphInfo {
                glyph_id: instead.into(),
                ..*glyph
            }),
            _ => self.font.glyph_props(glyph),
        }
    }

    fn growth(&self, lookup: &StageLookup) -> usize {
        self.font.growth(lookup)
    }

    fn substitute(&self, lookup: &StageLookup, buffer: &mut Buffer) -> Result<(), ShaperError> {
        self.tell(ShapeStep::SubstitutionStarts(lookup.index), buffer);
        self.font.substitute(lookup, buffer)?;
        self.tell(ShapeStep::SubstitutionEnds(lookup.index), buffer);
        Ok(())
    }

    // (one by one where somebody is told of each; in line, since a plan may have many short stages)
    #[inline]
    fn substitute_all(&self, list: &[StageLookup], buffer: &mut Buffer) -> Result<(), ShaperError> {
        self.put_not_found_before(list, buffer);
        if self.told.is_none() {
            return self.font.substitute_all(list, buffer);
        }
        list.iter()
            .try_for_each(|lookup| self.substitute(lookup, buffer))
    }

    fn position(&self, lookup: &StageLookup, buffer: &mut Buffer) -> Result<(), ShaperError> {
        self.tell(ShapeStep::PositioningStarts(lookup.index), buffer);
        self.font.position(lookup, buffer)?;
        self.tell(ShapeStep::PositioningEnds(lookup.index), buffer);
        Ok(())
    }

    fn position_all(&self, list: &[StageLookup], buffer: &mut Buffer) -> Result<(), ShaperError> {
        self.put_not_found_before(list, buffer);
        if self.told.is_none() {
            return self.font.position_all(list, buffer);
        }
        list.iter()
            .try_for_each(|lookup| self.position(lookup, buffer))
    }

    fn finish_positions(&self, buffer: &mut Buffer) {
        self.kerning.apply(self.plan, self, buffer);
        if let Some(scale) = self.scale {
            scale.apply(self.font, buffer);
            self.is_scaled.set(true);
        }
        self.font.finish_positions(buffer);
        if let Some(marks) = self.marks {
            marks.apply(buffer);
        }
    }
}
