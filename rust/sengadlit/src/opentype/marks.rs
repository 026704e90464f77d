//! Marks in fonts without GPOS, which are placed by their classes and the boxes of glyphs.

use super::Face;
use super::kerning::{Kerning, positions_by_itself};
use crate::buffer::{Buffer, Direction, GeneralCategory, GlyphInfo, Script};
use crate::generated::opentype_gpos::fallback::{
    MarkMetrics, MarkSettings, mark_class, place_marks_by_boxes,
};
use crate::generated::opentype_gpos::mark_boxes::GlyphBox;
use crate::ot_shape_plan::EnginePlan;

/// The face of a text whose marks GPOS doesn't place.
#[derive(Clone, Copy)]
pub(super) struct MarkPlacing<'a> {
    face: &'a Face<'a>,
    from_right: bool,
}

impl<'a> MarkPlacing<'a> {
    /// How marks are placed by a plan, if GPOS doesn't do it, the shaper wants it, and no pair is moved across
    /// the line. (HarfBuzz's `fallback_mark_positioning`.)
    #[inline]
    pub fn new(face: &'a Face<'a>, plan: &EnginePlan, kerning: &Kerning<'_>) -> Option<Self> {
        if plan.applies_gpos() {
            return None;
        }
        MarkPlacing::without_gpos(face, plan, kerning)
    }

    /// The same of a plan that doesn't apply GPOS.
    fn without_gpos(face: &'a Face<'a>, plan: &EnginePlan, kerning: &Kerning<'_>) -> Option<Self> {
        if !positions_by_itself(plan.shaper()) || kerning.moves_across() {
            return None;
        }
        let line = match plan.direction() {
            Direction::TopToBottom | Direction::BottomToTop => {
                let script = plan.plan().script;
                script.map_or(Direction::LeftToRight, Script::direction)
            }
            horizontal => horizontal,
        };
        Some(MarkPlacing {
            face,
            from_right: line == Direction::RightToLeft,
        })
    }

    /// Places the marks of a text whose positions are done.
    pub fn apply(self, buffer: &mut Buffer) {
        // (most texts have none, and no box of a glyph is read for them)
        if !buffer.glyphs().iter().any(stays_with_base) {
            return;
        }
        self.place(buffer);
    }

    fn place(self, buffer: &mut Buffer) {
        buffer.with_glyphs_mut(|glyphs| {
            let props = glyphs.iter_mut().map(|glyph| &mut glyph.unicode_props);
            for props in props.filter(|props| props.general_category() == GeneralCategory::Mn) {
                // (a character counts in scripts alone whose shapers place no marks)
                let class = mark_class(0, props.modified_combining_class());
                props.set_modified_combining_class(class);
            }
        });
        let height = self
            .face
            .scale
            .map_or(self.face.units_per_em().into(), |scale| scale.y);
        let settings = MarkSettings {
            gap: u16::try_from(height / 16).unwrap_or_default(),
            direction: buffer.direction(),
            from_right: self.from_right,
        };
        place_marks_by_boxes(&self, settings, buffer);
    }
}

/// Whether a glyph goes with the one before it: a mark, or a character that isn't drawn.
fn stays_with_base(glyph: &GlyphInfo) -> bool {
    let props = glyph.unicode_props;
    props.general_category().is_mark() || props.is_hidden() || props.is_ignorable()
}

impl MarkMetrics for MarkPlacing<'_> {
    fn glyph_box(&self, glyph: u32) -> Option<GlyphBox> {
        let extents = self.face.glyph_extents(glyph)?;
        Some(GlyphBox {
            x_bearing: extents.x_bearing,
            y_bearing: extents.y_bearing,
            width: extents.width,
            height: extents.height,
        })
    }

    fn glyph_advance(&self, glyph: u32) -> i32 {
        self.face.glyph_hor_advance(glyph)
    }
}

#[cfg(test)]
mod tests {
    use super::*;
    use crate::alloc::Global;
    use crate::font::Font;
    use crate::ot_shape_position::set_advances;
    use crate::ot_shape_prepare::set_unicode_properties;
    use crate::unicode::UnicodeTables;

    /// The glyphs of a text in a face, with their advances.
    fn text_of(face: &Face<'_>, text: &str) -> Buffer {
        let mut buffer = Buffer::new(Global, 100);
        buffer.push_str(text).unwrap();
        set_unicode_properties(&UnicodeTables, &mut buffer);
        let font = face.font(None);
        buffer.with_glyphs_mut(|glyphs| {
            for glyph in glyphs {
                let found = font.nominal_glyph(glyph.glyph_id);
                glyph.glyph_id = found.map_or(0, |found| found.0.into());
            }
        });
        set_advances(&font, &mut buffer).unwrap();
        buffer
    }

    // What is passed over is what placing would leave as it is; with a mark something is placed.
    #[test]
    fn a_text_without_marks_stays_as_placing_leaves_it() {
        let data = std::fs::read("../../fonts/sample.ttf").unwrap();
        let face = Face::parse(&data, 0).unwrap();
        let placing = MarkPlacing {
            face: &face,
            from_right: false,
        };
        for (text, has_marks) in [
            ("Tofi fe", false),
            ("e\u{301}a", true),
            ("e\u{200D}a", true),
        ] {
            let old = text_of(&face, text);
            let (mut applied, mut placed) = (old.copy().unwrap(), old.copy().unwrap());
            placing.apply(&mut applied);
            placing.place(&mut placed);
            assert_eq!(applied, placed, "{text}");
            assert_eq!(applied != old, has_marks, "{text}");
        }
    }
}
