//! Texts that are shaped by a face, in one call.
use crate::border::callbacks::{Asked, FONT_ADVANCE, FONT_NOMINAL, FontFuncs};
use crate::border::faces::{Face, ShapeOptions};
use crate::buffer::{Buffer, Segment};
use crate::encodings::Unit;
use crate::layout::UserFeature;
use crate::numbers;
use crate::plan::list;
use crate::plan_cache::{Entry, PlanCache, PlanOf};
use crate::shaping::of_call;
use crate::status::{Argument, Error};
use core::ops::Range;
use sengadlit::Language;
use sengadlit::alloc::Vec as List;
use sengadlit::buffer::{Buffer as Inner, ShaperError, Tag};
use sengadlit::editing::TextEdit;
use sengadlit::font::{Font as AnswersFont, GlyphId};
use sengadlit::opentype::{OpenTypeFont, Replacements, ShapePlan};
use sengadlit::ot_shape_normalize::{NormalizeFont, Rounds};
use sengadlit::ot_shape_plan::UserFeature as Wanted;
use sengadlit::ot_shape_position::MetricsFont;
use sengadlit::plan::{BaseSearch, BreakFlags, ZeroContext};

/// What the caller of a text chose.
pub struct Chosen<'a> {
    segment: Segment,
    language: Option<Language>,
    features: List<Wanted>,
    font: Asked<FontFuncs>,
    rounds: Rounds,
    break_flags: BreakFlags,
    base_search: BaseSearch,
    zero_context: ZeroContext,
    replacements: Replacements,
    cache: Option<&'a PlanCache>,
}

// The language of a tag of BCP 47, which ends before the first character that no tag has.
fn language_of(tag: &[u8]) -> Result<Language, Error> {
    let tag = tag.utf8_chunks().next().map_or("", |first| first.valid());
    let language = tag.parse();
    language.map_err(|_| Error::argument(Argument::Language))
}

// A glyph of the options; 0 is none.
fn glyph(number: u32) -> Result<Option<GlyphId>, Error> {
    let glyph = u16::try_from(number).map_err(|_| Error::argument(Argument::Options))?;
    Ok((glyph != 0).then_some(GlyphId(glyph)))
}

impl<'a> Chosen<'a> {
    /// What these options choose, with a language by its tag, and the user's features.
    pub fn of(
        options: &ShapeOptions<'a>,
        language: Option<&[u8]>,
        features: &[UserFeature],
    ) -> Result<Self, Error> {
        let direction = numbers::direction(options.direction);
        Ok(Chosen {
            segment: Segment {
                script: numbers::script(options.script),
                direction: direction.ok_or_else(|| Error::argument(Argument::Direction))?,
            },
            language: language.map(language_of).transpose()?,
            features: list(features, UserFeature::wanted).map_err(ShaperError::from)?,
            font: Asked::font(options.font, 0)?,
            rounds: match options.normalizes_always {
                0 => Rounds::AsCode,
                _ => Rounds::Always,
            },
            break_flags: match options.sound_breaks {
                0 => BreakFlags::AsCode,
                _ => BreakFlags::Sound,
            },
            // (HarfBuzz looks among all)
            base_search: match options.skips_medials {
                0 => BaseSearch::AllConsonants,
                _ => BaseSearch::WithoutMedials,
            },
            zero_context: match options.old_spec_zero_context {
                0 => ZeroContext::NewSpec,
                _ => ZeroContext::OldSpec,
            },
            replacements: Replacements {
                invisible: glyph(options.invisible_glyph)?,
                not_found: glyph(options.not_found_glyph)?,
                not_found_selector: glyph(options.not_found_selector_glyph)?.map(u32::from),
            },
            cache: options.cache,
        })
    }

    // The plan of a segment in a face: the cache's, or a new one.
    fn plan(&self, face: &Face, segment: Segment) -> Result<Entry, ShaperError> {
        let of = PlanOf {
            face: face.serial,
            script: segment.script,
            direction: segment.direction,
            language: self.language,
            rounds: self.rounds,
            break_flags: self.break_flags,
            base_search: self.base_search,
            zero_context: self.zero_context,
        };
        let features = self.features.as_slice();
        if let Some(entry) = self.cache.and_then(|cache| cache.take(&of, features)) {
            return Ok(entry);
        }
        let builder = ShapePlan::builder()
            .script(of.script)
            .direction(of.direction)
            .language(of.language)
            .features(features)
            .rounds(of.rounds)
            .break_flags(of.break_flags)
            .base_search(of.base_search)
            .zero_context(of.zero_context);
        Entry::new(of, features, builder.build(face.parsed())?)
    }

    // Shapes characters, whose script and direction become those by which they are shaped: what was chosen, and else what was
    // known, and else what the characters have.
    fn shape(&self, face: &Face, known: Segment, text: &mut Inner) -> Result<Segment, Error> {
        let segment = self.segment.or(known).or_guess(text.glyphs());
        let entry = self.plan(face, segment)?;
        let font = ShapedFace {
            asked: self.font,
            own: face.parsed().font(segment.script),
        };
        let shaped = entry
            .plan
            .shape_buffer_with(face.parsed(), &font, &self.replacements, text);
        if let Some(cache) = self.cache {
            cache.put(entry);
        }
        shaped.map_err(of_call)?;
        Ok(segment)
    }
}

/// `sengadlit_shape_utf8` and its siblings.
pub fn shape_text<U: Unit>(
    face: &Face,
    text: &[U],
    chosen: &Chosen<'_>,
    buffer: &mut Buffer,
) -> Result<(), Error> {
    buffer.replace(text, |text| chosen.shape(face, Segment::UNKNOWN, text))
}

/// `sengadlit_shape_buffer`.
pub fn shape_buffer(face: &Face, chosen: &Chosen<'_>, buffer: &mut Buffer) -> Result<(), Error> {
    buffer.shape_characters(|known, text| chosen.shape(face, known, text))
}

/// `sengadlit_reshape_utf8` and its siblings.
pub fn reshape_text<U: Unit>(
    face: &Face,
    text: &[U],
    edit: TextEdit,
    chosen: &Chosen<'_>,
    buffer: &mut Buffer,
) -> Result<Range<usize>, Error> {
    if edit.start > edit.old_end || edit.start > edit.new_end || edit.new_end > text.len() {
        return Err(Error::argument(Argument::Range));
    }
    buffer.reshape(text, edit, |known, text| chosen.shape(face, known, text))
}

/// A face, with those functions of C's that there are in the place of its own.
struct ShapedFace<'a> {
    asked: Asked<FontFuncs>,
    own: OpenTypeFont<'a>,
}

impl AnswersFont for ShapedFace<'_> {
    fn nominal_glyph(&self, c: u32) -> Option<GlyphId> {
        if self.asked.has(FONT_NOMINAL) {
            self.asked.nominal_glyph(c)
        } else {
            self.own.nominal_glyph(c)
        }
    }

    fn glyph_h_advance(&self, glyph: GlyphId) -> i32 {
        if self.asked.has(FONT_ADVANCE) {
            self.asked.glyph_h_advance(glyph)
        } else {
            self.own.glyph_h_advance(glyph)
        }
    }

    fn would_apply(&self, lookup: u16, glyphs: &[GlyphId], zero_context: bool) -> bool {
        self.own.would_apply(lookup, glyphs, zero_context)
    }

    fn has_feature(&self, tag: Tag) -> bool {
        self.own.has_feature(tag)
    }
}

impl NormalizeFont for ShapedFace<'_> {
    fn variation_glyph(&self, c: u32, selector: u32) -> Option<GlyphId> {
        self.own.variation_glyph(c, selector)
    }
}

impl MetricsFont for ShapedFace<'_> {
    fn units_per_em(&self) -> u16 {
        self.own.units_per_em()
    }

    fn glyph_v_advance(&self, glyph: GlyphId) -> i32 {
        self.own.glyph_v_advance(glyph)
    }

    // (in the middle of the width that is used)
    fn glyph_v_origin(&self, glyph: GlyphId) -> (i32, i32) {
        let (x, y) = self.own.glyph_v_origin(glyph);
        if self.asked.has(FONT_ADVANCE) {
            (self.asked.glyph_h_advance(glyph) / 2, y)
        } else {
            (x, y)
        }
    }
}

#[cfg(test)]
mod tests {
    use super::*;
    use crate::border::faces::ShapeOptions;

    type Choices = (Rounds, BreakFlags, BaseSearch, ZeroContext);

    fn chosen(options: &ShapeOptions<'_>) -> Choices {
        let chosen = Chosen::of(options, None, &[]).ok().unwrap();
        (
            chosen.rounds,
            chosen.break_flags,
            chosen.base_search,
            chosen.zero_context,
        )
    }

    #[test]
    fn each_choice_of_the_options_is_the_plans() {
        use BaseSearch::{AllConsonants, WithoutMedials};
        use ZeroContext::{NewSpec, OldSpec};
        let none = ShapeOptions::NONE;
        let (code, rounds) = (BreakFlags::AsCode, Rounds::AsCode);
        assert_eq!(chosen(&none), (rounds, code, AllConsonants, NewSpec));
        let always = ShapeOptions {
            normalizes_always: 1,
            ..none
        };
        let wanted = (Rounds::Always, code, AllConsonants, NewSpec);
        assert_eq!(chosen(&always), wanted);
        let sound = ShapeOptions {
            sound_breaks: 1,
            ..none
        };
        let wanted = (rounds, BreakFlags::Sound, AllConsonants, NewSpec);
        assert_eq!(chosen(&sound), wanted);
        let skips = ShapeOptions {
            skips_medials: 1,
            ..none
        };
        assert_eq!(chosen(&skips), (rounds, code, WithoutMedials, NewSpec));
        let older = ShapeOptions {
            old_spec_zero_context: 1,
            ..none
        };
        assert_eq!(chosen(&older), (rounds, code, AllConsonants, OldSpec));
    }
}
