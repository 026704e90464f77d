//! Texts are shaped.

use super::steps::{ShapeStep, Told};
use super::{Face, Feature, GlyphBuffer, PlanCache, Replacements, ShapePlan, UnicodeBuffer};
use crate::buffer::{Buffer, Direction, Script, ShaperError};
use crate::shaper::checked::CallError;
use core::fmt;

/// A text that could not be shaped, and why.
#[derive(Debug)]
pub struct ShapeError {
    /// Why: memory was refused, or the text grew beyond 256 times its length.
    pub error: CallError,
    /// The text, as it was.
    pub text: UnicodeBuffer,
}

impl fmt::Display for ShapeError {
    fn fmt(&self, f: &mut fmt::Formatter<'_>) -> fmt::Result {
        self.error.fmt(f)
    }
}

impl core::error::Error for ShapeError {
    fn source(&self) -> Option<&(dyn core::error::Error + 'static)> {
        Some(&self.error)
    }
}

/// Shapes a text with a face and the features that the user requests. Script and direction that
/// aren't set are guessed.
///
/// Where memory is refused, or the text grows beyond 256 times its length, the result is empty and
/// `is_complete` returns false: see [`try_shape`].
pub fn shape(face: &Face<'_>, features: &[Feature], text: UnicodeBuffer) -> GlyphBuffer {
    complete_or_empty(try_shape(face, features, text))
}

/// Shapes a text, as [`shape`](shape()) does.
///
/// # Errors
///
/// Memory is refused, or the text grows beyond 256 times its length; the error has the text.
pub fn try_shape(
    face: &Face<'_>,
    features: &[Feature],
    text: UnicodeBuffer,
) -> Result<GlyphBuffer, ShapeError> {
    let (direction, script) = segment_of(&text);
    let builder = ShapePlan::builder()
        .direction(direction)
        .script(script)
        .language(text.language());
    // (matched as it lies, so that the plan isn't moved)
    match &builder.features(features).build(face) {
        Ok(plan) => try_shape_with_plan(face, plan, text),
        Err(refusal) => Err(ShapeError {
            error: (*refusal).into(),
            text,
        }),
    }
}

/// Direction and script of a text: its own, and where it has none, those that are guessed.
fn segment_of(text: &UnicodeBuffer) -> (Direction, Option<Script>) {
    let script = text.script().or_else(|| text.guessed_script());
    let direction = match text.direction() {
        Direction::Invalid => script.map_or(Direction::LeftToRight, Script::direction),
        known => known,
    };
    (direction, script)
}

/// Shapes a text with a plan that was made for its script and direction, and for this face.
///
/// Where memory is refused, or the text grows beyond 256 times its length, the result is empty and
/// `is_complete` returns false: see [`try_shape_with_plan`].
pub fn shape_with_plan(face: &Face<'_>, plan: &ShapePlan, text: UnicodeBuffer) -> GlyphBuffer {
    complete_or_empty(try_shape_with_plan(face, plan, text))
}

/// Shapes a text with a plan, as [`shape_with_plan`] does.
///
/// # Errors
///
/// Memory is refused, or the text grows beyond 256 times its length; the error has the text.
pub fn try_shape_with_plan(
    face: &Face<'_>,
    plan: &ShapePlan,
    text: UnicodeBuffer,
) -> Result<GlyphBuffer, ShapeError> {
    shape_and_tell(face, plan, text, None)
}

/// Shapes a text with the plan that a cache has for its script, direction and features. Script and
/// direction that aren't set are guessed.
///
/// Where memory is refused, or the text grows beyond 256 times its length, the result is empty and
/// `is_complete` returns false: see [`try_shape_with_cache`].
pub fn shape_with_cache(
    face: &Face<'_>,
    cache: &mut PlanCache,
    features: &[Feature],
    text: UnicodeBuffer,
) -> GlyphBuffer {
    complete_or_empty(try_shape_with_cache(face, cache, features, text))
}

/// Shapes a text with a plan of a cache, as [`shape_with_cache`] does.
///
/// # Errors
///
/// Memory is refused, or the text grows beyond 256 times its length; the error has the text.
pub fn try_shape_with_cache(
    face: &Face<'_>,
    cache: &mut PlanCache,
    features: &[Feature],
    text: UnicodeBuffer,
) -> Result<GlyphBuffer, ShapeError> {
    let (direction, script) = segment_of(&text);
    match cache.plan_and_room(face, direction, script, text.language(), features) {
        Ok((plan, room)) => shape_in_room(face, plan, text, room),
        Err(refusal) => Err(ShapeError {
            error: refusal.into(),
            text,
        }),
    }
}

/// Shapes a text with a plan, and tells each lookup as it is applied, with the glyphs as they are then
/// (`hb-shape --trace`). Positions are told in the order of the characters.
///
/// # Errors
///
/// Memory is refused, or the text grows beyond 256 times its length; the error has the text.
pub fn try_shape_in_steps(
    face: &Face<'_>,
    plan: &ShapePlan,
    text: UnicodeBuffer,
    told: &dyn Fn(ShapeStep, &Buffer),
) -> Result<GlyphBuffer, ShapeError> {
    shape_and_tell(face, plan, text, Some(told))
}

fn shape_and_tell(
    face: &Face<'_>,
    plan: &ShapePlan,
    mut text: UnicodeBuffer,
    told: Told<'_>,
) -> Result<GlyphBuffer, ShapeError> {
    let lent = text
        .parts_mut()
        .in_buffer(|buffer, replacements| shape_lent(face, plan, replacements, told, buffer));
    given_back(text, lent)
}

/// Shapes a text in a buffer whose room is used again.
fn shape_in_room(
    face: &Face<'_>,
    plan: &ShapePlan,
    mut text: UnicodeBuffer,
    room: &mut Buffer,
) -> Result<GlyphBuffer, ShapeError> {
    let lent = text.parts_mut().in_room(room, |buffer, replacements| {
        shape_lent(face, plan, replacements, None, buffer)
    });
    given_back(text, lent)
}

/// Shapes a text in the buffer to which it is lent. Where that fails the text stays as it is.
// (called by each way, so that all of shaping is compiled once)
#[inline(never)]
fn shape_lent(
    face: &Face<'_>,
    plan: &ShapePlan,
    replacements: &Replacements,
    told: Told<'_>,
    buffer: &mut Buffer,
) -> Result<(), CallError> {
    let font = face.for_tags(plan.tags);
    let (direction, script) = (buffer.direction(), buffer.script());
    buffer.set_direction(plan.direction());
    buffer.set_script(plan.script());
    let shaped = plan.shape_and_tell(face, &font, &font, replacements, told, buffer);
    if shaped.is_err() {
        buffer.set_direction(direction);
        buffer.set_script(script);
    }
    shaped
}

/// What became of a text that was lent.
#[inline]
fn given_back(
    text: UnicodeBuffer,
    lent: Result<Result<(), CallError>, ShaperError>,
) -> Result<GlyphBuffer, ShapeError> {
    match lent.map_err(CallError::from).and_then(|shaped| shaped) {
        Ok(()) => Ok(GlyphBuffer::new(text, true)),
        Err(error) => Err(ShapeError { error, text }),
    }
}

/// What was shaped, or nothing.
#[inline]
fn complete_or_empty(shaped: Result<GlyphBuffer, ShapeError>) -> GlyphBuffer {
    shaped.unwrap_or_else(emptied)
}

/// Nothing of a text that couldn't be shaped, in its direction.
#[cold]
fn emptied(refused: ShapeError) -> GlyphBuffer {
    let mut text = refused.text;
    let (direction, _) = segment_of(&text);
    text.clear();
    text.set_direction(direction);
    GlyphBuffer::new(text, false)
}

#[cfg(test)]
mod tests {
    use super::*;

    // Each call takes a text by value and gives it back.
    #[test]
    fn a_text_is_handed_on_as_a_pointer() {
        assert!(size_of::<GlyphBuffer>() <= 4 * size_of::<usize>());
    }

    // What can't be shaped has no glyph, and is told; its direction is what it was.
    #[test]
    fn a_refused_text_is_nothing_in_its_direction() {
        let mut text = UnicodeBuffer::new();
        text.push_str("\u{05D0}\u{05D1}");
        text.set_direction(Direction::RightToLeft);
        let error = CallError::Refused(ShaperError::Memory);
        let glyphs = complete_or_empty(Err(ShapeError { error, text }));
        assert!(glyphs.is_empty() && !glyphs.is_complete());
        assert_eq!(glyphs.direction(), Direction::RightToLeft);
    }
}
