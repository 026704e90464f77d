//! Texts are shaped again after an edit.

use super::unicode_buffer::TextParts;
use super::{Face, GlyphBuffer, ShapePlan};
use crate::alloc::Global;
use crate::buffer::{Buffer, BufferClusterLevel, BufferSettings, CONTEXT_LENGTH};
use crate::editing::{ShapedRun, Stretch, TextEdit, reshape};
use crate::shaper::checked::CallError;
use crate::text::nearest;
use core::ops::Range;

impl GlyphBuffer {
    /// Shapes again what an edit of the text changes, and returns which bytes of the text these are. The
    /// glyphs are then those of the text as it is now, which is given; before the call they are those of
    /// the text before the edit, shaped with this face and plan, and their clusters are offsets in it.
    ///
    /// The stretch is that of [`reshape`], widened until its ends come out as they were. It is the whole
    /// text where nothing has been shaped, at the level [`BufferClusterLevel::Characters`], and where the
    /// plan has features for ranges of the text, which an edit moves. Make the plan with
    /// [`Rounds::Always`]; [`reshape`] says why, and what else is known.
    ///
    /// ```
    /// use sengadlit::editing::TextEdit;
    /// use sengadlit::ot_shape_normalize::Rounds;
    /// use sengadlit::{Face, ShapePlan, UnicodeBuffer, script, shape_with_plan};
    ///
    /// # let data = std::fs::read("../../fonts/sample.ttf")?;
    /// let face = Face::parse(&data, 0)?;
    /// let plan = ShapePlan::builder().script(script::LATIN).rounds(Rounds::Always).build(&face)?;
    /// let mut text = String::from("the first line of a text");
    /// let mut buffer = UnicodeBuffer::new();
    /// buffer.push_str(&text);
    /// let mut glyphs = shape_with_plan(&face, &plan, buffer);
    ///
    /// text.replace_range(4..9, "fifth");
    /// let edit = TextEdit { start: 4, old_end: 9, new_end: 9 };
    /// let again = glyphs.reshape(&face, &plan, &text, edit)?;
    /// assert_eq!(&text[again], "the fifth line");
    /// # Ok::<(), Box<dyn std::error::Error>>(())
    /// ```
    ///
    /// # Errors
    ///
    /// Memory is refused, or the stretch grows beyond 256 times its length. The glyphs are then still
    /// those of the old text.
    ///
    /// # Panics
    ///
    /// If the offsets are out of order, behind the text or within a character. If the glyphs aren't those of
    /// the text before the edit, the call may panic, and what it leaves is unspecified.
    ///
    /// [`Rounds::Always`]: crate::ot_shape_normalize::Rounds::Always
    pub fn reshape(
        &mut self,
        face: &Face<'_>,
        plan: &ShapePlan,
        text: &str,
        edit: TextEdit,
    ) -> Result<Range<usize>, CallError> {
        let is_in_order = self.text.cluster_level() != BufferClusterLevel::Characters;
        let is_uniform = plan.plan.ranges().is_empty();
        let mut stretch = if self.is_complete && is_in_order && is_uniform {
            reshape(text, edit, self.run())
        } else {
            Stretch {
                text: 0..text.len(),
                glyphs: 0..self.len(),
            }
        };
        loop {
            let piece = self.shape_stretch(face, plan, text, &stretch.text)?;
            let widened = if stretch.text == (0..text.len()) {
                None
            } else {
                let run = ShapedRun {
                    glyphs: piece.glyphs(),
                    positions: piece.positions(),
                    direction: piece.direction(),
                };
                stretch.widened(text, edit, self.run(), run)
            };
            let Some(widened) = widened else {
                let parts = self.text.parts_mut();
                parts.in_buffer(|buffer, _| buffer.splice(&stretch, edit, &piece))??;
                self.record_lookups(&piece, stretch.text == (0..text.len()));
                self.is_complete = true;
                return Ok(stretch.text);
            };
            stretch = widened;
        }
    }

    // Keeps the record of the piece's lookups; what was left undone around the piece still is.
    fn record_lookups(&mut self, piece: &Buffer, is_whole: bool) {
        let mut record = piece.lookup_record();
        record.is_complete &= is_whole || self.lookup_record().is_complete;
        self.text.parts_mut().buffer.set_lookup_record(record);
    }

    // Shapes a stretch of the text, with what stands around it as its context.
    fn shape_stretch(
        &self,
        face: &Face<'_>,
        plan: &ShapePlan,
        text: &str,
        stretch: &Range<usize>,
    ) -> Result<Buffer, CallError> {
        let TextParts {
            buffer: own,
            replacements,
            ..
        } = self.text.parts();
        let mut buffer = Buffer::new(Global, own.max_len());
        buffer.set_settings(&BufferSettings {
            pre_context: &[],
            post_context: &[],
            has_broken_syllable: false,
            has_stch: false,
            ..own.settings()
        });
        let before = text[..stretch.start].chars().rev();
        let before = before.chain(own.pre_context().iter().copied());
        let after = text[stretch.end..].chars();
        let after = after.chain(own.post_context().iter().copied());
        let mut room = ['\0'; CONTEXT_LENGTH];
        buffer.set_pre_context(nearest(before, &mut room));
        buffer.set_post_context(nearest(after, &mut room));
        buffer.push_str(&text[stretch.clone()])?;
        let font = face.for_tags(plan.tags);
        plan.shape_and_tell(face, &font, &font, replacements, None, &mut buffer)?;
        Ok(buffer)
    }
}
