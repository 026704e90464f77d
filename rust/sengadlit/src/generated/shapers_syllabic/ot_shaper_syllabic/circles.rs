// Generated from crates/shapers_syllabic/src/ot_shaper_syllabic/circles.rt by rust/erase; edit the source.

//! Dotted circles: the base of a broken syllable.

use crate::generated::shapers_base::buffer::{
    Buffer, BufferFlags, GlyphInfo, ShaperError, first_syllable_len,
};
use crate::generated::shapers_base::font::Font;

// The character of the dotted circle.
const DOTTED_CIRCLE: u32 = 0x25CC;

/// The dotted circles of a shaper: in syllables of the broken kind, with a category and a position,
/// behind the leading glyphs of the repha category where there is one.
#[derive(Clone, Copy, Debug, PartialEq, Eq, Hash)]
pub struct ScriptCircles {
    /// The kind of the syllables that get one.
    pub broken_kind: u8,
    /// The category of the circle.
    pub category: u8,
    /// The category of glyphs that stay in front of it.
    pub repha: Option<u8>,
    /// The circle's position, in its auxiliary byte, or none for 0.
    pub position: Option<u8>,
}

/// What circles look like, and where they stand.
#[derive(Clone, Copy, Debug)]
pub struct DottedCircles {
    /// The kind of the syllables that get one.
    pub broken_kind: u8,
    /// The circle, but for cluster, mask and syllable.
    pub circle: GlyphInfo,
    /// The category of glyphs that stay in front of it.
    pub repha: Option<u8>,
}

// Where a syllable stands: its first place, and the one behind it.
#[derive(Clone, Copy)]
struct Places {
    start: usize,
    end: usize,
}

/// Gives each broken syllable a dotted circle, behind its leading glyphs of the repha category
/// where one is given, else in front. Returns false, with nothing changed, where no syllable is
/// broken, the caller forbids circles or the font has none. Without its circles the text is what it
/// was. Refuses with [`TooLong`] where the text would be longer than [`max_len`], and with [`Memory`];
/// where no circle is put in it takes none.
///
/// # Errors
///
/// [`TooLong`] where the buffer would be longer than [`max_len`], [`Memory`] where memory is refused;
/// nothing has changed then.
///
/// # Panics
///
/// Where the font does. May panic, or leave an unspecified text, where the buffer has positions.
///
/// <details><summary>Contract</summary>
///
/// # Contract
///
/// ```text
/// requires { buffer.old.positions ≡ [] }
/// ensures answer { let circles = circles_for ((F.font face.now).nominal dotted_circle)
///     broken_syllable_type dottedcircle_category
///     repha_category dottedcircle_position buffer.old in
///     IfOk result (λ answer. answer ≡ is_some circles) }
/// ensures ok { let circles = circles_for ((F.font face.now).nominal dotted_circle)
///     broken_syllable_type dottedcircle_category
///     repha_category dottedcircle_position buffer.old in
///     OnOk result (buffer.new ≡
///     record buffer.old { glyphs = circled circles buffer.old.glyphs }) }
/// ensures erased { let circles = circles_for ((F.font face.now).nominal dotted_circle)
///     broken_syllable_type dottedcircle_category
///     repha_category dottedcircle_position buffer.old in
///     OnOk result (CirclesErased circles buffer.old.glyphs buffer.new.glyphs) }
/// ensures length { let circles = circles_for ((F.font face.now).nominal dotted_circle)
///     broken_syllable_type dottedcircle_category
///     repha_category dottedcircle_position buffer.old in
///     RefusesLength buffer.old.max_len (length (circled circles buffer.old.glyphs)) result }
/// ensures err { OnErr result (buffer.new ≡ buffer.old) }
/// ensures without_memory { let circles = circles_for ((F.font face.now).nominal dotted_circle)
///     broken_syllable_type dottedcircle_category
///     repha_category dottedcircle_position buffer.old in
///     circled circles buffer.old.glyphs ≡ buffer.old.glyphs → IsOk result }
/// ```
///
/// - `dotted_circle`: `crates/shapers_base/specs/Font.antt`
/// - `RefusesLength`: `crates/shapers_buffer/specs/Refusals.antt`
/// - `CirclesErased`: `crates/shapers_syllabic/specs/CircleLaws.antt`
/// - `circled`, `circles_for`: `crates/shapers_syllabic/specs/Circles.antt`
///
/// </details>
///
/// [`Memory`]: crate::ShaperError::Memory
/// [`TooLong`]: crate::ShaperError::TooLong
/// [`max_len`]: crate::Buffer::max_len
pub fn insert_dotted_circles<F: Font>(
    face: &F,
    buffer: &mut Buffer,
    broken_syllable_type: u8,
    dottedcircle_category: u8,
    repha_category: Option<u8>,
    dottedcircle_position: Option<u8>,
) -> Result<bool, ShaperError> {
    let script = ScriptCircles {
        broken_kind: broken_syllable_type,
        category: dottedcircle_category,
        repha: repha_category,
        position: dottedcircle_position,
    };
    script.insert(face, buffer)
}

impl ScriptCircles {
    /// Gives each broken syllable its dotted circle. Returns false, with nothing changed, where no
    /// syllable is broken, the caller forbids circles or the font has none. Refuses with [`TooLong`]
    /// where the text would be longer than [`max_len`], and with [`Memory`], but not where no circle
    /// opens; a refusal changes nothing.
    ///
    /// <details><summary>Contract</summary>
    ///
    /// # Contract
    ///
    /// ```text
    /// requires { buffer.old.positions ≡ [] }
    /// ensures answer { let circles = script_circles self.now (F.font face.now) buffer.old in
    ///     IfOk result (λ answer. answer ≡ is_some circles) }
    /// ensures ok { let circles = script_circles self.now (F.font face.now) buffer.old in
    ///     OnOk result (buffer.new ≡
    ///     record buffer.old { glyphs = circled circles buffer.old.glyphs }) }
    /// ensures erased { let circles = script_circles self.now (F.font face.now) buffer.old in
    ///     OnOk result (CirclesErased circles buffer.old.glyphs buffer.new.glyphs) }
    /// ensures length { let circles = script_circles self.now (F.font face.now) buffer.old in
    ///     RefusesLength buffer.old.max_len (length (circled circles buffer.old.glyphs)) result }
    /// ensures err { OnErr result (buffer.new ≡ buffer.old) }
    /// ensures without_memory { let circles =
    ///     script_circles self.now (F.font face.now) buffer.old in
    ///     circled circles buffer.old.glyphs ≡ buffer.old.glyphs → IsOk result }
    /// ```
    ///
    /// - `RefusesLength`: `crates/shapers_buffer/specs/Refusals.antt`
    /// - `CirclesErased`: `crates/shapers_syllabic/specs/CircleLaws.antt`
    /// - `circled`: `crates/shapers_syllabic/specs/Circles.antt`
    /// - `script_circles`: `crates/shapers_syllabic/specs/Reordering.antt`
    ///
    /// </details>
    ///
    /// [`Memory`]: crate::ShaperError::Memory
    /// [`TooLong`]: crate::ShaperError::TooLong
    /// [`max_len`]: crate::Buffer::max_len
    pub fn insert<F: Font>(&self, face: &F, buffer: &mut Buffer) -> Result<bool, ShaperError> {
        match self.circles_for(face, buffer) {
            None => Ok(false),
            Some(circles) => {
                circles.insert(buffer)?;
                Ok(true)
            }
        }
    }

    // The circles that a buffer gets.
    fn circles_for<F: Font>(&self, face: &F, buffer: &Buffer) -> Option<DottedCircles> {
        let forbidden = buffer
            .flags()
            .contains(BufferFlags::DO_NOT_INSERT_DOTTED_CIRCLE);
        if forbidden || !buffer.has_broken_syllable() {
            return None;
        }
        match face.nominal_glyph(DOTTED_CIRCLE) {
            None => None,
            Some(glyph) => {
                let circle = GlyphInfo {
                    glyph_id: u32::from(glyph.0),
                    category: self.category,
                    auxiliary: self.position.unwrap_or(0),
                    ..GlyphInfo::DEFAULT
                };
                Some(DottedCircles {
                    broken_kind: self.broken_kind,
                    circle,
                    repha: self.repha,
                })
            }
        }
    }
}

impl DottedCircles {
    // Puts the circles into the text.
    #[inline]
    fn insert(&self, buffer: &mut Buffer) -> Result<(), ShaperError> {
        let len = buffer.len();
        let count = self.count(buffer.glyphs());
        if count == 0 {
            return Ok(());
        }
        buffer.grow(count)?;
        buffer.with_glyphs_mut(|glyphs| self.insert_all(glyphs, len));
        Ok(())
    }

    // How many circles the text gets.
    #[inline]
    fn count(&self, text: &[GlyphInfo]) -> usize {
        let mut count = 0;
        let mut rest = text;
        while let Some(broken) = self.first_broken(rest) {
            count += 1;
            rest = &rest[broken.end..];
        }
        count
    }

    // Puts a circle into each broken syllable of the text, of `len` glyphs, behind which stands
    // room for as many circles. The text is written from behind, so that nothing is written over
    // before it is read.
    #[inline]
    fn insert_all(&self, glyphs: &mut [GlyphInfo], len: usize) {
        let mut read = len;
        let mut left = glyphs.len() - len;
        while left > 0 {
            read = self.insert_last(glyphs, read, left);
            left -= 1;
        }
    }

    // Puts a circle into the last broken syllable of the first `read` glyphs, which move up, from
    // it on, by as many places as they have broken syllables. Returns where it starts.
    #[inline]
    fn insert_last(&self, glyphs: &mut [GlyphInfo], read: usize, left: usize) -> usize {
        let broken = self.last_broken(&glyphs[..read]);
        move_up(glyphs, broken.end, read, left);
        self.insert_circle(glyphs, broken, left);
        broken.start
    }

    // Where the last broken syllable of a text stands.
    #[inline]
    fn last_broken(&self, text: &[GlyphInfo]) -> Places {
        let end = text.len() - unbroken_end(text, self.broken_kind);
        let byte = text[end - 1].syllable;
        let start = end - syllable_end(&text[..end], byte);
        Places { start, end }
    }

    // Moves a syllable up by `left` places, and puts its circle into it, which takes one of them.
    #[inline]
    fn insert_circle(&self, glyphs: &mut [GlyphInfo], broken: Places, left: usize) {
        let syllable = &glyphs[broken.start..broken.end];
        let circle = circle_in(syllable, self.circle);
        let place = broken.start + self.rephas_len(syllable);
        move_up(glyphs, place, broken.end, left);
        glyphs[place + left - 1] = circle;
        move_up(glyphs, broken.start, place, left - 1);
    }

    // Where the first broken syllable of a text stands.
    #[inline]
    fn first_broken(&self, text: &[GlyphInfo]) -> Option<Places> {
        let start = unbroken_len(text, self.broken_kind);
        if start == text.len() {
            return None;
        }
        let end = start + first_syllable_len(&text[start..]);
        Some(Places { start, end })
    }

    // How many glyphs of a syllable stand in front of its circle.
    #[inline]
    fn rephas_len(&self, syllable: &[GlyphInfo]) -> usize {
        match self.repha {
            None => 0,
            Some(repha) => category_len(syllable, repha),
        }
    }
}

// Copies the glyphs from `from` to `to` to as many places `by` further up.
#[inline]
fn move_up(glyphs: &mut [GlyphInfo], from: usize, to: usize, by: usize) {
    glyphs.copy_within(from..to, from + by);
}

// How many glyphs at the end are in a syllable of another kind.
#[inline]
fn unbroken_end(glyphs: &[GlyphInfo], kind: u8) -> usize {
    for i in (0..glyphs.len()).rev() {
        if glyphs[i].syllable % 16 == kind {
            return glyphs.len() - 1 - i;
        }
    }
    glyphs.len()
}

// How many glyphs at the end have this byte of a syllable.
#[inline]
fn syllable_end(glyphs: &[GlyphInfo], byte: u8) -> usize {
    glyphs
        .iter()
        .rev()
        .take_while(|glyph| glyph.syllable == byte)
        .count()
}

// How many glyphs at the front have this category.
#[inline]
fn category_len(glyphs: &[GlyphInfo], category: u8) -> usize {
    glyphs
        .iter()
        .take_while(|glyph| glyph.category == category)
        .count()
}

// How many glyphs at the front are in a syllable of another kind.
#[inline]
fn unbroken_len(glyphs: &[GlyphInfo], kind: u8) -> usize {
    for (i, glyph) in glyphs.iter().enumerate() {
        if glyph.syllable % 16 == kind {
            return i;
        }
    }
    glyphs.len()
}

// The circle of a syllable, which takes cluster, mask and syllable byte from the first glyph.
#[inline]
fn circle_in(syllable: &[GlyphInfo], circle: GlyphInfo) -> GlyphInfo {
    let first = syllable[0];
    GlyphInfo {
        cluster: first.cluster,
        mask: first.mask,
        syllable: first.syllable,
        ..circle
    }
}
