// Generated from crates/shapers_prepare/src/ot_shape_prepare/circle.rt by rust/erase; edit the source.

//! A dotted circle in front of a text that begins with a mark.

use super::properties::{Awaited, set_properties};
use super::unicode::UnicodeProperties;
use crate::generated::shapers_base::buffer::{Buffer, BufferFlags, GlyphInfo, ShaperError};
use crate::generated::shapers_base::font::Font;

/// The flag of a buffer whose text is the beginning of one, as a paragraph's. No other crate reads
/// it.
pub const BEGINNING_OF_TEXT: BufferFlags = BufferFlags(0x02);

// The character of the dotted circle.
const DOTTED_CIRCLE: u32 = 0x25CC;

/// Puts a dotted circle in front of a text that begins with a mark, where the flags say that it is
/// the beginning of one, nothing stands before it, the caller allows circles and the font has one.
/// The circle takes the cluster and the features of the mark. Where no circle comes it takes no
/// memory.
///
/// # Errors
///
/// [`TooLong`] where the buffer would be longer than [`max_len`], [`Memory`] where memory is refused;
/// nothing has changed then.
///
/// # Panics
///
/// Where the font does.
///
/// <details><summary>Contract</summary>
///
/// # Contract
///
/// ```text
/// requires { buffer.old.positions ≡ [] }
/// ensures ok { let p = U.properties unicode.now in
///     let text = with_first_circle p (F.font font.now) buffer.old in
///     OnOk result (buffer.new ≡ record buffer.old { glyphs = text }) }
/// ensures length { let p = U.properties unicode.now in
///     let text = with_first_circle p (F.font font.now) buffer.old in
///     RefusesLength buffer.old.max_len (length text) result }
/// ensures err { OnErr result (buffer.new ≡ buffer.old) }
/// ensures without_memory { let p = U.properties unicode.now in
///     with_first_circle p (F.font font.now) buffer.old ≡ buffer.old.glyphs → IsOk result }
/// ```
///
/// - `RefusesLength`: `crates/shapers_buffer/specs/Refusals.antt`
/// - `with_first_circle`: `crates/shapers_prepare/specs/FirstCircle.antt`
///
/// </details>
///
/// [`Memory`]: crate::ShaperError::Memory
/// [`TooLong`]: crate::ShaperError::TooLong
/// [`max_len`]: crate::Buffer::max_len
pub fn insert_dotted_circle<U: UnicodeProperties, F: Font>(
    unicode: &U,
    font: &F,
    buffer: &mut Buffer,
) -> Result<(), ShaperError> {
    if !wants_first_circle(buffer) || !font.has_glyph(DOTTED_CIRCLE) {
        return Ok(());
    }
    let circle = first_circle(unicode, buffer.get(0));
    buffer.grow(1)?;
    buffer.with_glyphs_mut(|glyphs| put_in_front(circle, glyphs));
    Ok(())
}

// Whether a text wants a circle in front.
#[inline]
fn wants_first_circle(buffer: &Buffer) -> bool {
    let flags = buffer.flags();
    flags.contains(BEGINNING_OF_TEXT)
        && !flags.contains(BufferFlags::DO_NOT_INSERT_DOTTED_CIRCLE)
        && buffer.pre_context().is_empty()
        && begins_with_mark(buffer.glyphs())
}

// Whether the first of these glyphs is a mark.
#[inline]
fn begins_with_mark(glyphs: &[GlyphInfo]) -> bool {
    !glyphs.is_empty() && glyphs[0].unicode_props.general_category().is_mark()
}

// The circle before a glyph.
#[inline]
fn first_circle<U: UnicodeProperties>(unicode: &U, glyph: GlyphInfo) -> GlyphInfo {
    let mut circle = GlyphInfo {
        glyph_id: DOTTED_CIRCLE,
        cluster: glyph.cluster,
        mask: glyph.mask,
        ..GlyphInfo::DEFAULT
    };
    set_properties(unicode, Awaited::Nothing, &mut circle);
    circle
}

// Moves all glyphs but the last up by one place and puts one in front.
#[inline]
fn put_in_front(glyph: GlyphInfo, glyphs: &mut [GlyphInfo]) {
    let end = glyphs.len() - 1;
    glyphs.copy_within(0..end, 1);
    glyphs[0] = glyph;
}
