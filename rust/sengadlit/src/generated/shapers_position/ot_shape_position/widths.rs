// Generated from crates/shapers_position/src/ot_shape_position/widths.rt by rust/erase; edit the source.

//! Glyphs that don't move the pen.

use super::ignorables::{DefaultIgnorables, has_ignorable, is_default_ignorable};
use super::metrics::is_horizontal;
use super::positions::{PositionChange, change_positions};
use crate::generated::shapers_base::buffer::{Buffer, GlyphInfo, GlyphPosition};

/// The classes of glyphs by a font's GDEF, as far as positions read them.
pub trait GlyphClasses {
    /// Whether a glyph is a mark.
    ///
    /// <details><summary>Contract</summary>
    ///
    /// # Contract
    ///
    /// ```text
    /// ensures { result ≡ marks self.now glyph.now }
    /// ```
    ///
    /// </details>
    fn is_mark(&self, glyph: &GlyphInfo) -> bool;
}

/// Takes marks their advance, so that they don't move the pen. With `adjust_offsets` they move back
/// by it first, and hang over the glyph before them: for a text that goes forward in a font without
/// GPOS. Offsets that pass 32 bits stop at their bound. A buffer without positions keeps none.
/// (HarfBuzz's `zero_mark_widths_by_gdef`.)
///
/// <details><summary>Contract</summary>
///
/// # Contract
///
/// ```text
/// ensures { let is_mark = C.marks classes.now in
///     let zeroed =
///     marks_zeroed is_mark adjust_offsets buffer.old.glyphs buffer.old.positions in
///     buffer.new ≡ record buffer.old { positions = zeroed } }
/// ```
///
/// - `marks_zeroed`: `crates/shapers_position/specs/Widths.antt`
///
/// </details>
pub fn zero_mark_widths<C: GlyphClasses>(classes: &C, adjust_offsets: bool, buffer: &mut Buffer) {
    if !has_mark(classes, buffer.glyphs()) {
        return;
    }
    let change = ZeroMarks {
        classes,
        adjust_offsets,
    };
    change_positions(&change, buffer);
}

// Whether one of these glyphs is a mark.
#[inline]
fn has_mark<C: GlyphClasses>(classes: &C, glyphs: &[GlyphInfo]) -> bool {
    glyphs.iter().any(|glyph| classes.is_mark(glyph))
}

// Takes a mark its advance.
struct ZeroMarks<'a, C: GlyphClasses> {
    classes: &'a C,
    adjust_offsets: bool,
}

impl<'a, C: GlyphClasses> PositionChange for ZeroMarks<'a, C> {
    #[inline]
    fn change(&self, glyph: &GlyphInfo, position: &mut GlyphPosition) {
        if self.classes.is_mark(glyph) {
            if self.adjust_offsets {
                hang_back(position);
            }
            zero_advance(position);
        }
    }
}

// Moves a glyph back by its advance.
#[inline]
fn hang_back(position: &mut GlyphPosition) {
    position.x_offset = position.x_offset.saturating_sub(position.x_advance);
    position.y_offset = position.y_offset.saturating_sub(position.y_advance);
}

#[inline]
fn zero_advance(position: &mut GlyphPosition) {
    position.x_advance = 0;
    position.y_advance = 0;
}

/// Takes glyphs that are to be hidden their advance, and their offset along the line. A buffer
/// without positions keeps none. (HarfBuzz's `hb_ot_zero_width_default_ignorables`.)
///
/// <details><summary>Contract</summary>
///
/// # Contract
///
/// ```text
/// ensures { let zeroed = ignorables_zeroed
///     ignorables buffer.old.direction buffer.old.glyphs buffer.old.positions in
///     buffer.new ≡ record buffer.old { positions = zeroed } }
/// ```
///
/// - `ignorables_zeroed`: `crates/shapers_position/specs/Ignorables.antt`
///
/// </details>
pub fn zero_width_default_ignorables(ignorables: DefaultIgnorables, buffer: &mut Buffer) {
    match ignorables {
        DefaultIgnorables::Hide if has_ignorable(buffer.glyphs()) => {
            let is_horizontal = is_horizontal(buffer.direction());
            change_positions(&ZeroIgnorables { is_horizontal }, buffer);
        }
        DefaultIgnorables::Hide | DefaultIgnorables::Preserve | DefaultIgnorables::Remove => {}
    }
}

// Takes an ignorable glyph its extent.
struct ZeroIgnorables {
    is_horizontal: bool,
}

impl PositionChange for ZeroIgnorables {
    #[inline]
    fn change(&self, glyph: &GlyphInfo, position: &mut GlyphPosition) {
        if is_default_ignorable(glyph) {
            zero_extent(self.is_horizontal, position);
        }
    }
}

// Takes a glyph its advance, and its offset along the line.
#[inline]
fn zero_extent(is_horizontal: bool, position: &mut GlyphPosition) {
    zero_advance(position);
    if is_horizontal {
        position.x_offset = 0;
    } else {
        position.y_offset = 0;
    }
}
