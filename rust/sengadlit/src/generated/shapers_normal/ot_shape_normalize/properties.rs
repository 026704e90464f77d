// Generated from crates/shapers_normal/src/ot_shape_normalize/properties.rt by rust/erase; edit the source.

//! The properties of a character, as its glyph keeps them.

use super::context::NormalizeContext;
use crate::generated::shapers_base::buffer::{GlyphInfo, GlyphProps, UnicodeProps};

/// The combining grapheme joiner, which keeps marks apart.
pub(super) const GRAPHEME_JOINER: u32 = 0x034F;

// Whether lookups see an ignorable character: Mongolian variation selectors and tags choose forms,
// and the grapheme joiner keeps marks apart.
#[inline]
fn is_seen_by_lookups(c: u32) -> bool {
    matches!(c, 0x180B..=0x180D | 0x180F | 0xE0020..=0xE007F | GRAPHEME_JOINER)
}

// Whether a character is ignorable; none of ASCII's is.
#[inline]
fn is_ignorable<C: NormalizeContext>(context: &C, c: u32) -> bool {
    c >= 0x80 && context.is_default_ignorable(c)
}

// What the byte of a mark's class holds of a character that is no mark.
#[inline]
fn joiner_class(c: u32) -> u8 {
    match c {
        0x200D => 1,
        0x200C => 2,
        _ => 0,
    }
}

/// Makes a glyph a character, with its properties and with the number of its glyph in
/// `glyph_props`.
#[inline]
pub(super) fn set_character<C: NormalizeContext>(
    context: &C,
    glyph: &mut GlyphInfo,
    c: u32,
    number: u16,
) {
    let general = context.general_category(c);
    let is_mark = c >= 0x80 && general.is_mark();
    let is_ignorable = is_ignorable(context, c);
    let mut props = UnicodeProps::new(general, class_byte(context, c, is_mark, is_ignorable));
    props.set_ignorable(is_ignorable);
    props.set_continuation(is_mark);
    props.set_hidden(is_ignorable && is_seen_by_lookups(c));
    glyph.glyph_id = c;
    glyph.glyph_props = GlyphProps(number);
    glyph.unicode_props = props;
}

// The class of a mark, or which joiner an ignorable character is.
#[inline]
fn class_byte<C: NormalizeContext>(context: &C, c: u32, is_mark: bool, is_ignorable: bool) -> u8 {
    if is_mark {
        context.modified_combining_class(c)
    } else if is_ignorable {
        joiner_class(c)
    } else {
        0
    }
}
