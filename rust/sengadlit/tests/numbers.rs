//! The numbers of enums, both ways, and the layouts that other languages read.

use sengadlit::buffer::{GlyphProps, LigProps, UnicodeProps, glyph_flag};
use sengadlit::{
    BufferClusterLevel, BufferFlags, Direction, GeneralCategory, GlyphId, GlyphInfo, GlyphPosition,
    JoiningType, Pause, Script, Span, Tag,
};
use std::fmt::Debug;
use std::mem::{align_of, offset_of, size_of};

/// Each of these has its number, and no other number has one.
fn have_numbers<T: Copy + Debug + PartialEq>(
    all: &[T],
    numbers: &[u8],
    number: impl Fn(T) -> u8,
    from_number: impl Fn(u8) -> Option<T>,
) {
    assert_eq!(all.len(), numbers.len());
    for n in 0..=u8::MAX {
        let place = numbers.iter().position(|known| *known == n);
        assert_eq!(from_number(n), place.map(|place| all[place]), "{n}");
    }
    for (value, n) in all.iter().zip(numbers) {
        assert_eq!(number(*value), *n, "{value:?}");
    }
}

/// The numbers from 0 on.
fn in_order(count: u8) -> Vec<u8> {
    (0..count).collect()
}

#[test]
fn categories_have_harfbuzzs_numbers() {
    have_numbers(
        &GeneralCategory::ALL,
        &in_order(30),
        GeneralCategory::number,
        GeneralCategory::from_number,
    );
    assert_eq!(GeneralCategory::Lo.number(), 7);
    assert_eq!(GeneralCategory::Mn.number(), 12);
    assert_eq!(GeneralCategory::Zs.number(), 29);
}

#[test]
fn levels_and_directions_have_harfbuzzs_numbers() {
    have_numbers(
        &BufferClusterLevel::ALL,
        &in_order(3),
        BufferClusterLevel::number,
        BufferClusterLevel::from_number,
    );
    have_numbers(
        &Direction::ALL,
        &[0, 4, 5, 6, 7],
        Direction::number,
        Direction::from_number,
    );
    assert_eq!(Direction::RightToLeft.number(), 5);
}

#[test]
fn joining_types_and_pauses_have_numbers() {
    have_numbers(
        &JoiningType::ALL,
        &[0, 1, 2, 3, 4, 5, 7, 8],
        JoiningType::number,
        JoiningType::from_number,
    );
    have_numbers(
        &Pause::ALL,
        &in_order(15),
        Pause::number,
        Pause::from_number,
    );
}

/// HarfBuzz's `hb_glyph_info_t`: three words; `var1` with `glyph_props`, `lig_props` and `syllable`;
/// `var2` with `unicode_props` and the shaper's two bytes.
#[test]
fn a_glyph_is_laid_out_as_harfbuzzs() {
    let places = [
        offset_of!(GlyphInfo, glyph_id),
        offset_of!(GlyphInfo, mask),
        offset_of!(GlyphInfo, cluster),
        offset_of!(GlyphInfo, glyph_props),
        offset_of!(GlyphInfo, lig_props),
        offset_of!(GlyphInfo, syllable),
        offset_of!(GlyphInfo, unicode_props),
        offset_of!(GlyphInfo, category),
        offset_of!(GlyphInfo, auxiliary),
    ];
    assert_eq!(places, [0, 4, 8, 12, 14, 15, 16, 18, 19]);
    assert_eq!((size_of::<GlyphInfo>(), align_of::<GlyphInfo>()), (20, 4));
    let sizes = [
        size_of::<GlyphProps>(),
        size_of::<LigProps>(),
        size_of::<UnicodeProps>(),
    ];
    assert_eq!(sizes, [2, 1, 2]);
}

/// HarfBuzz's `hb_glyph_position_t`: five words.
#[test]
fn a_position_is_laid_out_as_harfbuzzs() {
    let places = [
        offset_of!(GlyphPosition, x_advance),
        offset_of!(GlyphPosition, y_advance),
        offset_of!(GlyphPosition, x_offset),
        offset_of!(GlyphPosition, y_offset),
        offset_of!(GlyphPosition, var),
    ];
    assert_eq!(places, [0, 4, 8, 12, 16]);
    let layout = (size_of::<GlyphPosition>(), align_of::<GlyphPosition>());
    assert_eq!(layout, (20, 4));
}

/// hb-ot-layout.hh: `hb_ot_layout_glyph_props_flags_t`, `IS_LIG_BASE`, `hb_unicode_props_flags_t`.
#[test]
fn properties_have_harfbuzzs_bits() {
    let by_lookups = [
        GlyphProps::BASE_GLYPH,
        GlyphProps::LIGATURE,
        GlyphProps::MARK,
        GlyphProps::SUBSTITUTED,
        GlyphProps::LIGATED,
        GlyphProps::MULTIPLIED,
    ];
    assert_eq!(by_lookups.map(|bit| bit.0), [2, 4, 8, 0x10, 0x20, 0x40]);
    let of_characters = [
        UnicodeProps::IGNORABLE,
        UnicodeProps::HIDDEN,
        UnicodeProps::CONTINUATION,
    ];
    assert_eq!(of_characters.map(|bit| bit.0), [0x20, 0x40, 0x80]);
}

/// Each number of 16 bits, read as HarfBuzz's `_hb_glyph_info_get_general_category` and
/// `_hb_glyph_info_get_modified_combining_class` do, but for the class of what is no mark: low five
/// bits, and the high byte unless it says which joiner or which space it is.
#[test]
fn properties_are_read_from_their_bits() {
    for bits in 0..=u16::MAX {
        let props = UnicodeProps(bits);
        let number = (bits & 0x1F) as u8;
        let category = GeneralCategory::from_number(number).unwrap_or(GeneralCategory::Cn);
        let high = (bits >> 8) as u8;
        let class = if [1, 29].contains(&number) { 0 } else { high };
        assert_eq!(props.general_category(), category);
        assert_eq!(props.high_byte(), high);
        assert_eq!(props.modified_combining_class(), class);
        assert_eq!(props.is_ignorable(), bits & 0x20 != 0);
        assert_eq!(props.is_hidden(), bits & 0x40 != 0);
        assert_eq!(props.is_continuation(), bits & 0x80 != 0);
    }
}

#[test]
fn small_types_have_the_size_of_their_numbers() {
    assert_eq!(offset_of!(Span, len), 0);
    assert_eq!(offset_of!(Span, kind), size_of::<usize>());
    assert_eq!(size_of::<GeneralCategory>(), 1);
    assert_eq!(size_of::<BufferFlags>(), 4);
    assert_eq!(size_of::<GlyphId>(), 2);
    assert_eq!((size_of::<Tag>(), size_of::<Script>()), (4, 4));
}

#[test]
fn glyph_flags_are_harfbuzzs() {
    let flags = [
        glyph_flag::UNSAFE_TO_BREAK,
        glyph_flag::UNSAFE_TO_CONCAT,
        glyph_flag::SAFE_TO_INSERT_TATWEEL,
    ];
    assert_eq!(flags, [1, 2, 4]);
}

#[test]
fn flags_have_harfbuzzs_numbers_both_ways() {
    for bits in 0..0x200 {
        let flags = BufferFlags::from_harfbuzz(bits);
        assert_eq!(flags.to_harfbuzz(), bits & 0xD0);
    }
    let circles = BufferFlags::DO_NOT_INSERT_DOTTED_CIRCLE;
    assert_eq!(BufferFlags::from_harfbuzz(0x10), circles);
    assert_eq!(BufferFlags::from_harfbuzz(0x20), BufferFlags::empty());
    assert_eq!(BufferFlags::all().to_harfbuzz(), 0xD0);
}
