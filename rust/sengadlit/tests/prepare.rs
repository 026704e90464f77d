//! What is done to a text before normalization, by what Unicode and Microsoft's file say of characters.

#![cfg(feature = "text")]

use sengadlit::alloc::Global;
use sengadlit::buffer::UnicodeProps;
use sengadlit::font::NominalOnly;
use sengadlit::ot_shape_prepare::{
    BEGINNING_OF_TEXT, CharRotation, UnicodeProperties, ensure_native_direction,
    flag_zwnj_graphemes, form_clusters, insert_dotted_circle, preprocess_text_vowel_constraints,
    rotate_chars, set_unicode_properties,
};
use sengadlit::plan::BreakFlags;
use sengadlit::unicode::UnicodeTables;
use sengadlit::{
    Buffer, BufferClusterLevel, BufferFlags, Direction, GeneralCategory, GlyphId, ShaperError,
    script,
};

/// A text with the properties of its characters, its clusters counted by characters.
fn text(characters: &[u32]) -> Buffer {
    let text: String = characters
        .iter()
        .filter_map(|c| char::from_u32(*c))
        .collect();
    let mut buffer = Buffer::default();
    buffer.push_str(&text).unwrap();
    buffer.with_glyphs_mut(|glyphs| {
        for (glyph, place) in glyphs.iter_mut().zip(0..) {
            glyph.cluster = place;
        }
    });
    set_unicode_properties(&UnicodeTables, &mut buffer);
    buffer
}

fn characters(buffer: &Buffer) -> Vec<u32> {
    buffer.glyphs().iter().map(|glyph| glyph.glyph_id).collect()
}

fn clusters(buffer: &Buffer) -> Vec<u32> {
    buffer.glyphs().iter().map(|glyph| glyph.cluster).collect()
}

/// Which glyphs begin a grapheme.
fn begins(characters: &[u32]) -> Vec<bool> {
    let buffer = text(characters);
    let glyphs = buffer.glyphs().iter();
    glyphs
        .map(|glyph| !glyph.unicode_props.is_continuation())
        .collect()
}

#[test]
fn graphemes_of_unicode() {
    // a letter with an acute, and one with a spacing mark
    assert_eq!(
        begins(&[0x65, 0x301, 0x915, 0x93E]),
        [true, false, true, false]
    );
    // a woman with a skin tone who farms: one emoji
    let farmer = [0x1F469, 0x1F3FD, 0x200D, 0x1F33E];
    assert_eq!(begins(&farmer), [true, false, false, false]);
    // three regional indicators: a flag and half of one
    assert_eq!(begins(&[0x1F1E9, 0x1F1EA, 0x1F1EB]), [true, false, true]);
    // Scotland's flag: tags behind a flag, to the cancel tag
    assert_eq!(begins(&[0x1F3F4, 0xE0067, 0xE007F]), [true, false, false]);
    // half-width KA with a voiced mark
    assert_eq!(begins(&[0xFF76, 0xFF9E]), [true, false]);
    // a joiner joins pictographs, and no letters; the non-joiner stands by itself
    assert_eq!(
        begins(&[0x41, 0x200D, 0x42, 0x200C]),
        [true, false, true, true]
    );
}

#[test]
fn properties_of_unicode() {
    let buffer = text(&[0x41, 0x301, 0xAD, 0x34F, 0x200D]);
    let props: Vec<_> = buffer.iter().map(|glyph| glyph.unicode_props).collect();
    let [letter, acute, hyphen, grapheme_joiner, joiner] = props[..] else {
        panic!("five glyphs");
    };
    assert_eq!(letter, UnicodeProps::new(GeneralCategory::Lu, 0));
    assert_eq!(acute.general_category(), GeneralCategory::Mn);
    assert_eq!(acute.modified_combining_class(), 230);
    assert!(hyphen.is_ignorable() && !hyphen.is_hidden());
    assert!(grapheme_joiner.is_ignorable() && grapheme_joiner.is_hidden());
    // ZWJ is 1 in the byte of a mark's class
    assert_eq!(
        (joiner.high_byte(), joiner.modified_combining_class()),
        (1, 0)
    );
}

/// A number that is no character has the properties of U+FFFD.
#[test]
fn numbers_without_character() {
    for number in [0xD800, 0xDFFF, 0x11_0000, u32::MAX] {
        assert_eq!(UnicodeTables.general_category(number), GeneralCategory::So);
        assert_eq!(UnicodeTables.mirrored(number), None);
    }
    assert_eq!(UnicodeTables.mirrored(0x28), Some(0x29));
}

#[test]
fn clusters_by_level() {
    let flags = [0x1F1E9, 0x1F1EA, 0x65, 0x301];
    let mut buffer = text(&flags);
    form_clusters(&mut buffer);
    assert_eq!(clusters(&buffer), [0, 0, 2, 2]);
    for level in [
        BufferClusterLevel::MonotoneCharacters,
        BufferClusterLevel::Characters,
    ] {
        let mut buffer = text(&flags);
        buffer.set_cluster_level(level);
        form_clusters(&mut buffer);
        assert_eq!(clusters(&buffer), [0, 1, 2, 3]);
        // unsafe to break, and to concatenate
        let masks: Vec<u32> = buffer.glyphs().iter().map(|glyph| glyph.mask).collect();
        assert_eq!(masks, [0, 3, 0, 3]);
    }
}

#[test]
fn circle_in_front() {
    let font = NominalOnly(|c| (c == 0x25CC).then_some(GlyphId(1)));
    let mut buffer = text(&[0x301, 0x65]);
    // in the middle of a text there is none
    insert_dotted_circle(&UnicodeTables, &font, &mut buffer).unwrap();
    assert_eq!(characters(&buffer), [0x301, 0x65]);
    buffer.set_flags(BEGINNING_OF_TEXT);
    insert_dotted_circle(&UnicodeTables, &font, &mut buffer).unwrap();
    assert_eq!(characters(&buffer), [0x25CC, 0x301, 0x65]);
    assert_eq!(
        buffer.get(0).unicode_props.general_category(),
        GeneralCategory::So
    );
}

#[test]
fn circle_refused() {
    let font = NominalOnly(|_| Some(GlyphId(1)));
    let mut buffer = Buffer::new(Global, 1);
    buffer.push_str("\u{301}").unwrap();
    set_unicode_properties(&UnicodeTables, &mut buffer);
    buffer.set_flags(BEGINNING_OF_TEXT);
    let refused = insert_dotted_circle(&UnicodeTables, &font, &mut buffer);
    assert_eq!(refused, Err(ShaperError::TooLong));
    assert_eq!(characters(&buffer), [0x301]);
}

fn turned(characters: &[u32], direction: Direction) -> Buffer {
    let mut buffer = text(characters);
    buffer.set_script(Some(script::HEBREW));
    buffer.set_direction(direction);
    form_clusters(&mut buffer);
    ensure_native_direction(&mut buffer);
    buffer
}

#[test]
fn own_direction() {
    // alef with patah, and bet
    let alef_bet = [0x5D0, 0x5B7, 0x5D1];
    let buffer = turned(&alef_bet, Direction::LeftToRight);
    assert_eq!(characters(&buffer), [0x5D1, 0x5D0, 0x5B7]);
    assert_eq!(buffer.direction(), Direction::RightToLeft);
    let buffer = turned(&alef_bet, Direction::RightToLeft);
    assert_eq!(characters(&buffer), alef_bet);
    // numbers run from left to right, and so do flags, but not beside a letter
    for alone in [&[0x31, 0x32][..], &[0x1F1EE, 0x1F1F1]] {
        let buffer = turned(alone, Direction::LeftToRight);
        assert_eq!(characters(&buffer), alone);
    }
    let buffer = turned(&[0x5D0, 0x31], Direction::LeftToRight);
    assert_eq!(characters(&buffer), [0x31, 0x5D0]);
}

#[test]
fn rotated() {
    // the font has the closing parenthesis, no closing bracket, and the vertical ellipsis
    let font = NominalOnly(|c| [0x29, 0xFE19].contains(&c).then_some(GlyphId(1)));
    let to = |direction, has_vert| CharRotation {
        direction,
        rtlm_mask: 8,
        has_vert,
    };
    let mut buffer = text(&[0x28, 0x5B]);
    rotate_chars(
        &UnicodeTables,
        &font,
        &to(Direction::RightToLeft, false),
        &mut buffer,
    );
    assert_eq!(characters(&buffer), [0x29, 0x5B]);
    assert_eq!((buffer.get(0).mask, buffer.get(1).mask), (0, 8));
    for (has_vert, character) in [(false, 0xFE19), (true, 0x2026)] {
        let mut buffer = text(&[0x2026]);
        rotate_chars(
            &UnicodeTables,
            &font,
            &to(Direction::TopToBottom, has_vert),
            &mut buffer,
        );
        assert_eq!(characters(&buffer), [character]);
    }
}

#[test]
fn vowels_circled() {
    let parted = |characters: &[u32], flags| {
        let mut buffer = text(characters);
        buffer.set_script(Some(script::DEVANAGARI));
        buffer.set_flags(flags);
        preprocess_text_vowel_constraints(&mut buffer).unwrap();
        buffer
    };
    let none = BufferFlags(0);
    // A and the sign of short E, which look like the letter of short E
    let buffer = parted(&[0x905, 0x946], none);
    assert_eq!(characters(&buffer), [0x905, 0x25CC, 0x946]);
    assert_eq!(clusters(&buffer), [0, 1, 1]);
    assert!(!buffer.get(1).unicode_props.is_continuation());
    // RA, virama and I, which look like II
    let buffer = parted(&[0x930, 0x94D, 0x907], none);
    assert_eq!(characters(&buffer), [0x930, 0x94D, 0x25CC, 0x907]);
    // a consonant takes any sign
    assert_eq!(characters(&parted(&[0x915, 0x946], none)), [0x915, 0x946]);
    let forbidden = BufferFlags::DO_NOT_INSERT_DOTTED_CIRCLE;
    assert_eq!(
        characters(&parted(&[0x905, 0x946], forbidden)),
        [0x905, 0x946]
    );
}

#[test]
fn graphemes_of_zwnj_flagged() {
    let flagged = |characters: &[u32], breaks| -> Vec<u32> {
        let mut buffer = text(characters);
        flag_zwnj_graphemes(breaks, &mut buffer);
        buffer.glyphs().iter().map(|glyph| glyph.mask).collect()
    };
    // ZWNJ with two marks, between letters with theirs
    let marked = [0x915, 0x902, 0x200C, 0x93E, 0x902, 0x915, 0x93E];
    assert_eq!(flagged(&marked, BreakFlags::Sound), [0, 0, 3, 3, 3, 0, 0]);
    assert_eq!(flagged(&marked, BreakFlags::AsCode), [0; 7]);
    // ZWJ carries on a grapheme; other characters without width begin theirs
    let others = [0x915, 0x200D, 0x93E, 0x200B, 0x93E, 0x200E];
    assert_eq!(flagged(&others, BreakFlags::Sound), [0; 6]);
}
