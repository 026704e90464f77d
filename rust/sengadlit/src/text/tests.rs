use super::*;
use crate::buffer::{
    BufferClusterLevel, BufferFlags, Direction, LookupRecord, Script, UnicodeProps,
};
use crate::plan::{Category, JoiningType, Position};
use std::string::ToString;
use std::vec::Vec as List;

/// Tables in which letters of Thai are Lo and all else Cn, and which panic at an exclamation mark.
struct Letters;

impl Tables for Letters {
    fn joining_type(&self, _c: char) -> JoiningType {
        JoiningType::U
    }

    fn general_category(&self, c: char) -> GeneralCategory {
        match c {
            '\u{0E01}'..='\u{0E2E}' => GeneralCategory::Lo,
            '!' => std::panic::resume_unwind(std::boxed::Box::new("the caller's code")),
            _ => GeneralCategory::Cn,
        }
    }

    fn indic_categories(&self, _c: u32) -> (Category, Position) {
        (0, 14)
    }

    fn use_category(&self, _c: u32) -> Category {
        9
    }

    fn compose(&self, _a: char, _b: char) -> Option<char> {
        None
    }

    fn decompose(&self, _ab: char) -> Option<(char, char)> {
        None
    }
}

// What tables return for some characters.
fn read<T: Tables>(tables: T) -> std::string::String {
    let read = (
        tables.joining_type('a'),
        tables.general_category('\u{0E01}'),
        tables.indic_categories(0x0E01),
        tables.use_category(0x0E01),
        tables.compose('A', '\u{30A}'),
        tables.decompose('\u{C5}'),
    );
    std::format!("{read:?}")
}

#[test]
fn tables_are_read_through_references() {
    let tables: &dyn Tables = &Letters;
    assert_eq!(read(tables), read(Letters));
}

/// Tables that say that they never panic.
struct Calm;

impl Tables for Calm {
    fn joining_type(&self, c: char) -> JoiningType {
        Letters.joining_type(c)
    }

    fn general_category(&self, c: char) -> GeneralCategory {
        Letters.general_category(c)
    }

    fn indic_categories(&self, c: u32) -> (Category, Position) {
        Letters.indic_categories(c)
    }

    fn use_category(&self, c: u32) -> Category {
        Letters.use_category(c)
    }

    fn compose(&self, a: char, b: char) -> Option<char> {
        Letters.compose(a, b)
    }

    fn decompose(&self, ab: char) -> Option<(char, char)> {
        Letters.decompose(ab)
    }

    fn may_panic(&self) -> bool {
        false
    }
}

#[test]
fn tables_may_panic_unless_they_say_otherwise() {
    let (letters, calm): (&dyn Tables, &dyn Tables) = (&Letters, &Calm);
    assert!(Letters.may_panic() && letters.may_panic());
    assert!(!(&calm).may_panic() && !calm.may_panic());
}

fn clusters(buffer: &Buffer) -> List<(u32, u32)> {
    let pair = |glyph: &GlyphInfo| (glyph.glyph_id, glyph.cluster);
    buffer.into_iter().map(pair).collect()
}

#[test]
fn a_default_buffer_is_empty() {
    let buffer = Buffer::default();
    assert!(buffer.is_empty());
    assert_eq!(buffer.max_len(), Buffer::MAX_LEN_DEFAULT);
    assert_eq!(Buffer::MAX_LEN_DEFAULT, (1 << 30) - 1);
    assert_eq!(buffer.direction(), Direction::LeftToRight);
    let level = BufferClusterLevel::MonotoneGraphemes;
    assert_eq!(buffer.cluster_level(), level);
    assert_eq!(
        (GlyphInfo::default(), GlyphPosition::default()),
        (GlyphInfo::DEFAULT, GlyphPosition::ZERO)
    );
}

#[test]
fn characters_have_the_places_of_their_bytes_as_clusters() {
    let mut buffer = Buffer::from("a\u{0E01}b");
    assert_eq!(clusters(&buffer), [(0x61, 0), (0xE01, 1), (0x62, 4)]);
    buffer.push_str("cd").unwrap();
    assert_eq!(clusters(&buffer)[3..], [(0x63, 0), (0x64, 1)]);
    assert!(Buffer::from("").is_empty());
}

#[test]
fn a_text_that_is_too_long_adds_nothing() {
    let mut buffer = Buffer::new(Global, 2);
    buffer.push_str("a").unwrap();
    assert_eq!(buffer.push_str("bc"), Err(ShaperError::TooLong));
    assert_eq!(clusters(&buffer), [(0x61, 0)]);
    assert_eq!(buffer.push_str("b"), Ok(()));
}

/// A text of 2³² characters U+0000, whose pages no memory need be found for, where they are zero.
#[cfg(target_pointer_width = "64")]
#[test]
fn a_text_whose_places_need_more_than_32_bits_adds_nothing() {
    let text = std::vec![0; 1 << 32];
    let text = std::str::from_utf8(&text).unwrap();
    let mut buffer = Buffer::new(Global, usize::MAX);
    assert_eq!(buffer.push_str(text), Err(ShaperError::TooLong));
    assert!(buffer.is_empty());
}

#[test]
fn a_buffer_is_collected_from_glyphs() {
    let glyphs = [
        GlyphInfo::of_character('a', 7),
        GlyphInfo::of_character('b', 9),
    ];
    let buffer: Buffer = glyphs.into_iter().collect();
    assert_eq!(buffer.glyphs(), glyphs);
}

#[test]
fn a_buffer_lends_its_glyphs() {
    let buffer = Buffer::from("ab");
    let numbers: List<u32> = buffer.iter().map(|glyph| glyph.glyph_id).collect();
    assert_eq!(numbers, [0x61, 0x62]);
    assert_eq!(buffer.as_ref(), buffer.glyphs());
}

#[test]
fn categories_are_those_of_the_tables() {
    let mut buffer = Buffer::from("a\u{0E01}");
    let surrogate = GlyphInfo {
        glyph_id: 0xD800,
        ..GlyphInfo::DEFAULT
    };
    buffer.push(surrogate).unwrap();
    buffer.with_glyphs_mut(|glyphs| glyphs[1].unicode_props = UnicodeProps(0xDCA0));
    buffer.set_general_categories(&Letters);
    // (the class and the bits IGNORABLE and CONTINUATION stay)
    assert_eq!(buffer.get(1).unicode_props, UnicodeProps(0xDCA7));
    let categories = buffer
        .into_iter()
        .map(|glyph| glyph.unicode_props.general_category());
    let (cn, lo) = (GeneralCategory::Cn, GeneralCategory::Lo);
    assert!(categories.eq([cn, lo, GeneralCategory::Cc]));
}

#[test]
fn tables_that_panic_leave_no_text_with_some_categories() {
    let mut buffer = Buffer::from("\u{0E01}!");
    let call = std::panic::AssertUnwindSafe(|| buffer.set_general_categories(&Letters));
    assert!(std::panic::catch_unwind(call).is_err());
    assert!(buffer.is_empty());
}

#[test]
fn contexts_are_kept_as_far_as_five_characters() {
    let mut buffer = Buffer::default();
    buffer.set_contexts("abcdefg", "xy");
    assert_eq!(buffer.pre_context(), ['g', 'f', 'e', 'd', 'c']);
    assert_eq!(buffer.post_context(), ['x', 'y']);
    buffer.set_contexts("", "");
    assert!(buffer.pre_context().is_empty() && buffer.post_context().is_empty());
}

#[test]
fn a_limit_below_the_length_counts_as_the_length() {
    let mut buffer = Buffer::from("abc");
    let other = Buffer::new(Global, 1);
    buffer.set_settings(&other.settings());
    assert_eq!((buffer.max_len(), buffer.len()), (3, 3));
}

#[test]
fn categories_are_shown_by_their_names() {
    assert_eq!(GeneralCategory::Lo.to_string(), "Lo");
}

#[test]
fn a_cleared_buffer_is_a_new_one_but_for_level_flags_and_limit() {
    let mut buffer = Buffer::new(Global, 7);
    buffer.set_cluster_level(BufferClusterLevel::Characters);
    buffer.set_flags(BufferFlags::DO_NOT_INSERT_DOTTED_CIRCLE);
    let mut full = Buffer::new(Global, 7);
    full.set_settings(&buffer.settings());
    full.push_str("\u{0E01}").unwrap();
    full.set_contexts("\u{0E02}", "\u{0E03}");
    full.set_script(Some(Script(*b"Thai")));
    full.set_direction(Direction::RightToLeft);
    full.set_has_broken_syllable(true);
    full.set_has_stch(true);
    full.set_lookup_record(USED);
    full.clear();
    assert!(full.is_empty());
    assert_eq!(full.settings(), buffer.settings());
    assert_eq!(full.lookup_record(), LookupRecord::for_text(0));
}

/// What lookups may leave of a text.
const USED: LookupRecord = LookupRecord {
    ligature_serial: 3,
    random_state: 48271,
    operations_left: 65_000,
    is_complete: false,
};

#[test]
fn a_copy_has_the_record_of_the_lookups() {
    let mut buffer = Buffer::from("ab");
    assert_eq!(buffer.lookup_record(), LookupRecord::for_text(0));
    buffer.set_lookup_record(USED);
    assert_eq!(buffer.copy().unwrap().lookup_record(), USED);
    assert_eq!(buffer.try_clone().unwrap().lookup_record(), USED);
    // (a kept copy, too, and the buffer that it is put back into)
    let kept = buffer.keep().unwrap();
    buffer.set_lookup_record(LookupRecord::for_text(2));
    assert_eq!(kept.lookup_record(), USED);
    buffer.restore(kept);
    assert_eq!(buffer.lookup_record(), USED);
}

#[test]
fn a_text_has_as_many_operations_as_in_harfbuzz() {
    let left = |len| LookupRecord::for_text(len).operations_left;
    assert_eq!([0, 1, 16].map(left), [65_536; 3]);
    assert_eq!(left(17), 69_632);
    assert_eq!(left(usize::MAX), usize::MAX);
}
