use super::*;
use crate::Tables;
use crate::buffer::GeneralCategory;
use crate::plan::JoiningType;
use std::vec::Vec as List;

fn tell(text: &str) -> List<(GeneralCategory, u8, UnicodeProps)> {
    let buffer = Buffer::from_text(text, &UnicodeTables).expect("it fits");
    let properties = |glyph: &GlyphInfo| {
        let props = glyph.unicode_props;
        let class = props.modified_combining_class();
        (props.general_category(), class, props & UnicodeProps::all())
    };
    buffer.into_iter().map(properties).collect()
}

#[test]
fn a_text_has_categories_classes_and_bits() {
    // alef, shadda before other marks, a zero width joiner, a combining grapheme joiner, a sign of 0
    assert_eq!(
        tell("\u{0627}\u{0651}\u{200D}\u{034F}\u{093E}"),
        [
            (GeneralCategory::Lo, 0, UnicodeProps::NONE),
            (GeneralCategory::Mn, 27, UnicodeProps::CONTINUATION),
            (GeneralCategory::Cf, 0, UnicodeProps::IGNORABLE),
            (
                GeneralCategory::Mn,
                0,
                UnicodeProps::IGNORABLE | UnicodeProps::CONTINUATION
            ),
            (GeneralCategory::Mc, 0, UnicodeProps::CONTINUATION),
        ]
    );
}

#[test]
fn clusters_are_the_places_of_bytes() {
    let buffer = Buffer::from_text("a\u{0E01}b", &UnicodeTables).expect("it fits");
    let clusters: List<u32> = buffer.into_iter().map(|glyph| glyph.cluster).collect();
    assert_eq!(clusters, [0, 1, 4]);
}

#[test]
fn a_character_is_as_in_a_text() {
    for character in ['a', '\u{0E48}', '\u{200D}', '\u{34F}'] {
        let text = Buffer::from_text(character.encode_utf8(&mut [0; 4]), &UnicodeTables);
        let glyph = GlyphInfo::from_character(character, 7, &UnicodeTables);
        let alone = text.expect("it fits").get(0);
        assert_eq!(
            glyph,
            GlyphInfo {
                cluster: 7,
                ..alone
            }
        );
    }
}

#[test]
fn only_marks_have_a_class() {
    let others = ('\0'..=char::MAX).filter(|c| !general_category(*c).is_mark());
    assert_eq!(
        others.filter(|c| modified_combining_class(*c) != 0).count(),
        0
    );
}

#[test]
fn the_tables_return_what_the_functions_do() {
    assert_eq!(
        UnicodeTables.joining_type('\u{0710}'),
        JoiningType::GroupAlaph
    );
    assert_eq!(UnicodeTables.general_category('A'), GeneralCategory::Lu);
    assert_eq!(UnicodeTables.indic_categories(0x0930), (15, 4));
    assert_eq!(UnicodeTables.indic_categories(u32::MAX), (0, 14));
    assert_eq!(UnicodeTables.use_category(0x1A60), 48);
    assert_eq!(UnicodeTables.compose('A', '\u{030A}'), Some('\u{C5}'));
    assert_eq!(UnicodeTables.decompose('\u{212B}'), Some(('\u{C5}', '\0')));
    assert_eq!(mirrored('('), Some(')'));
    assert_eq!(vertical_form('\u{2014}'), Some('\u{FE31}'));
}
