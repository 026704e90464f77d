use super::*;
use std::format;
use std::string::String;

#[test]
fn a_class_is_read_and_set() {
    let mark = GlyphProps::mark(9);
    assert_eq!(mark, GlyphProps(0x0908));
    assert!(mark.is_mark() && !mark.is_base_glyph() && !mark.is_ligature());
    assert_eq!(mark.mark_attachment_class(), 9);
    for by_lookups in (0..8).map(|bits| bits << 4) {
        // whatever stood there before
        let mut props = GlyphProps(0xFF0F | by_lookups);
        props.set_class(mark);
        assert_eq!(props, GlyphProps(0x0908 | by_lookups));
        // of the class alone
        props.set_class(GlyphProps::BASE_GLYPH | GlyphProps::SUBSTITUTED);
        assert_eq!(props, GlyphProps(0x0002 | by_lookups));
    }
}

/// As HarfBuzz packs them: the number in the high three bits, 0x10 for a ligature itself.
#[test]
fn ligatures_are_packed_as_in_harfbuzz() {
    assert_eq!(LigProps::ligature(3, 2), LigProps(0b0111_0010));
    assert_eq!(LigProps::mark(3, 2), LigProps(0b0110_0010));
    for number in 0..8 {
        for low in 0..=20 {
            let ligature = LigProps::ligature(number, low);
            assert_eq!((ligature.number(), ligature.component()), (number, 0));
            assert!(ligature.is_ligature());
            let mark = LigProps::mark(number, low);
            assert_eq!((mark.number(), mark.component()), (number, low % 16));
            assert!(!mark.is_ligature());
        }
    }
}

/// A ligature by its class that no lookup made counts as one, and so does one of another class.
#[test]
fn components_are_counted_of_ligatures() {
    let count = |glyph_props, lig_props| {
        let glyph = GlyphInfo {
            glyph_props,
            lig_props,
            ..GlyphInfo::DEFAULT
        };
        glyph.component_count()
    };
    let ligature = LigProps::ligature(1, 3);
    assert_eq!(count(GlyphProps::LIGATURE, ligature), 3);
    assert_eq!(count(GlyphProps::MARK, ligature), 1);
    assert_eq!(count(GlyphProps::LIGATURE, LigProps::mark(1, 3)), 1);
    assert_eq!(count(GlyphProps::LIGATURE, LigProps::NONE), 1);
}

#[test]
fn joiners_and_spaces_are_known_by_category_and_high_byte() {
    use GeneralCategory::{Cf, Mn, Zs};
    let joiner = UnicodeProps::new(Cf, 1);
    assert!(joiner.is_zero_width_joiner() && !joiner.is_zero_width_non_joiner());
    let non_joiner = UnicodeProps::new(Cf, 2);
    assert!(!non_joiner.is_zero_width_joiner() && non_joiner.is_zero_width_non_joiner());
    // a selector that selects nothing, and marks of classes 1 and 2
    let others = [(Cf, 4), (Mn, 1), (Mn, 2)];
    for props in others.map(|(category, byte)| UnicodeProps::new(category, byte)) {
        assert!(!props.is_zero_width_joiner() && !props.is_zero_width_non_joiner());
        assert_eq!(props.space_kind(), None);
    }
    assert_eq!(UnicodeProps::new(Zs, 17).space_kind(), Some(17));
}

#[test]
fn what_a_lookup_put_in_is_drawn() {
    let mut glyph = GlyphInfo {
        unicode_props: UnicodeProps::IGNORABLE,
        ..GlyphInfo::DEFAULT
    };
    assert!(glyph.is_default_ignorable());
    glyph.glyph_props.set_substituted(true);
    assert!(!glyph.is_default_ignorable());
    assert!(!GlyphInfo::DEFAULT.is_default_ignorable());
}

#[test]
fn properties_are_shown_by_their_names() {
    let shown = |value: &dyn fmt::Debug| -> String { format!("{value:?}") };
    let props = GlyphProps::mark(2) | GlyphProps::SUBSTITUTED;
    assert_eq!(shown(&props), "GlyphProps(MARK | SUBSTITUTED | 0x200)");
    assert_eq!(shown(&GlyphProps::NONE), "GlyphProps(NONE)");
    assert_eq!(
        shown(&LigProps::ligature(2, 3)),
        "LigProps(2, ligature of 3)"
    );
    assert_eq!(shown(&LigProps::mark(2, 1)), "LigProps(2, component 1)");
    assert_eq!(shown(&LigProps::NONE), "LigProps(NONE)");
    let props = UnicodeProps::new(GeneralCategory::Mn, 230);
    let props = props | UnicodeProps::IGNORABLE | UnicodeProps::CONTINUATION;
    let text = "UnicodeProps(Mn, 230, IGNORABLE | CONTINUATION)";
    assert_eq!(shown(&props), text);
    assert_eq!(shown(&UnicodeProps::NONE), "UnicodeProps(Cc)");
    assert_eq!(shown(&UnicodeProps(0x005E)), "UnicodeProps(30, HIDDEN)");
    let glyph = GlyphInfo::of_character('a', 7);
    assert_eq!(
        shown(&glyph),
        "GlyphInfo { glyph_id: 97, mask: 0, cluster: 7, glyph_props: GlyphProps(NONE), \
         lig_props: LigProps(NONE), syllable: 0, unicode_props: UnicodeProps(Cc), category: 0, \
         auxiliary: 0 }"
    );
}

// The rules name these parts of a glyph, and a reader finds each under that name.
#[test]
fn a_glyph_answers_to_the_names_of_its_parts() {
    let mut glyph = GlyphInfo {
        unicode_props: UnicodeProps::new(GeneralCategory::Mn, 230),
        ..GlyphInfo::DEFAULT
    };
    assert_eq!(glyph.general_category(), GeneralCategory::Mn);
    assert_eq!(glyph.modified_combining_class(), 230);
    glyph.set_modified_combining_class(220);
    glyph.set_lig_comp(18);
    assert_eq!(
        (glyph.modified_combining_class(), glyph.lig_comp()),
        (220, 2)
    );
    for on in [true, false] {
        glyph.set_substituted(on);
        glyph.set_ligated(on);
        glyph.set_multiplied(on);
        glyph.set_ignorable(on);
        glyph.set_continuation(on);
        let marks = [
            glyph.substituted(),
            glyph.ligated(),
            glyph.multiplied(),
            glyph.ignorable(),
            glyph.continuation(),
        ];
        assert_eq!(marks, [on; 5]);
    }
    glyph.set_general_category(GeneralCategory::Zs);
    let space = UnicodeProps::new(GeneralCategory::Zs, 0);
    let expected = GlyphInfo {
        unicode_props: space,
        lig_props: LigProps(2),
        ..GlyphInfo::DEFAULT
    };
    assert_eq!(glyph, expected);
}
