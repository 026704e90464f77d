//! Names that are written by hand: the scripts by Unicode's names, and rustybuzz's names of types.

use sengadlit::map::{FeatureMap, Map};
use sengadlit::plan::{
    ArabicPlan, HangulPlan, IndicPlan, JoiningType, KhmerPlan, Plan, Planner, UniversalPlan,
};
use sengadlit::{
    Buffer, Font, GeneralCategory, GlyphInfo, Script, Shaper, Tag, rustybuzz as old, script,
};
use std::any::TypeId;

/// The lines of `sc` in Unicode's PropertyValueAliases.txt for the scripts that have a constant.
const ALIASES: &str = "
sc ; Arab ; Arabic
sc ; Bali ; Balinese
sc ; Beng ; Bengali
sc ; Deva ; Devanagari
sc ; Gujr ; Gujarati
sc ; Guru ; Gurmukhi
sc ; Hang ; Hangul
sc ; Hebr ; Hebrew
sc ; Knda ; Kannada
sc ; Khmr ; Khmer
sc ; Laoo ; Lao
sc ; Mlym ; Malayalam
sc ; Mong ; Mongolian
sc ; Mymr ; Myanmar
sc ; Orya ; Oriya
sc ; Sinh ; Sinhala
sc ; Syrc ; Syriac
sc ; Taml ; Tamil
sc ; Telu ; Telugu
sc ; Thai ; Thai
sc ; Tibt ; Tibetan
";

const SCRIPTS: [(&str, Script); 21] = [
    ("ARABIC", script::ARABIC),
    ("BALINESE", script::BALINESE),
    ("BENGALI", script::BENGALI),
    ("DEVANAGARI", script::DEVANAGARI),
    ("GUJARATI", script::GUJARATI),
    ("GURMUKHI", script::GURMUKHI),
    ("HANGUL", script::HANGUL),
    ("HEBREW", script::HEBREW),
    ("KANNADA", script::KANNADA),
    ("KHMER", script::KHMER),
    ("LAO", script::LAO),
    ("MALAYALAM", script::MALAYALAM),
    ("MONGOLIAN", script::MONGOLIAN),
    ("MYANMAR", script::MYANMAR),
    ("ORIYA", script::ORIYA),
    ("SINHALA", script::SINHALA),
    ("SYRIAC", script::SYRIAC),
    ("TAMIL", script::TAMIL),
    ("TELUGU", script::TELUGU),
    ("THAI", script::THAI),
    ("TIBETAN", script::TIBETAN),
];

#[test]
fn scripts_have_unicodes_codes() {
    let aliases = ALIASES
        .lines()
        .filter_map(|line| line.strip_prefix("sc ; "));
    let named = aliases.filter_map(|line| line.split_once(" ; "));
    let named: Vec<_> = named
        .map(|(code, name)| (name.to_uppercase(), code))
        .collect();
    let shown: Vec<_> = SCRIPTS
        .map(|(name, code)| (name.to_string(), code.to_string()))
        .into();
    assert!(
        named
            .iter()
            .map(|(name, code)| (name.clone(), code.to_string()))
            .eq(shown)
    );
}

#[test]
fn rustybuzzs_names_are_those_of_the_types() {
    let pairs = [
        (TypeId::of::<old::hb_buffer_t>(), TypeId::of::<Buffer>()),
        (
            TypeId::of::<old::hb_glyph_info_t>(),
            TypeId::of::<GlyphInfo>(),
        ),
        (TypeId::of::<old::hb_tag_t>(), TypeId::of::<Tag>()),
        (
            TypeId::of::<old::hb_unicode_general_category_t>(),
            TypeId::of::<GeneralCategory>(),
        ),
        (
            TypeId::of::<old::feature_map_t>(),
            TypeId::of::<FeatureMap>(),
        ),
        (TypeId::of::<old::hb_ot_map_t>(), TypeId::of::<Map>()),
        (
            TypeId::of::<old::arabic_shape_plan_t>(),
            TypeId::of::<ArabicPlan>(),
        ),
        (
            TypeId::of::<old::hangul_shape_plan_t>(),
            TypeId::of::<HangulPlan>(),
        ),
        (
            TypeId::of::<old::indic_shape_plan_t>(),
            TypeId::of::<IndicPlan>(),
        ),
        (
            TypeId::of::<old::khmer_shape_plan_t>(),
            TypeId::of::<KhmerPlan>(),
        ),
        (
            TypeId::of::<old::use_shape_plan_t>(),
            TypeId::of::<UniversalPlan>(),
        ),
        (
            TypeId::of::<old::hb_arabic_joining_type_t>(),
            TypeId::of::<JoiningType>(),
        ),
        (
            TypeId::of::<old::hb_ot_shape_plan_t>(),
            TypeId::of::<Plan>(),
        ),
        (
            TypeId::of::<old::hb_ot_shape_planner_t>(),
            TypeId::of::<Planner>(),
        ),
        (TypeId::of::<old::hb_ot_shaper_t>(), TypeId::of::<Shaper>()),
        (TypeId::of::<dyn old::hb_font_t>(), TypeId::of::<dyn Font>()),
    ];
    for (place, (old, new)) in pairs.into_iter().enumerate() {
        assert!(old == new, "pair {place}");
    }
}
