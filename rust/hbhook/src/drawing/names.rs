//! The names that shapers have for categories, auxiliary bytes and kinds of syllables.

use sengadlit::ot_shaper_arabic::arabic_action_t;
use sengadlit::ot_shaper_syllabic::{
    indic_syllable, khmer_syllable, myanmar_syllable, use_syllable,
};
use sengadlit::ot_shaper_use::category as use_category;
use sengadlit::plan::{ot_category_t, ot_position_t};
use sengadlit::{Shaper, Tag};

/// What a shaper calls something, and what that means.
#[derive(Clone, Copy, PartialEq, Eq)]
pub(crate) struct Name {
    pub short: &'static str,
    pub meaning: &'static str,
}

/// What a shaper calls a category.
pub(super) fn category_name(shaper: Shaper, category: u8) -> Option<Name> {
    match shaper {
        Shaper::Indic | Shaper::Khmer | Shaper::Myanmar => name_in(&OT_CATEGORIES, category),
        Shaper::Universal => name_in(&USE_CATEGORIES, category),
        _ => None,
    }
}

/// What a shaper calls a value of the auxiliary byte.
pub(super) fn auxiliary_name(shaper: Shaper, auxiliary: u8) -> Option<Name> {
    match shaper {
        Shaper::Indic | Shaper::Myanmar => name_in(&POSITIONS, auxiliary),
        Shaper::Arabic | Shaper::Universal => name_in(&ACTIONS, auxiliary),
        Shaper::Hangul => name_in(&JAMO, auxiliary),
        _ => None,
    }
}

// The name that a table has for a number.
fn name_in(names: &[(u8, &'static str, &'static str)], number: u8) -> Option<Name> {
    let (_, short, meaning) = names.iter().copied().find(|name| name.0 == number)?;
    Some(Name { short, meaning })
}

// What the features are that hooks turn on glyph by glyph, by OpenType's registry.
const FEATURES: [(Tag, &str); 18] = [
    (Tag(*b"abvf"), "the feature for forms above the base"),
    (Tag(*b"blwf"), "the feature for forms below the base"),
    (Tag(*b"cfar"), "the feature for what follows a Coeng Ro"),
    (
        Tag(*b"fin2"),
        "the feature for a final Alaph behind a letter that doesn't join",
    ),
    (
        Tag(*b"fin3"),
        "the feature for a final Alaph behind Dalath or Rish",
    ),
    (Tag(*b"fina"), "the feature for final forms"),
    (Tag(*b"half"), "the feature for half forms, before the base"),
    (Tag(*b"init"), "the feature for initial forms"),
    (Tag(*b"isol"), "the feature for isolated forms"),
    (Tag(*b"ljmo"), "the feature for leading consonants"),
    (Tag(*b"med2"), "the feature for a medial Alaph"),
    (Tag(*b"medi"), "the feature for medial forms"),
    (Tag(*b"pref"), "the feature for forms before the base"),
    (Tag(*b"pstf"), "the feature for forms behind the base"),
    (Tag(*b"rphf"), "the feature for reph"),
    (
        Tag(*b"stch"),
        "the feature for the tiles of a stretched mark",
    ),
    (Tag(*b"tjmo"), "the feature for trailing consonants"),
    (Tag(*b"vjmo"), "the feature for vowels"),
];

/// What a feature of the mask is.
pub(super) fn feature_meaning(tag: Tag) -> &'static str {
    for (other, meaning) in FEATURES {
        if other == tag {
            return meaning;
        }
    }
    "a feature that is on for the glyph"
}

/// What a shaper calls a kind of syllable; broken ones are called so by all.
pub(super) fn kind_name(shaper: Shaper, kind: u8) -> Option<&'static str> {
    match shaper {
        Shaper::Indic => kind_in(&INDIC_KINDS, kind),
        Shaper::Khmer => kind_in(&KHMER_KINDS, kind),
        Shaper::Myanmar => kind_in(&MYANMAR_KINDS, kind),
        Shaper::Universal => kind_in(&USE_KINDS, kind),
        _ => None,
    }
}

// The name that a table has for a kind.
fn kind_in(kinds: &[(u8, &'static str)], kind: u8) -> Option<&'static str> {
    let (_, name) = kinds.iter().copied().find(|entry| entry.0 == kind)?;
    Some(name)
}

/// What all shapers call a syllable that fits no pattern.
pub(super) const BROKEN: &str = "broken";

// The categories of Indic, Khmer and Myanmar.
static OT_CATEGORIES: [(u8, &str, &str); 34] = [
    (ot_category_t::OT_X, "X", "another character"),
    (ot_category_t::OT_C, "C", "a consonant"),
    (ot_category_t::OT_V, "V", "an independent vowel"),
    (
        ot_category_t::OT_N,
        "N",
        "a nukta, or a sign that binds as one",
    ),
    (ot_category_t::OT_H, "H", "a halant (virama, Coeng)"),
    (
        ot_category_t::OT_ZWNJ,
        "ZWNJ",
        "the zero width non-joiner, 200C",
    ),
    (ot_category_t::OT_ZWJ, "ZWJ", "the zero width joiner, 200D"),
    (ot_category_t::OT_M, "M", "a dependent vowel, or matra"),
    (ot_category_t::OT_SM, "SM", "a syllable modifier"),
    (
        ot_category_t::OT_A,
        "A",
        "a Vedic accent; in Myanmar the anusvara",
    ),
    (
        ot_category_t::OT_PLACEHOLDER,
        "PLACEHOLDER",
        "a digit or the like, in place of a base",
    ),
    (
        ot_category_t::OT_DOTTEDCIRCLE,
        "DOTTEDCIRCLE",
        "the dotted circle, 25CC",
    ),
    (ot_category_t::OT_RS, "RS", "a register shifter"),
    (
        ot_category_t::OT_MPst,
        "MPst",
        "a matra behind post-base consonants",
    ),
    (
        ot_category_t::OT_Repha,
        "Repha",
        "a reph with a character of its own",
    ),
    (
        ot_category_t::OT_Ra,
        "Ra",
        "the letter Ra, which may become a reph, or Khmer's Ro",
    ),
    (ot_category_t::OT_CM, "CM", "a medial consonant"),
    (ot_category_t::OT_Symbol, "Symbol", "a symbol, or avagraha"),
    (
        ot_category_t::OT_CS,
        "CS",
        "a consonant with a stacker before it",
    ),
    (ot_category_t::OT_VAbv, "VAbv", "a vowel above the base"),
    (ot_category_t::OT_VBlw, "VBlw", "a vowel below the base"),
    (ot_category_t::OT_VPre, "VPre", "a vowel before the base"),
    (ot_category_t::OT_VPst, "VPst", "a vowel behind the base"),
    (
        ot_category_t::OT_Robatic,
        "Robatic",
        "the robat and its like",
    ),
    (
        ot_category_t::OT_Xgroup,
        "Xgroup",
        "a sign that follows a base or a vowel",
    ),
    (
        ot_category_t::OT_Ygroup,
        "Ygroup",
        "a sign that closes a syllable",
    ),
    (ot_category_t::OT_As, "As", "the asat, 103A"),
    (ot_category_t::OT_MH, "MH", "the medial Ha"),
    (
        ot_category_t::OT_MR,
        "MR",
        "the medial Ra, which goes before the base",
    ),
    (ot_category_t::OT_MW, "MW", "the medial Wa"),
    (ot_category_t::OT_MY, "MY", "the medial Ya"),
    (
        ot_category_t::OT_PT,
        "PT",
        "a tone of Pwo and other languages",
    ),
    (ot_category_t::OT_VS, "VS", "a variation selector"),
    (ot_category_t::OT_ML, "ML", "the medial La of Mon"),
];

// The categories of the universal shaper.
static USE_CATEGORIES: [(u8, &str, &str); 45] = [
    (use_category::O, "O", "another character"),
    (use_category::B, "B", "a base"),
    (use_category::N, "N", "a number that is a base"),
    (
        use_category::GB,
        "GB",
        "a generic base, as the dotted circle",
    ),
    (use_category::CGJ, "CGJ", "the combining grapheme joiner"),
    (
        use_category::SUB,
        "SUB",
        "a consonant written below the base",
    ),
    (use_category::H, "H", "a halant, or virama"),
    (use_category::HN, "HN", "a halant of numbers"),
    (use_category::ZWNJ, "ZWNJ", "the zero width non-joiner"),
    (use_category::WJ, "WJ", "the word joiner"),
    (use_category::RSV, "Rsv", "a reserved character"),
    (use_category::R, "R", "a repha, which goes behind the base"),
    (use_category::S, "S", "a symbol"),
    (
        use_category::CS,
        "CS",
        "a consonant with a stacker before it",
    ),
    (use_category::IS, "IS", "a stacker that isn't seen"),
    (use_category::Sk, "Sk", "the Sakot of Tai Tham"),
    (use_category::G, "G", "a hieroglyph"),
    (use_category::J, "J", "a joiner of hieroglyphs"),
    (use_category::SB, "SB", "a sign before the base"),
    (use_category::SE, "SE", "a sign behind the base"),
    (use_category::HVM, "HVM", "a halant, or a vowel modifier"),
    (use_category::HM, "HM", "a mirror of hieroglyphs"),
    (use_category::HR, "HR", "a rotation of hieroglyphs"),
    (
        use_category::VPre,
        "VPre",
        "a vowel before the base, which goes to the front",
    ),
    (
        use_category::VMPre,
        "VMPre",
        "a vowel modifier before the base, which goes to the front",
    ),
    (use_category::FAbv, "FAbv", "a final consonant, above"),
    (use_category::FBlw, "FBlw", "a final consonant, below"),
    (use_category::FPst, "FPst", "a final consonant, behind"),
    (use_category::MAbv, "MAbv", "a medial consonant, above"),
    (use_category::MBlw, "MBlw", "a medial consonant, below"),
    (use_category::MPst, "MPst", "a medial consonant, behind"),
    (
        use_category::MPre,
        "MPre",
        "a medial consonant before the base",
    ),
    (use_category::CMAbv, "CMAbv", "a consonant modifier, above"),
    (use_category::CMBlw, "CMBlw", "a consonant modifier, below"),
    (use_category::VAbv, "VAbv", "a vowel above the base"),
    (use_category::VBlw, "VBlw", "a vowel below the base"),
    (use_category::VPst, "VPst", "a vowel behind the base"),
    (use_category::VMAbv, "VMAbv", "a vowel modifier, above"),
    (use_category::VMBlw, "VMBlw", "a vowel modifier, below"),
    (use_category::VMPst, "VMPst", "a vowel modifier, behind"),
    (use_category::SMAbv, "SMAbv", "a mark of symbols, above"),
    (use_category::SMBlw, "SMBlw", "a mark of symbols, below"),
    (use_category::FMAbv, "FMAbv", "a modifier of finals, above"),
    (use_category::FMBlw, "FMBlw", "a modifier of finals, below"),
    (use_category::FMPst, "FMPst", "a modifier of finals, behind"),
];

// The positions of Indic and Myanmar.
static POSITIONS: [(u8, &str, &str); 15] = [
    (
        ot_position_t::POS_START,
        "Start",
        "the front of the syllable",
    ),
    (
        ot_position_t::POS_RA_TO_BECOME_REPH,
        "Reph",
        "a Ra that becomes the reph",
    ),
    (ot_position_t::POS_PRE_M, "PreM", "a matra before the base"),
    (
        ot_position_t::POS_PRE_C,
        "PreC",
        "a consonant before the base, in half form",
    ),
    (ot_position_t::POS_BASE_C, "BaseC", "the base consonant"),
    (
        ot_position_t::POS_AFTER_MAIN,
        "AfterMain",
        "behind the base",
    ),
    (
        ot_position_t::POS_ABOVE_C,
        "AboveC",
        "a consonant or matra above the base",
    ),
    (
        ot_position_t::POS_BEFORE_SUB,
        "BeforeSub",
        "before the consonants below the base",
    ),
    (
        ot_position_t::POS_BELOW_C,
        "BelowC",
        "a consonant or matra below the base",
    ),
    (
        ot_position_t::POS_AFTER_SUB,
        "AfterSub",
        "behind the consonants below the base",
    ),
    (
        ot_position_t::POS_BEFORE_POST,
        "BeforePost",
        "before the consonants behind the base",
    ),
    (
        ot_position_t::POS_POST_C,
        "PostC",
        "a consonant or matra behind the base",
    ),
    (
        ot_position_t::POS_AFTER_POST,
        "AfterPost",
        "behind the consonants behind the base",
    ),
    (
        ot_position_t::POS_SMVD,
        "SMVD",
        "a syllable modifier or Vedic sign",
    ),
    (ot_position_t::POS_END, "End", "the end of the syllable"),
];

// The forms of Arabic letters, and the tiles of stretched marks.
static ACTIONS: [(u8, &str, &str); 10] = [
    (arabic_action_t::ISOL, "isol", "the isolated form"),
    (arabic_action_t::FINA, "fina", "the final form"),
    (
        arabic_action_t::FIN2,
        "fin2",
        "the final form of Alaph behind a letter that doesn't join",
    ),
    (
        arabic_action_t::FIN3,
        "fin3",
        "the final form of Alaph behind Dalath or Rish",
    ),
    (arabic_action_t::MEDI, "medi", "the medial form"),
    (arabic_action_t::MED2, "med2", "the medial form of Alaph"),
    (arabic_action_t::INIT, "init", "the initial form"),
    (
        arabic_action_t::NONE,
        "no form",
        "a character that has no forms",
    ),
    (
        arabic_action_t::STRETCHING_FIXED,
        "fixed tile",
        "a tile of a stretched mark",
    ),
    (
        arabic_action_t::STRETCHING_REPEATING,
        "repeating",
        "a tile of a stretched mark that is repeated",
    ),
];

// The features of jamo.
static JAMO: [(u8, &str, &str); 3] = [
    (1, "ljmo", "a leading consonant"),
    (2, "vjmo", "a vowel"),
    (3, "tjmo", "a trailing consonant"),
];

// The kinds of Indic syllables.
static INDIC_KINDS: [(u8, &str); 6] = [
    (indic_syllable::CONSONANT_SYLLABLE, "consonant"),
    (indic_syllable::VOWEL_SYLLABLE, "vowel"),
    (indic_syllable::STANDALONE_CLUSTER, "standalone"),
    (indic_syllable::SYMBOL_CLUSTER, "symbol"),
    (indic_syllable::BROKEN_CLUSTER, BROKEN),
    (indic_syllable::NON_INDIC_CLUSTER, "not Indic"),
];

// The kinds of Khmer syllables.
static KHMER_KINDS: [(u8, &str); 3] = [
    (khmer_syllable::CONSONANT_SYLLABLE, "consonant"),
    (khmer_syllable::BROKEN_CLUSTER, BROKEN),
    (khmer_syllable::NON_KHMER_CLUSTER, "not Khmer"),
];

// The kinds of Myanmar syllables.
static MYANMAR_KINDS: [(u8, &str); 4] = [
    (myanmar_syllable::CONSONANT_SYLLABLE, "consonant"),
    (myanmar_syllable::PUNCTUATION_CLUSTER, "punctuation"),
    (myanmar_syllable::BROKEN_CLUSTER, BROKEN),
    (myanmar_syllable::NON_MYANMAR_CLUSTER, "not Myanmar"),
];

// The kinds of syllables of the universal shaper.
static USE_KINDS: [(u8, &str); 9] = [
    (use_syllable::VIRAMA_TERMINATED_CLUSTER, "virama at the end"),
    (use_syllable::SAKOT_TERMINATED_CLUSTER, "sakot at the end"),
    (use_syllable::STANDARD_CLUSTER, "standard"),
    (
        use_syllable::NUMBER_JOINER_TERMINATED_CLUSTER,
        "number joiner at the end",
    ),
    (use_syllable::NUMERAL_CLUSTER, "numeral"),
    (use_syllable::SYMBOL_CLUSTER, "symbol"),
    (use_syllable::HIEROGLYPH_CLUSTER, "hieroglyph"),
    (use_syllable::BROKEN_CLUSTER, BROKEN),
    (use_syllable::NON_CLUSTER, "none"),
];
