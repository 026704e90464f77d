//! What isn't of this crate's own choice is what HarfBuzz's own test expects (test-ot-tag.c of 12.3.2).

use super::{Language, LanguageError, tags, text_tags};
use crate::buffer::Script;
use crate::generated::opentype_font::text_tags::TagList;
use crate::script;
use rust_alloc::string::{String, ToString};
use std::borrow::ToOwned;
use std::format;

/// The first tag of OpenType of each of these languages; none where it is empty.
const FIRST_TAGS: &[(&str, &str)] = &[
    ("ALT", "alt"),
    ("ARA", "ar ar-aao ar-001"),
    ("AZE", "az az-ir az-az"),
    (
        "ENG",
        "en en_US en-fonipax en-x-fonipa en-a-fonipa en-a-qwe-b-fonipa",
    ),
    ("CJA", "cja-x-hbot-434a4120"),
    ("CJM", "cjm-x-hbot-434a4d20 cjm"),
    ("EVN", "eve"),
    ("HAL", "cfm flm"),
    ("HYE0", "hy"),
    ("HYE", "hyw"),
    (
        "QIN",
        "bgr cbl cka cmr cnb cnh cnk cnw csh csy ctd czt dao hlt mrh pck sez tcp tcz yos zom",
    ),
    ("FAR", "fa fa_IR"),
    ("MNK", "man"),
    ("SWA", "aii"),
    ("SYR", "syr amw cld syc"),
    ("TUA", "tru"),
    (
        "ZHS",
        "zh zh-cn zh-sg zh-hans-mo zH-HanS-hK zh-Hans zh-xx zh-Hans-TW yue-Hans i-hak zh-guoyu zh-min zh-min-nan zh-xiang",
    ),
    ("ZHTM", "zh-mo zh-hant-mo"),
    ("ZHH", "zh-HK zH-HanT-hK yue yue-Hant"),
    ("ZHT", "zh-tw zh-Hant"),
    (
        "ABC",
        "abc-x-hbot-41424320 asdf-asdf-wer-x-hbotabc-zxc asdf-asdf-wer-x-hbotabc asdf-asdf-wer-x-hbot-41424320-zxc asdf-asdf-wer-x-hbot-41424320 fa-x-hbotabc-hbot-41686121-zxc fa-ir-x-hbotabc-hbot-41686121-zxc zh-x-hbotabc-hbot-41686121-zxc zh-cn-x-hbotabc-hbot-41686121-zxc zh-xy-x-hbotabc-hbot-41686121-zxc xyz-xy-x-hbotabc-hbot-41686121-zxc",
    ),
    (
        "ABCD",
        "x-hbot-41424344 asdf-asdf-wer-x-hbotabcd asdf-asdf-wer-x-hbot-41424344",
    ),
    (
        "",
        "asdf-asdf-wer-x-hbot asdf-asdf-wer-x-hbot-zxc asdf-asdf-wer-x-hbot-zxc-414243 asdf-asdf-wer-x-hbot-414243 asdf-asdf-wer-x-hbot-4142432 xy x-hbot x-hbot- x-hbot-1 x-hbot-1a x-hbot-1a2b3c4x far",
    ),
    ("XYZ", "xyz xyz-qw"),
    (
        "IPPH",
        "-fonipa en-fonipa en-fonipax-fonipa rm-CH-fonipa-sursilv-x-foobar und-fonipa zh-fonipa",
    ),
    ("APPH", "en-fonnapa chr-fonnapa und-fonnapa"),
    ("KGE", "ka-Geok und-Geok"),
    ("IRT", "ga-Latg ghc"),
    ("MOL", "ro-MD"),
    ("PGR", "el-polyton el-CY-polyton"),
    ("SYRE", "aii-Syre de-Syre syr-Syre und-Syre"),
    ("SYRJ", "aii-Syrj de-Syrj syr-Syrj und-Syrj"),
    ("SYRN", "aii-Syrn de-Syrn syr-Syrn und-Syrn"),
    (
        "Aha!",
        "fa-x-hbot-41686121-hbotabc-zxc fa-ir-x-hbot-41686121-hbotabc-zxc zh-x-hbot-41686121-hbotabc-zxc zh-cn-x-hbot-41686121-hbotabc-zxc zh-xy-x-hbot-41686121-hbotabc-zxc xyz-xy-x-hbot-41686121-hbotabc-zxc",
    ),
    ("2lon", "x-hbot-326c6f6e67"),
    ("JBO", "art-lojban"),
    ("KOK", "kok-gom"),
    ("LTZ", "i-lux"),
    ("MNG", "drh"),
    ("MOR", "ar-ary ar-ary-DZ"),
    ("NOR", "no-bok"),
    ("NYN", "no-nyn"),
    ("SQI", "als"),
    ("TRK", "tr@foo=bar"),
];

/// Tags with four letters each, one after another.
fn written(tags: TagList) -> String {
    let letters = tags.as_slice().iter().flat_map(|tag| tag.to_be_bytes());
    letters.map(char::from).collect()
}

fn tags_of(script: Option<Script>, language: &str) -> (String, String) {
    let language: Language = language.parse().unwrap();
    let tags = text_tags(script, Some(&language));
    (written(tags.scripts), written(tags.languages))
}

#[test]
fn languages_have_their_first_tags() {
    for (tag, languages) in FIRST_TAGS {
        for language in languages.split(' ') {
            let (_, found) = tags_of(None, language);
            let first = found.get(..4).unwrap_or_default();
            assert_eq!(first.trim_end(), *tag, "{language}");
        }
    }
}

#[test]
fn private_subtags_name_the_scripts_tag() {
    for (script, language, tags) in [
        (None, "en", ""),
        (Some(script::COPTIC), "en", "copt"),
        (None, "x-hbsc", ""),
        (Some(script::COPTIC), "x-hbsc", "copt"),
        (None, "x-hbsc-", ""),
        (None, "x-hbsc-1", ""),
        (None, "x-hbsc-1a", ""),
        (None, "x-hbsc-1a2b3c4x", ""),
        (None, "x-hbsc-326c6f6e67", "2lon"),
        (None, "x-hbscabc", "abc "),
        (None, "x-hbscdeva", "deva"),
        (None, "x-hbscdev2", "dev2"),
        (None, "x-hbscdev3", "dev3"),
        (None, "x-hbsc-64657633", "dev3"),
        (None, "x-hbotpap0-hbsccopt", "copt"),
        (None, "en-x-hbsc", ""),
        (Some(script::COPTIC), "en-x-hbsc", "copt"),
        (None, "en-x-hbscabc", "abc "),
        (None, "en-x-hbscdeva", "deva"),
        (None, "en-x-hbscdev2", "dev2"),
        (None, "en-x-hbscdev3", "dev3"),
        (None, "en-x-hbsc-64657633", "dev3"),
        (None, "en-x-hbotpap0-hbsccopt", "copt"),
    ] {
        assert_eq!(tags_of(script, language).0, tags, "{language}");
    }
}

#[test]
fn scripts_and_languages_have_all_their_tags() {
    for (script, language, scripts, languages) in [
        (None, "en", "", "ENG "),
        (None, "en-x-hbscdflt", "DFLT", "ENG "),
        (None, "en-x-hbotdflt", "", "dflt"),
        (Some(script::LATIN), "en", "latn", "ENG "),
        (None, "und-fonnapa", "", "APPH"),
        (None, "en-fonnapa", "", "APPH"),
        (None, "x-hbot1234-hbsc5678", "5678", "1234"),
        (None, "x-hbsc5678-hbot1234", "5678", "1234"),
        (Some(script::MALAYALAM), "ml", "mlm3mlm2mlym", "MAL MLR "),
        (Some(script::MYANMAR), "und", "mym2mymr", "UND "),
        (None, "xyz", "", "XYZ "),
        (None, "xy", "", ""),
        (None, "zh-mo", "", "ZHTMZHH "),
        (None, "kca", "", "KHK KHS KHV "),
    ] {
        let found = tags_of(script, language);
        assert_eq!(
            found,
            (scripts.to_owned(), languages.to_owned()),
            "{language}"
        );
    }
}

// (a text without a language has the tags of its script alone)
#[test]
fn no_language_has_no_tags() {
    let tags = text_tags(Some(script::DEVANAGARI), None);
    assert_eq!(written(tags.scripts), "dev3dev2deva");
    assert_eq!(written(tags.languages), "");
}

#[test]
fn tags_are_read_in_letters_of_either_kind() {
    for (text, tag) in [
        ("sr-Latn", "sr-latn"),
        ("SR_RS", "sr-rs"),
        ("sr_RS.UTF-8", "sr-rs"),
        ("tr@foo=bar", "tr"),
        ("-", "-"),
        ("de-1996", "de-1996"),
    ] {
        let language: Language = text.parse().unwrap();
        assert_eq!(language.as_str(), tag);
        assert_eq!(language.to_string(), tag);
        assert_eq!(format!("{language:?}"), format!("Language({tag:?})"));
        assert_eq!(tag.parse(), Ok(language));
    }
    assert_ne!("sr".parse::<Language>(), "sr-latn".parse());
}

#[test]
fn what_is_no_tag_is_refused() {
    for text in ["", ".", " sr", "@euro", "é"] {
        assert_eq!(
            text.parse::<Language>(),
            Err(LanguageError::Empty),
            "{text}"
        );
    }
    let longest = "a".repeat(63);
    assert_eq!(longest.parse::<Language>().unwrap().as_str(), longest);
    let longer = "a".repeat(64);
    assert_eq!(longer.parse::<Language>(), Err(LanguageError::TooLong));
    // (what stands behind the tag isn't counted)
    assert!(format!("{longest} {longer}").parse::<Language>().is_ok());
    let messages = [LanguageError::Empty, LanguageError::TooLong].map(|error| error.to_string());
    assert_eq!(
        messages,
        [
            "the language is empty",
            "the language has more than 63 characters"
        ]
    );
}

// (the search by halves needs it)
#[test]
fn the_languages_stand_in_order() {
    assert!(tags::LANGUAGES.is_sorted_by(|(one, _), (next, _)| one <= next));
}

/// What checks/languages has HarfBuzz say of many languages: lines of a language, the tags of its script and
/// its own, as `sr ; ; 53524220`.
#[test]
fn harfbuzz_has_the_same_tags() {
    let Some(path) = std::env::var_os("SENGADLIT_LANGUAGES") else {
        return;
    };
    let hexadecimal = |tags: TagList| -> String {
        let tags = tags.as_slice().iter();
        tags.map(|tag| format!("{tag:08x} ")).collect()
    };
    let lines = std::fs::read_to_string(path).unwrap();
    for line in lines.lines() {
        let (text, _) = line.split_once(" ; ").unwrap();
        let tags = text_tags(None, Some(&text.parse().unwrap()));
        let (scripts, languages) = (hexadecimal(tags.scripts), hexadecimal(tags.languages));
        assert_eq!(format!("{text} ; {scripts}; {languages}"), line);
    }
    std::println!("{} languages compared", lines.lines().count());
}
