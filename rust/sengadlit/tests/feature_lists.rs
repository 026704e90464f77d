//! The feature lists, each whole. A row is a tag with its flags and its value, or a pause by its name.

use sengadlit::alloc::Global;
use sengadlit::buffer::{Script, Tag};
use sengadlit::font::FeaturesOnly;
use sengadlit::plan::{Planner, Request};
use sengadlit::shaper::Shaper;

/// Arabic, for a font without `rclt`.
const ARABIC: [&str; 26] = [
    "stch 1 1",
    "|RecordStch",
    "ccmp 9 1",
    "locl 9 1",
    "|",
    "isol 10 1",
    "|",
    "fina 10 1",
    "|",
    "fin2 8 1",
    "|",
    "fin3 8 1",
    "|",
    "medi 10 1",
    "|",
    "med2 8 1",
    "|",
    "init 10 1",
    "|",
    "rlig 11 1",
    "|ArabicFallbackShape",
    "calt 9 1",
    "|",
    "liga 9 1",
    "clig 9 1",
    "mset 9 1",
];

/// Arabic, for a font with `rclt`.
const ARABIC_RCLT: [&str; 25] = [
    "stch 1 1",
    "|RecordStch",
    "ccmp 9 1",
    "locl 9 1",
    "|",
    "isol 10 1",
    "|",
    "fina 10 1",
    "|",
    "fin2 8 1",
    "|",
    "fin3 8 1",
    "|",
    "medi 10 1",
    "|",
    "med2 8 1",
    "|",
    "init 10 1",
    "|",
    "rlig 11 1",
    "|ArabicFallbackShape",
    "calt 9 1",
    "liga 9 1",
    "clig 9 1",
    "mset 9 1",
];

/// Syriac, for a font with `rclt`.
const SYRIAC_RCLT: [&str; 24] = [
    "stch 1 1",
    "|RecordStch",
    "ccmp 9 1",
    "locl 9 1",
    "|",
    "isol 8 1",
    "|",
    "fina 8 1",
    "|",
    "fin2 8 1",
    "|",
    "fin3 8 1",
    "|",
    "medi 8 1",
    "|",
    "med2 8 1",
    "|",
    "init 8 1",
    "|",
    "rlig 11 1",
    "calt 9 1",
    "liga 9 1",
    "clig 9 1",
    "mset 9 1",
];

/// Hangul.
const HANGUL: [&str; 3] = ["ljmo 0 1", "vjmo 0 1", "tjmo 0 1"];

/// Indic.
const INDIC: [&str; 33] = [
    "|SetupSyllablesIndic",
    "locl 65 1",
    "ccmp 65 1",
    "|InitialReordering",
    "nukt 77 1",
    "|",
    "akhn 77 1",
    "|",
    "rphf 76 1",
    "|",
    "rkrf 77 1",
    "|",
    "pref 76 1",
    "|",
    "blwf 76 1",
    "|",
    "abvf 76 1",
    "|",
    "half 76 1",
    "|",
    "pstf 76 1",
    "|",
    "vatu 77 1",
    "|",
    "cjct 77 1",
    "|",
    "|FinalReordering",
    "init 76 1",
    "pres 77 1",
    "abvs 77 1",
    "blws 77 1",
    "psts 77 1",
    "haln 77 1",
];

/// Khmer.
const KHMER: [&str; 14] = [
    "|SetupSyllablesKhmer",
    "|ReorderKhmer",
    "locl 65 1",
    "ccmp 65 1",
    "pref 76 1",
    "blwf 76 1",
    "abvf 76 1",
    "pstf 76 1",
    "cfar 76 1",
    "|SyllabicClearVar",
    "pres 13 1",
    "abvs 13 1",
    "blws 13 1",
    "psts 13 1",
];

/// Myanmar.
const MYANMAR: [&str; 17] = [
    "|SetupSyllablesMyanmar",
    "locl 65 1",
    "ccmp 65 1",
    "|ReorderMyanmar",
    "rphf 73 1",
    "|",
    "pref 73 1",
    "|",
    "blwf 73 1",
    "|",
    "pstf 73 1",
    "|",
    "|SyllabicClearVar",
    "pres 9 1",
    "abvs 9 1",
    "blws 9 1",
    "psts 9 1",
];

/// The universal shaper.
const UNIVERSAL: [&str; 30] = [
    "|SetupSyllablesUse",
    "locl 65 1",
    "ccmp 65 1",
    "nukt 65 1",
    "akhn 73 1",
    "|ClearSubstitutionFlags",
    "rphf 72 1",
    "|RecordRphf",
    "|ClearSubstitutionFlags",
    "pref 73 1",
    "|RecordPref",
    "rkrf 73 1",
    "abvf 73 1",
    "blwf 73 1",
    "half 73 1",
    "pstf 73 1",
    "vatu 73 1",
    "cjct 73 1",
    "|ReorderUse",
    "|SyllabicClearVar",
    "isol 0 1",
    "init 0 1",
    "medi 0 1",
    "fina 0 1",
    "|",
    "abvs 9 1",
    "blws 9 1",
    "haln 9 1",
    "pres 9 1",
    "psts 9 1",
];

/// The row of a request.
fn row(request: &Request) -> String {
    match request {
        Request::Feature(Tag(tag), flags, value) => {
            format!(
                "{} {flags} {value}",
                tag.map(char::from).iter().collect::<String>()
            )
        }
        Request::Pause(Some(pause)) => format!("|{pause:?}"),
        Request::Pause(None) => String::from("|"),
    }
}

/// What a shaper requests for a script, of a font that has `rclt` or no feature.
fn requested(shaper: Shaper, script: &[u8; 4], rclt: bool) -> Vec<String> {
    let font = FeaturesOnly(|tag: Tag| rclt && tag == Tag(*b"rclt"));
    let mut planner = Planner::new(Global, Some(Script(*script)));
    shaper.collect_features(&font, &mut planner).unwrap();
    planner.requests().iter().map(row).collect()
}

/// What it requests behind the lists of all shapers.
fn overridden(shaper: Shaper) -> Vec<String> {
    let mut planner = Planner::new(Global, None);
    shaper.override_features(&mut planner).unwrap();
    planner.requests().iter().map(row).collect()
}

#[test]
fn shapers_collect_their_lists() {
    assert_eq!(requested(Shaper::Arabic, b"Arab", false), ARABIC);
    assert_eq!(requested(Shaper::Arabic, b"Arab", true), ARABIC_RCLT);
    assert_eq!(requested(Shaper::Arabic, b"Syrc", true), SYRIAC_RCLT);
    assert_eq!(requested(Shaper::Hangul, b"Hang", false), HANGUL);
    assert_eq!(requested(Shaper::Indic, b"Deva", false), INDIC);
    assert_eq!(requested(Shaper::Khmer, b"Khmr", false), KHMER);
    assert_eq!(requested(Shaper::Myanmar, b"Mymr", false), MYANMAR);
    assert_eq!(requested(Shaper::Universal, b"Tibt", false), UNIVERSAL);
}

#[test]
fn shapers_override_features() {
    assert_eq!(overridden(Shaper::Hangul), ["calt 1 0"]);
    assert_eq!(overridden(Shaper::Indic), ["liga 1 0", "|SyllabicClearVar"]);
    assert_eq!(overridden(Shaper::Khmer), ["clig 1 1", "liga 1 0"]);
}
