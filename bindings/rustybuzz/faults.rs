//! What rustybuzz 0.18.0 does otherwise than the hooks, through its own interface: what it
//! gives as it is, and what it gives with the hooks. Where the comment doesn't say otherwise,
//! HarfBuzz 6.0.0 gives what the hooks do. Clusters are bytes.

use programs::fonts::{font, pref_without_ra, with, without};
use programs::{sengadlit, stock, text_of, Setting, Shaped};

const NOTO: &str = "truetype/noto";

/// A level by number, and flags by bits.
const CHARACTERS: usize = 2;
const PRODUCE_UNSAFE_TO_CONCAT: u32 = 0x40;
const DO_NOT_INSERT_DOTTED_CIRCLE: u32 = 0x10;

/// The text as it is shaped by the crate as it is and with the hooks.
fn both(font: &[u8], code_points: &str, setting: Setting) -> [String; 2] {
    let text = text_of(code_points);
    [stock::told(font, &text, &setting), sengadlit::told(font, &text, &setting)]
}

/// The same with the glyphs' fields.
fn both_glyphs(font: &[u8], code_points: &str, setting: Setting) -> [Shaped; 2] {
    let text = text_of(code_points);
    [stock::shape_texts, sengadlit::shape_texts].map(|shape| shape(font, &[&text], &setting).remove(0))
}

fn noto(name: &str) -> Vec<u8> {
    font(&format!("{NOTO}/{name}-Regular.ttf"))
}

// ---- Faults of the nine files ----

/// Thai: three marks before SARA AM are copied over each other, so that MAI EK is lost and SARA I
/// drawn twice. The order isn't how Thai is typed (a vowel above takes no SARA AM), so a text of
/// daily use has it as a slip alone.
#[test]
fn thai_marks_are_copied_over_each_other() {
    let [stock, sengadlit] = both(&noto("NotoSansThai"), "0E14 0E34 0E48 0E33", Setting::default());
    assert_eq!(stock, "[uni0E14=0+616|uni0E4D=0+0|uni0E34=0@-29,236+0|uni0E34=0@-29,413+0|uni0E32=0+406]");
    assert_eq!(sengadlit, "[uni0E14=0+616|uni0E4D=0+0|uni0E34=0@-29,236+0|uni0E48.small=0@-29,177+0|uni0E32=0+406]");
}

/// Lao: the same.
#[test]
fn lao_marks_are_copied_over_each_other() {
    let [stock, sengadlit] = both(&noto("NotoSansLao"), "0E81 0EB4 0EC8 0EB3", Setting::default());
    assert_eq!(
        stock,
        "[koKai-lao=0+614|niggahita-lao=0@32,0+0|iVowel-lao=0@-92,278+0|iVowel-lao=0@-142,601+0|aaVowel-lao=0+324]"
    );
    assert_eq!(sengadlit, "[koKai-lao=0+614|niggahita-lao=0@32,0+0|iVowel-lao=0@-92,278+0|maiEk-lao.small=0@-142,278+0|aaVowel-lao=0+324]");
}

/// Hebrew, in a font that places no marks by GPOS: YOD with PATAH is drawn as the ligature of two
/// YODs. Pointed text has YOD with PATAH daily; fonts without GPOS are old (DejaVu Sans without the
/// table).
#[test]
fn yod_with_patah_is_drawn_as_two_yods() {
    let font = without(&font("truetype/dejavu/DejaVuSans.ttf"), b"GPOS");
    let [stock, sengadlit] = both(&font, "05D9 05B7", Setting::default());
    assert_eq!(stock, "[uniFB1F=0+677]");
    assert_eq!(sengadlit, "[uni05B7=0@-426,0+0|uni05D9=0+458]");
}

/// Indic: a place in a syllable is kept in a byte, and one of 257 characters panics. No text of
/// daily use has such a syllable, but what is shaped may come from anybody.
#[test]
fn a_syllable_of_257_characters_panics() {
    let [stock, sengadlit] = both_glyphs(&noto("NotoSansDevanagari"), "0915 0951*256", Setting::default());
    assert!(matches!(stock, Shaped::Panic(_)));
    assert_eq!(sengadlit.glyphs().len(), 257);
}

/// Dotted circles: the fifteenth syllable behind a broken one gets none if it is broken too.
/// HarfBuzz 6.0.0 gives what rustybuzz does. No text of daily use has broken syllables.
#[test]
fn a_broken_syllable_gets_no_circle() {
    let circles = |shaped: &str| shaped.matches("uni25CC").count();
    let [stock, sengadlit] = both(&noto("NotoSansDevanagari"), "093E 0020*14 093E", Setting::default());
    assert_eq!((circles(&stock), circles(&sengadlit)), (1, 2));
}

/// Indic's final reordering: where the base is past the last glyph, the one behind the syllable is
/// read, and what it is decides where a left matra goes. It takes a font that drops a glyph after
/// the initial reordering: here RA, so that its virama is a `pref` that didn't form. What is read
/// is the dropped RA, so that nothing panics; no font that is known does such a thing.
#[test]
fn the_glyph_behind_the_syllable_is_read() {
    let plain = without(&noto("NotoSansMalayalam"), b"GSUB");
    let alone = Setting { flags: DO_NOT_INSERT_DOTTED_CIRCLE, ..Setting::default() };
    let glyph = |code_point: &str| both_glyphs(&plain, code_point, alone)[0].glyphs()[0].number as u16;
    let (ka, virama, ra, e) = (glyph("0D15"), glyph("0D4D"), glyph("0D30"), glyph("0D46"));
    let font = with(&plain, b"GSUB", pref_without_ra(virama, ra, ka));
    let numbers = |shaped: &Shaped| shaped.glyphs().iter().map(|glyph| glyph.number as u16).collect::<Vec<_>>();
    let [stock, sengadlit] = both_glyphs(&font, "0D15 0D4D 0D30 0D46", Setting::default());
    assert_eq!(numbers(&stock), [e, ka, virama]);
    assert_eq!(numbers(&sengadlit), [ka, e, virama]);
}

/// Indic looks for its base among consonants that aren't medial (CM), as 0.20.1 does, so that a
/// medial one is drawn below another. HarfBuzz (6.0.0 and 12.3.2) and HarfRust take all consonants;
/// the hooks do so by a choice of the plan.
#[test]
fn the_base_is_not_looked_for_among_medials() {
    let serif = font("truetype/freefont/FreeSerif.ttf");
    let [stock, sengadlit] = both(&serif, "0A30 0A4D 0A30 0A75", Setting::default());
    assert_eq!(stock, "[ra_gur=0+490|gur_ra.blwf=0@-122,0+0|yakashsign_gur=0@-12,0+0]");
    assert_eq!(sengadlit, "[gur_ra.blwf=0+0|ra_gur=6+490#1|yakashsign_gur=6@-12,0+0#1]");
}

/// Indic's questions to the font leave out rules with context in fonts of the newer specification, as
/// HarfBuzz's do (12.3.2), by a choice of the plan; the crate as it is leaves them out in those of the
/// older one.
#[test]
fn questions_leave_contexts_out_in_newer_fonts() {
    let [stock, sengadlit] = both(&font("truetype/freefont/FreeSerif.ttf"), "0B19 0B4D 0B17", Setting::default());
    assert_eq!(stock, "[ouno_ori=0+828|ori_gophola=0@-26,0+0]");
    assert_eq!(sengadlit, "[ouno_ori=0+828|holonto=0@-67,0+0|go_ori=6+768#1]");
}

// ---- Faults of other files ----

/// The range of general categories has one bit more, of Control, which a dotted circle has for want
/// of another: what follows one isn't at the start of a word, so a left matra isn't drawn in its
/// initial form. (Behind a TAB rustybuzz is right.)
#[test]
fn behind_a_dotted_circle_a_bengali_word_loses_its_initial_form() {
    let [stock, sengadlit] = both(&noto("NotoSansBengali"), "09BF 09B2 09C7", Setting::default());
    assert_eq!(stock, "[ivowelsignbeng=0+266|uni25CC=0+510|evowelsignbeng=3+346#1|labeng=3+731#1]");
    assert_eq!(sengadlit, "[ivowelsignbeng=0+266|uni25CC=0+510|evowelsigninibeng=3+346|labeng=3+731]");
}

/// A merge isn't extended to the front over what has the cluster of its first glyph, so that one
/// cluster comes twice, with another between. It takes broken syllables.
#[test]
fn a_merge_is_not_extended_to_the_front() {
    let setting = Setting { flags: DO_NOT_INSERT_DOTTED_CIRCLE, ..Setting::default() };
    let [stock, sengadlit] = both_glyphs(&noto("NotoSansTamil"), "0BCB 200C 0BCB", setting);
    let clusters = |shaped: &Shaped| shaped.glyphs().iter().map(|glyph| glyph.cluster).collect::<Vec<_>>();
    assert_eq!(clusters(&stock), [0, 3, 0, 0, 0]);
    assert_eq!(clusters(&sengadlit), [0, 0, 0, 0, 0]);
}

/// At level Characters a merge flags its stretch, and of the least cluster only the ends of a
/// stretch are looked at, so that the glyph of the least cluster is flagged: daily text, at a level
/// that few callers request.
#[test]
fn the_least_cluster_is_flagged() {
    let setting = Setting { level: CHARACTERS, ..Setting::default() };
    let [stock, sengadlit] = both(&noto("NotoSansDevanagari"), "0938 094D 0925 093F", setting);
    assert_eq!(stock, "[ivowelsign00deva=9+259#1|sathadeva=0+1022#1]");
    assert_eq!(sengadlit, "[ivowelsign00deva=9+259#1|sathadeva=0+1022]");
}

/// The buffer's flag for tatweel has the bit of the one for concatenation. A caller that requests
/// the latter gets both, and joined letters are flagged safe to insert tatweel (4) in place of
/// unsafe to break (HarfBuzz: 3). It isn't a matter of the hooks, and is the same with them. Daily
/// text, where a line breaker requests concatenation.
#[test]
fn tatweel_is_asked_for_with_concatenation() {
    let setting = Setting { flags: PRODUCE_UNSAFE_TO_CONCAT, ..Setting::default() };
    let [stock, sengadlit] = both(&noto("NotoNaskhArabic"), "0628 0628", setting);
    assert_eq!(stock, "[uniFE90=2+817#4|uniFE91=0+275#2]");
    assert_eq!(sengadlit, stock);
}
