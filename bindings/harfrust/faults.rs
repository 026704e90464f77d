//! What harfrust 0.12.0 does otherwise than the hooks, through its own interface: what it
//! gives as it is, and what it gives with the hooks. Where the comment doesn't say otherwise,
//! HarfBuzz 6.0.0 gives what the hooks do. Clusters are bytes.

use programs::fonts::{font, pref_without_ra, with, with_tracking, without};
use programs::{sengadlit, stock, text_of, Setting, Shaped};

const NOTO: &str = "truetype/noto";

/// Levels by number, and flags by bits.
const CHARACTERS: usize = 2;
const GRAPHEMES: usize = 3;
const DO_NOT_INSERT_DOTTED_CIRCLE: u32 = 0x10;
const NORMALIZE_ALWAYS: u32 = 0x100;

fn level(level: usize) -> Setting {
    Setting { level, ..Setting::default() }
}

/// The text as it is shaped by the crate as it is and with the hooks.
fn both(font: &[u8], code_points: &str, setting: Setting) -> [String; 2] {
    let text = text_of(code_points);
    [stock::told(font, &text, &setting), sengadlit::told(font, &text, &setting)]
}

/// The same with the glyphs' fields.
fn both_glyphs(font: &[u8], code_points: &str, setting: Setting) -> [Shaped; 2] {
    let text = text_of(code_points);
    [stock::shape_texts, sengadlit::shape_texts].map(|shape| shape(font, &[&text], &setting).remove(0))
}

fn noto(name: &str) -> Vec<u8> {
    font(&format!("{NOTO}/{name}-Regular.ttf"))
}

// ---- Faults of the nine files ----

/// Thai: three marks before SARA AM are copied over each other, so that MAI EK is lost and SARA I
/// drawn twice. The order isn't how Thai is typed (a vowel above takes no SARA AM), so a text of
/// daily use has it as a slip alone.
#[test]
fn thai_marks_are_copied_over_each_other() {
    let [stock, sengadlit] = both(&noto("NotoSansThai"), "0E14 0E34 0E48 0E33", Setting::default());
    assert_eq!(stock, "[uni0E14=0+616|uni0E4D=0+0|uni0E34=0@-29,236+0|uni0E34=0@-29,413+0|uni0E32=0+406]");
    assert_eq!(sengadlit, "[uni0E14=0+616|uni0E4D=0+0|uni0E34=0@-29,236+0|uni0E48.small=0@-29,177+0|uni0E32=0+406]");
}

/// Lao: the same.
#[test]
fn lao_marks_are_copied_over_each_other() {
    let [stock, sengadlit] = both(&noto("NotoSansLao"), "0E81 0EB4 0EC8 0EB3", Setting::default());
    assert_eq!(
        stock,
        "[koKai-lao=0+614|niggahita-lao=0@32,0+0|iVowel-lao=0@-92,278+0|iVowel-lao=0@-142,601+0|aaVowel-lao=0+324]"
    );
    assert_eq!(sengadlit, "[koKai-lao=0+614|niggahita-lao=0@32,0+0|iVowel-lao=0@-92,278+0|maiEk-lao.small=0@-142,278+0|aaVowel-lao=0+324]");
}

/// Thai and Lao: that NIKHAHIT continues a grapheme is set in a copy of the glyph. It shows in a
/// font with tracking, where it is tracked as a grapheme of its own (Noto Sans Lao with a table
/// `trak` added): daily text, in such a font.
#[test]
fn sara_am_is_tracked_twice() {
    let [stock, sengadlit] = both(&with_tracking(&noto("NotoSansLao")), "0E81 0EB3", Setting::default());
    assert_eq!(stock, "[koKai-lao=0+714|amVowel-lao=0+424]");
    assert_eq!(sengadlit, "[koKai-lao=0+714|amVowel-lao=0+324]");
}

/// Hebrew, in a font that places no marks by GPOS: YOD with PATAH is drawn as the ligature of two
/// YODs. Pointed text has YOD with PATAH daily; fonts without GPOS are old (DejaVu Sans without the
/// table).
#[test]
fn yod_with_patah_is_drawn_as_two_yods() {
    let font = without(&font("truetype/dejavu/DejaVuSans.ttf"), b"GPOS");
    let [stock, sengadlit] = both(&font, "05D9 05B7", Setting::default());
    assert_eq!(stock, "[uniFB1F=0+677]");
    assert_eq!(sengadlit, "[uni05B7=0@-426,0+0|uni05D9=0+458]");
}

/// Indic's marks past a byte: rustybuzz panics; harfrust gives what the hooks do.
#[test]
fn a_syllable_of_257_characters_is_shaped() {
    for number in [255, 256, 257, 400] {
        let [stock, sengadlit] = both(&noto("NotoSansDevanagari"), &format!("0915 0951*{number}"), Setting::default());
        assert!(stock == sengadlit && !sengadlit.starts_with("panic"), "{number}");
    }
}

/// Dotted circles: the fifteenth syllable behind a broken one gets none if it is broken too.
/// HarfBuzz 6.0.0 gives what harfrust does. No text of daily use has broken syllables.
#[test]
fn a_broken_syllable_gets_no_circle() {
    let circles = |shaped: &str| shaped.matches("uni25CC").count();
    let [stock, sengadlit] = both(&noto("NotoSansDevanagari"), "093E 0020*14 093E", Setting::default());
    assert_eq!((circles(&stock), circles(&sengadlit)), (1, 2));
}

/// Arabic's stretched marks: sums wrap, and panic where overflow is checked; the hooks refuse, and
/// nothing is stretched. HarfBuzz wraps. It takes a scale that no text has.
#[test]
fn sums_of_a_stretch_wrap() {
    let setting = Setting { scale: Some(65_536_000), ..Setting::default() };
    let [stock, sengadlit] = both_glyphs(&noto("NotoSansSyriac"), "070F 0710*60", setting);
    let moved = |shaped: &Shaped| shaped.glyphs().iter().filter(|glyph| glyph.offset.0 != 0).count();
    assert!(matches!(stock, Shaped::Panic(_)) || moved(&stock) > 0);
    assert!(!sengadlit.glyphs().is_empty() && moved(&sengadlit) == 0);
}

/// Indic's final reordering: where the base is past the last glyph, the one behind the syllable is
/// read, and what it is decides where a left matra goes. It takes a font that drops a glyph after
/// the initial reordering: here RA, so that its virama is a `pref` that didn't form. What is read
/// is the dropped RA, so that nothing panics; no font that is known does such a thing.
#[test]
fn the_glyph_behind_the_syllable_is_read() {
    let plain = without(&noto("NotoSansMalayalam"), b"GSUB");
    let alone = Setting { flags: DO_NOT_INSERT_DOTTED_CIRCLE, ..Setting::default() };
    let glyph = |code_point: &str| both_glyphs(&plain, code_point, alone)[0].glyphs()[0].number as u16;
    let (ka, virama, ra, e) = (glyph("0D15"), glyph("0D4D"), glyph("0D30"), glyph("0D46"));
    let font = with(&plain, b"GSUB", pref_without_ra(virama, ra, ka));
    let numbers = |shaped: &Shaped| shaped.glyphs().iter().map(|glyph| glyph.number as u16).collect::<Vec<_>>();
    let [stock, sengadlit] = both_glyphs(&font, "0D15 0D4D 0D30 0D46", Setting::default());
    assert_eq!(numbers(&stock), [e, ka, virama]);
    assert_eq!(numbers(&sengadlit), [ka, e, virama]);
}

// ---- Faults of other files ----

/// The range of general categories has one bit more, of Control: what follows a TAB or a line feed
/// isn't at the start of a word, so a left matra isn't drawn in its initial form. Daily text, if
/// lines or columns are shaped in one piece.
#[test]
fn behind_a_tab_a_bengali_word_loses_its_initial_form() {
    for control in ["0009", "000A"] {
        let [stock, sengadlit] = both(&noto("NotoSansBengali"), &format!("{control} 0995 09C7"), Setting::default());
        assert_eq!(stock, "[.notdef=0+600|evowelsignbeng=1+346#1|kabeng=1+807#1]");
        assert_eq!(sengadlit, "[.notdef=0+600|evowelsigninibeng=1+346|kabeng=1+807]");
    }
}

/// The same behind a dotted circle, which has no category.
#[test]
fn behind_a_dotted_circle_a_bengali_word_loses_its_initial_form() {
    let [stock, sengadlit] = both(&noto("NotoSansBengali"), "09BF 09B2 09C7", Setting::default());
    assert_eq!(stock, "[ivowelsignbeng=0+266|uni25CC=0+510|evowelsignbeng=3+346#1|labeng=3+731#1]");
    assert_eq!(sengadlit, "[ivowelsignbeng=0+266|uni25CC=0+510|evowelsigninibeng=3+346|labeng=3+731]");
}

/// At level Characters a merge flags its stretch, and of the least cluster only the ends of a
/// stretch are looked at, so that the glyph of the least cluster is flagged: daily text, at a level
/// that few callers request.
#[test]
fn the_least_cluster_is_flagged() {
    let [stock, sengadlit] = both(&noto("NotoSansDevanagari"), "0938 094D 0925 093F", level(CHARACTERS));
    assert_eq!(stock, "[ivowelsign00deva=9+259#1|sathadeva=0+1022#1]");
    assert_eq!(sengadlit, "[ivowelsign00deva=9+259#1|sathadeva=0+1022]");
}

/// No flag is set on a stretch of more than 255 glyphs, so that places within one syllable are
/// called safe to break. HarfBuzz 12.3.2 does as harfrust does.
#[test]
fn a_long_stretch_is_called_safe_to_break() {
    let [stock, sengadlit] = both_glyphs(&noto("NotoSansDevanagari"), "0915 094D 0915 093F 0951*300", level(CHARACTERS));
    let flagged = |shaped: &Shaped| shaped.glyphs().iter().filter(|glyph| glyph.flags & 1 != 0).count();
    assert_eq!((flagged(&stock), flagged(&sengadlit)), (257, 302));
}

// ---- What rustybuzz 0.20.1, which the hooks follow, has otherwise than HarfBuzz ----

/// Indic looks for its base among all consonants, medial ones (CM) too, as HarfBuzz (6.0.0 and
/// 12.3.2) does. 0.20.1 doesn't; the hooks' plans choose it.
#[test]
fn the_base_is_looked_for_among_medials() {
    let serif = font("truetype/freefont/FreeSerif.ttf");
    let [stock, sengadlit] = both(&serif, "0A30 0A4D 0A30 0A75", Setting::default());
    assert_eq!(sengadlit, "[gur_ra.blwf=0+0|ra_gur=6+490#1|yakashsign_gur=6@-12,0+0#1]");
    assert_eq!(stock, sengadlit);
    let [stock, sengadlit] = both(&noto("NotoSansGurmukhi"), "0A15 0A75 0A48 0A3F", level(1));
    assert_eq!(sengadlit, "[imatraguru=0+259|kaguru=0+622|yakashguru=0@36,0+0|aimatraguru=6@-20,0+0#1]");
    assert_eq!(stock, sengadlit);
}

/// Indic's questions to the font leave out rules with context in fonts of the newer specification, as
/// HarfBuzz's do (12.3.2); the crate as it is leaves them out in those of the older one. FreeSerif has
/// a form of GA below, for a rule with context alone.
#[test]
fn questions_leave_contexts_out_in_newer_fonts() {
    let [stock, sengadlit] = both(&font("truetype/freefont/FreeSerif.ttf"), "0B19 0B4D 0B17", Setting::default());
    assert_eq!(stock, "[ouno_ori=0+828|ori_gophola=0@-26,0+0]");
    assert_eq!(sengadlit, "[ouno_ori=0+828|holonto=0@-67,0+0|go_ori=6+768#1]");
}

/// The hooks have three cluster levels, and for Thai, Lao and Hangul level Graphemes is MonotoneGraphemes: marks that Thai
/// moves and jamo that are composed are merged, with what has their cluster.
#[test]
fn level_graphemes_merges() {
    let [stock, sengadlit] = both(&noto("NotoSansThai"), "0E48 0E33", level(GRAPHEMES));
    assert_eq!(stock, "[uni0E4D=3+0#1|uni0E48.small=0@-29,0+0|uni0E32=3+406]");
    assert_eq!(sengadlit, "[uni0E4D=0+0|uni0E48.small=0@-29,0+0|uni0E32=0+406]");
    let [stock, sengadlit] = both(&font("truetype/nanum/NanumGothic.ttf"), "1104 116D 200D", level(GRAPHEMES));
    assert_eq!(stock, "[gid11409=0+940|gid1=3+0#1]");
    assert_eq!(sengadlit, "[gid11409=0+940|gid1=0+0]");
}

/// Hangul's tone marks are placed by the fallback in both, as harfrust's data says; 0.20.1's and
/// HarfBuzz's say not to.
#[test]
fn a_hangul_tone_without_advance() {
    let [stock, sengadlit] = both(&font("truetype/nanum/NanumGothic.ttf"), "0020 302E", Setting::default());
    assert_eq!(stock, "[gid1=0+280|gid0=0@-610,0+0|gid8639=0@-609,0+0]");
    assert_eq!(sengadlit, stock);
}

// ---- Before the lookups ----

/// FREE VARIATION SELECTOR FOUR is default ignorable in Unicode, as the other three are; harfrust
/// draws it, if only as a box. HarfBuzz 6.0.0 does as harfrust does.
#[test]
fn the_fourth_selector_of_mongolian_is_drawn() {
    let [stock, sengadlit] = both(&noto("NotoSansMongolian"), "1820 180F", Setting::default());
    assert_eq!(stock, "[u1820=0+929|.notdef=0+600]");
    assert_eq!(sengadlit, "[u1820=0+929|space=0+0]");
}

/// A letter that comes apart in a text without marks stays apart in both, and not in a longer text;
/// with the flag NORMALIZE_ALWAYS it is one glyph in each text.
#[test]
fn a_letter_alone_stays_apart() {
    let glyphs = |code_points, flags| {
        let setting = Setting { flags, ..Setting::default() };
        both_glyphs(&noto("NotoSansMyanmar"), code_points, setting).map(|shaped| shaped.glyphs().len())
    };
    assert_eq!(glyphs("1026", 0), [2, 2]);
    assert_eq!(glyphs("1026", NORMALIZE_ALWAYS), [2, 1]);
    let [longer, alone] = [glyphs("1026 1000 1036", 0), glyphs("1000 1036", 0)];
    assert_eq!((longer[0] - alone[0], longer[1] - alone[1]), (1, 1));
}

/// At level MonotoneCharacters jamo that are composed merge, and not with the hooks, which are called
/// at level Characters there: otherwise tones would merge. It shows where clusters run backward, in a
/// text that is turned, as some made-up texts are.
#[test]
fn composed_jamo_of_a_turned_text_merge() {
    let setting = Setting { level: 1, made_up: Some(0), ..Setting::default() };
    let nanum = font("truetype/nanum/NanumGothic.ttf");
    let syllables = (0xAC00_u32..0xAC00 + 28 * 40).step_by(28);
    let both = syllables.map(|syllable| both_glyphs(&nanum, &format!("11A8 {syllable:X}"), setting));
    let differ: Vec<_> = both.filter(|[stock, sengadlit]| stock != sengadlit).collect();
    let clusters = |shaped: &Shaped| shaped.glyphs().iter().map(|glyph| glyph.cluster).collect::<Vec<_>>();
    assert!(!differ.is_empty());
    assert!(differ.iter().all(|[stock, sengadlit]| clusters(stock) == [0] && clusters(sengadlit) == [3]));
}

/// Glyph numbers that don't fit 16 bits are those of the font, with hyphens and spaces that it lacks.
#[test]
fn numbers_above_65535_stay() {
    let latin = noto("NotoSans");
    let setting = Setting { made_up: Some(70_000), ..Setting::default() };
    let mut large = 0;
    for first in 'A'..='z' {
        for rest in ["e\u{301}\u{323}", "\u{2011}\u{2003}", "\u{1EAD}\u{A0}-", "\u{E0}\u{327}x"] {
            let text = format!("{first}{rest}");
            let [stock, sengadlit] =
                [stock::shape_texts, sengadlit::shape_texts].map(|shape| shape(&latin, &[&text], &setting).remove(0));
            assert!(stock == sengadlit, "{text:?}: {stock} {sengadlit}");
            large += sengadlit.glyphs().iter().filter(|glyph| glyph.number > 70_000).count();
        }
    }
    assert!(large > 500, "{large}");
}
