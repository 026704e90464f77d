//! The program with the repository's own font. What glyphs are expected is hb-shape's answer, of
//! fonts/words.txt or by the option that is tested.

mod common;

use common::{Done, run, run_with_input, sample_font};

/// What is printed of a text in the sample font with these options.
fn shaped(options: &[&str], text: &str) -> String {
    let font = sample_font();
    let mut arguments = vec![font];
    arguments.extend(options);
    arguments.extend(["--text", text]);
    run(&arguments).success()
}

#[test]
fn a_font_and_a_text() {
    let font = sample_font();
    let done = run(&[font, "Tofi"]);
    assert_eq!(done.success(), "[T=0+490|o=1+560|fi=2+520]\n");
    let by_options = run(&["--text=Tofi", "--font-file", font]);
    assert_eq!(by_options.success(), "[T=0+490|o=1+560|fi=2+520]\n");
    assert_eq!(run(&["--", font, "To"]).success(), "[T=0+490|o=1+560]\n");
}

#[test]
fn words_of_the_sample_font() {
    let words = std::fs::read_to_string(common::top().join("fonts/words.txt")).unwrap();
    let lines: Vec<_> = words
        .lines()
        .filter(|line| !line.starts_with('#'))
        .filter_map(|line| line.split_once(';'))
        .collect();
    assert!(lines.len() > 40);
    let input: String = lines.iter().map(|(word, _)| format!("{word}\n")).collect();
    let expected: String = lines
        .iter()
        .map(|(_, glyphs)| format!("{glyphs}\n"))
        .collect();
    let font = sample_font();
    let done = run_with_input(&[font, "--utf8-clusters"], input.as_bytes());
    assert_eq!(done.success(), expected);
}

#[test]
fn syntax_of_the_output() {
    assert_eq!(shaped(&["--no-glyph-names"], "To").matches('=').count(), 2);
    assert_eq!(shaped(&["--no-positions"], "To"), "[T=0|o=1]\n");
    assert_eq!(shaped(&["--no-clusters"], "To"), "[T+490|o+560]\n");
    assert_eq!(shaped(&["--no-advances"], "To"), "[T=0|o=1@490,0]\n");
    assert_eq!(shaped(&["--ned"], "To"), "[T|o@490,0]\n");
    assert_eq!(shaped(&["--show-flags"], "To"), "[T=0+490|o=1+560#1]\n");
    assert_eq!(
        shaped(&["-O", "json"], "o"),
        "[{\"g\":\"o\",\"cl\":0,\"dx\":0,\"dy\":0,\"ax\":560,\"ay\":0}]\n"
    );
    assert_eq!(shaped(&["-O", ""], "o"), "\n");
    assert_eq!(
        shaped(&["--show-text", "--show-line-num"], "o\nT"),
        "1: (o)\n1: [o=0+560]\n2: (T)\n2: [T=0+580]\n"
    );
    assert_eq!(
        shaped(&["--verbose"], "é").lines().nth(1),
        Some("1: <U+00E9=0>")
    );
    // (hb-shape's -v is --verbose and --ned)
    assert_eq!(shaped(&["-v"], "o"), "1: (o)\n1: <U+006F=0>\n1: [o]\n");
}

#[test]
fn features_direction_script_language() {
    assert_eq!(shaped(&["--features=-liga"], "fi"), "[f=0+340|i=1+220]\n");
    assert_eq!(
        shaped(&["--features", "\"-kern, -liga\""], "To"),
        "[T=0+580|o=1+560]\n"
    );
    let backward = shaped(&["--direction=rtl", "--script=latn"], "ao");
    assert_eq!(backward, "[o=1+560|a=0+560]\n");
    assert_eq!(shaped(&["--language=en-GB"], "o"), "[o=0+560]\n");
    assert_eq!(shaped(&["--language", ""], "o"), "[o=0+560]\n");
}

#[test]
fn characters_by_numbers_and_contexts() {
    let font = sample_font();
    let by_numbers = run(&[font, "-u", "U+0041,0056"]).success();
    assert_eq!(by_numbers, shaped(&[], "AV"));
    // a letter of Arabic before the text, and one behind
    let alone = run(&[font, "--unicodes=628", "--no-positions"]).success();
    assert_eq!(alone, "[beh-ar=0]\n");
    let joined = [
        "--unicodes-before=628",
        "--text-after=\u{628}",
        "--no-positions",
    ];
    let joined = run(&[&[font, "-u628"], &joined[..]].concat()).success();
    assert_eq!(joined, "[beh-ar.medi=0]\n");
}

#[test]
fn lines_and_paragraphs() {
    let font = sample_font();
    let done = run_with_input(&[font, "--no-positions"], b"o\n\na");
    assert_eq!(done.success(), "[o=0]\n\n[a=0]\n");
    let done = run_with_input(&[font, "--no-positions", "--single-par"], b"o\na");
    assert_eq!(done.success().matches('|').count(), 2);
    let done = run_with_input(&[font, "--text-file=-", "--show-unicode"], b"\xFFo");
    assert!(done.success().starts_with("<U+FFFD=0|U+006F=1>\n"));
    assert_eq!(run_with_input(&[font], b"").success(), "");
    assert_eq!(shaped(&[], ""), "");
}

#[test]
fn sizes_and_boxes() {
    let upem = shaped(&["--font-size=upem"], "To");
    assert_eq!(upem, shaped(&[], "To"));
    assert_eq!(
        shaped(&["--font-size=100", "--font-ptem=9.5"], "To"),
        "[T=0+49|o=1+56]\n"
    );
    assert_eq!(shaped(&["--font-size=100,5"], "To"), "[T=0+49|o=1+56]\n");
    let boxes = shaped(&["--show-extents", "--no-positions"], "a ");
    assert_eq!(boxes.matches('<').count(), 2);
    assert!(boxes.ends_with("<0,0,0,0>]\n"));
}

#[test]
fn ignorable_and_missing_characters() {
    let zwnj = "A\u{200C}A";
    let options = ["--no-positions", "--no-clusters"];
    let with = |option: &str| shaped(&[&options[..], &[option]].concat(), zwnj);
    assert_eq!(with("--bot"), "[A|space|A]\n");
    assert_eq!(with("--remove-default-ignorables"), "[A|A]\n");
    assert_eq!(with("--preserve-default-ignorables"), "[A|.notdef|A]\n");
    let font = sample_font();
    let invisible = run(&[
        font,
        zwnj,
        "--no-glyph-names",
        "--invisible-glyph=1",
        "--ned",
    ]);
    assert_eq!(invisible.success().matches("|1@").count(), 1);
    let missing = run(&[font, "\u{4E2D}", "--no-glyph-names", "--not-found-glyph=7"]);
    assert!(missing.success().starts_with("[7=0+"));
    let selector = ["A\u{FE0F}", "--not-found-variation-selector-glyph=70000"];
    let selector = run(&[&[font], &selector[..]].concat()).success();
    assert_eq!(selector, "[A=0+640|gid70000=0+0]\n");
}

#[test]
fn cluster_levels() {
    let text = "a\u{308}\u{300}o";
    let level = |level: &str| shaped(&["--no-positions", "--cluster-level", level], text);
    assert_eq!(level("0"), "[a=0|dieresiscomb=0|gravecomb=0|o=3]\n");
    for separate in ["1", "2", "3"] {
        assert_eq!(level(separate), "[a=0|dieresiscomb=1|gravecomb=2|o=3]\n");
    }
}

#[test]
fn lookups_are_traced() {
    let font = sample_font();
    let Done { output, error, .. } = run(&[font, "fi", "-V", "--show-line-num"]);
    assert_eq!(output, "1: [fi=0+520]\n");
    assert!(
        error.lines().all(|line| line.starts_with("1: trace: ")),
        "{error}"
    );
    assert!(error.contains("start GSUB lookup") && error.contains("\tbuffer: [f=0|i=1]\n"));
    assert!(error.contains("end GPOS lookup"));
}

#[test]
fn results_are_verified() {
    let words = [
        "--verify",
        "--unsafe-to-concat",
        "--sound",
        "--always",
        "-n",
        "2",
    ];
    let expected = shaped(&[], "\u{644}\u{627} AV \u{915}\u{94D}\u{937}");
    assert_eq!(
        shaped(&words, "\u{644}\u{627} AV \u{915}\u{94D}\u{937}"),
        expected
    );
}

// The syllable takes ZWNJ to its front, in the cluster of its first letter. Behind it a vowel sign is
// left of ZWNJ's grapheme, a syllable of its own.
#[test]
fn with_sound_no_break_is_allowed_where_zwnj_moves_away() {
    let word = "\u{915}\u{93F}\u{902}\u{200C}\u{93E}";
    let arguments = [sample_font(), "--verify", "--always", "--text", word];
    let done = run(&arguments);
    assert_eq!(done.status, Some(3), "{done:?}");
    assert!(done.error.contains("unsafe-to-break"), "{done:?}");
    let glyphs = shaped(&["--verify", "--always", "--sound", "--show-flags"], word);
    assert!(
        glyphs.ends_with("dottedcircle=3+600#1|aaMatra-deva=3+240#1]\n"),
        "{glyphs}"
    );
}

#[test]
fn files_of_output() {
    let folder = common::Scratch::new("files");
    let (json, svg) = (folder.path("o.json"), folder.path("o.svg"));
    let font = sample_font();
    let done = run(&[font, "AV\no", "-o", &json, "--svg", &svg]);
    assert_eq!(done.success(), "");
    let written = std::fs::read_to_string(&json).unwrap();
    assert!(written.starts_with("[{\"g\":\"A\",") && written.lines().count() == 2);
    let picture = std::fs::read_to_string(&svg).unwrap();
    assert!(picture.starts_with("<svg ") && picture.ends_with("</svg>\n"));
    assert_eq!(picture.matches("<path ").count(), 3);
    assert!(!picture.contains("NaN") && !picture.contains("inf"));
    let text = folder.path("o.anything");
    run(&[font, "o", "--output-file", &text]).success();
    assert_eq!(std::fs::read_to_string(&text).unwrap(), "[o=0+560]\n");
}

#[test]
fn batches() {
    let font = sample_font();
    let lines = format!("{font};--text=o\n{font};--ned;-u;61\n");
    let done = run_with_input(&["--batch"], lines.as_bytes());
    assert_eq!(done.success(), "[o=0+560]\n[a]\n");
    let lines = format!("{font};--bogus\n{font};o\n");
    let done = run_with_input(&["--batch"], lines.as_bytes());
    assert_eq!((done.status, done.output.as_str()), (Some(1), ""));
}

#[test]
fn the_manual_page_has_each_option() {
    let (help, page) = (run(&["--help"]).success(), run(&["--help-man"]).success());
    assert!(page.starts_with(".TH SENGADLIT\\-SHAPE 1 "));
    let is_name = |c: char| c == '-' || c.is_ascii_alphanumeric();
    let words = help.split(|c: char| !is_name(c));
    let options: Vec<_> = words.filter(|word| word.starts_with("--")).collect();
    assert!(options.len() > 60);
    for option in options
        .iter()
        .filter(|option| !option.starts_with("--help"))
    {
        let name = option.replace('-', "\\-");
        assert!(page.contains(&name), "{option}");
    }
}

#[test]
fn help_and_versions() {
    let help = run(&["--help"]).success();
    assert_eq!(run(&["-h"]).success(), help);
    assert_eq!(run(&["--help-all"]).success(), help);
    for option in [
        "--font-size=",
        "-u, --unicodes=",
        "--svg=",
        "--variations",
        "--language=",
    ] {
        assert!(help.contains(option), "{option}");
    }
    assert!(!help.contains("--shaper="));
    assert!(help.lines().all(|line| !line.ends_with(' ')));
    let group = run(&["--help-text-context"]).success();
    assert!(help.contains(&group) && group.contains("--text-before"));
    assert!(
        run(&["--version"])
            .success()
            .starts_with("sengadlit-shape (Sengadlit) ")
    );
    assert_eq!(run(&["--list-shapers"]).success(), "ot\n");
    assert_eq!(run(&["--list-font-funcs"]).success(), "ot\n");
}
