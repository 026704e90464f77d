//! The program's arguments, its exit status, and an output that can't be written.

mod common;

use common::{Run, from_top};

// The program rejects the arguments with a message.
fn expect_rejected(arguments: &[&str], message: &str) {
    let expected = Run {
        printed: String::new(),
        told: format!("hbhook: {message}\n"),
        status: Some(2),
    };
    assert_eq!(Run::new(arguments, "text 41"), expected, "{arguments:?}");
}

#[test]
fn rejects_bad_arguments() {
    expect_rejected(&["a", "b"], "one file at most (hbhook --help)");
    expect_rejected(&["--why", "a", "b"], "one file at most (hbhook --help)");
    expect_rejected(
        &["--help", "a"],
        "--help takes no other argument (hbhook --help)",
    );
    for arguments in [&["--what"][..], &["--why", "--what"], &["a", "--what"]] {
        expect_rejected(
            arguments,
            "there is no option --what; there are --draw, --explain, --font, --help, --lines, --script, \
             --sound, --text, --version, --why and --word (hbhook --help)",
        );
    }
    expect_rejected(&["no such file"], "there is no file no such file");
    expect_rejected(&[""], "there is no file ");
    let folder = from_top("examples");
    let folder = folder.to_str().unwrap();
    expect_rejected(
        &["--draw", folder],
        &format!("{folder} is a folder, not a file"),
    );
}

#[test]
fn prints_its_version() {
    let run = Run::new(&["--version"], "");
    let version = std::fs::read_to_string(from_top("VERSION")).unwrap();
    assert_eq!(run.printed, format!("hbhook {version}"));
    assert_eq!((run.told.as_str(), run.status), ("", Some(0)));
}

#[test]
fn behind_two_dashes_is_no_option() {
    expect_rejected(&["--", "--draw"], "there is no file --draw");
    expect_rejected(&["--", "a", "b"], "one file at most (hbhook --help)");
    let run = Run::new(&["--draw", "--", "-"], "text 41");
    assert_eq!(run, Run::new(&["--draw"], "text 41"));
    assert_eq!(
        Run::new(&["--"], "text 41").printed,
        "0041 0 00000000 00 0 0 0\n"
    );
}

#[test]
fn prints_its_usage() {
    let run = Run::new(&["--help"], "");
    assert!(run.printed.starts_with("usage: hbhook [FILE] "));
    assert_eq!((run.told.as_str(), run.status), ("", Some(0)));
    assert_eq!(Run::new(&["-h"], ""), run);
}

#[test]
fn runs_a_word() {
    let word = Run::new(&["--word", "\u{0D9A}\u{0DD9}"], "");
    assert_eq!(
        word.printed,
        "0dd9 0 00000030 12 22 0 0\n0d9a 0 00000030 12 1 0 0\n"
    );
    assert_eq!((word.told.as_str(), word.status), ("", Some(0)));
    let lines = Run::new(&["--explain", "--lines", "\u{0D9A}\u{0DD9}"], "");
    assert_eq!(Run::new(&["--explain"], &lines.printed), word);
    let drawn = Run::new(&["--draw", "--word", "\u{0D9A}\u{0DD9}"], "");
    assert_eq!(drawn.printed, Run::new(&["--draw"], &lines.printed).printed);
}

// An emoji has a number that the reorderings of Indic take, and is printed as itself.
#[test]
fn runs_a_word_beside_an_emoji() {
    let text = "\u{0928}\u{092E}\u{0938}\u{094D}\u{0924}\u{0947} \u{1F64F}";
    let word = Run::new(&["--explain", "--word", text], "");
    assert_eq!((word.told.as_str(), word.status), ("", Some(0)));
    let last = word.printed.lines().last().unwrap();
    assert!(last.starts_with("1f64f 7 "), "{last}");
    let lines = Run::new(&["--lines", text], "").printed;
    assert!(
        lines.contains("\nset script Deva\nset chosen dev2\n"),
        "{lines}"
    );
    assert_eq!(Run::new(&["--explain"], &lines), word);
    let drawn = Run::new(&["--draw", "--word", text], "");
    assert_eq!((drawn.told.as_str(), drawn.status), ("", Some(0)));
    assert!(drawn.printed.contains("\u{1F64F}"));
}

#[test]
fn runs_a_text() {
    // the parts of OO, a letter and a coeng form; graphemes have one cluster
    let text = "\u{1781}\u{17D2}\u{1798}\u{17C2}\u{179A}";
    let run = Run::new(&["--text", text, "--script", "khmer"], "");
    let numbers: Vec<&str> = run.printed.lines().map(|glyph| &glyph[..6]).collect();
    assert_eq!(numbers, ["17c2 0", "1781 0", "17d2 0", "1798 0", "179a 4"]);
    assert_eq!((run.told.as_str(), run.status), ("", Some(0)));
    assert_eq!(Run::new(&["--explain", "--text", text], ""), run);
    let drawn = Run::new(&["--draw", "--script", "Khmr", "--text", text], "");
    assert!(drawn.printed.starts_with("<!DOCTYPE html>"));
    assert!(drawn.printed.ends_with("</html>\n"));
}

// A row that isn't drawn is a refusal, and a text without a character has no text above its row.
#[test]
fn draws_a_text_that_fits() {
    let long = "\u{1780}".repeat(2001);
    let refused = Run::new(&["--draw", "--text", &long], "");
    assert_eq!((refused.printed.as_str(), refused.status), ("", Some(1)));
    assert!(
        refused
            .told
            .ends_with("2001 glyphs; no more than 2000 are drawn\n"),
        "{}",
        refused.told
    );
    let has_text = |text| {
        let drawn = Run::new(&["--draw", "--script", "khmer", "--text", text], "");
        assert_eq!((drawn.told.as_str(), drawn.status), ("", Some(0)));
        drawn.printed.contains("<p class=\"text\"")
    };
    assert!(has_text("\u{1780}") && !has_text(""));
}

#[test]
fn flags_of_a_text_are_sound_where_that_is_wanted() {
    // DALATH and ALAPH: alone ALAPH has another form
    let flags = |options: &[&str]| {
        let text = ["--text", "\u{0715}\u{0710}"];
        let run = Run::new(&[&text, options].concat(), "");
        let masks = run.printed.lines().map(|glyph| glyph.split(' ').nth(2));
        masks
            .map(|mask| u32::from_str_radix(mask.unwrap(), 16).unwrap() & 1)
            .max()
    };
    assert_eq!(flags(&[]), Some(0));
    assert_eq!(flags(&["--sound"]), Some(1));
}

#[test]
fn rejects_other_texts() {
    let unknown = Run::new(&["--text", "word"], "");
    let told = "hbhook: no script with hooks is known of the text\n";
    assert_eq!((unknown.told.as_str(), unknown.status), (told, Some(2)));
    assert!(unknown.printed.is_empty());
    expect_rejected(&["--text"], "a text is missing (hbhook --help)");
    expect_rejected(
        &["--text", "a", "--script"],
        "a script is missing (hbhook --help)",
    );
    expect_rejected(
        &["--text", "a", "--script", "klingon"],
        "no script is named klingon; khmer and Khmr name one",
    );
    expect_rejected(
        &["--script", "khmer"],
        "--script goes with --text (hbhook --help)",
    );
    expect_rejected(
        &["--sound", "--word", "\u{0D9A}"],
        "--sound goes with --text (hbhook --help)",
    );
    expect_rejected(
        &["--text", "a", "file"],
        "a text alone, without a file or a word (hbhook --help)",
    );
}

// A word of each shaper: the glyphs' numbers, and the features of the masks.
#[test]
fn runs_a_word_of_each_shaper() {
    let numbers = |word: &str| -> Vec<u32> {
        let run = Run::new(&["--explain", "--word", word], "");
        assert_eq!((run.told.as_str(), run.status), ("", Some(0)), "{word}");
        let glyphs = run.printed.lines();
        glyphs
            .map(|glyph| u32::from_str_radix(glyph.split(' ').next().unwrap(), 16).unwrap())
            .collect()
    };
    // a tone stands behind the NIKHAHIT of SARA AM
    assert_eq!(
        numbers("\u{0E19}\u{0E49}\u{0E33}"),
        [0x0E19, 0x0E4D, 0x0E49, 0x0E32]
    );
    // vowel signs on the left
    assert_eq!(numbers("\u{1780}\u{17C4}"), [0x17C1, 0x1780, 0x17C4]);
    assert_eq!(numbers("\u{1000}\u{1031}"), [0x1031, 0x1000]);
    assert_eq!(numbers("\u{0B95}\u{0BCA}"), [0x0BC6, 0x0B95, 0x0BBE]);
    assert_eq!(numbers("\u{0995}\u{09C7}"), [0x09C7, 0x0995]);
    assert_eq!(numbers("\u{0D9A}\u{0DD9}"), [0x0DD9, 0x0D9A]);
    assert_eq!(numbers("\u{05D0}"), [0x05D0]);
    assert_eq!(numbers("\u{AC00}"), [0xAC00]);
    let arabic = Run::new(&["--word", "\u{0628}\u{0627}"], "").printed;
    let masks: Vec<&str> = arabic
        .lines()
        .map(|glyph| glyph.split(' ').nth(2).unwrap())
        .collect();
    assert_ne!(masks[0], masks[1]);
}

#[test]
fn rejects_other_words() {
    expect_rejected(
        &["--word", "word"],
        "no script with hooks is known of `word`; docs/HBHOOK.md shows its lines",
    );
    expect_rejected(&["--word"], "a text is missing (hbhook --help)");
    expect_rejected(
        &["--word", "\u{0E19}", "file"],
        "a file or a word, not both (hbhook --help)",
    );
}

#[test]
fn ends_as_the_lines_say() {
    let refused = Run::new(&["-"], "set maxlen 0\ntext 41");
    assert_eq!(refused.status, Some(1));
    assert_eq!(refused.told, "refused: TooLong\n");
    let read = Run::new(&["--explain", "-"], "text 41\ntext");
    assert_eq!((read.told.as_str(), read.status), ("", Some(0)));
    let unread = Run::new(&["--explain"], "text 41\nset");
    assert_eq!(unread.status, Some(2));
    assert_eq!(
        unread.told,
        "line 2: unreadable\nhbhook: line 2: expected these fields: set KEY VALUE; the line has 1\n"
    );
    assert_eq!(unread.printed, "");
    let refused = Run::new(&["--explain"], "set maxlen 0\ntext 41");
    assert_eq!(refused.status, Some(1));
    assert_eq!(
        refused.told,
        "refused: TooLong\nhbhook: line 2: refused: more glyphs than `maxlen`, which is 0\n"
    );
    let drawn = Run::new(&["--draw"], "text 41\nset");
    assert_eq!(drawn.status, Some(2));
    assert_eq!(drawn.told, "line 2: unreadable\n");
    assert!(
        drawn
            .printed
            .contains("<br>unreadable</p>\n<details class=\"legend\"")
    );
}

#[test]
fn lists_characters_without_a_table_line() {
    let script = "table 41 0 7 1 1 1\ntext 41 42 0E14 42\ntext 43\n";
    let list = "hbhook: characters without a `table` line: 0042 0E14 0043\n";
    let listed = Run::new(&["--why"], script);
    assert_eq!((listed.told.as_str(), listed.status), (list, Some(0)));
    assert_eq!(Run::new(&["--explain"], script).told, "");
    let rejected = Run::new(&["--why"], "text 42\nrun masks");
    assert_eq!(
        rejected.told,
        "line 2: unreadable\nhbhook: line 2: expected a line `set shaper` before it\n\
         hbhook: characters without a `table` line: 0042\n"
    );
}

#[test]
fn draws_and_explains() {
    let drawn = Run::new(&["--draw"], "text 41\ntext U+42");
    let both = Run::new(&["--draw", "--why"], "text 41\ntext U+42");
    assert_eq!(both.printed, drawn.printed);
    assert_eq!(both.status, Some(2));
    assert_eq!(
        both.told,
        "line 2: unreadable\n\
         hbhook: line 2: field 2, `U+42`: expected a character such as 42, without U+ or 0x\n\
         hbhook: characters without a `table` line: 0041\n"
    );
    assert_eq!(
        Run::new(&["--why", "-", "--draw"], "text 41\ntext U+42"),
        both
    );
    let long = format!("text{}\nset", " 41".repeat(10_001));
    assert_eq!(
        Run::new(&["--draw", "--explain"], &long).told,
        "refused: TooLong\nhbhook: line 1: 10001 glyphs are too many to draw; 10000 fit\n"
    );
    let most = format!("text{}\nset", " 41".repeat(10_000));
    assert_eq!(
        Run::new(&["--draw", "--explain"], &most).told,
        "line 2: unreadable\nhbhook: line 2: expected these fields: set KEY VALUE; the line has 1\n"
    );
}

// A device that is always full: the status is that of an output that can't be written.
#[cfg(target_os = "linux")]
#[test]
fn ends_where_the_output_is_full() {
    use std::fs::File;
    use std::process::{Command, Stdio};

    for option in ["-", "--explain", "--why", "--draw", "--help"] {
        let full = File::options().write(true).open("/dev/full").unwrap();
        let output = Command::new(env!("CARGO_BIN_EXE_hbhook"))
            .arg(option)
            .stdin(File::open(from_top("examples/thai-sara-am.txt")).unwrap())
            .stdout(full)
            .stderr(Stdio::piped())
            .output()
            .unwrap();
        assert_eq!(output.status.code(), Some(2), "{option}");
        assert!(output.stderr.is_empty(), "{option}");
    }
}
