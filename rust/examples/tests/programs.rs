//! The programs, with the repository's own font.

use std::process::Command;

/// What a program prints for these arguments behind the font.
fn printed(program: &str, before: &[&str], behind: &[&str]) -> String {
    let font = concat!(env!("CARGO_MANIFEST_DIR"), "/../../fonts/sample.ttf");
    let mut command = Command::new(program);
    let done = command
        .args(before)
        .arg(font)
        .args(behind)
        .output()
        .unwrap();
    assert!(
        done.status.success(),
        "{}",
        String::from_utf8_lossy(&done.stderr)
    );
    String::from_utf8(done.stdout).unwrap()
}

// (of fonts/letters.txt: advances of a, T, o are 560, 580 - 90, 560; fi has a caret in its middle, 260)
#[test]
fn carets() {
    let caret = env!("CARGO_BIN_EXE_caret");
    assert_eq!(printed(caret, &[], &["a"]), "0 0\n1 560\n");
    assert_eq!(
        printed(caret, &[], &["Tofi"]),
        "0 0\n1 490\n2 1050\n3 1310\n4 1570\n"
    );
    // from the right: seen is 560 wide, and the ligature as much, with a caret in its middle
    assert_eq!(printed(caret, &[], &["سلا"]), "0 1120\n2 560\n4 280\n6 0\n");
    // (a vowel that is drawn before its letter, and the letter: no place between)
    assert_eq!(printed(caret, &[], &["កេ"]), "0 0\n6 1040\n");
}

#[test]
fn lines_are_as_alone() {
    let wrap = env!("CARGO_BIN_EXE_wrap");
    for text in [
        "السلام بيت سنين تعيين",
        "हिन्दी नमस्ते कर्म क्षेत्र",
        "ខ្មែរ ក្រុង ភាសា",
        "Tofi LATVo fluffy",
    ] {
        for ems in ["0.5", "1", "2", "4", "9"] {
            for options in [
                &["--anywhere"][..],
                &["--anywhere", "--sound"],
                &["--anywhere", "--concat"],
                &[],
            ] {
                let lines = printed(wrap, options, &[ems, text]);
                assert!(
                    lines.lines().all(|line| line.contains(", as alone: ")),
                    "{lines}"
                );
                let parts = lines.lines().filter_map(|line| line.split_once(": "));
                assert_eq!(parts.map(|(_, part)| part).collect::<String>(), text);
            }
        }
    }
    let lines = printed(wrap, &[], &["1000", "Tofi"]);
    assert_eq!(lines, "0 of 3 clusters shaped again, as alone: Tofi\n");
}

#[test]
fn words_are_typed() {
    let edit = env!("CARGO_BIN_EXE_edit");
    let line = "AVAWAY fluffy Tofi LATVo";
    let keys = printed(edit, &[], &["AVAWAY fluffy LATVo", "14", "Tofi "]);
    let counts: Vec<&str> = keys
        .lines()
        .map(|key| key.split(": ").next().unwrap())
        .collect();
    assert_eq!(counts, ["T", "o", "f", "i", " "]);
    assert!(
        keys.lines().all(|key| key.ends_with(", as the whole")),
        "{keys}"
    );
    assert!(keys.lines().last().unwrap().contains(line));
    for (text, word) in [("السلام بيت", "لا"), ("ខ្មែរ ក្រុង", "ស្រ្តី"), ("हिन्दी", "कर्म")]
    {
        let keys = printed(edit, &[], &[text, &text.len().to_string(), word]);
        assert!(
            keys.lines().all(|key| key.ends_with(", as the whole")),
            "{keys}"
        );
        assert_eq!(keys.lines().count(), word.chars().count());
    }
}

#[test]
fn runs_of_scripts() {
    let runs = printed(env!("CARGO_BIN_EXE_runs"), &[], &["fi لا 1"]);
    assert_eq!(
        runs,
        "0..3 Latn [fi=0+520|space=2+250]\n3..9 Arab [one=5+560|space=4+250|lam_alef-ar=0+560]\n"
    );
}

#[test]
fn wrong_arguments() {
    for program in [
        env!("CARGO_BIN_EXE_caret"),
        env!("CARGO_BIN_EXE_wrap"),
        env!("CARGO_BIN_EXE_runs"),
        env!("CARGO_BIN_EXE_edit"),
    ] {
        let done = Command::new(program).output().unwrap();
        assert!(!done.status.success() && done.stdout.is_empty());
        assert!(String::from_utf8_lossy(&done.stderr).contains("FONT"));
    }
}
