//! The scripts of examples/ print what tests/printed says, each from a file and, without its comments,
//! from standard input.

mod common;

use common::{Run, from_top};
use std::fs;
use std::path::Path;

#[test]
fn examples_print_what_is_written() {
    let printed = Path::new(env!("CARGO_MANIFEST_DIR")).join("tests/printed");
    let mut count = 0;
    for entry in fs::read_dir(from_top("examples")).unwrap() {
        let path = entry.unwrap().path();
        let expected = Run {
            printed: fs::read_to_string(printed.join(path.file_name().unwrap())).unwrap(),
            told: String::new(),
            status: Some(0),
        };
        let file = fs::read_to_string(&path).unwrap();
        let lines = file.split_inclusive('\n');
        let script: String = lines.filter(|line| !line.starts_with('#')).collect();
        let path = path.to_str().unwrap();
        assert_eq!(Run::new(&[path], ""), expected, "{path}");
        assert_eq!(Run::new(&["--explain", path], ""), expected, "{path}");
        let why = Run::new(&["--why", path], "");
        assert_eq!(
            (why.printed, why.status),
            (expected.printed.clone(), Some(0)),
            "{path}"
        );
        assert_eq!(Run::new(&["-"], &script), expected, "{path}");
        assert_eq!(Run::new(&[], &script), expected, "{path}");
        count += 1;
    }
    assert_eq!(count, fs::read_dir(printed).unwrap().count());
}

// The indented lines of a page behind a heading, by the blocks that they stand in.
fn blocks(page: &str, heading: &str) -> Vec<String> {
    let (_, section) = page.split_once(&format!("\n## {heading}\n")).unwrap();
    let section = section.split("\n## ").next().unwrap();
    let paragraphs = section.split("\n\n").map(|lines| lines.trim_matches('\n'));
    let blocks = paragraphs.filter(|lines| lines.starts_with("    "));
    let lines_of = |block: &str| {
        block
            .lines()
            .map(|line| format!("{}\n", &line[4..]))
            .collect()
    };
    blocks.map(lines_of).collect()
}

#[test]
fn pages_say_what_is_printed() {
    let page = fs::read_to_string(from_top("docs/HBHOOK.md")).unwrap();
    let [script, printed] = &blocks(&page, "A first script")[..] else {
        panic!("a script, and what it prints")
    };
    assert_eq!(&Run::new(&[], script).printed, printed);
    let [printed] = &blocks(&page, "Your own text")[..] else {
        panic!("what is printed")
    };
    let text = "\u{1781}\u{17D2}\u{1798}\u{17C2}\u{179A}";
    let shaped = Run::new(&["--text", text, "--script", "khmer"], "");
    assert_eq!(&shaped.printed, printed);
}

// The program that the repository proves has an input of its own, and what it prints of it. A page
// was drawn by proved functions before they were written in Rust; a style of outlines came later.
#[test]
fn what_was_proved_prints_the_same() {
    let (proved, page) = (
        from_top("crates/hbhook"),
        from_top("rust/hbhook/tests/page"),
    );
    for (option, script, printed) in [
        ("--explain", proved.join("stdin"), proved.join("stdout")),
        ("--draw", page.join("lines"), page.join("page.html")),
    ] {
        let expected = Run {
            printed: fs::read_to_string(printed).unwrap(),
            told: String::new(),
            status: Some(0),
        };
        assert_eq!(Run::new(&[option, script.to_str().unwrap()], ""), expected);
    }
}
