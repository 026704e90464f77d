//! A file that is named may have comments and empty lines; on standard input neither reads.

mod common;

use common::{Run, from_top};
use std::fs;
use std::path::PathBuf;

// A file of these lines, which is removed at the end.
struct Lines(PathBuf);

impl Lines {
    fn new(name: &str, lines: &str) -> Self {
        let path = PathBuf::from(env!("CARGO_TARGET_TMPDIR")).join(name);
        fs::write(&path, lines).unwrap();
        Lines(path)
    }

    fn run(&self, options: &[&str]) -> Run {
        let name = self.0.to_str().unwrap();
        Run::new(&[options, &[name]].concat(), "")
    }
}

impl Drop for Lines {
    fn drop(&mut self) {
        let _ = fs::remove_file(&self.0);
    }
}

const COMMENTED: &str =
    "# a comment\n\nset shaper thai\ntext 0E14 0E33\n#\n#text 41\nrun preprocess";
const PLAIN: &str = "set shaper thai\ntext 0E14 0E33\nrun preprocess";

#[test]
fn a_file_may_have_comments_and_empty_lines() {
    let file = Lines::new("commented", COMMENTED);
    let plain = Run::new(&[], PLAIN);
    assert_eq!((plain.told.as_str(), plain.status), ("", Some(0)));
    assert_eq!(file.run(&[]), plain);
    assert_eq!(file.run(&["--explain"]), plain);
    assert_eq!(file.run(&["--"]), plain);
    let drawn = file.run(&["--draw"]);
    assert_eq!((drawn.told.as_str(), drawn.status), ("", Some(0)));
    assert!(drawn.printed.contains("preprocess") && !drawn.printed.contains("comment"));
    let example = from_top("examples/khmer-coeng-ro.txt");
    let lines = fs::read_to_string(&example).unwrap();
    assert!(lines.starts_with("# ") && Run::new(&[], &lines).status == Some(2));
    assert_eq!(Run::new(&[example.to_str().unwrap()], "").status, Some(0));
}

#[test]
fn standard_input_has_neither() {
    for input in [COMMENTED, "\n", "text 41\n\n", "#"] {
        let line = if input.starts_with("text") { 2 } else { 1 };
        let told = format!("line {line}: unreadable\n");
        for options in [&[][..], &["-"], &["--draw"]] {
            let run = Run::new(options, input);
            assert_eq!((run.told, run.status), (told.clone(), Some(2)), "{input:?}");
        }
    }
    let explained = Run::new(&["--explain"], "# a comment");
    assert_eq!(
        explained.told,
        "line 1: unreadable\nhbhook: line 1: expected a line that does something; only a named file may \
         have comments, which begin with #\n"
    );
}

// A line has the number that it has in the file, in messages and on the page.
#[test]
fn lines_keep_their_numbers() {
    let file = Lines::new("rejected", "# one\n\ntext 41\n# four\ntext U+41\n");
    let rejected = "line 5: unreadable\n";
    assert_eq!(file.run(&[]).told, rejected);
    let reason =
        "hbhook: line 5: field 2, `U+41`: expected a character such as 41, without U+ or 0x\n";
    assert_eq!(file.run(&["--explain"]).told, format!("{rejected}{reason}"));
    let drawn = file.run(&["--draw", "--explain"]);
    assert_eq!(drawn.told, format!("{rejected}{reason}"));
    let same = Lines::new(
        "same",
        "set level 0\nset level 0\ntext 41\nset level 0\ntext U+41\n",
    );
    assert_eq!(drawn.printed, same.run(&["--draw"]).printed);
    let file = Lines::new("refused", "\nset maxlen 1\n\ntext 41 42");
    let refused = file.run(&["--explain"]);
    assert_eq!(
        refused.told,
        "refused: TooLong\nhbhook: line 4: refused: more glyphs than `maxlen`, which is 1\n"
    );
    assert_eq!(refused.status, Some(1));
}
