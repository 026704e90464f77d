//! Texts in the repository's own font, by `--font`: hb-shape's glyphs and widths, which fonts/words.txt
//! has, and pages with their outlines.

mod common;

use common::{Run, from_top};
use sengadlit::Face;
use std::fs;

fn font() -> String {
    from_top("fonts/sample.ttf").to_str().unwrap().into()
}

// The words with the names and advances that hb-shape prints.
fn words() -> Vec<(String, Vec<(String, i32)>)> {
    let file = fs::read_to_string(from_top("fonts/words.txt")).unwrap();
    let lines = file.lines().filter(|line| !line.starts_with('#'));
    let rows = lines.filter_map(|line| line.split_once(';'));
    let rows = rows.map(|(word, glyphs)| {
        let glyphs = glyphs.trim_matches(['[', ']']).split('|');
        let glyphs = glyphs.map(|glyph| {
            let (name, rest) = glyph.split_once('=').unwrap();
            let (_, advance) = rest.rsplit_once('+').unwrap();
            (name.into(), advance.parse().unwrap())
        });
        (word.into(), glyphs.collect())
    });
    rows.collect()
}

#[test]
fn words_have_the_glyphs_and_widths_of_hb_shape() {
    let bytes = fs::read(font()).unwrap();
    let face = Face::parse(&bytes, 0).unwrap();
    let words = words();
    assert!(words.len() > 40);
    for (word, expected) in words {
        let run = Run::new(&["--font", &font(), "--text", &word], "");
        assert_eq!((run.told.as_str(), run.status), ("", Some(0)), "{word}");
        let glyphs = run.printed.lines().map(|line| {
            let fields: Vec<&str> = line.split(' ').collect();
            let glyph = u32::from_str_radix(fields[0], 16).unwrap();
            let name = face.glyph_name(glyph).unwrap().to_string();
            (name, fields[7].parse().unwrap())
        });
        assert_eq!(glyphs.collect::<Vec<_>>(), expected, "{word}");
    }
}

// RA, virama, KA and I: the syllable is reordered before lookups and between them, and GPOS places the
// reph.
#[test]
fn a_page_has_a_row_for_each_step_that_changes_the_text() {
    let word = "\u{0930}\u{094D}\u{0915}\u{093F}";
    let run = Run::new(&["--draw", "--font", &font(), "--text", word], "");
    assert_eq!((run.told.as_str(), run.status), ("", Some(0)));
    let heads = run
        .printed
        .lines()
        .filter_map(|line| line.strip_prefix("<h2><code>"));
    let heads: Vec<&str> = heads
        .filter_map(|line| line.strip_suffix("</code></h2>"))
        .collect();
    assert_eq!(heads.first(), Some(&"before lookups"));
    assert_eq!(heads.last(), Some(&"shape"));
    for step in ["the shaper between lookups", "of GSUB", "of GPOS"] {
        assert!(
            heads.iter().any(|head| head.ends_with(step)),
            "{step} in {heads:?}"
        );
    }
    assert!(run.printed.matches("class=\"outline\"").count() > heads.len());
    assert!(run.printed.contains("iMatra-deva.wide"));
    // the shaper's names for what Ra is, and for the syllable
    assert!(run.printed.contains(">Ra</text>") && run.printed.contains(">consonant</text>"));
}

#[test]
fn what_is_no_font_is_named() {
    let lines = from_top("examples/thai-sara-am.txt");
    let lines = lines.to_str().unwrap();
    for (path, told) in [
        ("no such file", "there is no file no such file".into()),
        (lines, format!("{lines}: the file is no font")),
        (
            env!("CARGO_MANIFEST_DIR"),
            format!("{} is a folder, not a file", env!("CARGO_MANIFEST_DIR")),
        ),
    ] {
        let run = Run::new(&["--font", path, "--text", "a"], "");
        assert_eq!(
            (run.printed.as_str(), run.told, run.status),
            ("", format!("hbhook: {told}\n"), Some(2))
        );
    }
    let run = Run::new(&["--font", &font()], "");
    assert_eq!(
        run.told,
        "hbhook: --font goes with --text (hbhook --help)\n"
    );
}
