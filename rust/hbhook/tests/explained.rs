//! What is explained of a line that ends a run: its field and what was expected, or why it was
//! refused.

use hbhook::{Source, explain_end, run_lines, without_table};
use sengadlit::alloc::Global;

// The last line of the script is rejected, and explained so.
fn expect(script: &str, expected: &str) {
    expect_end(script, 2, expected);
}

fn expect_end(script: &str, status: u8, expected: &str) {
    let (mut printed, mut told) = (Vec::new(), Vec::new());
    let ended = run_lines(Global, script.as_bytes(), &mut printed, &mut told);
    assert_eq!(ended, status, "{script:?}");
    let last = script.lines().count();
    let explained = explain_end(Source::Input, script.as_bytes(), status, false);
    let expected = format!("line {last}: {expected}");
    assert_eq!(explained.as_deref(), Some(expected.as_str()), "{script:?}");
}

#[test]
fn characters_have_no_prefix() {
    let such = "expected a character such as";
    expect(
        "text U+0E14",
        &format!("field 2, `U+0E14`: {such} 0E14, without U+ or 0x"),
    );
    expect(
        "text 41 0x42",
        &format!("field 3, `0x42`: {such} 42, without U+ or 0x"),
    );
    expect(
        "context 1 \\u0E14",
        &format!("field 3, `\\u0E14`: {such} 0E14, without U+ or 0x"),
    );
    expect(
        "font U+41 1 1",
        &format!("field 2, `U+41`: {such} 41, without U+ or 0x"),
    );
    expect(
        "table g 0 7 1 1 1",
        &format!("field 2, `g`: {such} 0E14, by its hexadecimal number"),
    );
    let range = "expected a character: at most 10FFFF, and none of D800 to DFFF";
    expect("pair 41 D800 42", &format!("field 3, `D800`: {range}"));
    expect("text 110000", &format!("field 2, `110000`: {range}"));
}

#[test]
fn words_are_listed_or_in_lower_case() {
    expect("Text 41", "field 1, `Text`: expected `text`, in lower case");
    expect(
        "set shaper Thai",
        "field 3, `Thai`: expected `thai`, in lower case",
    );
    expect(
        "set found maybe",
        "field 3, `maybe`: expected one of these words: yes, no",
    );
    expect(
        "at 0 Glyph 1",
        "field 3, `Glyph`: expected `glyph`, in lower case",
    );
    expect(
        "set Level 1",
        "field 2, `Level`: expected `level`, in lower case",
    );
    expect(
        "run pause REORDER_USE",
        "field 3, `REORDER_USE`: expected `reorder_use`, in lower case",
    );
    let hooks = "text, preprocess, masks, marks, postprocess, compose, decompose, pause";
    expect(
        "run all",
        &format!("field 2, `all`: expected one of these words: {hooks}"),
    );
}

#[test]
fn numbers_have_their_range() {
    let number = |most: &str| format!("expected a decimal number from 0 to {most}");
    expect(
        "font 41 0x10 1",
        &format!("field 3, `0x10`: {}", number("65535")),
    );
    expect(
        "font 41 65536 1",
        &format!("field 3, `65536`: {}", number("65535")),
    );
    expect(
        "table 41 0 30 1 1 1",
        &format!("field 4, `30`: {}", number("29")),
    );
    expect("span 1 16", &format!("field 3, `16`: {}", number("15")));
    let types = "expected a joining type: 0, 1, 2, 3, 4, 5, 7 or 8";
    expect("table 41 6 7 1 1 1", &format!("field 3, `6`: {types}"));
    let signed = "expected a decimal number of 32 bits, with a minus where it is negative";
    expect("font 41 1 +5", &format!("field 4, `+5`: {signed}"));
    let mask = "expected a hexadecimal number without 0x whose low three bits are 0";
    expect("mask half 9", &format!("field 3, `9`: {mask}"));
    let flags = "expected a hexadecimal number without 0x, with no bits but 20, 40 and 80";
    expect("set flags 1", &format!("field 3, `1`: {flags}"));
    expect(
        "set global 0x1",
        "field 3, `0x1`: expected a hexadecimal number of 32 bits, without 0x",
    );
    expect(
        "set script Arabic",
        "field 3, `Arabic`: expected four ASCII characters, none of them a space",
    );
    expect(
        "text 41\nat 0 marks x",
        "field 4, `x`: expected letters of slmic, or - alone for none",
    );
}

#[test]
fn lines_have_their_fields() {
    expect(
        "font 41 1",
        "expected these fields: font U G W; the line has 3",
    );
    expect(
        "span 1 2 3",
        "expected these fields: span L K; the line has 4",
    );
    expect(
        "text 41\r",
        "expected a line feed alone at the end, without a carriage return",
    );
    expect(
        "text  41",
        "expected one space between two fields, and none at either end",
    );
    expect(
        "// U+41",
        "expected a line that does something; only a named file may have comments, which begin with #",
    );
    expect(
        "stage half 2 1",
        "field 3, `2`: expected a number up to the end, 1",
    );
}

#[test]
fn pauses_need_their_shaper() {
    let needs = "reorder_khmer needs `set shaper khmer`; the shaper is indic";
    expect("set shaper indic\nrun pause reorder_khmer", needs);
    let needs = "record_stch needs `set shaper arabic`; the shaper is universal";
    expect("set shaper universal\nrun pause record_stch", needs);
    let needs = "final_reordering needs `set shaper indic`; the shaper is zawgyi";
    expect("set shaper zawgyi\nrun pause final_reordering", needs);
    expect(
        "run pause reorder_khmer",
        "expected a line `set shaper` before it",
    );
}

#[test]
fn places_are_in_the_buffer() {
    let place = "field 2, `2`: expected a place below the length of the buffer, 2";
    expect("text 41 42\nat 2 glyph 1", place);
    let most = "field 3, `1`: expected at least the length of the buffer, 2";
    expect("text 41 42\nset maxlen 1", most);
    let end = "field 4, `3`: expected an end up to the length of the buffer, 2";
    expect("set shaper hebrew\ntext 41 42\nrun marks 0 3", end);
    let empty = "field 2, `0`: expected a place in the buffer, which is empty";
    expect("at 0 glyph 1", empty);
    let places = "field 3, `2`: expected a number up to the end, 1";
    expect("set shaper hebrew\ntext 41 42\nrun marks 2 1", places);
    let places = "field 3, `3`: expected a number up to the end, 2";
    expect("set shaper hebrew\ntext 41 42\nrun marks 3 2", places);
    let positions = "expected positions: a line `set positions yes` before it, and after the text";
    expect("set shaper arabic\ntext 41\nrun postprocess", positions);
}

#[test]
fn refusals_have_their_reasons() {
    let long = "refused: more glyphs than `maxlen`, which is 2";
    expect_end("set maxlen 2\ntext 41 42 43", 1, long);
    let spans = "refused: the lengths of the `span` lines don't add up to the length of the buffer, \
                 2, or one is 0";
    let script = "set shaper khmer\ntext 41 42\nspan 1 0\nrun pause setup_syllables_khmer";
    expect_end(script, 1, spans);
    let kind = "refused: the syllable at place 1 is of a kind that the shaper doesn't know";
    let script = "set shaper khmer\ntext 41 42\nspan 1 0\nspan 1 9\nrun pause setup_syllables_khmer\n\
                  run pause reorder_khmer";
    expect_end(script, 1, kind);
}

#[test]
fn other_ends_are_not_explained() {
    assert_eq!(explain_end(Source::Input, b"text 41", 0, false), None);
    assert_eq!(explain_end(Source::Input, b"text 41", 2, false), None);
    assert_eq!(explain_end(Source::Input, b"text U+41", 1, false), None);
    let long = format!("text{}\ntext U+41", " 41".repeat(10_001));
    assert_eq!(explain_end(Source::Input, long.as_bytes(), 2, true), None);
    assert!(explain_end(Source::Input, long.as_bytes(), 2, false).is_some());
}

#[test]
fn characters_without_a_table_line_are_listed_once() {
    let script = b"text 43 41 43 44\ntable 41 0 7 1 1 1\ntext 42 zz\ntable 44 0 7 1 1 1";
    assert_eq!(without_table(script), ['C', 'B']);
    assert_eq!(without_table(b"context 0 41\nfont 42 1 1"), []);
    assert_eq!(without_table(b"set tables unicode\ntext 41"), []);
    assert_eq!(
        without_table(b"set tables unicode\ntext 41\nset tables lines"),
        ['A']
    );
}
