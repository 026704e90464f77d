//! What no row can say: where lines end, bytes that aren't text, streams that break, and what is
//! explained.

use hbhook::{Source, draw_lines, explain_lines, run_lines};
use sengadlit::alloc::Global;
use std::io::{self, ErrorKind, Read, Write};

type Carried = (u8, String, String);

// The status of a run on this input, what it printed and what it told.
fn run(input: &[u8]) -> Carried {
    let (mut printed, mut told) = (Vec::new(), Vec::new());
    let status = run_lines(Global, input, &mut printed, &mut told);
    (status, text(printed), text(told))
}

// The same of a run that explains.
fn explain(input: &str) -> Carried {
    let (mut printed, mut told) = (Vec::new(), Vec::new());
    let status = explain_lines(Global, input.as_bytes(), &mut printed, &mut told);
    (status, text(printed), text(told))
}

// The same of a run that draws.
fn draw(input: &[u8]) -> Carried {
    let (mut page, mut told) = (Vec::new(), Vec::new());
    let status = draw_lines(Source::Input, input, &mut page, &mut told);
    (status, text(page), text(told))
}

fn text(bytes: Vec<u8>) -> String {
    String::from_utf8(bytes).unwrap()
}

fn ends(status: u8, printed: &str, told: &str) -> Carried {
    (status, printed.into(), told.into())
}

#[test]
fn reads_to_the_end() {
    assert_eq!(run(b"text 41"), ends(0, "0041 0 00000000 00 0 0 0\n", ""));
    assert_eq!(run(b""), ends(0, "", ""));
}

#[test]
fn refuses_other_bytes() {
    let lines = [
        b"text 41\r\n".as_slice(),
        b"text\r",
        b"\r\n",
        b"text 41\rtext 42\n",
        b"text\t41\n",
        b"text 41\0\n",
        b"\xef\xbb\xbftext 41\n",
        b"text \xff\n",
    ];
    for line in lines {
        assert_eq!(run(line), ends(2, "", "line 1: unreadable\n"), "{line:?}");
    }
}

// A reader or a writer that always fails.
struct Broken;

impl Read for Broken {
    fn read(&mut self, _: &mut [u8]) -> io::Result<usize> {
        Err(ErrorKind::Other.into())
    }
}

impl Write for Broken {
    fn write(&mut self, _: &[u8]) -> io::Result<usize> {
        Err(ErrorKind::Other.into())
    }

    fn flush(&mut self) -> io::Result<()> {
        Ok(())
    }
}

#[test]
fn ends_on_broken_streams() {
    let (mut printed, mut told) = (Vec::new(), Vec::new());
    let cut = b"text 41\n".chain(Broken);
    assert_eq!(run_lines(Global, cut, &mut printed, &mut told), 2);
    assert_eq!(
        run_lines(Global, b"text 41".as_slice(), Broken, &mut told),
        2
    );
    assert_eq!(
        draw_lines(Source::Input, b"text 41".as_slice(), Broken, &mut told),
        2
    );
    assert!(told.is_empty());
    assert_eq!(
        run_lines(Global, b"set".as_slice(), &mut printed, Broken),
        2
    );
    let refused = b"set maxlen 0\ntext 41".as_slice();
    assert_eq!(run_lines(Global, refused, &mut printed, Broken), 2);
    assert!(printed.is_empty());
    assert_eq!(
        draw_lines(Source::Input, b"set".as_slice(), &mut printed, Broken),
        2
    );
    assert!(!printed.is_empty());
}

#[test]
fn explains_lines_that_do_not_read() {
    let rows = [
        (
            "text 41\r\n",
            "a line feed alone at the end, without a carriage return",
        ),
        (
            "// text",
            "a line that does something; only a named file may have comments, which begin with #",
        ),
        (
            "text  41",
            "one space between two fields, and none at either end",
        ),
        ("font 41 1", "these fields: font U G W"),
        ("font 41 65536 1", "a decimal number from 0 to 65535"),
        ("set found maybe", "one of these words: yes, no"),
        ("run masks", "a line `set shaper` before it"),
    ];
    for (line, expected) in rows {
        let told = format!("line 1: unreadable\nline 1: expected {expected}\n");
        assert_eq!(explain(line), ends(2, "", &told), "{line:?}");
    }
}

#[test]
fn explains_conditions_and_refusals() {
    assert_eq!(
        explain("set shaper arabic\ntext 41\nrun postprocess\n"),
        ends(
            2,
            "",
            "line 3: unreadable\nline 3: expected positions: a line `set positions yes` before \
             it, and after the text\n"
        )
    );
    assert_eq!(
        explain("set maxlen 0\ntext 41"),
        ends(1, "", "refused: TooLong\nline 2: refused\n")
    );
}

// The input is drawn with this status and these faults, and the page has each of these texts.
fn expect_page(input: &[u8], status: u8, faults: &str, texts: &[&str]) {
    let (answer, page, told) = draw(input);
    assert_eq!((answer, told.as_str()), (status, faults), "{input:?}");
    assert!(page.starts_with("<!DOCTYPE html>\n"), "{input:?}");
    assert!(page.ends_with("</body>\n</html>\n"), "{input:?}");
    for text in texts {
        assert!(page.contains(text), "{text} in the page of {input:?}");
    }
}

#[test]
fn draws_each_end() {
    let boxes = "<text class=\"now\" x=\"34\" y=\"38\">A</text>";
    expect_page(b"text 41", 0, "", &["line 1 <code>", boxes]);
    expect_page(b"", 0, "", &["<body>\n</body>"]);
    expect_page(b"text", 0, "", &["The buffer is empty."]);
    let told = "line 3 <code><bdi>text 41 42</bdi></code><br>refused: TooLong";
    let refused = b"set maxlen 1\ntext 41\ntext 41 42\n";
    expect_page(refused, 1, "refused: TooLong\n", &[boxes, told]);
    let told = "line 2 <code><bdi>&lt;b a=&quot;&amp;&#39;&quot;&gt;\u{FFFD}\u{FFFD}</bdi></code>\
                <br>unreadable";
    let unread = b"text 41\n<b a=\"&'\">\xff\0\ntext 42";
    expect_page(unread, 2, "line 2: unreadable\n", &[boxes, told]);
}

// What HTML gives a meaning is escaped wherever the input puts it.
#[test]
fn draws_what_html_gives_a_meaning() {
    let meanings = [
        ">&lt;</text>",
        ">&gt;</text>",
        ">&amp;</text>",
        ">&quot;</text>",
        ">&#39;</text>",
    ];
    expect_page(b"text 3C 3E 26 22 27", 0, "", &meanings);
    let masked = b"set shaper thai\nmask <&>' 8\ntext 41\nat 0 mask 18\nrun masks";
    let names = [
        "answered <code>absent",
        ">&lt;&amp;&gt;&#39;</text>",
        ">+10</text>",
    ];
    expect_page(masked, 0, "", &names);
    let context =
        [r#"<bdi><span class="context">&lt;</span>A<span class="context">&amp;</span></bdi>"#];
    expect_page(b"context 0 3C\ncontext 1 26\ntext 41", 0, "", &context);
}

// The characters around a text are written in its order, whenever they were set.
#[test]
fn draws_contexts_beside_the_text() {
    let around = [r#"<bdi><span class="context">ab</span>cd<span class="context">ef</span></bdi>"#];
    expect_page(
        b"text 63 64\ncontext 0 62 61\ncontext 1 65 66",
        0,
        "",
        &around,
    );
    let after = [r#"<p class="text"><bdi>c<span class="context">d</span></bdi></p>"#];
    expect_page(b"context 1 64\ntext 63", 0, "", &after);
}

// A number that `font` lines give to a glyph alone is shown as a number; one that names a character
// too, of the text or of the font, as the character.
#[test]
fn draws_numbers_of_glyphs() {
    let number = "<text class=\"id\" x=\"34\" y=\"38\">0042</text>\n\
                  <text class=\"number\" x=\"34\" y=\"62\">glyph</text>";
    let letter = "<text class=\"now\" x=\"34\" y=\"38\">B</text>";
    expect_page(b"font 41 66 1\ntext 41\nat 0 glyph 66", 0, "", &[number]);
    expect_page(b"text 41\nat 0 glyph 66", 0, "", &[letter]);
    expect_page(
        b"font 41 66 1\nfont 42 7 1\ntext 41\nat 0 glyph 66",
        0,
        "",
        &[letter],
    );
    expect_page(b"font 41 66 1\ntext 42", 0, "", &[letter]);
}

// A text from right to left begins at the right, until it has positions.
#[test]
fn draws_from_right_to_left() {
    let together = "set direction rtl\ntext 41 42 43\nat 1 cluster 0\nat 2 cluster 0\n";
    let boxes =
        |lefts: [usize; 3]| lefts.map(|left| format!("<g transform=\"translate({left} 24)\">"));
    let in_order = |lefts, script: &str| {
        let (_, page, _) = draw(script.as_bytes());
        let places = boxes(lefts).map(|text| page.find(&text).unwrap());
        assert!(places.is_sorted(), "{script}");
        page
    };
    let page = in_order([136, 68, 0], together);
    assert!(page.contains("<div class=\"row rtl\">"));
    assert!(page.contains("<p class=\"text\" dir=\"rtl\">"));
    let page = in_order([0, 68, 136], &format!("{together}set positions yes"));
    assert!(page.contains("<div class=\"row\">"));
    in_order([0, 68, 136], &together.replace("rtl", "ltr"));
    // The bar of a glyph flag is at the edge where the text before the glyph is.
    let flagged = "at 1 mask 1";
    let page = in_order([136, 68, 0], &format!("{together}{flagged}"));
    assert!(page.contains("<rect class=\"flag\" x=\"60\" width=\"5\""));
    let page = in_order(
        [0, 68, 136],
        &format!("{together}{flagged}").replace("rtl", "ltr"),
    );
    assert!(page.contains("<rect class=\"flag\" x=\"3\" width=\"5\""));
}

// Each glyph flag that the row has keeps its line below the details.
#[test]
fn draws_glyph_flags() {
    let name = |y: usize, name: &str| {
        format!("<text class=\"flag-name\" x=\"34\" y=\"{y}\">{name}</text>")
    };
    let (_, page, _) = draw(b"text 41 42\nat 0 mask 7\nat 1 mask 4");
    for (y, text) in [(85, "no break"), (105, "no concat"), (125, "tatweel")] {
        assert!(page.contains(&name(y, text)), "{text}");
    }
    assert_eq!(page.matches(&name(125, "tatweel")).count(), 2);
    let (_, page, _) = draw(b"text 41\nat 0 mask 4");
    assert!(page.contains(&name(85, "tatweel")));
}

// More than 10,000 glyphs are refused as a text and behind a hook.
#[test]
fn refuses_to_draw_too_many_glyphs() {
    let told = "refused: TooLong\nline 2: 10001 glyphs are too many to draw; 10000 fit\n";
    let note = "<br>refused: TooLong<br>10001 glyphs are too many to draw; 10000 fit</p>";
    let script = format!("text 41\ntext{}\nset", " 42".repeat(10_001));
    expect_page(script.as_bytes(), 1, told, &[">A</text>", note]);
    let (_, page, _) = draw(script.as_bytes());
    assert!(!page.contains(">B</text>"));
    let script = format!(
        "set shaper thai\ntext 0E33{}\nrun preprocess",
        " 41".repeat(9_999)
    );
    let told = told.replace("line 2", "line 3");
    expect_page(script.as_bytes(), 1, &told, &[">A</text>", note]);
}

#[test]
fn draws_characters_by_their_kinds() {
    let shown = |glyph: &str| format!(">{glyph}</text>");
    let rows = [
        ("text 0E01", vec![shown("\u{E01}"), shown("0E01")]),
        ("text 0E34", vec![shown("\u{25CC}\u{E34}"), shown("0E34")]),
        ("text 1D242", vec![shown("\u{25CC}\u{1D242}")]),
        ("text 20", vec![shown("0020"), shown("unseen")]),
        ("text 200D", vec![shown("200D"), shown("unseen")]),
        ("text 10FFFF", vec![shown("10FFFF"), shown("unseen")]),
        ("text F700", vec![shown("F700"), shown("private")]),
        ("text 41\nat 0 marks s", vec![shown("0041"), shown("glyph")]),
        ("text 26", vec![shown("&amp;")]),
    ];
    for (script, texts) in rows {
        let texts: Vec<&str> = texts.iter().map(String::as_str).collect();
        expect_page(script.as_bytes(), 0, "", &texts);
    }
}

#[test]
fn wraps_long_texts() {
    let script = format!("text{}", " 41".repeat(10_000));
    let (_, page, _) = draw(script.as_bytes());
    assert_eq!(page.matches("<svg width=\"68\"").count(), 10_000);
    let one_cluster: String = (1..16).map(|i| format!("\nat {i} cluster 0")).collect();
    let script = format!("text{}{one_cluster}", " 41".repeat(16));
    let (_, page, _) = draw(script.as_bytes());
    assert_eq!(page.matches("<svg width=\"816\"").count(), 1);
    assert_eq!(page.matches("<svg width=\"272\"").count(), 1);
}
