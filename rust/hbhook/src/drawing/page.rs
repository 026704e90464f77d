//! The page round the rows: its style, and the lines that say what ran.

use super::escaped::Escaped;
use super::fault::{DrawFault, MOST_GLYPHS};
use crate::generated::hbhook_commands::LineFault;
use sengadlit::{Buffer, Direction};
use std::fmt;

/// How a page begins. Colours of clusters are those of Okabe and Ito, which the colour-blind can
/// tell apart; the reader's setting chooses between dark and light.
pub(crate) const HEAD: &str = "<!DOCTYPE html>
<html lang=\"en\">
<head>
<meta charset=\"utf-8\">
<meta name=\"viewport\" content=\"width=device-width\">
<title>hbhook</title>
<style>
:root{color-scheme:light dark;--ink:#1a1a1a;--paper:#fff;--soft:#595959;--rule:#8c8c8c;--tint:.2}
@media(prefers-color-scheme:dark){:root{--ink:#f0f0f0;--paper:#15171a;--soft:#b3b3b3;--rule:#8c8c8c;--tint:.34}}
body{margin:16px;background:var(--paper);color:var(--ink);font:16px/1.4 system-ui,sans-serif}
h2{margin:28px 0 4px;font-size:16px;overflow-wrap:anywhere}
h2:first-child{margin-top:0}
code{font-family:ui-monospace,monospace}
p{margin:2px 0;overflow-wrap:anywhere}
.text{font-size:30px;line-height:1.8;overflow:clip}
.context{color:var(--soft);opacity:.6}
.note{color:var(--soft)}
.glyphs{font-size:20px}
.legend{margin-top:28px;font-size:14px;color:var(--soft)}
dl{display:grid;grid-template-columns:max-content auto;gap:1px 12px;margin:4px 0}
dt{font-weight:bold}
dd{margin:0}
.fault{border:3px double;padding:6px 10px;margin-top:28px;font-weight:bold}
.row{display:flex;flex-wrap:wrap;align-items:flex-end;margin-top:6px}
.rtl{flex-direction:row-reverse}
svg{display:block;max-width:100%;height:auto}
text{fill:currentColor;text-anchor:middle;font-size:11px}
.now{font-size:28px}
.old{font-size:18px}
.id{font:bold 15px ui-monospace,monospace}
.number{font-family:ui-monospace,monospace}
.category{font-weight:bold;font-size:12px}
.auxiliary,.small{fill:var(--soft)}
.mask{text-decoration:underline dotted}
.box{fill-opacity:var(--tint);stroke-width:1.5}
.bracket,.moved,.stayed,.syllable,.broken,.measure{fill:none;stroke-width:2}
.moved{stroke-width:3}
.stayed{stroke-width:1;stroke-dasharray:2 3}
.syllable,.measure{stroke:var(--rule)}
.broken{stroke:currentColor;stroke-width:4;stroke-dasharray:6 5}
.flag,.outline{fill:var(--ink)}
.flag-name{fill:var(--paper);font-size:12px}
.k0{stroke:#0072b2}.box.k0{fill:#0072b2}
.k1{stroke:#e69f00}.box.k1{fill:#e69f00}
.k2{stroke:#009e73}.box.k2{fill:#009e73}
.k3{stroke:#cc79a7}.box.k3{fill:#cc79a7}
.k4{stroke:#56b4e9}.box.k4{fill:#56b4e9}
.k5{stroke:#d55e00}.box.k5{fill:#d55e00}
</style>
</head>
<body>
";

/// How a page ends.
pub(crate) const FOOT: &str = "</body>\n</html>\n";

// The most characters of a line, and the most lines, that are shown.
const LONGEST_LINE: usize = 120;
const MOST_LINES: usize = 6;

/// A line of the input, by its number from 1, as the page shows it.
pub(crate) struct Line {
    number: usize,
    text: String,
}

impl Line {
    /// The line, with U+FFFD for what is no text, and cut off where it is long.
    pub(crate) fn new(number: usize, bytes: &[u8]) -> Self {
        let text = shortened(&String::from_utf8_lossy(bytes));
        Line { number, text }
    }
}

impl fmt::Display for Line {
    fn fmt(&self, page: &mut fmt::Formatter<'_>) -> fmt::Result {
        let Line { number, text } = self;
        write!(
            page,
            "line {number} <code><bdi>{}</bdi></code>",
            Escaped(text)
        )
    }
}

/// The head of a row: the lines that it shows the work of.
pub(crate) struct Head<'a>(pub(crate) &'a [Line]);

impl fmt::Display for Head<'_> {
    fn fmt(&self, page: &mut fmt::Formatter<'_>) -> fmt::Result {
        let Head(lines) = *self;
        page.write_str("<h2>")?;
        for (i, line) in lines.iter().take(MOST_LINES).enumerate() {
            let between = if i > 0 { "<br>" } else { "" };
            write!(page, "{between}{line}")?;
        }
        if lines.len() > MOST_LINES {
            write!(page, "<br>and {} more lines", lines.len() - MOST_LINES)?;
        }
        page.write_str("</h2>\n")
    }
}

/// A text as it was set, in its direction and between its contexts: the characters before and after
/// it, in the order of the text.
pub(crate) struct Text<'a> {
    text: &'a str,
    before: String,
    after: String,
    is_rtl: bool,
}

impl<'a> Text<'a> {
    /// A text in a buffer, which has what is around it.
    pub(crate) fn new(text: &'a str, buffer: &Buffer) -> Self {
        Text {
            text,
            before: buffer.pre_context().iter().rev().collect(),
            after: buffer.post_context().iter().collect(),
            is_rtl: buffer.direction() == Direction::RightToLeft,
        }
    }

    /// Whether the text has no characters.
    pub(crate) fn is_empty(&self) -> bool {
        self.text.is_empty()
    }
}

impl fmt::Display for Text<'_> {
    fn fmt(&self, page: &mut fmt::Formatter<'_>) -> fmt::Result {
        let direction = if self.is_rtl { " dir=\"rtl\"" } else { "" };
        write!(page, "<p class=\"text\"{direction}><bdi>")?;
        write_context(page, &self.before)?;
        write!(page, "{}", Escaped(self.text))?;
        write_context(page, &self.after)?;
        page.write_str("</bdi></p>\n")
    }
}

// Writes the characters of a context, if it has some.
fn write_context(page: &mut fmt::Formatter<'_>, context: &str) -> fmt::Result {
    if context.is_empty() {
        return Ok(());
    }
    write!(page, "<span class=\"context\">{}</span>", Escaped(context))
}

/// What hooks returned, one line each.
pub(super) struct Answers<'a>(pub(super) &'a str);

impl fmt::Display for Answers<'_> {
    fn fmt(&self, page: &mut fmt::Formatter<'_>) -> fmt::Result {
        for answer in self.0.lines() {
            writeln!(page, "<p>answered <code>{}</code></p>", Escaped(answer))?;
        }
        Ok(())
    }
}

/// What ended a run.
pub(super) struct Fault(pub(super) Line, pub(super) DrawFault);

impl fmt::Display for Fault {
    fn fmt(&self, page: &mut fmt::Formatter<'_>) -> fmt::Result {
        let Fault(line, fault) = self;
        write!(page, "<p class=\"fault\">{line}")?;
        match fault.of_line() {
            LineFault::Unreadable(_) => page.write_str("<br>unreadable")?,
            LineFault::Refused(refusal) => write!(page, "<br>refused: {refusal}")?,
        }
        if let DrawFault::TooMany(count) = fault {
            write!(
                page,
                "<br>{count} glyphs are too many to draw; {MOST_GLYPHS} fit"
            )?;
        }
        page.write_str("</p>\n")
    }
}

/// A note.
pub(super) struct Note(pub(super) &'static str);

impl fmt::Display for Note {
    fn fmt(&self, page: &mut fmt::Formatter<'_>) -> fmt::Result {
        writeln!(page, "<p class=\"note\">{}</p>", Escaped(self.0))
    }
}

/// The first characters of a text, and dots where there are more.
pub(super) fn shortened(text: &str) -> String {
    let mut short: String = text.chars().take(LONGEST_LINE).collect();
    if short.len() < text.len() {
        short.push('\u{2026}');
    }
    short
}

#[cfg(test)]
mod tests {
    use super::*;

    #[test]
    fn a_line_of_any_bytes_is_shown_as_text() {
        let line = Line::new(3, b"text \xFF<b>").to_string();
        assert_eq!(
            line,
            "line 3 <code><bdi>text \u{FFFD}&lt;b&gt;</bdi></code>"
        );
        let long = shortened(&"\u{1780}".repeat(121));
        assert_eq!(long.chars().count(), 121);
        assert!(long.ends_with('\u{2026}'));
        assert_eq!(shortened(&"a".repeat(120)), "a".repeat(120));
    }

    #[test]
    fn the_head_of_a_row_has_six_lines() {
        let lines: Vec<Line> = (1..=8)
            .map(|number| Line::new(number, b"text 61"))
            .collect();
        assert_eq!(Head(&lines[..6]).to_string().matches("line ").count(), 6);
        let head = Head(&lines).to_string();
        assert!(head.ends_with("<br>and 2 more lines</h2>\n"));
        assert!(!head.contains("line 7"));
    }
}
