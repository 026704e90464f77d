//! A text the whole way up to a font's lookups and through the pauses between them, printed and
//! drawn.

use crate::drawing::{FOOT, HEAD, Head, Line, Text};
use crate::generated::hbhook_commands::print_buffer;
use crate::steps::{Choices, Steps, Walk};
use crate::support::string::String as Page;
use crate::way::{Wanted, Way};
use crate::word::{name_of_pause, script_of_word};
use sengadlit::alloc::{AllocError, Global};
use sengadlit::ot_shape_plan::ShapeChoices;
use sengadlit::shaper::checked::CallError;
use sengadlit::{Buffer, Face, GlyphInfo, Script, ShaperError};
use std::fmt;

/// Why a text has no glyphs.
#[derive(Clone, Debug, PartialEq, Eq)]
pub enum TextFault {
    /// No script is named, and none with hooks is known of the text.
    NoScript,
    /// A step refused.
    Refused(ShaperError),
    /// A row of a drawing was refused, and why.
    Undrawn(String),
}

impl fmt::Display for TextFault {
    fn fmt(&self, f: &mut fmt::Formatter<'_>) -> fmt::Result {
        match self {
            TextFault::NoScript => f.write_str("no script with hooks is known of the text"),
            TextFault::Refused(refusal) => write!(f, "the text was refused: {refusal}"),
            TextFault::Undrawn(reason) => f.write_str(reason),
        }
    }
}

impl From<ShaperError> for TextFault {
    fn from(refusal: ShaperError) -> Self {
        TextFault::Refused(refusal)
    }
}

impl From<AllocError> for TextFault {
    fn from(refusal: AllocError) -> Self {
        TextFault::Refused(refusal.into())
    }
}

/// The glyphs of a text, one line each as [`run_lines`](crate::run_lines) prints them: all that
/// comes before a font's lookups is done to it, and then the pauses between them, in their order.
/// The font has every character but those of private use, every feature and no lookup. The script is
/// that of the first character that is of one with a shaper, unless one is named; the choices are
/// those of the plan.
///
/// # Errors
///
/// No script is known, or a step refuses.
///
/// ```
/// // E and AA are the parts of OO, and E comes before the letter
/// let script = Some(*b"Khmr");
/// let printed = hbhook::print_text("\u{1780}\u{17C4}", script, Default::default()).unwrap();
/// let numbers: Vec<&str> = printed.lines().map(|line| &line[..4]).collect();
/// assert_eq!(numbers, ["17c1", "1780", "17c4"]);
/// ```
pub fn print_text(
    text: &str,
    script: Option<[u8; 4]>,
    choices: ShapeChoices,
) -> Result<String, TextFault> {
    let way = way_of(text, script, choices)?;
    let mut buffer = Buffer::default();
    for (cluster, character) in (0..).zip(text.chars()) {
        buffer.push(GlyphInfo::of_character(character, cluster))?;
    }
    way.substitute(&mut buffer)?;
    let mut printed = Page::new(Global);
    print_buffer(&mut printed, &buffer)?;
    Ok(printed.as_str().into())
}

/// The same as a page of HTML, which has a row for the text, one for all that comes before lookups,
/// and one for each pause, as [`draw_lines`](crate::draw_lines) draws them.
///
/// # Errors
///
/// Those of [`print_text`], and a row would have too many glyphs.
pub fn draw_text(
    text: &str,
    script: Option<[u8; 4]>,
    choices: ShapeChoices,
) -> Result<String, TextFault> {
    let way = way_of(text, script, choices)?;
    let mut walk = Walk::new();
    walk_text(&way, &mut walk, text).map_err(TextFault::Undrawn)?;
    let mut around = Buffer::default();
    around.set_direction(way.direction);
    let steps = walk.finished(Some(way.script.0), None);
    Ok(page_of(&steps, &Text::new(text, &around)))
}

/// The glyphs of a text in a font file, in the order that they are drawn in, one line each as
/// [`run_lines`](crate::run_lines) prints them, with advances and offsets. The script is the text's own
/// by Unicode, unless one is named.
///
/// # Errors
///
/// Memory is refused, or the text gets too long.
pub fn print_text_in_font(
    text: &str,
    choices: &Choices,
    face: &Face<'_>,
) -> Result<String, TextFault> {
    let steps = Steps::in_font(text, choices, face).map_err(refusal_of)?;
    Ok(steps
        .steps
        .last()
        .map_or_else(String::new, |step| step.printed.clone()))
}

/// The same as a page of HTML, which has a row for the text before the font's lookups, for each lookup
/// and each pause that changes it, and for what is shaped in the end, with the glyphs' outlines.
///
/// # Errors
///
/// Those of [`print_text_in_font`].
pub fn draw_text_in_font(
    text: &str,
    choices: &Choices,
    face: &Face<'_>,
) -> Result<String, TextFault> {
    let steps = Steps::in_font(text, choices, face).map_err(refusal_of)?;
    let mut page = String::from(HEAD);
    page += &Text::new(text, &Buffer::default()).to_string();
    for step in &steps.steps {
        let head = step.heads.join(", ");
        page += &format!("<h2><code>{head}</code></h2>\n{}", step.drawn);
    }
    Ok(page + &steps.legend + FOOT)
}

/// The step before the lookups, as the crate calls it, and where bindings/page/definitions.md defines it.
const PREPARE: &str = "prepare_text";
const PREPARED: Option<(&str, &str)> = Some(("shapers_pipeline", "Prepared"));

// The way of a text of this script, or of its own.
fn way_of(text: &str, script: Option<[u8; 4]>, choices: ShapeChoices) -> Result<Way, TextFault> {
    let code = script.or_else(|| script_of_word(text));
    let wanted = Wanted {
        shape: choices,
        ..Wanted::default()
    };
    Ok(Way::of(Script(code.ok_or(TextFault::NoScript)?), wanted)?)
}

// Why a text in a font file has no glyphs.
fn refusal_of(error: CallError) -> TextFault {
    TextFault::Undrawn(error.to_string())
}

// Takes a text through its steps.
fn walk_text(way: &Way, walk: &mut Walk, text: &str) -> Result<(), String> {
    for line in way.lines(text) {
        walk.carry_out(&line)?;
    }
    walk.step(PREPARE, PREPARED, |buffer| way.prepare(buffer))?;
    for pause in way.pauses() {
        let name = format!("run pause {}", name_of_pause(pause));
        walk.step(&name, None, |buffer| way.pause(pause, buffer))?;
    }
    Ok(())
}

// The page of these steps, of which the first is the text.
fn page_of(steps: &Steps, text: &Text) -> String {
    let mut page = String::from(HEAD);
    for (i, step) in steps.steps.iter().enumerate() {
        page.extend(step.heads.iter().map(|head| head_of(i, head)));
        if i == 0 && !text.is_empty() {
            page += &text.to_string();
        }
        page += &step.drawn;
    }
    page + &steps.legend + FOOT
}

// What a step is: the line of the text, or the name of a call, which needs no escapes.
fn head_of(step: usize, head: &str) -> String {
    if step == 0 {
        return Head(&[Line::new(1, head.as_bytes())]).to_string();
    }
    format!("<h2><code>{head}</code></h2>\n")
}

#[cfg(test)]
mod tests {
    use super::*;

    fn numbers(text: &str, script: &[u8; 4]) -> Vec<u32> {
        let printed = print_text(text, Some(*script), ShapeChoices::default()).unwrap();
        let first = |line: &str| line.split(' ').next().map(String::from);
        let numbers = printed.lines().filter_map(first);
        numbers
            .map(|number| u32::from_str_radix(&number, 16).unwrap())
            .collect()
    }

    #[test]
    fn a_text_of_each_shaper_is_normalized_and_reordered() {
        // SARA AM comes apart, and the tone stands behind its mark
        assert_eq!(
            numbers("\u{0E19}\u{0E49}\u{0E33}", b"Thai"),
            [0x0E19, 0x0E4D, 0x0E49, 0x0E32]
        );
        // parts of a vowel sign stand on both sides
        assert_eq!(
            numbers("\u{0B95}\u{0BCA}", b"Taml"),
            [0x0BC6, 0x0B95, 0x0BBE]
        );
        assert_eq!(numbers("\u{1000}\u{1031}", b"Mymr"), [0x1031, 0x1000]);
        assert_eq!(numbers("\u{0D9A}\u{0DD9}", b"Sinh"), [0x0DD9, 0x0D9A]);
        // a letter and a mark are composed, as normalization does and the hooks alone don't
        assert_eq!(numbers("\u{0627}\u{0653}", b"Arab"), [0x0622]);
        assert_eq!(numbers("e\u{0301}", b"Latn"), [0xE9]);
        assert_eq!(numbers("\u{1112}\u{1161}\u{11AB}", b"Hang"), [0xD55C]);
        // characters beyond those that numbers of glyphs reach
        assert_eq!(numbers("\u{1E900}\u{1E944}", b"Adlm"), [0x1E900, 0x1E944]);
        assert_eq!(
            numbers("\u{11107}\u{1112E}", b"Cakm"),
            [0x11107, 0x11131, 0x11127]
        );
        // the font has no character of private use
        assert_eq!(numbers("\u{E000}", b"Latn"), [0]);
        assert_eq!(numbers("", b"Latn"), []);
    }

    #[test]
    fn a_page_has_a_row_for_each_pause() {
        let text = "\u{1781}\u{17D2}\u{1798}\u{17C2}\u{179A}";
        let page = draw_text(text, None, ShapeChoices::default()).unwrap();
        let heads: Vec<&str> = page
            .lines()
            .filter(|line| line.starts_with("<h2>"))
            .collect();
        let ends = [
            "text",
            PREPARE,
            "setup_syllables_khmer",
            "reorder_khmer",
            "syllabic_clear_var",
        ];
        assert_eq!(heads.len(), ends.len(), "{heads:?}");
        for (head, end) in heads.iter().zip(ends) {
            assert!(head.contains(end), "{head}");
        }
        assert!(page.ends_with(FOOT));
    }

    #[test]
    fn a_text_without_a_script_is_rejected() {
        assert_eq!(
            print_text("word", None, ShapeChoices::default()),
            Err(TextFault::NoScript)
        );
        let long = "\u{1780}".repeat(crate::MOST_SHOWN + 1);
        assert!(matches!(
            draw_text(&long, None, ShapeChoices::default()),
            Err(TextFault::Undrawn(_))
        ));
        assert!(print_text(&long, None, ShapeChoices::default()).is_ok());
    }
}
