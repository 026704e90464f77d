//! What is wrong with the line that ended a run: the field, its text and what was expected.
//!
//! The run itself prints a line that rules fix, as `line 3: unreadable`. What is added here is found
//! by carrying out the lines once more.

mod field;

use crate::generated::hbhook_commands::{Expected, Fault, LineFault};
use crate::generated::hbhook_lines::Session;
use crate::source::Source;
use field::{PAUSES, SHAPERS, fields_of};
use sengadlit::alloc::Global;
use sengadlit::buffer::{Buffer, ShaperError};
use sengadlit::plan::{Pause, Plan};
use sengadlit::shaper::{Shaper, pause_fits};
use std::collections::BTreeSet;

/// The most glyphs that a page of `draw_lines` has in a row.
const MOST_DRAWN: usize = 10_000;

/// What ended the run of a script that returned this status, in one line of text: which field was
/// rejected, and what was expected in its place, or why a line was refused. `None` where the run
/// wasn't ended by a line.
///
/// ```
/// let script = b"set shaper thai\ntext U+0E14 0E33";
/// let explained = hbhook::explain_end(hbhook::Source::Input, script, 2, false).unwrap();
/// assert_eq!(
///     explained,
///     "line 2: field 2, `U+0E14`: expected a character such as 0E14, without U+ or 0x"
/// );
/// ```
///
/// `draws` says that the script was drawn: that run ends before a row with too many glyphs, which
/// it has explained itself.
pub fn explain_end(source: Source, script: &[u8], status: u8, draws: bool) -> Option<String> {
    let mut session = Session::new(Global);
    for (number, line) in source.lines(script) {
        match session.carry_out(line) {
            Ok(()) if draws && session.buffer.len() > MOST_DRAWN => return None,
            Ok(()) => {}
            Err(fault) if Fault::on_line(fault, number).status() != status => return None,
            Err(LineFault::Unreadable(expected)) => {
                let line = String::from_utf8_lossy(line);
                let reason = reason(&session, &line, expected);
                return Some(format!("line {number}: {reason}"));
            }
            Err(LineFault::Refused(refusal)) => {
                let reason = refused(refusal, &session.buffer);
                return Some(format!("line {number}: refused: {reason}"));
            }
        }
    }
    None
}

/// The characters of a script's texts that no `table` line names, in their order; each has the
/// values of a character without a line. None where the last setting of `tables` is `unicode`. Lines
/// behind the one that ended the run count as well.
pub fn without_table(script: &[u8]) -> Vec<char> {
    let script = String::from_utf8_lossy(script);
    let mut in_tables = BTreeSet::new();
    let mut in_texts = Vec::new();
    let mut are_unicode = false;
    for line in script.split('\n') {
        if let Some(tables) = line.strip_prefix("set tables ") {
            are_unicode = tables == "unicode";
        }
        let mut fields = line.split(' ');
        match fields.next() {
            Some("table") => in_tables.extend(fields.next().and_then(field::character)),
            Some("text") => in_texts.extend(fields.flat_map(field::characters)),
            _ => {}
        }
    }
    if are_unicode {
        return Vec::new();
    }
    let mut seen = in_tables;
    in_texts.retain(|character| seen.insert(*character));
    in_texts
}

// Why a line was rejected. What holds of every line comes first, then the first field that isn't
// what the line has there, and then the conditions of the call.
fn reason(session: &Session, line: &str, expected: Expected) -> String {
    let is_of_whole_lines = matches!(
        expected,
        Expected::Text
            | Expected::NoByteOrderMark
            | Expected::LineFeed
            | Expected::Command
            | Expected::OneSpace
    );
    if is_of_whole_lines {
        return format!("expected {expected}");
    }
    let texts: Vec<&str> = line.split(' ').collect();
    let fields = fields_of(&texts);
    for (i, (field, text)) in fields.iter().zip(&texts).enumerate() {
        if !field.accepts(text) {
            return named(i + 1, text, &field.expected(text));
        }
    }
    if let Expected::Fields(_) = expected {
        return format!("expected {expected}; the line has {}", texts.len());
    }
    unmet(session, &texts).unwrap_or_else(|| format!("expected {expected}"))
}

// A field by its number, with its text and what was expected.
fn named(number: usize, text: &str, expected: &str) -> String {
    format!("field {number}, `{text}`: expected {expected}")
}

// Which condition of the buffer or of the shaper a line doesn't meet, where more can be told than
// the condition.
fn unmet(session: &Session, texts: &[&str]) -> Option<String> {
    let length = session.buffer.len();
    match *texts {
        ["set", "maxlen", most] if most.parse::<usize>().ok()? < length => {
            let expected = format!("at least the length of the buffer, {length}");
            Some(named(3, most, &expected))
        }
        ["at", place, ..] if length == 0 => {
            Some(named(2, place, "a place in the buffer, which is empty"))
        }
        ["at", place, ..] if place.parse::<usize>().ok()? >= length => {
            let expected = format!("a place below the length of the buffer, {length}");
            Some(named(2, place, &expected))
        }
        ["run", "marks", _, end] if end.parse::<usize>().ok()? > length => {
            let expected = format!("an end up to the length of the buffer, {length}");
            Some(named(4, end, &expected))
        }
        ["run", "marks", first, end] | ["stage", _, first, end]
            if first.parse::<usize>().ok()? > end.parse::<usize>().ok()? =>
        {
            let number = texts.len() - 1;
            Some(named(
                number,
                first,
                &format!("a number up to the end, {end}"),
            ))
        }
        ["run", "pause", name] => {
            let place = PAUSES.iter().position(|pause| *pause == name)?;
            other_shaper(session.shaper()?, Pause::ALL[place], name)
        }
        _ => None,
    }
}

// Which shapers a pause needs, where the shaper isn't one of them.
fn other_shaper(shaper: Shaper, pause: Pause, name: &str) -> Option<String> {
    let mut fitting = Vec::new();
    for (other, word) in Shaper::ALL.into_iter().zip(SHAPERS) {
        let plan = Plan::builder().build_for(other).ok()?;
        let fits = pause_fits(pause, &plan);
        if fits && other == shaper {
            return None;
        }
        if fits {
            fitting.push(format!("`set shaper {word}`"));
        }
    }
    let needed = fitting.join(" or ");
    let (_, word) = Shaper::ALL
        .into_iter()
        .zip(SHAPERS)
        .find(|(it, _)| *it == shaper)?;
    Some(format!("{name} needs {needed}; the shaper is {word}"))
}

// Why a line was refused.
fn refused(refusal: ShaperError, buffer: &Buffer) -> String {
    let (length, most) = (buffer.len(), buffer.max_len());
    match refusal {
        ShaperError::Memory => "there is no memory for it".into(),
        ShaperError::TooLong => format!("more glyphs than `maxlen`, which is {most}"),
        ShaperError::SpansDontCover => format!(
            "the lengths of the `span` lines don't add up to the length of the buffer, {length}, \
             or one is 0"
        ),
        ShaperError::UnknownSyllable(place) => {
            format!("the syllable at place {place} is of a kind that the shaper doesn't know")
        }
        ShaperError::StretchOverflow => "a number of a stretched mark doesn't fit 32 bits".into(),
        refusal => refusal.to_string(),
    }
}
