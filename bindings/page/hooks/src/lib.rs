//! What the page shows of hooks, and of a text in a font. A caller writes a request into the memory that
//! [`room`] has, and reads the answer, which is JSON, from where [`answer`] says. A request is lines of
//! text: its kind, then what it needs. A font is written into the memory that [`font_room`] has.
//!
//! | kind | lines | answer |
//! |---|---|---|
//! | `scripts` | | the codes of the scripts |
//! | `style` | | the style of what is drawn |
//! | `text` | script, direction (`ltr`, `rtl`), level, flags, options, the text | the steps |
//! | `shaped` | the same | the steps of the text in the font |
//! | `lines` | the lines of docs/HBHOOK.md | the steps |
//! | `glyph` | step, place | the fields of a glyph of the last steps, and what moved it |
//!
//! Script and direction may be empty, and are then the text's own. Options are words: `sound`,
//! `always`, `gposmark`, `beginning`. What can't be read has the answer null.

mod json;

use hbhook::{drawing_style, scripts_with_hooks, Choices, Steps, MOST_SHOWN};
use json::{array, object, string, strings};
use sengadlit::Face;
use std::cell::{Cell, RefCell};

thread_local! {
    static FONT: RefCell<Vec<u8>> = const { RefCell::new(Vec::new()) };
    static REQUEST: RefCell<Vec<u8>> = const { RefCell::new(Vec::new()) };
    static ANSWER: RefCell<String> = const { RefCell::new(String::new()) };
    static LAST: RefCell<Option<Steps>> = const { RefCell::new(None) };
    static LENGTH: Cell<usize> = const { Cell::new(0) };
}

/// Where a request of so many bytes is to be written.
#[no_mangle]
pub extern "C" fn room(length: usize) -> *mut u8 {
    REQUEST.with_borrow_mut(|request| emptied(request, length))
}

/// Where a font of so many bytes is to be written.
#[no_mangle]
pub extern "C" fn font_room(length: usize) -> *mut u8 {
    FONT.with_borrow_mut(|font| emptied(font, length))
}

fn emptied(bytes: &mut Vec<u8>, length: usize) -> *mut u8 {
    bytes.clear();
    bytes.resize(length, 0);
    bytes.as_mut_ptr()
}

/// Answers the request that was written; returns where the answer is.
#[no_mangle]
pub extern "C" fn answer() -> *const u8 {
    let request = REQUEST.take();
    let answered = answer_to(&String::from_utf8_lossy(&request));
    LENGTH.set(answered.len());
    ANSWER.with_borrow_mut(|answer| {
        *answer = answered;
        answer.as_ptr()
    })
}

/// How many bytes the answer has.
#[no_mangle]
pub extern "C" fn length() -> usize {
    LENGTH.get()
}

fn answer_to(request: &str) -> String {
    let (kind, rest) = request.split_once('\n').unwrap_or((request, ""));
    match kind {
        "scripts" => array(scripts_with_hooks().iter().map(|code| tag(*code))),
        "style" => string(drawing_style()),
        "text" => text_answer(rest),
        "shaped" => FONT.with_borrow(|font| shaped_answer(font, rest)).unwrap_or_else(|| "null".into()),
        "lines" => steps_answer(Steps::of_lines(rest), rest.len()),
        "glyph" => glyph_answer(rest).unwrap_or_else(|| "null".into()),
        _ => "null".into(),
    }
}

// The steps of a text, or that no script with hooks is known of it.
fn text_answer(request: &str) -> String {
    let (choices, text) = choices_of(request);
    match Steps::of_text(text, &choices) {
        Some(steps) => steps_answer(steps, text.chars().count()),
        None => "null".into(),
    }
}

// The steps of a text in a font, if it is one.
fn shaped_answer(font: &[u8], request: &str) -> Option<String> {
    let (choices, text) = choices_of(request);
    let steps = Steps::in_font(text, &choices, &Face::from_slice(font, 0)?).ok()?;
    Some(object(&[("steps", array(steps_of(&steps))), ("legend", string(&steps.legend))]))
}

// What is chosen for a text, and the text.
fn choices_of(request: &str) -> (Choices, &str) {
    let mut fields = request.splitn(6, '\n');
    let mut field = || fields.next().unwrap_or_default();
    let (script, direction, level, flags) = (field(), field(), field(), field());
    let (options, text) = (field(), field());
    let has = |option| options.split(' ').any(|word| word == option);
    let chosen = Choices {
        script: script.as_bytes().try_into().ok(),
        is_rtl: match direction {
            "ltr" => Some(false),
            "rtl" => Some(true),
            _ => None,
        },
        level: level.parse().unwrap_or(0),
        flags: u32::from_str_radix(flags, 16).unwrap_or(0),
        is_sound: has("sound"),
        has_all_rounds: has("always"),
        has_gpos_mark: has("gposmark"),
        is_beginning: has("beginning"),
    };
    (chosen, text)
}

// The steps, which later requests for glyphs read.
fn steps_answer(steps: Steps, length: usize) -> String {
    let answered = object(&[
        ("steps", array(steps_of(&steps))),
        ("legend", string(&steps.legend)),
        ("script", steps.script.map_or("null".into(), tag)),
        ("ended", steps.ended.as_deref().map_or("null".into(), string)),
        ("length", length.to_string()),
        ("most", MOST_SHOWN.to_string()),
        ("pieces", strings(&steps.pieces())),
    ]);
    LAST.set(Some(steps));
    answered
}

fn steps_of(steps: &Steps) -> impl Iterator<Item = String> + '_ {
    steps.steps.iter().map(|step| {
        let subject = step.subject.map(|(part, entry)| [part, entry]);
        object(&[
            ("heads", strings(&step.heads)),
            ("answers", strings(&step.answers)),
            ("told", string(&step.told)),
            ("drawn", string(&step.drawn)),
            ("printed", string(&step.printed)),
            ("subject", subject.map_or("null".into(), |subject| strings(&subject))),
        ])
    })
}

// The fields of a glyph of the last steps, and its moves.
fn glyph_answer(request: &str) -> Option<String> {
    let (step, place) = request.split_once('\n')?;
    let (step, place) = (step.parse().ok()?, place.parse().ok()?);
    LAST.with_borrow(|steps| {
        let steps = steps.as_ref()?;
        let fields = steps.fields(step, place);
        let fields = fields.iter().map(|(name, value)| strings(&[*name, value.as_str()]));
        let moves = steps.moves(step, place);
        let moves = moves.iter().map(|(step, from, to)| format!("[{step},{from},{to}]"));
        Some(object(&[("fields", array(fields)), ("moves", array(moves))]))
    })
}

fn tag(code: [u8; 4]) -> String {
    string(&String::from_utf8_lossy(&code))
}

#[cfg(test)]
mod tests {
    use super::{answer_to, FONT};

    #[test]
    fn a_text_is_answered_and_its_glyphs() {
        let answer = answer_to("text\n\n\n0\n0\n\n\u{0D9A}\u{0DD9}");
        assert!(answer.contains("\"script\":\"Sinh\""), "{answer}");
        assert!(answer.contains("\"heads\":[\"run pause reorder_use\"]"), "{answer}");
        assert!(answer_to("glyph\n0\n0").contains("[\"glyph\",\"0D9A \u{0D9A}\"]"));
        assert!(answer_to("glyph\n99\n0").contains("\"fields\":[]"));
    }

    #[test]
    fn a_text_is_shaped_in_the_font() {
        let font = include_bytes!("../../../../fonts/sample.ttf");
        FONT.set(font.to_vec());
        let answer = answer_to("shaped\n\n\n0\n0\n\nTofi");
        assert!(answer.contains("\"heads\":[\"shape\"]"), "{answer}");
        assert!(answer.contains(">fi</text>"), "{answer}");
        FONT.set(b"no font".to_vec());
        assert_eq!(answer_to("shaped\n\n\n0\n0\n\nTofi"), "null");
    }

    #[test]
    fn other_requests_have_no_answer() {
        for request in ["", "text\nword", "glyph\nx\n0", "shaped\n", "nothing"] {
            assert_eq!(answer_to(request), "null", "{request}");
        }
    }
}
