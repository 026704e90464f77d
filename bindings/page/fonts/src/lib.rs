//! Shapes a text with a font, by HarfRust as it is and by the copy with the hooks, and has outlines. A
//! caller writes the font to where [`font_room`] says, and a request to where [`room`] says; [`answer`]
//! says where the answer is, which is JSON. A request is lines of text: its kind, then what it needs.
//!
//! | kind | lines | answer |
//! |---|---|---|
//! | `name` | | units per em, ascent and descent of the font |
//! | `shape` | `stock` or `sengadlit`, script, direction, level, flags, the text | the glyphs |
//! | `broken` | the same with a width before the text | for each piece its glyphs in the whole, and alone |
//! | `words` | `stock` or `sengadlit`, a text a line | the numbers of the glyphs of each |
//! | `outline` | numbers of glyphs | the path of each, in SVG |
//!
//! Script and direction may be empty, and are then the text's own. What can't be read has the answer
//! null. A line is broken where no flag forbids it.

mod breaking;
mod json;
mod outlines;
mod shaping;

use json::{array, object, string};
use shaping::{sengadlit, stock, Setting, Shaped};
use skrifa::instance::{LocationRef, Size};
use skrifa::{FontRef, MetadataProvider};
use std::cell::{Cell, RefCell};

thread_local! {
    static FONT: RefCell<Vec<u8>> = const { RefCell::new(Vec::new()) };
    static REQUEST: RefCell<Vec<u8>> = const { RefCell::new(Vec::new()) };
    static ANSWER: RefCell<String> = const { RefCell::new(String::new()) };
    static LENGTH: Cell<usize> = const { Cell::new(0) };
}

/// Where a font of so many bytes is to be written.
#[no_mangle]
pub extern "C" fn font_room(length: usize) -> *mut u8 {
    FONT.with_borrow_mut(|font| emptied(font, length))
}

/// Where a request of so many bytes is to be written.
#[no_mangle]
pub extern "C" fn room(length: usize) -> *mut u8 {
    REQUEST.with_borrow_mut(|request| emptied(request, length))
}

/// Answers the request that was written; returns where the answer is.
#[no_mangle]
pub extern "C" fn answer() -> *const u8 {
    let request = REQUEST.take();
    let request = String::from_utf8_lossy(&request);
    let answered = FONT.with_borrow(|font| answer_to(font, &request));
    let answered = answered.unwrap_or_else(|| "null".into());
    LENGTH.set(answered.len());
    ANSWER.with_borrow_mut(|answer| {
        *answer = answered;
        answer.as_ptr()
    })
}

/// How many bytes the answer has.
#[no_mangle]
pub extern "C" fn length() -> usize {
    LENGTH.get()
}

fn emptied(bytes: &mut Vec<u8>, length: usize) -> *mut u8 {
    bytes.clear();
    bytes.resize(length, 0);
    bytes.as_mut_ptr()
}

/// The answer to a request; `None` where it or the font can't be read.
pub fn answer_to(font: &[u8], request: &str) -> Option<String> {
    let (kind, rest) = request.split_once('\n').unwrap_or((request, ""));
    match kind {
        "name" => metrics(font),
        "shape" => shape(font, rest),
        "broken" => broken(font, rest),
        "words" => words(font, rest),
        "outline" => outlines::paths(font, rest),
        _ => None,
    }
}

fn metrics(font: &[u8]) -> Option<String> {
    let font = FontRef::from_index(font, 0).ok()?;
    let metrics = font.metrics(Size::unscaled(), LocationRef::default());
    Some(object(&[
        ("units", metrics.units_per_em.to_string()),
        ("ascent", metrics.ascent.to_string()),
        ("descent", metrics.descent.to_string()),
    ]))
}

type ShapeTexts = fn(&[u8], &[&str], &Setting) -> Option<Vec<Shaped>>;

// The shaper of a name.
fn shaper_of(name: &str) -> Option<ShapeTexts> {
    match name {
        "stock" => Some(stock::shape_texts),
        "sengadlit" => Some(sengadlit::shape_texts),
        _ => None,
    }
}

// The fields with which each request to shape begins, and what is behind them.
fn read_setting(request: &str) -> Option<(ShapeTexts, Setting, &str)> {
    let mut fields = request.splitn(6, '\n');
    let shape_texts = shaper_of(fields.next()?)?;
    let setting = Setting {
        script: fields.next()?,
        direction: fields.next()?,
        level: fields.next()?.parse().ok()?,
        flags: u32::from_str_radix(fields.next()?, 16).ok()?,
    };
    Some((shape_texts, setting, fields.next()?))
}

fn shape(font: &[u8], request: &str) -> Option<String> {
    let (shape_texts, setting, text) = read_setting(request)?;
    Some(told(&shape_texts(font, &[text], &setting)?.pop()?))
}

fn broken(font: &[u8], request: &str) -> Option<String> {
    let (shape_texts, setting, rest) = read_setting(request)?;
    let (width, text) = rest.split_once('\n')?;
    let whole = shape_texts(font, &[text], &setting)?.pop()?;
    let pieces = breaking::pieces_at(&whole, text.len(), width.parse().ok()?);
    let texts: Vec<&str> = pieces.iter().filter_map(|piece| text.get(piece.clone())).collect();
    let alone = shape_texts(font, &texts, &setting)?;
    let pieces = pieces.iter().zip(&alone).map(|(piece, alone)| {
        let in_whole = whole.iter().filter(|glyph| piece.contains(&(glyph.cluster as usize)));
        let in_whole: Shaped = in_whole.copied().collect();
        object(&[("whole", told(&in_whole)), ("alone", told(alone))])
    });
    Some(array(pieces))
}

fn told(glyphs: &Shaped) -> String {
    array(glyphs.iter().map(|glyph| {
        object(&[
            ("number", glyph.number.to_string()),
            ("cluster", glyph.cluster.to_string()),
            ("flags", glyph.flags.to_string()),
            ("advance", glyph.advance.to_string()),
            ("x", glyph.x.to_string()),
            ("y", glyph.y.to_string()),
        ])
    }))
}

// The numbers of the glyphs of each text.
fn words(font: &[u8], request: &str) -> Option<String> {
    let (name, texts) = request.split_once('\n')?;
    let texts: Vec<&str> = texts.split('\n').collect();
    let shaped = shaper_of(name)?(font, &texts, &Setting::default())?;
    let numbers = |glyphs: &Shaped| -> String {
        let numbers: Vec<String> = glyphs.iter().map(|glyph| glyph.number.to_string()).collect();
        string(&numbers.join(" "))
    };
    Some(array(shaped.iter().map(numbers)))
}
