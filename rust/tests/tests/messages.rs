//! The messages of `ShaperError`, which are written by hand, are those that its source declares.

use sengadlit::ShaperError;
use std::fs;
use std::path::Path;

const SOURCE: &str = "../../crates/shapers_buffer/src/buffer/refusal.rt";

const ERRORS: [ShaperError; 5] = [
    ShaperError::Memory,
    ShaperError::TooLong,
    ShaperError::UnknownSyllable(7),
    ShaperError::SpansDontCover,
    ShaperError::StretchOverflow,
];

/// The texts of the source's `#[error("..")]` lines, in order.
fn declared(source: &str) -> Vec<&str> {
    source
        .lines()
        .filter_map(|line| line.trim().strip_prefix("#[error(\"")?.strip_suffix("\")]"))
        .collect()
}

#[test]
fn each_message_is_that_of_the_source() {
    let path = Path::new(env!("CARGO_MANIFEST_DIR")).join(SOURCE);
    let source = fs::read_to_string(path).unwrap();
    let messages = ERRORS.map(|error| error.to_string());
    assert_eq!(messages.as_slice(), declared(&source));
    // The text of a refusal is its name, without the place.
    let names = [
        "Memory",
        "TooLong",
        "UnknownSyllable",
        "SpansDontCover",
        "StretchOverflow",
    ];
    assert_eq!(messages, names);
}
