//! The errors of the crate's calls are Rust's, and say what was refused.

use sengadlit::ShaperError;
use sengadlit::shaper::checked::{CallError, Condition};
use std::error::Error;

#[test]
fn an_error_is_one_of_rusts() {
    let error: Box<dyn Error> = Box::new(ShaperError::UnknownSyllable(7));
    assert_eq!(error.to_string(), "UnknownSyllable");
    assert!(error.source().is_none());
}

// Without the place of the syllable, which the value has.
#[test]
fn the_text_of_a_refusal_is_its_name() {
    let refusals = [
        ShaperError::Memory,
        ShaperError::TooLong,
        ShaperError::UnknownSyllable(3),
        ShaperError::SpansDontCover,
        ShaperError::StretchOverflow,
    ];
    let names = [
        "Memory",
        "TooLong",
        "UnknownSyllable",
        "SpansDontCover",
        "StretchOverflow",
    ];
    assert_eq!(refusals.map(|refusal| refusal.to_string()), names);
}

#[test]
fn a_checked_call_says_what_it_refused() {
    let unmet = CallError::from(Condition::Marks);
    assert_eq!(unmet.to_string(), "a condition of the call isn't met");
    assert_eq!(
        unmet.source().unwrap().to_string(),
        "there are more than 32 marks"
    );
    let refused = CallError::from(ShaperError::TooLong);
    assert_eq!(refused.to_string(), "the call was refused");
    assert_eq!(refused.source().unwrap().to_string(), "TooLong");
    let error: Box<dyn Error> = Box::new(Condition::PlanData);
    assert_eq!(error.to_string(), "the plan hasn't the data that is read");
}
