//! The messages of the errors that the sources declare.

use crate::buffer::ShaperError;
use crate::shaper::checked::{CallError, Condition};
use core::error::Error;
use core::fmt;

impl fmt::Display for ShaperError {
    fn fmt(&self, f: &mut fmt::Formatter<'_>) -> fmt::Result {
        f.write_str(match self {
            ShaperError::Memory => "Memory",
            ShaperError::TooLong => "TooLong",
            ShaperError::UnknownSyllable(_) => "UnknownSyllable",
            ShaperError::SpansDontCover => "SpansDontCover",
            ShaperError::StretchOverflow => "StretchOverflow",
        })
    }
}

impl Error for ShaperError {}

impl fmt::Display for Condition {
    fn fmt(&self, f: &mut fmt::Formatter<'_>) -> fmt::Result {
        f.write_str(match self {
            Condition::Positions => {
                "the buffer has positions before positioning, or after it not one a glyph"
            }
            Condition::Range => "the range of marks doesn't rise, or passes the buffer's end",
            Condition::Marks => "there are more than 32 marks",
            Condition::PlanData => "the plan hasn't the data that is read",
            Condition::Glyphs => "a glyph is no character, or after the font's mapping above 65535",
            Condition::SpanKinds => "the kind of a span is above 15",
        })
    }
}

impl Error for Condition {}

impl fmt::Display for CallError {
    fn fmt(&self, f: &mut fmt::Formatter<'_>) -> fmt::Result {
        f.write_str(match self {
            CallError::Condition(_) => "a condition of the call isn't met",
            CallError::Refused(_) => "the call was refused",
        })
    }
}

impl Error for CallError {
    fn source(&self) -> Option<&(dyn Error + 'static)> {
        match self {
            CallError::Condition(condition) => Some(condition),
            CallError::Refused(refusal) => Some(refusal),
        }
    }
}
