//! The messages of the errors that the sources declare.

use crate::generated::hbhook_commands::{Expected, Fault};
use std::error::Error;
use std::fmt;

impl fmt::Display for Expected {
    fn fmt(&self, f: &mut fmt::Formatter<'_>) -> fmt::Result {
        match self {
            Expected::Text => write!(f, "bytes of UTF-8"),
            Expected::NoByteOrderMark => write!(f, "no byte order mark"),
            Expected::LineFeed => {
                write!(f, "a line feed alone at the end, without a carriage return")
            }
            Expected::Command => write!(
                f,
                "a line that does something; only a named file may have comments, which begin with #"
            ),
            Expected::OneSpace => write!(f, "one space between two fields, and none at either end"),
            Expected::Fields(fields) => write!(f, "these fields: {fields}"),
            Expected::Word(words) => write!(f, "one of these words: {words}"),
            Expected::Number(most) => write!(f, "a decimal number from 0 to {most}"),
            Expected::Signed => write!(
                f,
                "a decimal number of 32 bits, with a minus where it is negative"
            ),
            Expected::Hexadecimal => {
                write!(f, "a hexadecimal number of 32 bits, without a prefix")
            }
            Expected::Character => write!(
                f,
                "a character: hexadecimal, to 10FFFF, and none of D800 to DFFF"
            ),
            Expected::FourCharacters => write!(f, "four ASCII characters, none of them a space"),
            Expected::Condition(condition) => write!(f, "{condition}"),
        }
    }
}

impl Error for Expected {}

impl fmt::Display for Fault {
    fn fmt(&self, f: &mut fmt::Formatter<'_>) -> fmt::Result {
        match self {
            Fault::Unreadable(line, _) => write!(f, "line {line}: unreadable"),
            Fault::Refused(refusal, _) => write!(f, "refused: {refusal}"),
            Fault::Broken => write!(f, "broken"),
        }
    }
}

impl Error for Fault {}

#[cfg(test)]
mod tests {
    use super::*;
    use sengadlit::buffer::ShaperError;
    use std::fs;
    use std::path::Path;

    // The variants of a source with their messages, in order.
    fn declared(source: &str) -> Vec<(&str, &str)> {
        let mut message = None;
        let mut variants = Vec::new();
        for line in source.lines().map(str::trim) {
            if let Some(text) = line.strip_prefix("#[error(\"") {
                message = text.split_once('"').map(|(message, _)| message);
            } else if let Some(text) = message.filter(|_| !line.starts_with("///")) {
                let name = line.split(['(', ',']).next().unwrap_or(line);
                variants.push((name, text));
                message = None;
            }
        }
        variants
    }

    fn expect_messages(source: &str, errors: &[(&str, &dyn Error, &str)]) {
        let path = Path::new(env!("CARGO_MANIFEST_DIR"))
            .join("../../crates/hbhook_commands/src")
            .join(source);
        let source = fs::read_to_string(path).unwrap();
        let declared = declared(&source);
        assert_eq!(declared.len(), errors.len());
        for ((name, message), (variant, error, value)) in declared.into_iter().zip(errors) {
            assert_eq!(name, *variant);
            assert_eq!(error.to_string(), message.replace("{0}", value));
        }
    }

    #[test]
    fn expected_fields_read_as_declared() {
        expect_messages(
            "expected.rt",
            &[
                ("Text", &Expected::Text, ""),
                ("NoByteOrderMark", &Expected::NoByteOrderMark, ""),
                ("LineFeed", &Expected::LineFeed, ""),
                ("Command", &Expected::Command, ""),
                ("OneSpace", &Expected::OneSpace, ""),
                ("Fields", &Expected::Fields("pair A B C"), "pair A B C"),
                ("Word", &Expected::Word("yes, no"), "yes, no"),
                ("Number", &Expected::Number(29), "29"),
                ("Signed", &Expected::Signed, ""),
                ("Hexadecimal", &Expected::Hexadecimal, ""),
                ("Character", &Expected::Character, ""),
                ("FourCharacters", &Expected::FourCharacters, ""),
                ("Condition", &Expected::Condition("a place"), "a place"),
            ],
        );
    }

    #[test]
    fn faults_read_as_declared() {
        let refused = Fault::Refused(ShaperError::TooLong, None);
        expect_messages(
            "fault.rt",
            &[
                ("Unreadable", &Fault::Unreadable(7, Expected::Text), "7"),
                ("Refused", &refused, "TooLong"),
                ("Broken", &Fault::Broken, ""),
            ],
        );
    }
}
