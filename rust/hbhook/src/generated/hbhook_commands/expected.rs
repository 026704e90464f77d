// Generated from crates/hbhook_commands/src/expected.rt by rust/erase; edit the source.

//! What was expected of a rejected line.

/// A number that one byte holds.
pub(crate) const BYTE: Expected = Expected::Number(0xFF);

/// A number that two bytes hold.
pub(crate) const TWO_BYTES: Expected = Expected::Number(0xFFFF);

/// A number that four bytes hold.
pub(crate) const FOUR_BYTES: Expected = Expected::Number(0xFFFF_FFFF);

/// A place or a length.
pub(crate) const COUNT: Expected = Expected::Number(usize::MAX);

/// What was expected of a line, or of a field of it.
#[derive(Clone, Copy, Debug)]
pub enum Expected {
    Text,
    NoByteOrderMark,
    LineFeed,
    Command,
    OneSpace,
    /// The fields that such a line has.
    Fields(&'static str),
    /// One of some words.
    Word(&'static str),
    /// A number up to the greatest.
    Number(usize),
    Signed,
    Hexadecimal,
    Character,
    FourCharacters,
    /// A condition of the line's call.
    Condition(&'static str),
}

impl Expected {
    /// What was expected of a rejected line as a whole: what holds of every line comes first.
    pub(crate) fn of_line(self, line: &str) -> Self {
        if line.starts_with('\u{FEFF}') {
            Expected::NoByteOrderMark
        } else if line.ends_with('\r') {
            Expected::LineFeed
        } else if line.is_empty() || line.starts_with('#') || line.starts_with("//") {
            Expected::Command
        } else if line.contains('\t') || line.split(' ').any(|field| field.is_empty()) {
            Expected::OneSpace
        } else {
            self
        }
    }
}
