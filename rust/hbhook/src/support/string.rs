//! Text whose growth can fail.

use sengadlit::alloc::{AllocError, Global};
use std::fmt;
use std::ops::Deref;

/// A growable text, like [`std::string::String`], whose growth returns an error if memory runs out.
///
/// It dereferences to `str`.
#[derive(Debug, Default, PartialEq, Eq)]
pub struct String(std::string::String);

impl String {
    /// An empty text. It takes no memory.
    pub const fn new(_alloc: Global) -> Self {
        String(std::string::String::new())
    }

    /// The text.
    pub fn as_str(&self) -> &str {
        &self.0
    }

    /// Appends a text.
    ///
    /// # Errors
    ///
    /// [`AllocError`] if memory runs out; nothing is then appended.
    pub fn push_str(&mut self, text: &str) -> Result<(), AllocError> {
        self.0.try_reserve(text.len()).map_err(|_| AllocError)?;
        self.0.push_str(text);
        Ok(())
    }

    /// Appends a character.
    ///
    /// # Errors
    ///
    /// [`AllocError`] if memory runs out; nothing is then appended.
    pub fn push(&mut self, character: char) -> Result<(), AllocError> {
        self.push_str(character.encode_utf8(&mut [0; 4]))
    }

    /// Appends formatted text, for `write!` and `writeln!`.
    ///
    /// # Errors
    ///
    /// [`AllocError`] if memory runs out; a part may then have been appended.
    pub fn write_fmt(&mut self, arguments: fmt::Arguments<'_>) -> Result<(), AllocError> {
        fmt::Write::write_fmt(&mut Growing(self), arguments).map_err(|_| AllocError)
    }
}

impl Deref for String {
    type Target = str;

    fn deref(&self) -> &str {
        self.as_str()
    }
}

// The sink that formatting writes to.
struct Growing<'a>(&'a mut String);

impl fmt::Write for Growing<'_> {
    fn write_str(&mut self, text: &str) -> fmt::Result {
        self.0.push_str(text).map_err(|_| fmt::Error)
    }
}

#[cfg(test)]
mod tests {
    use super::*;

    #[test]
    fn grows_by_texts_characters_and_formats() {
        let mut text = String::new(Global);
        text.push_str("a").unwrap();
        text.push('\u{E33}').unwrap();
        text.push_str("bc").unwrap();
        write!(text, " {:04X}", 0x41).unwrap();
        assert_eq!(text.as_str(), "a\u{E33}bc 0041");
        assert_eq!(text.chars().count(), 9);
    }
}
