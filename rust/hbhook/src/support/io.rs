//! Input and output.

use super::prelude::Vec;
pub use std::io::{Error, ErrorKind, Result, Write};
use std::mem;

/// A reader that fills a list whose growth can fail; every [`std::io::Read`] is one.
pub trait Read {
    /// Appends all remaining bytes to a list, and returns their number.
    ///
    /// # Errors
    ///
    /// Those of the reader, and [`ErrorKind::OutOfMemory`] if memory runs out.
    fn read_to_end(&mut self, bytes: &mut Vec<u8>) -> Result<usize>;
}

impl<R: std::io::Read> Read for R {
    fn read_to_end(&mut self, bytes: &mut Vec<u8>) -> Result<usize> {
        let mut all = mem::take(bytes).into();
        let count = std::io::Read::read_to_end(self, &mut all);
        *bytes = all.into();
        count
    }
}

#[cfg(test)]
mod tests {
    use super::*;
    use sengadlit::alloc::Global;

    #[test]
    fn adds_what_is_left() {
        let mut bytes = Vec::from_slice(Global, b"ab").unwrap();
        let mut input = b"cde".as_slice();
        assert_eq!(Read::read_to_end(&mut input, &mut bytes).unwrap(), 3);
        assert_eq!(bytes.as_slice(), b"abcde");
        assert_eq!(Read::read_to_end(&mut input, &mut bytes).unwrap(), 0);
    }

    #[test]
    fn passes_on_what_fails() {
        struct Broken;

        impl std::io::Read for Broken {
            fn read(&mut self, _: &mut [u8]) -> Result<usize> {
                Err(ErrorKind::Other.into())
            }
        }

        let mut bytes = Vec::new(Global);
        let error = Read::read_to_end(&mut Broken, &mut bytes).unwrap_err();
        assert_eq!(error.kind(), ErrorKind::Other);
    }
}
