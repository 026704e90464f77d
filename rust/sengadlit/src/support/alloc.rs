//! The allocator that calls are handed, and what they return where it has no memory.

use core::error::Error;
use core::fmt;

/// The program's global allocator.
///
/// Constructors take it by value, as Rattle's do; it has no state.
#[derive(Clone, Copy, Debug, Default, PartialEq, Eq, Hash)]
pub struct Global;

/// A request for memory was refused.
#[derive(Clone, Copy, Debug, PartialEq, Eq, Hash)]
pub struct AllocError;

impl fmt::Display for AllocError {
    fn fmt(&self, f: &mut fmt::Formatter<'_>) -> fmt::Result {
        f.write_str("memory allocation failed")
    }
}

impl Error for AllocError {}

#[cfg(feature = "std")]
impl From<AllocError> for std::io::Error {
    fn from(_: AllocError) -> Self {
        std::io::ErrorKind::OutOfMemory.into()
    }
}

/// A request for memory was refused; the value that found no room comes back.
#[derive(Clone, Copy, Debug, PartialEq, Eq, Hash)]
pub struct AllocFailed<T> {
    /// The value that found no room.
    pub value: T,
}

impl<T> fmt::Display for AllocFailed<T> {
    fn fmt(&self, f: &mut fmt::Formatter<'_>) -> fmt::Result {
        AllocError.fmt(f)
    }
}

impl<T: fmt::Debug> Error for AllocFailed<T> {}

impl<T> From<AllocFailed<T>> for AllocError {
    #[inline]
    fn from(_: AllocFailed<T>) -> Self {
        AllocError
    }
}

#[cfg(test)]
mod tests {
    use super::*;
    use std::string::ToString;

    #[test]
    fn errors_say_that_memory_is_missing() {
        assert_eq!(AllocError.to_string(), "memory allocation failed");
        assert_eq!(
            AllocFailed { value: 7 }.to_string(),
            "memory allocation failed"
        );
        assert_eq!(AllocError::from(AllocFailed { value: 7 }), AllocError);
    }

    #[cfg(feature = "std")]
    #[test]
    fn a_refused_request_is_an_io_error() {
        let error = std::io::Error::from(AllocError);
        assert_eq!(error.kind(), std::io::ErrorKind::OutOfMemory);
    }
}
