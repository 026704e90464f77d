// Generated from crates/shapers_buffer/src/buffer/refusal.rt by rust/erase; edit the source.

use crate::support::alloc::AllocError;

/// Why a call refused. After a refusal what it was given is unchanged. Its text is the name alone.
#[non_exhaustive]
#[derive(Clone, Copy, Debug, PartialEq, Eq, Hash)]
pub enum ShaperError {
    /// A growth was refused.
    Memory,
    /// The result would be longer than [`max_len`].
    ///
    /// [`max_len`]: crate::Buffer::max_len
    TooLong,
    /// A syllable is of unknown kind: the first place of the first one.
    UnknownSyllable(usize),
    /// A span is empty, or the lengths don't add up to the buffer's.
    SpansDontCover,
    /// A sum of the stretch rule doesn't fit its type.
    StretchOverflow,
}

impl From<AllocError> for ShaperError {
    #[inline]
    fn from(_e: AllocError) -> Self {
        ShaperError::Memory
    }
}
