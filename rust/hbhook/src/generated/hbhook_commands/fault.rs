// Generated from crates/hbhook_commands/src/fault.rt by rust/erase; edit the source.

//! What ends a run before its last line.

use crate::generated::hbhook_commands::expected::Expected;
use crate::support::alloc::AllocError;
use sengadlit::buffer::ShaperError;

/// Why a line can't be carried out.
#[derive(Clone, Copy, Debug)]
pub enum LineFault {
    /// It isn't recognised, or the conditions of its call fail: what was expected.
    Unreadable(Expected),
    /// A shaper or a growth refused.
    Refused(ShaperError),
}

impl LineFault {
    /// The fault of a whole line.
    pub(crate) fn of_line(self, line: &str) -> Self {
        match self {
            LineFault::Unreadable(expected) => LineFault::Unreadable(expected.of_line(line)),
            LineFault::Refused(refusal) => LineFault::Refused(refusal),
        }
    }
}

impl From<ShaperError> for LineFault {
    fn from(refusal: ShaperError) -> Self {
        LineFault::Refused(refusal)
    }
}

impl From<AllocError> for LineFault {
    fn from(_error: AllocError) -> Self {
        LineFault::Refused(ShaperError::Memory)
    }
}

/// What ends a run, as it is reported on standard error.
#[derive(Clone, Copy, Debug)]
pub enum Fault {
    /// A rejected line, by its number from 1, and what was expected of it.
    Unreadable(usize, Expected),
    /// A refusal, and the number of the line that was refused, unless it was another growth.
    Refused(ShaperError, Option<usize>),
    /// Input that can't be read, or output that can't be written: nothing is reported.
    Broken,
}

impl From<AllocError> for Fault {
    fn from(_error: AllocError) -> Self {
        Fault::Refused(ShaperError::Memory, None)
    }
}

impl Fault {
    /// The fault of the line of this number.
    pub fn on_line(fault: LineFault, number: usize) -> Self {
        match fault {
            LineFault::Unreadable(expected) => Fault::Unreadable(number, expected),
            LineFault::Refused(refusal) => Fault::Refused(refusal, Some(number)),
        }
    }

    /// The status that a run with this fault ends with.
    ///
    /// <details><summary>Contract</summary>
    ///
    /// # Contract
    ///
    /// ```text
    /// ensures value { result ≡ status_of self }
    /// ensures most { result ≤ 2 }
    /// ```
    ///
    /// - `status_of`: `crates/hbhook_commands/specs/Fault.antt`
    ///
    /// </details>
    pub fn status(self) -> u8 {
        match self {
            Fault::Refused(_, _) => 1,
            Fault::Unreadable(_, _) | Fault::Broken => 2,
        }
    }
}
