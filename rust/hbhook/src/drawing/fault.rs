//! What ends a page before the last line.

use crate::generated::hbhook_commands::{Fault, LineFault, report};
use sengadlit::ShaperError;
use sengadlit::alloc::AllocError;
use std::io::Write;

/// The most glyphs of a row.
pub(crate) const MOST_GLYPHS: usize = 10_000;

/// Why what a line does can't be drawn.
#[derive(Clone, Copy)]
pub(super) enum DrawFault {
    /// The line can't be carried out.
    Line(LineFault),
    /// It leaves more glyphs than a row may have: so many.
    TooMany(usize),
}

impl DrawFault {
    /// The fault of the line. Too many glyphs are a text that is too long.
    pub(super) fn of_line(self) -> LineFault {
        match self {
            DrawFault::Line(fault) => fault,
            DrawFault::TooMany(_) => LineFault::Refused(ShaperError::TooLong),
        }
    }
}

impl From<LineFault> for DrawFault {
    fn from(fault: LineFault) -> Self {
        DrawFault::Line(fault)
    }
}

impl From<AllocError> for DrawFault {
    fn from(error: AllocError) -> Self {
        DrawFault::Line(LineFault::from(error))
    }
}

/// What ended a page: the fault, and the number of its line.
#[derive(Clone, Copy)]
pub(super) struct Ended {
    pub(super) fault: DrawFault,
    pub(super) number: usize,
}

impl Ended {
    /// Reports what ended a page, on a line of its own how many glyphs are too many, and returns
    /// the status to end with.
    pub(super) fn report(self, mut faults: impl Write) -> u8 {
        let Ended { fault, number } = self;
        let status = report(&mut faults, Fault::on_line(fault.of_line(), number));
        let DrawFault::TooMany(count) = fault else {
            return status;
        };
        let told = writeln!(
            faults,
            "line {number}: {count} glyphs are too many to draw; {MOST_GLYPHS} fit"
        );
        told.map_or(Fault::Broken.status(), |()| status)
    }
}
