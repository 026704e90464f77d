// Generated from crates/hbhook_commands/src/input.rt by rust/erase; edit the source.

//! The input of a run, and its lines.

use crate::support::prelude::*;

use crate::generated::hbhook_commands::fault::Fault;
use crate::support::alloc::{AllocError, Global};
use crate::support::io::{self, ErrorKind, Read};
use sengadlit::buffer::ShaperError;

/// All that a reader gives.
pub fn read_input<I: Read>(alloc: Global, mut input: I) -> Result<Vec<u8>, Fault> {
    let mut bytes = Vec::new(alloc);
    input.read_to_end(&mut bytes).map_err(input_fault)?;
    Ok(bytes)
}

// Why the input can't be read: no memory for it, or a broken reader.
fn input_fault(error: io::Error) -> Fault {
    match error.kind() {
        ErrorKind::OutOfMemory => Fault::Refused(ShaperError::Memory, None),
        _ => Fault::Broken,
    }
}

/// The lines of an input. A line feed ends each, which the last one may lack.
pub fn lines_of(alloc: Global, input: &[u8]) -> Result<Vec<&[u8]>, AllocError> {
    let lines = input.split_inclusive(|byte| *byte == b'\n');
    lines
        .map(|line| line.strip_suffix(b"\n").unwrap_or(line))
        .collect_in(alloc)
}
