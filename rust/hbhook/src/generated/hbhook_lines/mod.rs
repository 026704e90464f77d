// Generated from crates/hbhook_lines/src/lib.rt by rust/erase; edit the source.

//! The program: carries out the lines of an input on a buffer of glyphs and prints the buffer.

mod session;
mod text;

use crate::generated::hbhook_commands::{Fault, explain, lines_of, read_input, report, write_text};
use crate::support::alloc::Global;
use crate::support::io::{Read, Write};
pub use session::Session;

/// Carries out the lines of the input and prints the buffer that they leave. A refusal or a fault
/// ends the run with nothing but a message in `faults`. Returns the status to end with: 0, 1 for a
/// refusal, and 2 for a rejected line, and without a message for a reader or a writer that fails.
///
/// <details><summary>Contract</summary>
///
/// # Contract
///
/// ```text
/// ensures { result ≤ 2 }
/// ```
///
/// </details>
pub fn run_lines<I, O, F>(alloc: Global, input: I, output: O, faults: F) -> u8
where
    I: Read,
    O: Write,
    F: Write,
{
    match run(alloc, input, output) {
        Ok(()) => 0,
        Err(fault) => report(faults, fault),
    }
}

/// Does what `run_lines` does, and after the message writes to `faults` what was expected of the
/// rejected line, or which line was refused.
///
/// <details><summary>Contract</summary>
///
/// # Contract
///
/// ```text
/// ensures { result ≤ 2 }
/// ```
///
/// </details>
pub fn explain_lines<I, O, F>(alloc: Global, input: I, output: O, faults: F) -> u8
where
    I: Read,
    O: Write,
    F: Write,
{
    match run(alloc, input, output) {
        Ok(()) => 0,
        Err(fault) => explain(faults, fault),
    }
}

fn run<I, O>(alloc: Global, input: I, output: O) -> Result<(), Fault>
where
    I: Read,
    O: Write,
{
    let bytes = read_input(alloc, input)?;
    let lines = lines_of(alloc, &bytes)?;
    let mut session = Session::new(alloc);
    carry_out_lines(&mut session, lines.as_slice())?;
    let text = session.printed()?;
    write_text(output, text.as_str())
}

// Carries out the lines in order, to the first fault.
fn carry_out_lines(session: &mut Session, lines: &[&[u8]]) -> Result<(), Fault> {
    for (i, line) in lines.iter().enumerate() {
        session
            .carry_out(line)
            .map_err(|fault| Fault::on_line(fault, i + 1))?;
    }
    Ok(())
}
