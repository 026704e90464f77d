//! `--batch`: each line of standard input has the arguments of a run, with `;` between them, as those of
//! HarfBuzz's own tests have. A run whose arguments can't be used ends the program, as it does hb-shape's;
//! else the status is 3 where a line couldn't be shaped.

use crate::carry_out;
use crate::fault::Fault;
use std::ffi::OsString;
use std::io;
use std::process::ExitCode;

/// Carries out the lines of standard input.
pub fn run() -> ExitCode {
    let mut status = 0;
    // (a run may read standard input itself, so that it isn't locked for longer than a line)
    let mut line = String::new();
    while io::stdin()
        .read_line(&mut line)
        .is_ok_and(|count| count > 0)
    {
        let pieces = line.trim_end_matches('\n').split(';');
        let arguments = pieces.filter(|piece| !piece.is_empty()).map(OsString::from);
        let arguments: Vec<OsString> = arguments.collect();
        if let Err(fault) = carry_out(&arguments) {
            fault.tell();
            status = fault.status();
            if !matches!(fault, Fault::Shaping) {
                break;
            }
        }
        line.clear();
    }
    ExitCode::from(status)
}
