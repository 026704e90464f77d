// Generated from crates/hbhook_commands/src/printing.rt by rust/erase; edit the source.

//! What a run writes: the glyphs of the buffer on standard output, a fault on standard error.

use crate::support::prelude::*;

use crate::generated::hbhook_commands::fault::Fault;
use crate::support::alloc::AllocError;
use crate::support::io::Write;
use sengadlit::buffer::Buffer;

/// Adds a line for each glyph: glyph, cluster, mask, syllable, category, auxiliary and class, and
/// in a buffer with positions advance and offset.
pub fn print_buffer(text: &mut String, buffer: &Buffer) -> Result<(), AllocError> {
    for i in 0..buffer.len() {
        print_glyph(text, buffer, i)?;
    }
    Ok(())
}

// Adds the line of the glyph at place `i`.
fn print_glyph(text: &mut String, buffer: &Buffer, i: usize) -> Result<(), AllocError> {
    let glyph = buffer.get(i);
    write!(
        text,
        "{:04x} {} {:08x} {:02x} {} {} {}",
        glyph.glyph_id,
        glyph.cluster,
        glyph.mask,
        glyph.syllable,
        glyph.category,
        glyph.auxiliary,
        glyph.unicode_props.high_byte()
    )?;
    if i < buffer.positions_len() {
        let position = buffer.position(i);
        write!(text, " {} {}", position.x_advance, position.x_offset)?;
    }
    text.push('\n')?;
    Ok(())
}

/// Writes all of a text, or reports that the writer is broken.
///
/// <details><summary>Contract</summary>
///
/// # Contract
///
/// ```text
/// ensures { IfErr result (λ fault. fault ≡ Broken) }
/// ```
///
/// </details>
pub fn write_text<W: Write>(mut output: W, text: &str) -> Result<(), Fault> {
    let written = output
        .write_all(text.as_bytes())
        .and_then(|()| output.flush());
    written.map_err(|_| Fault::Broken)
}

/// Reports a fault as `report` does, and then on a line of its own what was expected of a rejected
/// line, or which line was refused.
///
/// <details><summary>Contract</summary>
///
/// # Contract
///
/// ```text
/// ensures { result ≤ 2 }
/// ```
///
/// </details>
pub fn explain<W: Write>(mut faults: W, fault: Fault) -> u8 {
    let status = report(&mut faults, fault);
    let explained = match fault {
        Fault::Unreadable(number, expected) => {
            writeln!(faults, "line {number}: expected {expected}")
        }
        Fault::Refused(_, Some(number)) => writeln!(faults, "line {number}: refused"),
        Fault::Refused(_, None) => writeln!(
            faults,
            "no line: refused for the lines or for what is printed"
        ),
        Fault::Broken => Ok(()),
    };
    match explained {
        Ok(()) => status,
        Err(_) => Fault::Broken.status(),
    }
}

/// Reports a fault and returns the status to end with.
///
/// <details><summary>Contract</summary>
///
/// # Contract
///
/// ```text
/// ensures { result ≤ 2 }
/// ```
///
/// </details>
pub fn report<W: Write>(mut faults: W, fault: Fault) -> u8 {
    if matches!(fault, Fault::Broken) {
        return fault.status();
    }
    match writeln!(faults, "{fault}") {
        Ok(()) => fault.status(),
        Err(_) => Fault::Broken.status(),
    }
}
