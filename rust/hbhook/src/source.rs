//! Where lines come from: on an input each line has to read; a file that is named may also have
//! comments and empty lines, which are left out before its lines are run.

use crate::generated::hbhook_commands::{Fault, read_input, report, write_text};
use crate::generated::hbhook_lines::Session;
use sengadlit::alloc::Global;
use std::io::{Read, Write};

/// Where lines come from.
#[derive(Clone, Copy, Debug, Default, PartialEq, Eq)]
pub enum Source {
    /// An input, each line of which has to read.
    #[default]
    Input,
    /// A file, whose empty lines, and comments, which begin with `#`, are passed over.
    File,
}

impl Source {
    /// The lines with their numbers, from 1 on. A line feed ends each, which the last one may lack.
    pub(crate) fn lines(self, bytes: &[u8]) -> impl Iterator<Item = (usize, &[u8])> {
        let lines = bytes.split_inclusive(|byte| *byte == b'\n');
        let lines = lines.map(|line| line.strip_suffix(b"\n").unwrap_or(line));
        let is_run =
            move |line: &[u8]| self == Source::Input || !line.is_empty() && !line.starts_with(b"#");
        (1..).zip(lines).filter(move |(_, line)| is_run(line))
    }
}

/// Carries out the lines of a file and prints the buffer that they leave, as
/// [`run_lines`](crate::run_lines) does of an input. Returns the status to end with.
pub fn run_file(file: impl Read, output: impl Write, faults: impl Write) -> u8 {
    match run(file, output) {
        Ok(()) => 0,
        Err(fault) => report(faults, fault),
    }
}

fn run(file: impl Read, output: impl Write) -> Result<(), Fault> {
    let bytes = read_input(Global, file)?;
    let mut session = Session::new(Global);
    for (number, line) in Source::File.lines(&bytes) {
        let done = session.carry_out(line);
        done.map_err(|fault| Fault::on_line(fault, number))?;
    }
    write_text(output, session.printed()?.as_str())
}

#[cfg(test)]
mod tests {
    use super::*;

    #[test]
    fn a_line_feed_ends_a_line_which_the_last_may_lack() {
        let lines = |input| Source::Input.lines(input).collect::<Vec<_>>();
        assert_eq!(lines(b"a\n\nb"), [(1, &b"a"[..]), (2, b""), (3, b"b")]);
        assert_eq!(lines(b"a\r\n#"), [(1, &b"a\r"[..]), (2, b"#")]);
        assert_eq!(lines(b""), []);
    }

    #[test]
    fn a_file_has_comments_and_empty_lines() {
        let lines = |file| Source::File.lines(file).collect::<Vec<_>>();
        assert_eq!(
            lines(b"# one\n\na\n#\n #\nb\n"),
            [(3, &b"a"[..]), (5, b" #"), (6, b"b")]
        );
        assert_eq!(lines(b"\n\r\n#\r\n"), [(2, &b"\r"[..])]);
    }
}
