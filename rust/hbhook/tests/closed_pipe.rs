//! An output whose reader is gone: the status is that of an output that can't be written.
//!
//! The test stands alone in its process: while another thread starts a program, that one has the
//! pipe's reading end too.

use std::io::Write;
use std::process::{Command, Stdio};

#[test]
fn ends_where_no_one_reads_the_output() {
    for option in ["-", "--explain", "--why", "--draw"] {
        let mut child = Command::new(env!("CARGO_BIN_EXE_hbhook"))
            .arg(option)
            .stdin(Stdio::piped())
            .stdout(Stdio::piped())
            .stderr(Stdio::piped())
            .spawn()
            .unwrap();
        drop(child.stdout.take());
        let mut stdin = child.stdin.take().unwrap();
        stdin.write_all(b"text 41").unwrap();
        drop(stdin);
        let output = child.wait_with_output().unwrap();
        assert_eq!(output.status.code(), Some(2), "{option}");
        assert!(output.stderr.is_empty(), "{option}");
    }
}
