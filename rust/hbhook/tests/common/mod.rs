//! Runs of the program.

use std::io::Write;
use std::path::PathBuf;
use std::process::{Command, Stdio};

/// A run of the program: what it printed, what it told on standard error, and its status.
#[derive(Debug, PartialEq, Eq)]
pub struct Run {
    pub printed: String,
    pub told: String,
    pub status: Option<i32>,
}

impl Run {
    /// Runs the program with these arguments on this input.
    pub fn new(arguments: &[&str], input: &str) -> Self {
        let mut child = Command::new(env!("CARGO_BIN_EXE_hbhook"))
            .args(arguments)
            .stdin(Stdio::piped())
            .stdout(Stdio::piped())
            .stderr(Stdio::piped())
            .spawn()
            .unwrap();
        let mut stdin = child.stdin.take().unwrap();
        // A run that reads no input may have ended before it is written.
        let _ = stdin.write_all(input.as_bytes());
        drop(stdin);
        let output = child.wait_with_output().unwrap();
        Run {
            printed: String::from_utf8(output.stdout).unwrap(),
            told: String::from_utf8(output.stderr).unwrap(),
            status: output.status.code(),
        }
    }
}

/// A path from the top of the repository.
pub fn from_top(path: &str) -> PathBuf {
    PathBuf::from(concat!(env!("CARGO_MANIFEST_DIR"), "/../..")).join(path)
}
