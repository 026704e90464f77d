//! What the tests share: runs of the program, and folders of their own.
#![allow(dead_code, reason = "each test uses a part")]

use std::ffi::OsStr;
use std::io::Write;
use std::path::{Path, PathBuf};
use std::process::{Command, Stdio};

/// The top of the repository.
pub fn top() -> PathBuf {
    let package = Path::new(env!("CARGO_MANIFEST_DIR"));
    package.ancestors().nth(2).unwrap().into()
}

/// The repository's own font.
pub fn sample_font() -> &'static str {
    concat!(env!("CARGO_MANIFEST_DIR"), "/../../fonts/sample.ttf")
}

/// The program, beside the folder of the tests. (A shell between cargo and rustc drops the variable
/// `CARGO_BIN_EXE_sengadlit-shape`, for its hyphen.)
fn program() -> PathBuf {
    let test = std::env::current_exe().unwrap();
    let folder = test.ancestors().nth(2).unwrap();
    folder.join(format!("sengadlit-shape{}", std::env::consts::EXE_SUFFIX))
}

/// How a run ended.
#[derive(Debug)]
pub struct Done {
    pub status: Option<i32>,
    pub output: String,
    pub error: String,
}

impl Done {
    /// What was printed by a run that ended well.
    pub fn success(self) -> String {
        assert_eq!(self.status, Some(0), "{self:?}");
        self.output
    }
}

/// Runs the program without input.
pub fn run(arguments: &[impl AsRef<OsStr>]) -> Done {
    run_with_input(arguments, b"")
}

/// Runs the program with this standard input.
pub fn run_with_input(arguments: &[impl AsRef<OsStr>], input: &[u8]) -> Done {
    let mut program = Command::new(program())
        .args(arguments)
        .stdin(Stdio::piped())
        .stdout(Stdio::piped())
        .stderr(Stdio::piped())
        .spawn()
        .unwrap();
    // (a program that doesn't read its input may have ended)
    let _ = program.stdin.take().unwrap().write_all(input);
    let done = program.wait_with_output().unwrap();
    let text = |bytes| String::from_utf8_lossy(bytes).into_owned();
    Done {
        status: done.status.code(),
        output: text(&done.stdout),
        error: text(&done.stderr),
    }
}

/// A folder that goes at the end.
pub struct Scratch(PathBuf);

impl Scratch {
    pub fn new(name: &str) -> Self {
        let folder =
            std::env::temp_dir().join(format!("sengadlit-shape-{name}-{}", std::process::id()));
        std::fs::create_dir_all(&folder).unwrap();
        Scratch(folder)
    }

    pub fn path(&self, name: &str) -> String {
        self.0.join(name).to_str().unwrap().into()
    }
}

impl Drop for Scratch {
    fn drop(&mut self) {
        let _ = std::fs::remove_dir_all(&self.0);
    }
}
