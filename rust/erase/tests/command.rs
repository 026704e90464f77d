//! Runs the program: on the repository, whose trees are up to date, and on a copy of the sources, where
//! white space doesn't count, and each file that differs is printed. And the table renames items alone.

use erase::table::all;
use erase::token::{Token, tokens};
use std::collections::BTreeSet;
use std::os::unix::fs::PermissionsExt;
use std::path::{Path, PathBuf};
use std::process::{Command, Output};
use std::{env, fs, process};

// A folder of a test's own, gone when the test ends. It isn't below target/: `rt ci` stops at sources
// in the repository that no crate has.
struct Scratch(PathBuf);

impl Scratch {
    fn new(test: &str) -> Self {
        let folder = env::temp_dir().join(format!("sengadlit-{test}-{}", process::id()));
        fs::create_dir_all(&folder).unwrap();
        Scratch(folder)
    }
}

impl Drop for Scratch {
    fn drop(&mut self) {
        let _ = fs::remove_dir_all(&self.0);
    }
}

fn copy_sources(to: &Path) {
    let top = Path::new(env!("CARGO_MANIFEST_DIR")).join("../..");
    for (krate, _) in all("crate") {
        copy(&top, to, &format!("crates/{krate}/src"));
    }
}

fn copy(from: &Path, to: &Path, path: &str) {
    fs::create_dir_all(to.join(path)).unwrap();
    for entry in fs::read_dir(from.join(path)).unwrap() {
        let entry = entry.unwrap();
        let below = format!("{path}/{}", entry.file_name().to_str().unwrap());
        if entry.path().is_dir() {
            copy(from, to, &below);
        } else {
            fs::copy(entry.path(), to.join(below)).unwrap();
        }
    }
}

fn run(top: &Path, arguments: &[&str]) -> Output {
    let mut command = Command::new(env!("CARGO_BIN_EXE_erase"));
    command.args(arguments).current_dir(top).output().unwrap()
}

// What a check prints, where it fails.
fn different(top: &Path) -> Option<String> {
    let output = run(top, &["--check"]);
    let text = String::from_utf8(output.stdout).unwrap();
    (output.status.code() != Some(0)).then_some(text)
}

// Whether rustfmt is here; without it the program isn't tested.
fn has_rustfmt() -> bool {
    let found = Command::new("rustfmt").arg("--version").output().is_ok();
    if !found {
        eprintln!("no rustfmt here: the program isn't tested");
    }
    found
}

#[test]
fn the_repositorys_trees_are_up_to_date() {
    let top = Path::new(env!("CARGO_MANIFEST_DIR")).join("../..");
    if has_rustfmt() {
        assert_eq!(different(&top), None, "made anew by `cargo run -p erase`");
    }
}

#[test]
fn names_that_change_are_items_of_the_sources() {
    let top = Path::new(env!("CARGO_MANIFEST_DIR")).join("../../crates");
    let sources = all("crate").map(|(krate, _)| top.join(krate).join("src"));
    let items: BTreeSet<String> = sources.flat_map(|folder| items_below(&folder)).collect();
    for (name, _) in all("name") {
        assert!(items.contains(name), "no item `{name}` in crates/");
    }
}

// The names of the structs, enums, traits and functions that sources below a folder declare.
fn items_below(folder: &Path) -> BTreeSet<String> {
    let mut items = BTreeSet::new();
    for entry in fs::read_dir(folder).unwrap() {
        let path = entry.unwrap().path();
        if path.is_dir() {
            items.extend(items_below(&path));
            continue;
        }
        let text = fs::read_to_string(path).unwrap();
        let tokens = tokens(&text).unwrap();
        let is_item = |pair: &&[Token]| ["struct", "enum", "trait", "fn"].contains(&&*pair[0].text);
        items.extend(tokens.windows(2).filter(is_item).map(|pair| pair[1].text.clone()));
    }
    items
}

#[test]
fn check_tells_what_differs() {
    if !has_rustfmt() {
        return;
    }
    let scratch = Scratch::new("command");
    let top = &scratch.0;
    copy_sources(top);
    fs::write(top.join("CHANGELOG.md"), "# Changes\n").unwrap();
    assert!(run(top, &[]).status.success());
    let tag = "rust/sengadlit/src/generated/shapers_buffer/buffer/tag.rs";
    let text = fs::read_to_string(top.join(tag)).unwrap();
    fs::write(top.join(tag), text.replace("\n", "\n\n ").replace("[u8; 4]", "[u8;4,]")).unwrap();
    assert_eq!(different(top), None);
    fs::write(top.join(tag), text.replace("///", "/// More:")).unwrap();
    let stale = "rust/hbhook/src/generated/stale/old.rs";
    fs::create_dir_all(top.join(stale).parent().unwrap()).unwrap();
    fs::write(top.join(stale), "").unwrap();
    let copy = "rust/sengadlit/CHANGELOG.md";
    fs::write(top.join("CHANGELOG.md"), "# Other changes\n").unwrap();
    assert_eq!(different(top), Some(format!("{stale}\n{tag}\n{copy}\n")));
    assert!(run(top, &[]).status.success());
    assert_eq!(different(top), None);
    assert!(!top.join(stale).exists());
    assert_eq!(fs::read_to_string(top.join(tag)).unwrap(), text);
}

#[test]
fn nothing_is_written_without_rustfmt() {
    let scratch = Scratch::new("rustfmt");
    let top = &scratch.0;
    copy_sources(top);
    let tag = top.join("rust/sengadlit/src/generated/shapers_buffer/buffer/tag.rs");
    fs::create_dir_all(tag.parent().unwrap()).unwrap();
    fs::write(&tag, "// as it was\n").unwrap();
    let proxy = top.join("proxy");
    fs::create_dir(&proxy).unwrap();
    let rustfmt = proxy.join("rustfmt");
    fs::write(&rustfmt, "#!/bin/sh\necho \"'rustfmt' is not installed\" >&2\nexit 1\n").unwrap();
    fs::set_permissions(&rustfmt, fs::Permissions::from_mode(0o755)).unwrap();
    for (path, fault) in [("/nowhere", "No such file"), (proxy.to_str().unwrap(), "'rustfmt' is")] {
        for arguments in [&[][..], &["--check"]] {
            let mut command = Command::new(env!("CARGO_BIN_EXE_erase"));
            // (the proxy's shell is named by its path)
            let output = command.args(arguments).current_dir(top).env("PATH", path).output();
            let output = output.unwrap();
            assert_eq!(output.status.code(), Some(1));
            let message = String::from_utf8(output.stderr).unwrap();
            let head = "erase: nothing was written, since rustfmt doesn't run (";
            assert!(message.starts_with(&format!("{head}{fault}")), "{message}");
            assert!(message.contains("`rustfmt`, or `rustup component add rustfmt`"), "{message}");
        }
    }
    assert_eq!(fs::read_to_string(&tag).unwrap(), "// as it was\n");
    assert_eq!(fs::read_dir(top.join("rust")).unwrap().count(), 1);
    assert!(!top.join("target").exists());
}

#[test]
fn what_is_wrong_has_file_and_line() {
    let scratch = Scratch::new("wrong");
    let top = &scratch.0;
    let first = all("crate").next().unwrap().0;
    fs::create_dir_all(top.join(format!("crates/{first}/src"))).unwrap();
    let path = format!("crates/{first}/src/lib.rt");
    fs::write(top.join(&path), "\n#[no_mangle]\nfn f() {}\n").unwrap();
    let output = run(top, &[]);
    assert_eq!(output.status.code(), Some(1));
    let message = String::from_utf8(output.stderr).unwrap();
    assert_eq!(message, format!("{path}:2: an unknown attribute\n"));
    assert_eq!(run(top, &["--all"]).status.code(), Some(1));
}
