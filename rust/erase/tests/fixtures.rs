//! Erases small inputs and compares what comes out. A fixture holds files of the repository, each
//! under a line `--- PATH`; those in rust/ are what is expected, and `--- error` is the message that
//! is expected instead. White space doesn't count.

use erase::erase;
use erase::token::tokens;
use std::collections::BTreeMap;
use std::fs;
use std::path::Path;

// The words of a text's comments, and its tokens.
fn words(text: &str) -> Vec<String> {
    let tokens = tokens(text).unwrap();
    let words = tokens.iter().flat_map(|token| token.lead.split_whitespace().chain([&*token.text]));
    words.filter(|word| !word.is_empty()).map(str::to_string).collect()
}

// The files of a fixture, by their paths.
fn sections(fixture: &str) -> BTreeMap<String, String> {
    let sections = fixture.split("--- ").skip(1).filter_map(|section| section.split_once('\n'));
    sections.map(|(path, text)| (path.to_string(), text.to_string())).collect()
}

// What a fixture gives that it doesn't expect.
fn difference(fixture: &str) -> Option<String> {
    let mut files = sections(fixture);
    let expected_error = files.remove("error").map(|error| error.trim().to_string());
    let mut expected = files.split_off("rust/");
    let roots = files.keys().filter_map(|path| path.strip_suffix("/src/lib.rt"));
    let crates: Vec<&str> = roots.map(|path| path.trim_start_matches("crates/")).collect();
    let outputs = match erase(&crates, &|path| files.get(path).cloned()) {
        Err(error) => return (Some(&error) != expected_error.as_ref()).then_some(error),
        Ok(outputs) => outputs,
    };
    for (path, text) in outputs {
        if words(&text) != words(&expected.remove(&path).unwrap_or_default()) {
            return Some(text);
        }
    }
    let is_missing = !expected.is_empty() || expected_error.is_some();
    is_missing.then(|| format!("missing: {expected:?} {expected_error:?}"))
}

#[test]
fn fixtures_come_out_as_expected() {
    let folder = Path::new(env!("CARGO_MANIFEST_DIR")).join("tests/fixtures");
    let paths: Vec<_> = fs::read_dir(folder).unwrap().map(|entry| entry.unwrap().path()).collect();
    let mut differences = String::new();
    for path in &paths {
        if let Some(text) = difference(&fs::read_to_string(path).unwrap()) {
            differences += &format!("{}:\n{text}\n", path.display());
        }
    }
    assert!(paths.len() > 30, "{} fixtures", paths.len());
    assert!(differences.is_empty(), "{differences}");
}
