//! What docs.txt says of public functions, beside the documentation of their sources.

use crate::file::File;
use crate::table::get;
use std::collections::BTreeMap;
use std::sync::LazyLock;

static DOCS: LazyLock<BTreeMap<&str, &str>> = LazyLock::new(|| {
    let sections = include_str!("../docs.txt").split("\n## ").skip(1);
    sections.filter_map(|section| section.split_once('\n')).collect()
});

/// The functions that docs.txt documents, each with what it says.
pub fn all() -> impl Iterator<Item = (&'static str, &'static str)> {
    DOCS.iter().map(|(name, text)| (*name, text.trim()))
}

/// The lines for the function with its keyword at `i`; none where docs.txt doesn't name it.
pub fn lines(file: &File, i: usize) -> String {
    let text = DOCS.get(&*path_of(file, i)).map_or("", |text| text.trim());
    let head = if text.is_empty() { None } else { Some("") };
    head.into_iter()
        .chain(text.lines())
        .map(|line| format!("/// {line}").trim_end().to_string() + "\n")
        .collect()
}

// A function's crate, the type or trait that it is a method of, and its name, as Rust has them.
fn path_of(file: &File, i: usize) -> String {
    let new = |name: &str| get("name", name).unwrap_or(name).to_string();
    let is_around = |j: &usize| {
        matches!(file.text(*j), "impl" | "trait") && file.end(*j).is_ok_and(|end| end > i)
    };
    let owner = (0..i).rev().find(is_around).map(|j| new(file.text(j + 1)));
    let krate = file.path.split('/').nth(1).map(str::to_string);
    let parts = krate.into_iter().chain(owner).chain([new(file.text(i + 1))]);
    parts.collect::<Vec<_>>().join("::")
}
