//! What the table gives to items for Rust's callers: derives that Rattle's library lacks, attributes,
//! and what the crate's hand-written part alone sees.

use crate::file::File;
use crate::table::{all, get};
use std::collections::BTreeMap;

/// What stands before tokens in the file that is written, by their places.
pub fn added(file: &File) -> BTreeMap<usize, String> {
    let mut added = BTreeMap::new();
    for i in 0..file.tokens.len() {
        match (file.text(i), file.text(i + 1)) {
            ("struct" | "enum", name) => add_to_type(file, i, name, &mut added),
            // `pub` stands before it
            ("fn", _) if is_inner(file, i) => {
                added.insert(i, "(crate) ".to_string());
            }
            _ => {}
        }
    }
    added
}

// Whether the table has the function with its keyword at `i` as a method that only the crate sees.
fn is_inner(file: &File, i: usize) -> bool {
    let is_around = |j: &usize| file.text(*j) == "impl" && file.end(*j).is_ok_and(|end| end > i);
    let method = |owner: &str| format!("{owner}::{}", file.text(i + 1));
    let is_known = all("inner").any(|(path, _)| path.ends_with(&method("")));
    let owner = (0..i).rev().filter(|_| is_known).find(is_around);
    owner.is_some_and(|j| get("inner", &method(file.text(j + 1))).is_some())
}

// Adds to the struct or enum with its keyword at `i`.
fn add_to_type(file: &File, i: usize, name: &str, added: &mut BTreeMap<usize, String>) {
    let start = file.start(i);
    if let Some(derive) = (start..i).find(|j| file.text(*j) == "derive") {
        let list = derive + 1..=file.partner(derive + 1);
        let is_equal = list.clone().any(|j| file.text(j) == "Eq");
        let names = is_equal.then_some("Hash").into_iter();
        let names =
            names.chain(get("derives", name).into_iter().flat_map(|names| names.split(',')));
        let text: String = names.map(|name| format!(", {name}")).collect();
        added.insert(*list.end(), text);
    }
    if let Some(attribute) = get("marked", name) {
        added.insert(start, format!("#[{attribute}]\n"));
    }
    if get("open", name).is_some() {
        let end = file.end(i).unwrap_or(i);
        let is_field = |j: &usize| file.text(j + 1) == ":" && matches!(file.before(*j), "{" | ",");
        added.extend((i..end).filter(is_field).map(|j| (j, "pub(crate) ".to_string())));
    }
}
