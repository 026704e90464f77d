//! What goes from several files at once: law functions, the count of look-ups, and the imports and
//! modules that are empty after that.

use crate::file::File;
use crate::table::{all, get};
use std::collections::BTreeSet;

/// Cuts the law functions: those without parameters and result that do nothing, or nothing but call
/// such functions. Returns their names, or an error where another function has the name of one.
pub fn erase_laws(files: &mut [File]) -> Result<BTreeSet<String>, String> {
    let laws = laws(files);
    for file in files {
        for i in file.places("fn") {
            match (is_law(file, i, &laws), laws.contains(file.text(i + 1))) {
                (true, _) => file.cut_item(file.start(i)..=file.end(i)?),
                (false, true) => return Err(file.fault(i, "a function with the name of a law")),
                _ => {}
            }
        }
    }
    Ok(laws)
}

fn laws(files: &[File]) -> BTreeSet<String> {
    let (mut laws, mut count) = (BTreeSet::new(), None);
    while count.replace(laws.len()) != Some(laws.len()) {
        for file in files {
            let names = file.places("fn").into_iter().filter(|i| is_law(file, *i, &laws));
            laws.extend(names.map(|i| file.text(i + 1).to_string()).collect::<Vec<String>>());
        }
    }
    laws
}

// Whether a function without parameters and result does nothing but call these laws.
fn is_law(file: &File, i: usize, laws: &BTreeSet<String>) -> bool {
    let name = |call: &str| call.strip_suffix("()")?.rsplit("::").next().map(str::to_string);
    let is_call = |call: &str| name(call).is_some_and(|name| laws.contains(&name));
    let body = file.joined(i + 5..=file.partner(i + 4).saturating_sub(1));
    file.joined(i + 2..=i + 4) == "(){" && body.split_terminator(';').all(is_call)
}

/// Cuts the parameters, fields, arguments and statements that are there for the count.
pub fn erase_count(file: &mut File) -> Result<(), String> {
    if file.places("Ledger").is_empty() {
        return Ok(());
    }
    all("counted").try_for_each(|(counted, plain)| merge(file, counted, plain))?;
    // A variant or a method isn't the ledger's, and imports go by name.
    let is_other = |file: &File, i: usize| {
        file.before(i) == "::" || file.text(i + 1) == "(" || file.is_import(i)
    };
    for (name, _) in all("ledger") {
        while let Some(i) = file.places(name).into_iter().find(|i| !is_other(file, *i)) {
            file.cut_element(i);
        }
    }
    Ok(())
}

// Gives the function that counts the documentation of the one that doesn't, and cuts that one.
fn merge(file: &mut File, counted: &str, plain: &str) -> Result<(), String> {
    let place = |name| file.places(name).into_iter().find(|i| file.before(*i) == "fn");
    if let (Some(counted), Some(plain)) = (place(counted), place(plain)) {
        let (start, other) = (file.start(counted - 1), file.start(plain - 1));
        file.tokens[start].lead = file.tokens[other].lead.clone();
        file.cut_item(other..=file.end(plain - 1)?);
    }
    Ok(())
}

/// Cuts the imports of what is gone, those of what only erased code named, and the modules that have
/// no code then. Modules stand behind those that declare them.
pub fn erase_imports(files: &mut [File], laws: &BTreeSet<String>) -> Result<(), String> {
    let mut empty = BTreeSet::new();
    for file in files.iter_mut().rev() {
        erase_uses(file, laws);
        erase_repeated(file);
        for i in file.places("mod") {
            if empty.contains(&file.path_of_module(file.text(i + 1))) {
                file.cut_item(file.start(i)..=file.end(i)?);
            }
        }
        if file.tokens.len() == 1 {
            empty.insert(file.path.clone());
        }
    }
    Ok(())
}

fn erase_uses(file: &mut File, laws: &BTreeSet<String>) {
    for i in (0..file.tokens.len()).rev() {
        let is_leaf = matches!(file.text(i + 1), "," | "}" | ";" | "as");
        let is_left = file.text(i) == "{" && file.text(i + 1) == "}";
        if file.is_import(i) && (is_left || is_leaf && is_dead(file, i, laws)) {
            file.cut_element(i);
        }
    }
}

// Cuts each name of an import's braces that another one before it there becomes, too: Rust rejects a
// `use` that has a name twice.
fn erase_repeated(file: &mut File) {
    for i in (0..file.tokens.len()).rev() {
        let Some((open, name)) = listed(file, i) else { continue };
        if (open + 1..i).any(|j| listed(file, j) == Some((open, name))) {
            file.cut_element(i);
        }
    }
}

// The brace around a name that an import lists, and what the table makes of the name.
fn listed(file: &File, i: usize) -> Option<(usize, &str)> {
    let is_listed = matches!(file.before(i), "{" | ",") && matches!(file.text(i + 1), "," | "}");
    let is_around = |open: &usize| file.text(*open) == "{" && file.partner(*open) > i;
    let name = get("name", file.text(i)).unwrap_or(file.text(i));
    if !is_listed || !file.is_import(i) {
        return None;
    }
    (0..i).rev().find(is_around).map(|open| (open, name))
}

// Whether the name that is imported at `i` is gone, or has no use any more.
fn is_dead(file: &File, i: usize, laws: &BTreeSet<String>) -> bool {
    let module = file.nearest(i, &["{"]).filter(|_| file.text(i) == "self");
    let name = file.text(module.map_or(i, |open| open - 2));
    let import = file.nearest(i, &["use"]).unwrap_or(i);
    let was_used = file.erased.contains(name);
    let is_used = || file.places(name).iter().any(|i| !file.is_import(*i));
    let is_gone = laws.contains(name) || get("item", name).is_some();
    is_gone || file.start(import) == import && was_used && !is_used()
}
