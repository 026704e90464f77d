//! Makes plain Rust of the proved sources in crates/: cuts contracts and ghost items, renames by one
//! table, and keeps the contracts of public functions as documentation.
//!
//! It writes no code of its own but one `use` line, and of each item what the table says: derives,
//! attributes, and who sees it. It stops at anything that it doesn't know.

#![forbid(unsafe_code)]

mod added;
mod contract;
pub mod docs;
mod emit;
mod file;
mod ghost;
mod laws;
mod links;
pub mod table;
pub mod token;

use file::File;
use std::collections::BTreeMap;

type Read<'a> = &'a dyn Fn(&str) -> Option<String>;

/// Erases crates; `read` gives the text of a file of the repository. Returns the texts of the
/// generated files by their paths, before rustfmt, or file, line and message of the first thing that
/// isn't known.
pub fn erase(crates: &[&str], read: Read) -> Result<BTreeMap<String, String>, String> {
    let mut files = Vec::new();
    for krate in crates {
        load(format!("crates/{krate}/src/lib.rt"), read, &mut files)?;
    }
    let laws = laws::erase_laws(&mut files)?;
    files.iter_mut().try_for_each(laws::erase_count)?;
    laws::erase_imports(&mut files, &laws)?;
    let kept = files.iter().filter(|file| file.tokens.len() > 1);
    kept.map(|file| Ok((path_of(file), emit::emit(file)?))).collect()
}

// Reads a module and those below it, and erases each file for itself.
fn load(path: String, read: Read, files: &mut Vec<File>) -> Result<(), String> {
    let text = read(&path).ok_or_else(|| format!("{path}: no such file"))?;
    let mut file = File::new(&path, &text)?;
    for token in &mut file.tokens {
        token.lead = emit::in_comment(&token.lead);
    }
    ghost::erase_file(&mut file)?;
    let modules = file.places("mod").into_iter().filter(|i| file.text(i + 2) == ";");
    let paths: Vec<String> = modules.map(|i| file.path_of_module(file.text(i + 1))).collect();
    files.push(file);
    paths.into_iter().try_for_each(|path| load(path, read, files))
}

// The path of the file that is generated from a source.
fn path_of(file: &File) -> String {
    let path = file.path.trim_start_matches("crates/").trim_end_matches(".rt");
    let (krate, module) = path.split_once("/src/").unwrap_or((path, "lib"));
    let module = if module == "lib" { "mod" } else { module };
    format!("{}/{krate}/{module}.rs", table::get("crate", krate).unwrap_or("."))
}
