//! `erase` makes the generated trees anew, and the copies of files in packages; `erase --check` prints
//! each file that isn't up to date. Both run at the top of the repository.

#![forbid(unsafe_code)]

use erase::{erase, table, token};
use std::collections::{BTreeMap, BTreeSet};
use std::error::Error;
use std::path::{Path, PathBuf};
use std::process::{Command, ExitCode};
use std::{env, fs};

fn main() -> ExitCode {
    let result = match env::args().nth(1).as_deref() {
        None => make(Path::new("")).map(|()| Vec::new()),
        Some("--check") => check(),
        Some(_) => Err("usage: erase [--check]".into()),
    };
    match result {
        Ok(paths) if paths.is_empty() => return ExitCode::SUCCESS,
        Ok(paths) => paths.iter().for_each(|path| println!("{}", path.display())),
        Err(error) => eprintln!("{error}"),
    }
    ExitCode::FAILURE
}

// Makes the trees below a folder, formatted, in place of what stands there. Nothing is written where
// a source can't be erased or rustfmt is missing.
fn make(top: &Path) -> Result<(), Box<dyn Error>> {
    let crates: Vec<&str> = table::all("crate").map(|(krate, _)| krate).collect();
    let outputs = erase(&crates, &|path| fs::read_to_string(path).ok())?;
    find_rustfmt()?;
    files_below(top)?.keys().try_for_each(|path| fs::remove_file(top.join(path)))?;
    for (path, text) in &outputs {
        let path = top.join(path);
        fs::create_dir_all(path.parent().unwrap_or(top))?;
        fs::write(path, text)?;
    }
    copies().try_for_each(|(from, to)| fs::write(top.join(to), from))?;
    let roots = outputs.keys().filter(|path| path.ends_with("/mod.rs")).map(|path| top.join(path));
    match Command::new("rustfmt").args(["--edition", "2024"]).args(roots).status()?.success() {
        true => Ok(()),
        false => Err("rustfmt failed".into()),
    }
}

// Fails where rustfmt doesn't run: it isn't there, or it is rustup's proxy without the component.
fn find_rustfmt() -> Result<(), String> {
    let fault = match Command::new("rustfmt").arg("--version").output() {
        Ok(output) if output.status.success() => return Ok(()),
        Ok(output) => String::from_utf8_lossy(&output.stderr).trim().to_string(),
        Err(error) => error.to_string(),
    };
    Err(format!(
        "erase: nothing was written, since rustfmt doesn't run ({fault}): install Debian's package \
         `rustfmt`, or `rustup component add rustfmt`"
    ))
}

// The files that differ by more than white space and the layout's commas.
fn check() -> Result<Vec<PathBuf>, Box<dyn Error>> {
    let scratch = Path::new("target/erase");
    make(scratch)?;
    let (made, committed) = (files_below(scratch)?, files_below(Path::new(""))?);
    let paths: BTreeSet<PathBuf> = made.keys().chain(committed.keys()).cloned().collect();
    let stale = copies().filter(|(from, to)| fs::read(to).ok().as_ref() != Some(from));
    let differs = |path: &PathBuf| made.get(path) != committed.get(path);
    Ok(paths.into_iter().filter(differs).chain(stale.map(|(_, to)| to.into())).collect())
}

// The files of the repository that a package has too, with their paths there: what no link may be.
fn copies() -> impl Iterator<Item = (Vec<u8>, &'static str)> {
    table::all("copied").filter_map(|(from, to)| Some((fs::read(from).ok()?, to)))
}

// The words of a text's comments and its tokens, without commas before closing brackets.
fn words(text: &str) -> Vec<String> {
    let tokens = token::tokens(text).unwrap_or_default();
    let is_layout = |i: usize| tokens[i].text == "," && ")]}>".contains(&tokens[i + 1].text);
    let text = |i: usize| if is_layout(i) { "" } else { &tokens[i].text };
    let words = |i: usize| tokens[i].lead.split_whitespace().chain([text(i)]).map(str::to_string);
    (0..tokens.len()).flat_map(words).filter(|word| !word.is_empty()).collect()
}

// The words of the files of all trees below a folder, by their paths from there.
fn files_below(top: &Path) -> Result<BTreeMap<PathBuf, Vec<String>>, Box<dyn Error>> {
    let mut files = BTreeMap::new();
    let trees: BTreeSet<&str> = table::all("crate").map(|(_, tree)| tree).collect();
    let mut folders: Vec<PathBuf> = trees.iter().map(|tree| top.join(tree)).collect();
    while let Some(folder) = folders.pop() {
        for entry in folder.read_dir().into_iter().flatten() {
            match entry?.path() {
                path if path.is_dir() => folders.push(path),
                path => {
                    let words = words(&fs::read_to_string(&path)?);
                    files.insert(path.strip_prefix(top)?.into(), words);
                }
            }
        }
    }
    Ok(files)
}
