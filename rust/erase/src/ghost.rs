//! What each file loses for itself: ghost items, contracts, attributes, derives, bounds and tests.
//! What has an unknown form stays here, and the eraser stops at it when it writes the file.

use crate::contract::{documentation, is_public};
use crate::docs;
use crate::file::File;
use crate::table::{all, get};

/// Erases contracts and ghost items, and what only the proof or its tests read.
pub fn erase_file(file: &mut File) -> Result<(), String> {
    for i in file.places("ghost") {
        erase_ghost(file, i)?;
    }
    for i in (0..file.tokens.len()).rev() {
        match file.text(i) {
            "fn" => erase_clauses(file, i),
            "prove" if file.text(i + 1) == "!" => file.cut_item(i..=file.end(i)?),
            "Drop" | "Error" => erase_trait(file, i),
            "#" => erase_attribute(file, i)?,
            _ => {}
        }
    }
    all("byhand").for_each(|(name, derive)| erase_derive(file, name, derive));
    let items: Vec<usize> = all("item").flat_map(|(name, _)| file.places(name)).collect();
    items.into_iter().try_for_each(|i| erase_item(file, i))
}

// Cuts out of a struct's derives a trait that is written by hand.
fn erase_derive(file: &mut File, name: &str, derive: &str) {
    for i in file.places(name) {
        let start = if file.before(i) == "struct" { file.start(i - 1) } else { i };
        if let Some(place) = (start..i).find(|j| file.text(*j) == derive) {
            file.cut_element(place);
        }
    }
}

// Cuts `ghost use ..;`, `ghost NAME: {..};` or `ghost NAME = {..};`, and a struct's field `ghost NAME: {..},`.
fn erase_ghost(file: &mut File, i: usize) -> Result<(), String> {
    let close = file.partner(i + 3);
    let is_field = file.text(i + 2) == ":" && matches!(file.text(close + 1), "," | "}");
    if is_field && file.text(close) == "}" {
        let comma = usize::from(file.text(close + 1) == ",");
        file.cut_item(i..=close + comma);
        return Ok(());
    }
    let item = i..=file.end(i)?;
    let text = file.joined(item.clone());
    let is_member = matches!(file.text(i + 2), ":" | "=") && file.text(i + 3) == "{";
    if let Some(import) = text.strip_prefix("ghostuse") {
        define(file, import);
        file.cut_item(item);
    } else if is_member {
        file.cut_item(item);
    }
    Ok(())
}

// Notes the names that `Rattle.CRATE.specs.FILE.{..};` imports, unless they are the kit's or stand
// for something that the sources declare.
fn define(file: &mut File, import: &str) {
    let specification = import.strip_prefix("Rattle.").and_then(|path| path.split_once(".specs."));
    let (krate, import) = specification.unwrap_or(("std", ""));
    let (path, names) = import.split_once(".{").unwrap_or(("declared.", ""));
    if krate != "std" && !path.starts_with("declared.") {
        let place = format!("crates/{krate}/specs/{}.antt", path.replace('.', "/"));
        let names = names.trim_end_matches(['}', ';']).split(',');
        file.definitions.extend(names.map(|name| (name.to_string(), place.clone())));
    }
}

// Cuts the clauses of a function; a public one keeps them as documentation, behind what docs.txt says.
fn erase_clauses(file: &mut File, function: usize) {
    let clause = |i: usize| {
        let open = (i + 1..=i + 2).find(|open| file.text(*open) == "{")?;
        get("clause", file.text(i)).map(|_| i..=file.partner(open))
    };
    let clauses: Vec<_> = (function..file.tokens.len()).filter_map(clause).collect();
    if is_public(file, function) {
        let contract =
            if clauses.is_empty() { String::new() } else { documentation(file, &clauses) };
        let (start, docs) = (file.start(function), docs::lines(file, function));
        file.tokens[start].lead += &(docs + &contract);
    }
    clauses.into_iter().rev().for_each(|clause| file.cut_item(clause));
}

fn erase_attribute(file: &mut File, i: usize) -> Result<(), String> {
    let open = if file.text(i + 1) == "!" { i + 2 } else { i + 1 };
    let end = file.partner(open);
    match get("attribute", file.text(open + 1)) {
        Some("goes") => file.cut(i..=end),
        Some(_) if file.joined(i..=end) == "#[derive()]" => file.cut(i..=end),
        Some(_) => {}
        None if file.joined(i..=end) == "#[cfg(test)]" => file.cut_item(i..=file.end(end + 1)?),
        None => return Err(file.fault(i, "an unknown attribute")),
    }
    Ok(())
}

// Cuts `Drop` and `Error` out of derives, and `Drop` out of bounds: where it is all that a `where`
// clause requires of a type with that type.
fn erase_trait(file: &mut File, i: usize) {
    let open = file.nearest(i, &["("]).filter(|open| file.partner(*open) > i);
    let list = open.map_or("", |open| file.before(open));
    let owner = file.nearest(i, &["where", "fn", "impl", "struct", "enum", "trait"]).unwrap_or(0);
    match (file.before(i), file.text(i), file.text(i + 1)) {
        ("(" | ",", ..) if list == "derive" => file.cut_element(i),
        ("+", "Drop", _) => file.cut(i - 1..=i),
        (":", "Drop", "+") => file.cut(i..=i + 1),
        (":", "Drop", _) if file.text(owner) != "where" => file.cut(i - 1..=i),
        (":", "Drop", _) => {
            file.cut_element(i);
            if matches!(file.text(owner + 1), "{" | ";") {
                file.cut(owner..=owner);
            }
        }
        _ => {}
    }
}

// Cuts the item that has this name, or the `impl` block that names it in its header.
fn erase_item(file: &mut File, i: usize) -> Result<(), String> {
    let owner = file.nearest(i, &["impl", "fn", "struct", ";", "{", "}"]).unwrap_or(i);
    let is_named = matches!(file.text(owner), "fn" | "struct") && owner + 1 == i;
    if is_named || file.text(owner) == "impl" {
        file.cut_item(file.start(owner)..=file.end(owner)?);
    }
    Ok(())
}
