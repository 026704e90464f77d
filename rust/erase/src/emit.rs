//! The text of an erased file.

use crate::added::added;
use crate::file::File;
use crate::links::{has_links, with_links};
use crate::table::{all, get};
use crate::token::is_part;

/// The text of an erased file, with its names replaced. Returns an error at a contract that is left,
/// and at a name that the table doesn't know or that it gives to something else.
pub fn emit(file: &File) -> Result<String, String> {
    let mut body = String::new();
    let added = added(file);
    let has_links = has_links(file.path.split('/').nth(1).unwrap_or(""));
    for (i, token) in file.tokens.iter().enumerate() {
        check(file, i)?;
        let text = renamed(file, i)?.unwrap_or_else(|| token.text.clone());
        let lead = if has_links { with_links(&token.lead) } else { token.lead.clone() };
        body = body + &lead + added.get(&i).map_or("", String::as_str) + &text;
    }
    let is_inner = |line: &&str| line.starts_with("//!");
    let inner: String = body.trim().split_inclusive('\n').take_while(is_inner).collect();
    let rest = body.trim()[inner.len()..].trim_start();
    let is_known = |i: usize| get("prelude", file.text(i)).is_some() && file.before(i) != "::";
    let needs_prelude = (0..file.tokens.len()).any(|i| is_known(i) || is_collected(file, i));
    let prelude = if needs_prelude { "use crate::support::prelude::*;\n\n" } else { "" };
    let head = format!("// Generated from {} by rust/erase; edit the source.\n\n", file.path);
    Ok(format!("{head}{inner}\n{prelude}{rest}\n"))
}

/// A comment with the table's names in it.
pub fn in_comment(comment: &str) -> String {
    let renamed = |word: &str| {
        let name = word.trim_end_matches(|c| !is_part(c));
        get("name", name).unwrap_or(name).to_string() + &word[name.len()..]
    };
    comment.split_inclusive(|c| !is_part(c)).map(renamed).collect()
}

// Stops at what has no place in Rust.
fn check(file: &File, i: usize) -> Result<(), String> {
    let (text, before) = (file.text(i), file.before(i));
    let is_literal = text.contains(['"', '\'']);
    if get("left", text).is_some() || !text.is_ascii() && !is_literal {
        return Err(file.fault(i, &format!("`{text}` is left")));
    }
    let is_item = matches!(before, "struct" | "enum" | "trait" | "type" | "fn" | "mod" | "const");
    if is_item && all("name").any(|(_, new)| new == text) {
        return Err(file.fault(i, &format!("the table gives the name `{text}` to another item")));
    }
    let is_local =
        |j: &usize| *j != i && matches!(file.before(*j), "mod" | "enum" | "," | "{" | "::");
    let is_known = || matches!(text, "self" | "super") || file.places(text).iter().any(is_local);
    if before == "use" && !is_known() && renamed(file, i)?.is_none() {
        return Err(file.fault(i, &format!("unknown crate `{text}`")));
    }
    Ok(())
}

// What the table makes of a word in its place, if that is something else.
fn renamed(file: &File, i: usize) -> Result<Option<String>, String> {
    let word = file.text(i);
    let name = get("name", word).or(is_collected(file, i).then_some("collect_in"));
    if name.is_some() || file.text(i + 1) != "::" || file.before(i) == "::" {
        return Ok(name.map(str::to_string));
    }
    let own = file.path.split('/').nth(1).unwrap_or("");
    let krate = if word == "crate" { own } else { word };
    let path = format!("{word}::{}", file.text(i + 2));
    match get("crate", krate) {
        Some(tree) if Some(tree) == get("crate", own) => {
            Ok(Some(format!("crate::generated::{krate}")))
        }
        Some(_) => Ok(get("foreign", krate).map(str::to_string)),
        None => match get("root", word).or(get("root", &path)) {
            None if word == "std" => Err(file.fault(i, &format!("unknown path `{path}`"))),
            root => Ok(root.map(str::to_string)),
        },
    }
}

// Whether a word is the method `collect` with an allocator.
fn is_collected(file: &File, i: usize) -> bool {
    let is_method = file.text(i) == "collect" && file.before(i) == ".";
    is_method && file.text(i + 1) == "(" && file.text(i + 2) != ")"
}
