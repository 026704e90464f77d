//! The contract of a public function as part of its documentation.

use crate::file::File;
use crate::table::get;
use std::collections::BTreeMap;
use std::ops::RangeInclusive;

/// Whether the function with its keyword at `i` is public by itself or as part of a public trait.
pub fn is_public(file: &File, i: usize) -> bool {
    let is_trait = |j: &usize| file.text(*j) == "trait" && file.before(*j) == "pub";
    let in_trait = (0..i).any(|j| is_trait(&j) && file.end(j).is_ok_and(|end| end > i));
    in_trait || (file.start(i)..i).any(|j| file.text(j) == "pub" && file.text(j + 1) != "(")
}

/// The documentation of clauses: conditions first, then where the definitions that they name stand.
pub fn documentation(file: &File, clauses: &[RangeInclusive<usize>]) -> String {
    let mut sorted = clauses.to_vec();
    sorted.sort_by_key(|clause| get("clause", file.text(*clause.start())));
    let written: String = sorted.into_iter().map(|clause| written(file, clause)).collect();
    let mut places: BTreeMap<&str, Vec<String>> = BTreeMap::new();
    for (name, place) in &file.definitions {
        if clauses.iter().any(|clause| clause.clone().any(|i| file.text(i) == name)) {
            places.entry(place).or_default().push(format!("`{name}`"));
        }
    }
    let line = |(place, names): (&str, Vec<String>)| format!("- {}: `{place}`\n", names.join(", "));
    let places: String = places.into_iter().map(line).collect();
    let blank = if places.is_empty() { "" } else { "\n" };
    let head = "\n<details><summary>Contract</summary>\n\n# Contract\n\n```text\n";
    let text = format!("{head}{written}```\n\n{places}{blank}</details>");
    text.lines().map(|line| format!("/// {line}").trim_end().to_string() + "\n").collect()
}

// A clause as it is written, moved to the left.
fn written(file: &File, clause: RangeInclusive<usize>) -> String {
    let tokens = &file.tokens[clause];
    let text: String = tokens.iter().map(|token| token.lead.clone() + &token.text).collect();
    let column = tokens[0].lead.rsplit('\n').next().map_or(0, str::len);
    let dedented = |line: &str| {
        let indent = line.len() - line.trim_start().len();
        line[indent.min(column)..].to_string() + "\n"
    };
    text.trim_start().lines().map(dedented).collect()
}
