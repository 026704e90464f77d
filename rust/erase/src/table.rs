//! The table of names, table.txt: lines of a kind, a word, and what the word becomes or why it stands
//! there.

use std::collections::BTreeMap;
use std::sync::LazyLock;

static TABLE: LazyLock<BTreeMap<(&str, &str), &str>> = LazyLock::new(|| {
    let lines = include_str!("../table.txt").lines().filter(|line| !line.starts_with('#'));
    let entry = |line: &'static str| {
        let mut words = line.split(' ');
        Some(((words.next()?, words.next()?), words.next().unwrap_or("")))
    };
    lines.filter_map(entry).collect()
});

/// What the table says of a word of a kind; none where the table lacks it.
pub fn get(kind: &str, word: &str) -> Option<&'static str> {
    let table: &BTreeMap<(&str, &str), &'static str> = &TABLE;
    table.get(&(kind, word)).copied()
}

/// The words of a kind, each with what the table says of it.
pub fn all(kind: &str) -> impl Iterator<Item = (&'static str, &'static str)> {
    TABLE.iter().filter(move |((own, _), _)| *own == kind).map(|((_, word), value)| (*word, *value))
}
