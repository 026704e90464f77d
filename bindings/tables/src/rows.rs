//! What each library says of a code point, in HarfBuzz's numbers.

use crate::{harfrust, rustybuzz, shapers};
use sengadlit::unicode;
use std::collections::BTreeSet;
use std::io::{Read, Write};
use std::process::{Command, Stdio};
use std::thread;

/// The number of code points.
pub const CODE_POINTS: u32 = 0x11_0000;

pub const PROPERTIES: [&str; 10] = [
    "general category",
    "joining type",
    "combining class",
    "default ignorable",
    "mirrored",
    "vertical form",
    "Indic category",
    "Indic position",
    "universal category",
    "decomposition",
];

/// A value per property; none where a library that takes characters alone can't be asked.
pub type Row = [Option<u64>; 10];

/// A library.
pub struct Library {
    pub name: &'static str,
    pub rows: Vec<Row>,
    /// What each pair composes to.
    pub composed: Vec<Option<u32>>,
    /// The shaper of each script in each case.
    pub shapers: Vec<u8>,
}

// Joining types T and X of HarfBuzz; X is T for categories Mn, Me and Cf, else U.
const T: u64 = 7;
const X: u64 = 8;

fn joining(of_table: u64, category: u64) -> u64 {
    match of_table {
        X if matches!(category, 1 | 11 | 12) => T,
        X => 0,
        other => other,
    }
}

fn pair(parts: Option<(u32, u32)>) -> u64 {
    parts.map_or(0, |(a, b)| u64::from(a) << 32 | u64::from(b))
}

fn numbers(parts: (char, char)) -> (u32, u32) {
    (parts.0.into(), parts.1.into())
}

fn of_character(character: Option<char>, value: impl FnOnce(char) -> u64) -> Option<u64> {
    character.map(value)
}

fn our_row(number: u32) -> Row {
    let c = char::from_u32(number);
    let category = |c| u64::from(unicode::general_category(c).number());
    let (indic, position) = unicode::indic_categories(number);
    [
        of_character(c, category),
        of_character(c, |c| joining(unicode::joining_type(c).number().into(), category(c))),
        of_character(c, |c| unicode::modified_combining_class(c).into()),
        of_character(c, |c| unicode::is_default_ignorable(c).into()),
        of_character(c, |c| unicode::mirrored(c).map_or(0, u64::from)),
        of_character(c, |c| unicode::vertical_form(c).map_or(0, u64::from)),
        Some(indic.into()),
        Some(position.into()),
        Some(unicode::universal_category(number).into()),
        of_character(c, |c| pair(unicode::decompose(c).map(numbers))),
    ]
}

fn row_of_harfrust(u: u32) -> Row {
    use harfrust::unicode::CharExt;
    let category = u64::from(u.general_category().0);
    let (indic, position) = harfrust::ot_shaper_indic_table::get_categories(u);
    // (it numbers T 6 and X 7)
    let of_table = match harfrust::ot_shaper_arabic_table::joining_type(u) as u64 {
        number @ 6.. => number + 1,
        number => number,
    };
    [
        category,
        joining(of_table, category),
        u.modified_combining_class().into(),
        u.is_default_ignorable().into(),
        u.mirrored().map_or(0, u64::from),
        u.vertical().map_or(0, u64::from),
        indic.into(),
        position.into(),
        harfrust::ot_shaper_use_table::hb_use_get_category(u as usize).into(),
        pair(harfrust::unicode::decompose(u)),
    ]
    .map(Some)
}

fn row_of_rustybuzz(number: u32) -> Row {
    use rustybuzz::unicode::{CharExt, GeneralCategoryExt};
    let c = char::from_u32(number);
    let category = |c: char| u64::from(CharExt::general_category(c).to_rb());
    let (indic, position) = rustybuzz::ot_shaper_indic_table::get_categories(number);
    [
        of_character(c, category),
        of_character(c, |c| joining(rustybuzz::ot_shaper_arabic_table::joining_type(c) as u64, category(c))),
        of_character(c, |c| c.modified_combining_class().into()),
        of_character(c, |c| c.is_default_ignorable().into()),
        of_character(c, |c| CharExt::mirrored(c).map_or(0, u64::from)),
        of_character(c, |c| c.vertical().map_or(0, u64::from)),
        Some(indic.into()),
        Some(position.into()),
        Some(rustybuzz::ot_shaper_use_table::hb_use_get_category(number).into()),
        of_character(c, |c| pair(rustybuzz::unicode::decompose(c).map(numbers))),
    ]
}

fn rows(row: impl Fn(u32) -> Row) -> Vec<Row> {
    (0..CODE_POINTS).map(row).collect()
}

fn by_characters(compose: impl Fn(char, char) -> Option<char>) -> impl Fn(u32, u32) -> Option<u32> {
    move |a, b| compose(char::from_u32(a)?, char::from_u32(b)?).map(u32::from)
}

// The pairs that one of these rows decomposes a code point to, and of Hangul each syllable of two jamo with what comes before
// the first trailing one.
fn pairs(libraries: &[&[Row]]) -> Vec<(u32, u32)> {
    let values = libraries.iter().copied().flatten().filter_map(|row| row[9]);
    let parts = values.map(|value| ((value >> 32) as u32, value as u32));
    let mut pairs: BTreeSet<_> = parts.filter(|(_, b)| *b != 0).collect();
    pairs.extend((0xAC00..0xD7A4).step_by(28).map(|syllable| (syllable, 0x11A7)));
    pairs.into_iter().collect()
}

/// Ours, HarfRust and rustybuzz, and the pairs that are asked.
pub fn crates() -> (Vec<Library>, Vec<(u32, u32)>) {
    let (ours, harfrust, rustybuzz) = (rows(our_row), rows(row_of_harfrust), rows(row_of_rustybuzz));
    let pairs = pairs(&[&ours, &harfrust, &rustybuzz]);
    let library = |name, rows, shapers, compose: &dyn Fn(u32, u32) -> Option<u32>| Library {
        name,
        rows,
        composed: pairs.iter().map(|(a, b)| compose(*a, *b)).collect(),
        shapers,
    };
    let libraries = vec![
        library("sengadlit", ours, shapers::ours(), &by_characters(unicode::compose)),
        library("HarfRust", harfrust, shapers::harfrust(), &harfrust::unicode::compose),
        library("rustybuzz", rustybuzz, shapers::rustybuzz(), &by_characters(rustybuzz::unicode::compose)),
    ];
    (libraries, pairs)
}

/// What a program prints of an input.
pub fn ask(program: &str, arguments: &[&str], input: Vec<u8>) -> Vec<u8> {
    let mut child = Command::new(program)
        .args(arguments)
        .stdin(Stdio::piped())
        .stdout(Stdio::piped())
        .spawn()
        .unwrap_or_else(|fault| panic!("{program}: {fault}"));
    let mut stdin = child.stdin.take().expect("it is piped");
    let writer = thread::spawn(move || stdin.write_all(&input));
    let mut printed = Vec::new();
    child.stdout.take().expect("it is piped").read_to_end(&mut printed).expect("it can be read");
    writer.join().expect("it doesn't panic").expect("it can be written");
    assert!(child.wait().expect("it ends").success(), "{program} fails");
    printed
}

/// What the program of dump.cc prints: ten numbers of 64 bits for each code point, and one for each pair of its input.
pub fn harfbuzz(program: &str, pairs: &[(u32, u32)]) -> Library {
    let asked: Vec<u8> = pairs.iter().flat_map(|(a, b)| [a.to_ne_bytes(), b.to_ne_bytes()].concat()).collect();
    let printed = ask(program, &[], asked);
    let mut numbers = printed.chunks_exact(8).map(|bytes| u64::from_ne_bytes(bytes.try_into().expect("eight")));
    let rows = rows_of(&mut numbers);
    let composed: Vec<_> = numbers.map(|number| (number != 0).then_some(number as u32)).collect();
    assert_eq!((rows.len(), composed.len()), (CODE_POINTS as usize, pairs.len()));
    let shapers = ask(program, &["shapers"], Vec::new());
    assert_eq!(shapers.len(), shapers::SCRIPTS * shapers::CASES);
    Library { name: "HarfBuzz", rows, composed, shapers }
}

fn rows_of(numbers: &mut impl Iterator<Item = u64>) -> Vec<Row> {
    let mut rows = Vec::new();
    while rows.len() < CODE_POINTS as usize {
        rows.push(std::array::from_fn(|_| numbers.next()));
    }
    rows
}
