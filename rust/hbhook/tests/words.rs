//! Words with characters of all planes beside them, by the lines that a word takes.

use hbhook::{lines_of_word, run_lines};
use sengadlit::alloc::Global;
use std::fs;
use std::path::Path;

// Emoji, and characters of other planes, none of which is of a script with a shaper.
const FAR: [&str; 20] = [
    "\u{1F64F}",
    "\u{1F469}\u{200D}\u{1F469}\u{200D}\u{1F467}",
    "\u{1F1EE}\u{1F1F3}",
    "\u{1F44D}\u{1F3FD}",
    "\u{2764}\u{FE0F}\u{200D}\u{1F525}",
    "\u{1F3F4}\u{E0067}\u{E0062}\u{E007F}",
    "\u{20000}\u{2A6D6}",
    "\u{30EDE}",
    "\u{1D518}\u{1D52B}\u{1D526}",
    "\u{10330}\u{1033F}",
    "\u{12000}",
    "\u{10600}",
    "\u{1D15F}",
    "\u{10000}",
    "\u{845B}\u{E0100}",
    "\u{F0000}",
    "\u{10FFFD}",
    "\u{10FFFF}",
    "\u{10480}\u{10481}",
    "\u{1F004}\u{1F0A1}",
];

// The numbers of the glyphs that the lines of a text leave.
fn numbers(text: &str) -> Vec<u32> {
    let lines = lines_of_word(text).unwrap();
    let (mut printed, mut told) = (Vec::new(), Vec::new());
    let status = run_lines(Global, lines.as_bytes(), &mut printed, &mut told);
    let told = String::from_utf8(told).unwrap();
    assert_eq!((status, told.as_str()), (0, ""), "{text:?}");
    let printed = String::from_utf8(printed).unwrap();
    let first = |line: &str| u32::from_str_radix(line.split(' ').next().unwrap(), 16).unwrap();
    printed.lines().map(first).collect()
}

fn characters(text: &str) -> Vec<u32> {
    text.chars().map(u32::from).collect()
}

// A word of each script, from the texts of the page.
fn words() -> Vec<String> {
    let path = Path::new(env!("CARGO_MANIFEST_DIR")).join("../../bindings/page/examples.txt");
    let page = fs::read_to_string(path).unwrap();
    let fields = page
        .lines()
        .map(|line| line.split('\t').collect::<Vec<_>>());
    fields
        .filter(|fields| fields[0].len() == 4)
        .map(|fields| fields[2].into())
        .collect()
}

#[test]
fn characters_of_other_planes_stay_beside_a_word() {
    let words = words();
    assert_eq!(words.len(), 43);
    for word in words {
        let alone = numbers(&word);
        for far in FAR {
            let far_alone = characters(far);
            let behind = [&alone[..], &[0x20], &far_alone].concat();
            assert_eq!(numbers(&format!("{word} {far}")), behind, "{word} {far:?}");
            let before = [&far_alone[..], &[0x20], &alone].concat();
            assert_eq!(numbers(&format!("{far} {word}")), before, "{far:?} {word}");
        }
    }
}

// The sign in front of the letter moves the nukta of Grantha on.
#[test]
fn a_character_that_moves_is_itself_again() {
    assert_eq!(
        numbers("\u{0915}\u{1133B}\u{093F}"),
        [0x093F, 0x0915, 0x1133B]
    );
}

// Numbers that no character has are those of the 2,048 surrogates; behind them come others that no
// character of the text has.
#[test]
fn many_characters_have_numbers_that_the_text_lacks() {
    let far: String = ('\u{20000}'..'\u{20C00}').collect();
    let text = format!("\u{0915}\u{E000}\u{E002}{far}\u{E003}");
    assert_eq!(numbers(&text), characters(&text));
    let lines = lines_of_word(&text).unwrap();
    for number in [0xE000, 0xE002, 0xE003] {
        assert!(!lines.contains(&format!(" glyph {number}\n")));
    }
    assert!(lines.contains(&format!(" glyph {}\n", 0xE001)));
}
