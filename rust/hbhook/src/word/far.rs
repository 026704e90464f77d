//! Characters above U+FFFF among the lines of a word, where a pause takes numbers of glyphs alone.

use super::name_of_pause;
use crate::generated::hbhook_lines::Session;
use sengadlit::Pause;
use sengadlit::alloc::Global;
use std::collections::{BTreeMap, BTreeSet};

// The greatest number of a glyph, and the first that no character has.
const MOST: u32 = 0xFFFF;
const FIRST_FREE: u32 = 0xD800;

/// The lines of a word of Indic with others among them: before the reorderings each character of the
/// text above U+FFFF takes a number that no other character of it has, and behind them its own again.
/// Where there are more such characters than numbers, the rest keep their own.
pub(super) fn with_numbers(lines: Vec<String>, text: &str) -> Vec<String> {
    let numbers = free_numbers(text);
    let first = format!("run pause {}", name_of_pause(Pause::InitialReordering));
    let Some(place) = lines.iter().position(|line| *line == first) else {
        return lines;
    };
    if numbers.is_empty() {
        return lines;
    }
    let mut session = Session::new(Global);
    let mut all = Vec::new();
    carry_out(&lines[..place], &mut session, &mut all);
    let before = changes(&session, &numbers);
    carry_out(&before, &mut session, &mut all);
    carry_out(&lines[place..], &mut session, &mut all);
    let characters = numbers
        .iter()
        .map(|(character, number)| (*number, *character));
    all.extend(changes(&session, &characters.collect()));
    all
}

// A free number for each character above U+FFFF. The dotted circle, which a reordering may put in, has
// its own.
fn free_numbers(text: &str) -> BTreeMap<u32, u32> {
    let characters = || text.chars().map(u32::from);
    let taken: BTreeSet<u32> = characters().chain([0x25CC]).collect();
    let far: BTreeSet<u32> = characters().filter(|character| *character > MOST).collect();
    let free = (FIRST_FREE..=MOST).chain(1..FIRST_FREE);
    far.into_iter()
        .zip(free.filter(|number| !taken.contains(number)))
        .collect()
}

// Adds lines to all, and carries them out. One that is refused ends the run of all lines likewise.
fn carry_out(lines: &[String], session: &mut Session, all: &mut Vec<String>) {
    for line in lines {
        let _ = session.carry_out(line.as_bytes());
        all.push(line.clone());
    }
}

// The lines that give glyphs of these numbers others.
fn changes(session: &Session, numbers: &BTreeMap<u32, u32>) -> Vec<String> {
    let glyphs = session.buffer.glyphs().iter().enumerate();
    glyphs
        .filter_map(|(place, glyph)| {
            let number = numbers.get(&glyph.glyph_id)?;
            Some(format!("at {place} glyph {number}"))
        })
        .collect()
}

#[cfg(test)]
mod tests {
    use super::*;

    // As many characters as there are numbers of surrogates and behind them, and more, so that lower
    // numbers are taken, too: none that the text has, nor that of a dotted circle.
    #[test]
    fn a_number_that_is_free_is_no_characters_of_the_text() {
        let far = (0x2_0000..0x2_5000).filter_map(char::from_u32);
        let text: String = "\u{0915}\u{E000}".chars().chain(far).collect();
        let numbers = free_numbers(&text);
        assert_eq!(numbers.len(), 0x5000);
        let given: BTreeSet<u32> = numbers.into_values().collect();
        assert_eq!(given.len(), 0x5000);
        assert!(given.contains(&0xD800) && given.contains(&0xFFFF) && given.contains(&1));
        for taken in [0, 0x0915, 0x25CC, 0xE000] {
            assert!(!given.contains(&taken), "{taken:04X}");
        }
        assert!(given.last() <= Some(&MOST));
    }
}
