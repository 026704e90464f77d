// Generated from crates/hbhook_commands/src/tables.rt by rust/erase; edit the source.

//! The tables that the lines `table` and `pair` describe, over Unicode's or none.

use crate::support::prelude::*;

use crate::support::alloc::{AllocError, Global};
use crate::support::collections::BTreeMap;
use sengadlit::buffer::GeneralCategory;
use sengadlit::font::Tables;
use sengadlit::plan::{Category, JoiningType, Position};
use sengadlit::unicode::UnicodeTables;

/// What the tables say of a character.
#[derive(Clone, Copy)]
pub struct CharacterEntry {
    pub joining_type: JoiningType,
    pub general_category: GeneralCategory,
    pub indic_category: Category,
    pub indic_position: Position,
    pub universal_category: Category,
}

impl CharacterEntry {
    /// What holds of a character without a line.
    pub const DEFAULT: Self = CharacterEntry {
        joining_type: JoiningType::U,
        general_category: GeneralCategory::Lo,
        indic_category: 0,
        indic_position: 14,
        universal_category: 0,
    };
}

/// Two characters that compose to a third one, which decomposes to them.
#[derive(Clone, Copy)]
pub struct CanonicalPair {
    pub first: char,
    pub second: char,
    pub whole: char,
}

/// What holds of the characters that no line names.
#[derive(Clone, Copy, Debug, PartialEq, Eq, Hash)]
pub enum OtherCharacters {
    /// [`CharacterEntry::DEFAULT`], and no pair.
    Unknown,
    /// What Unicode has.
    Unicode,
}

/// The tables of the lines so far.
pub struct LineTables {
    entries: BTreeMap<u32, CharacterEntry>,
    pairs: Vec<CanonicalPair>,
    /// The other characters.
    pub others: OtherCharacters,
}

impl LineTables {
    /// Tables that no line has changed.
    pub fn new(alloc: Global) -> Self {
        LineTables {
            entries: BTreeMap::new(alloc),
            pairs: Vec::new(alloc),
            others: OtherCharacters::Unknown,
        }
    }

    /// From now on the tables say this of the character.
    pub fn set_entry(&mut self, character: char, entry: CharacterEntry) -> Result<(), AllocError> {
        self.entries.insert(u32::from(character), entry)?;
        Ok(())
    }

    /// Adds a pair, which counts unless an earlier one says otherwise.
    pub fn add_pair(&mut self, pair: CanonicalPair) -> Result<(), AllocError> {
        self.pairs.push(pair)?;
        Ok(())
    }
}

// What a line says of the character of this number.
fn entry(tables: &LineTables, c: u32) -> Option<CharacterEntry> {
    tables.entries.get(&c).copied()
}

impl Tables for LineTables {
    fn joining_type(&self, c: char) -> JoiningType {
        match (entry(self, u32::from(c)), self.others) {
            (Some(entry), _) => entry.joining_type,
            (None, OtherCharacters::Unknown) => CharacterEntry::DEFAULT.joining_type,
            (None, OtherCharacters::Unicode) => UnicodeTables.joining_type(c),
        }
    }

    fn general_category(&self, c: char) -> GeneralCategory {
        match (entry(self, u32::from(c)), self.others) {
            (Some(entry), _) => entry.general_category,
            (None, OtherCharacters::Unknown) => CharacterEntry::DEFAULT.general_category,
            (None, OtherCharacters::Unicode) => UnicodeTables.general_category(c),
        }
    }

    fn indic_categories(&self, c: u32) -> (Category, Position) {
        match (entry(self, c), self.others) {
            (Some(entry), _) => (entry.indic_category, entry.indic_position),
            (None, OtherCharacters::Unknown) => {
                let entry = CharacterEntry::DEFAULT;
                (entry.indic_category, entry.indic_position)
            }
            (None, OtherCharacters::Unicode) => UnicodeTables.indic_categories(c),
        }
    }

    fn use_category(&self, c: u32) -> Category {
        match (entry(self, c), self.others) {
            (Some(entry), _) => entry.universal_category,
            (None, OtherCharacters::Unknown) => CharacterEntry::DEFAULT.universal_category,
            (None, OtherCharacters::Unicode) => UnicodeTables.use_category(c),
        }
    }

    fn compose(&self, a: char, b: char) -> Option<char> {
        match (composing(self.pairs.as_slice(), a, b), self.others) {
            (Some(pair), _) => Some(pair.whole),
            (None, OtherCharacters::Unknown) => None,
            (None, OtherCharacters::Unicode) => UnicodeTables.compose(a, b),
        }
    }

    fn decompose(&self, ab: char) -> Option<(char, char)> {
        match (composing_to(self.pairs.as_slice(), ab), self.others) {
            (Some(pair), _) => Some((pair.first, pair.second)),
            (None, OtherCharacters::Unknown) => None,
            (None, OtherCharacters::Unicode) => UnicodeTables.decompose(ab),
        }
    }
}

// The first of the pairs that is of these two characters.
fn composing(pairs: &[CanonicalPair], a: char, b: char) -> Option<CanonicalPair> {
    let mut pairs = pairs.iter().copied();
    pairs.find(|pair| pair.first == a && pair.second == b)
}

// The first of the pairs that composes to a character.
fn composing_to(pairs: &[CanonicalPair], whole: char) -> Option<CanonicalPair> {
    pairs.iter().copied().find(|pair| pair.whole == whole)
}
