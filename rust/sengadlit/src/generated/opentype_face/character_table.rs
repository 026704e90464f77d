// Generated from crates/opentype_face/src/character_table.rt by rust/erase; edit the source.

//! The glyphs of characters, by tables that are made once.

use crate::support::prelude::*;

use crate::generated::opentype_face::character_pages::{fill, mark_pages};
use crate::generated::opentype_face::characters::Characters;
use crate::support::alloc::{AllocError, Global};

/// How many pages the characters up to U+1FFFF have.
const PAGE_COUNT: usize = 512;

/// How many bytes a page takes.
const PAGE_SIZE: usize = 512;

/// The subtable of `cmap`, with the glyphs of some pages of 256 characters beside it.
#[derive(Clone, Copy, Debug)]
pub struct CharacterTable<'a> {
    /// The subtable and what its characters are.
    pub characters: Characters<'a>,
    pages: &'a [u16],
    glyphs: &'a [u16],
}

impl<'a> CharacterTable<'a> {
    /// The subtable alone.
    ///
    /// <details><summary>Contract</summary>
    ///
    /// # Contract
    ///
    /// ```text
    /// ensures { result.characters ≡ characters.entry }
    /// ```
    ///
    /// </details>
    pub fn of(characters: Characters<'a>) -> Self {
        CharacterTable {
            characters,
            pages: &[],
            glyphs: &[],
        }
    }

    /// The glyph of a character, without a search where the tables have its page.
    ///
    /// <details><summary>Contract</summary>
    ///
    /// # Contract
    ///
    /// ```text
    /// ensures { let it = self.now.characters in result ≡ nominal_in it.encoding it.subtable.now c }
    /// ```
    ///
    /// - `nominal_in`: `crates/opentype_face/specs/Characters.antt`
    ///
    /// </details>
    #[inline]
    pub fn nominal_glyph(&self, c: u32) -> Option<u16> {
        let (page, at) = (c as usize / 256, c as usize % 256);
        if page < self.pages.len() {
            let place = usize::from(self.pages[page]) * 256 + at;
            if place < self.glyphs.len() {
                let glyph = self.glyphs[place];
                return if glyph == 0 { None } else { Some(glyph) };
            }
        }
        self.characters.nominal_glyph(c)
    }
}

/// The subtable of `cmap`, with tables of some pages that were made of it.
#[derive(Debug)]
pub struct PreparedCharacters<'a> {
    /// The subtable and what its characters are.
    pub characters: Characters<'a>,
    pages: Vec<u16>,
    glyphs: Vec<u16>,
}

// How many of the marked pages get tables: so many at most, if a budget pays for them.
fn count_of_pages(marks: &[bool], most_pages: u16, budget: usize) -> u16 {
    let marked = marks.iter().filter(|mark| **mark).count();
    let paid = marked.min(budget / PAGE_SIZE);
    paid.min(usize::from(most_pages)) as u16
}

// The numbers of pages that have tables, and the glyphs of these.
#[derive(Debug)]
struct PageTables {
    pages: Vec<u16>,
    glyphs: Vec<u16>,
}

// Tables of the pages that are marked, of so many at most.
fn tables_of_pages(
    characters: &Characters<'_>,
    marks: &[bool],
    most_pages: u16,
    alloc: Global,
) -> Result<PageTables, AllocError> {
    let mut pages = Vec::with_capacity(alloc, marks.len())?;
    let mut glyphs = Vec::with_capacity(alloc, usize::from(most_pages) * 256)?;
    fill(characters, marks, most_pages, &mut pages, &mut glyphs)?;
    Ok(PageTables { pages, glyphs })
}

impl<'a> PreparedCharacters<'a> {
    /// Makes tables of the pages up to U+1FFFF that have characters, of so many at most. Each takes 512 bytes,
    /// for which a budget pays, and 256 searches. Where memory is refused there are none.
    ///
    /// <details><summary>Contract</summary>
    ///
    /// # Contract
    ///
    /// ```text
    /// ensures { result.characters ≡ characters.entry }
    /// ```
    ///
    /// </details>
    pub fn new(
        characters: Characters<'a>,
        most_pages: u16,
        alloc: Global,
        budget: &mut usize,
    ) -> Self {
        let mut marks = [false; PAGE_COUNT];
        mark_pages(characters.subtable, &mut marks);
        let count = count_of_pages(&marks, most_pages, *budget);
        match tables_of_pages(&characters, &marks, count, alloc) {
            Ok(PageTables { pages, glyphs }) => {
                *budget = budget.saturating_sub(usize::from(count) * PAGE_SIZE + PAGE_COUNT * 2);
                PreparedCharacters {
                    characters,
                    pages,
                    glyphs,
                }
            }
            Err(_) => PreparedCharacters {
                characters,
                pages: Vec::new(alloc),
                glyphs: Vec::new(alloc),
            },
        }
    }

    /// The subtable with these tables.
    ///
    /// <details><summary>Contract</summary>
    ///
    /// # Contract
    ///
    /// ```text
    /// ensures { result.characters ≡ self.now.characters }
    /// ```
    ///
    /// </details>
    #[inline]
    pub fn table(&self) -> CharacterTable<'_> {
        CharacterTable {
            characters: self.characters,
            pages: self.pages.as_slice(),
            glyphs: self.glyphs.as_slice(),
        }
    }
}
