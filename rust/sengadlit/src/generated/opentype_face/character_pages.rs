// Generated from crates/opentype_face/src/character_pages.rt by rust/erase; edit the source.

//! How tables of the glyphs of characters are filled: by asking a search once for each character of a page.

use crate::support::prelude::*;

use crate::generated::opentype_face::bytes::{capped, u16_at, u32_at};
use crate::generated::opentype_face::characters::Characters;
use crate::support::alloc::AllocError;

/// The number of a page that there isn't: as many glyphs as stand before it there can't be.
const NO_PAGE: u16 = 65535;

// The glyph of a character as a table has it, where 0 is none.
#[inline]
fn number_of(characters: &Characters<'_>, c: u32) -> u16 {
    characters.nominal_glyph(c).unwrap_or(0)
}

// Appends the glyphs of the 256 characters from one on.
fn append_page(
    characters: &Characters<'_>,
    first: u32,
    glyphs: &mut Vec<u16>,
) -> Result<(), AllocError> {
    for k in 0..256 {
        glyphs.push(number_of(characters, first + k))?;
    }
    Ok(())
}

/// Makes tables of the pages that are marked, of so many at most.
pub(crate) fn fill(
    characters: &Characters<'_>,
    marks: &[bool],
    most_pages: u16,
    pages: &mut Vec<u16>,
    glyphs: &mut Vec<u16>,
) -> Result<(), AllocError> {
    let mut made = 0;
    for page in 0..marks.len() {
        if marks[page] && made < most_pages && made < NO_PAGE {
            append_page(characters, page as u32 * 256, glyphs)?;
            pages.push(made)?;
            made += 1;
        } else {
            pages.push(NO_PAGE)?;
        }
    }
    Ok(())
}

// Marks the pages of the characters from one to another. Where both ends are marked, those between them mostly are.
fn mark(marks: &mut [bool], first: u32, last: u32) {
    let (from, to) = (first as usize / 256, last as usize / 256);
    if from >= marks.len() || (marks[from] && (to >= marks.len() || marks[to])) {
        return;
    }
    for page in from..marks.len() {
        if page > to {
            return;
        }
        marks[page] = true;
    }
}

fn mark_segments(bytes: &[u8], marks: &mut [bool]) {
    let count = usize::from(u16_at(bytes, 6)) / 2;
    for i in 0..count {
        let first = u16_at(bytes, 16 + count * 2 + i * 2);
        let last = u16_at(bytes, 14 + i * 2);
        mark(marks, u32::from(first), u32::from(last));
    }
}

fn mark_groups(bytes: &[u8], marks: &mut [bool]) {
    for i in 0..capped(u32_at(bytes, 12), bytes.len() / 12) {
        let at = 16 + i as usize * 12;
        mark(marks, u32_at(bytes, at), u32_at(bytes, at + 4));
    }
}

/// Marks the pages that have characters of a subtable, and that of ASCII. Which are marked decides nothing but how
/// many steps a character takes.
pub(crate) fn mark_pages(bytes: &[u8], marks: &mut [bool]) {
    mark(marks, 0, 0);
    match u16_at(bytes, 0) {
        4 => mark_segments(bytes, marks),
        6 => {
            let first = u32::from(u16_at(bytes, 6));
            mark(marks, first, first + u32::from(u16_at(bytes, 8)));
        }
        10 => {
            let first = u32_at(bytes, 12);
            mark(marks, first, first.saturating_add(u32_at(bytes, 16)));
        }
        12 | 13 => mark_groups(bytes, marks),
        _ => {}
    }
}
