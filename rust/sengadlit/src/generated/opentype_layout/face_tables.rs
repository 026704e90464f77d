// Generated from crates/opentype_layout/src/face_tables.rt by rust/erase; edit the source.

//! A face, with tables that are made of it once.

use crate::generated::opentype_face::character_table::{CharacterTable, PreparedCharacters};
use crate::generated::opentype_face::class_table::{ClassTable, PreparedClasses};
use crate::generated::opentype_face::face::Face;
use crate::generated::opentype_layout::tables::{LayoutTable, PreparedTable};
use crate::support::alloc::Global;

/// How many pages of 256 characters have tables at most: these take 128 KiB.
const MOST_PAGES: u16 = 256;

/// How many bytes a face's tables may take in any font.
const LEAST_BUDGET: usize = 0x8_0000;

/// A face, with the tables that were made of it, if some were.
#[derive(Debug)]
pub struct FaceTables<'a> {
    /// The face.
    pub face: Face<'a>,
    characters: CharacterTable<'a>,
    classes: ClassTable<'a>,
    gsub: LayoutTable<'a>,
    gpos: LayoutTable<'a>,
}

impl<'a> FaceTables<'a> {
    /// A face alone.
    ///
    /// <details><summary>Contract</summary>
    ///
    /// # Contract
    ///
    /// ```text
    /// ensures { result.face ≡ face.now }
    /// ```
    ///
    /// </details>
    pub fn of(face: &Face<'a>) -> Self {
        FaceTables {
            face: *face,
            characters: CharacterTable::of(face.characters),
            classes: ClassTable::of(face.gdef),
            gsub: LayoutTable::of(face.gsub),
            gpos: LayoutTable::of(face.gpos),
        }
    }

    /// The glyph of a character.
    ///
    /// <details><summary>Contract</summary>
    ///
    /// # Contract
    ///
    /// ```text
    /// ensures { let it = self.now.face.characters in
    ///     result ≡ nominal_in it.encoding it.subtable.now c }
    /// ```
    ///
    /// - `nominal_in`: `crates/opentype_face/specs/Characters.antt`
    ///
    /// </details>
    #[inline]
    pub fn nominal_glyph(&self, c: u32) -> Option<u16> {
        self.characters.nominal_glyph(c)
    }

    /// The class of a glyph as lookups keep it, in a font that has classes.
    ///
    /// <details><summary>Contract</summary>
    ///
    /// # Contract
    ///
    /// ```text
    /// ensures { result ≡ props_if_any self.now.face.gdef.now glyph }
    /// ```
    ///
    /// - `props_if_any`: `crates/opentype_face/specs/ClassTables.antt`
    ///
    /// </details>
    #[inline]
    pub fn glyph_props(&self, glyph: u16) -> Option<u16> {
        self.classes.glyph_props(glyph)
    }

    /// GDEF, with its classes.
    ///
    /// <details><summary>Contract</summary>
    ///
    /// # Contract
    ///
    /// ```text
    /// ensures { result.now.gdef.now ≡ self.now.face.gdef.now }
    /// ```
    ///
    /// </details>
    #[inline]
    pub fn classes(&self) -> &ClassTable<'a> {
        &self.classes
    }

    /// GSUB.
    ///
    /// <details><summary>Contract</summary>
    ///
    /// # Contract
    ///
    /// ```text
    /// ensures { result.now ≡ self.now.face.gsub.now }
    /// ```
    ///
    /// </details>
    #[inline]
    pub fn gsub(&self) -> &LayoutTable<'a> {
        &self.gsub
    }

    /// GPOS.
    ///
    /// <details><summary>Contract</summary>
    ///
    /// # Contract
    ///
    /// ```text
    /// ensures { result.now ≡ self.now.face.gpos.now }
    /// ```
    ///
    /// </details>
    #[inline]
    pub fn gpos(&self) -> &LayoutTable<'a> {
        &self.gpos
    }
}

/// A face, with tables that were made of it.
#[derive(Debug)]
pub struct PreparedFace<'a> {
    /// The face.
    pub face: Face<'a>,
    characters: PreparedCharacters<'a>,
    classes: PreparedClasses<'a>,
    gsub: PreparedTable<'a>,
    gpos: PreparedTable<'a>,
}

impl<'a> PreparedFace<'a> {
    /// Makes tables of a face's characters, classes and lookups, of 512 KiB at most, or of half as many
    /// bytes as the font's file has, where that is more. What they have no room for is searched in the
    /// font's bytes. Where memory is refused there are fewer or none.
    ///
    /// <details><summary>Contract</summary>
    ///
    /// # Contract
    ///
    /// ```text
    /// ensures { result.face ≡ face.now }
    /// ```
    ///
    /// </details>
    pub fn new(alloc: Global, face: &Face<'a>, file_len: usize) -> Self {
        let mut budget = (file_len / 2).max(LEAST_BUDGET);
        let characters = PreparedCharacters::new(face.characters, MOST_PAGES, alloc, &mut budget);
        let classes = PreparedClasses::new(face.gdef, face.glyph_count(), alloc, &mut budget);
        // (GPOS has half of it, so that large tables of GSUB leave room for its bits)
        let mut share = budget / 2;
        let gpos = PreparedTable::new(alloc, true, face.gpos, &mut share);
        budget = budget.saturating_sub(budget / 2).saturating_add(share);
        let gsub = PreparedTable::new(alloc, false, face.gsub, &mut budget);
        PreparedFace {
            face: *face,
            characters,
            classes,
            gsub,
            gpos,
        }
    }

    /// The face with these tables.
    ///
    /// <details><summary>Contract</summary>
    ///
    /// # Contract
    ///
    /// ```text
    /// ensures { result.face ≡ self.now.face }
    /// ```
    ///
    /// </details>
    #[inline]
    pub fn tables(&self) -> FaceTables<'_> {
        FaceTables {
            face: self.face,
            characters: self.characters.table(),
            classes: self.classes.table(),
            gsub: self.gsub.table(),
            gpos: self.gpos.table(),
        }
    }
}
