// Generated from crates/opentype_layout/src/class_refs.rt by rust/erase; edit the source.

//! Tables of classes, with what was made of them.

use crate::generated::opentype_face::glyph_sets::class;
use crate::generated::opentype_face::glyph_tables::PreparedClassDef;

/// A table of classes, with the classes of its glyphs beside it, if these were made.
#[derive(Clone, Copy, Debug)]
pub struct ClassRef<'a> {
    /// Its bytes.
    pub bytes: &'a [u8],
    table: Option<&'a PreparedClassDef<'a>>,
}

impl<'a> ClassRef<'a> {
    /// A table by its bytes alone.
    ///
    /// <details><summary>Contract</summary>
    ///
    /// # Contract
    ///
    /// ```text
    /// ensures { result.bytes.now ≡ bytes.now }
    /// ```
    ///
    /// </details>
    #[inline]
    pub fn of(bytes: &'a [u8]) -> Self {
        ClassRef { bytes, table: None }
    }

    /// A table whose classes were made.
    #[inline]
    pub(crate) fn prepared(table: &'a PreparedClassDef<'a>) -> Self {
        ClassRef {
            bytes: table.bytes,
            table: Some(table),
        }
    }

    /// The class of a glyph.
    ///
    /// <details><summary>Contract</summary>
    ///
    /// # Contract
    ///
    /// ```text
    /// ensures { result ≡ class_in self.now.bytes.now glyph }
    /// ```
    ///
    /// - `class_in`: `crates/opentype_face/specs/Glyphs.antt`
    ///
    /// </details>
    #[inline]
    pub fn class(&self, glyph: u16) -> u16 {
        match self.table {
            Some(table) => table.class(glyph),
            None => class(self.bytes, glyph),
        }
    }
}
