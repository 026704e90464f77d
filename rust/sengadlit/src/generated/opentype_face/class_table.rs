// Generated from crates/opentype_face/src/class_table.rt by rust/erase; edit the source.

//! The classes of glyphs, by a table that is made once.

use crate::support::prelude::*;

use crate::generated::opentype_face::classes::{glyph_props, has_glyph_classes};
use crate::support::alloc::{AllocError, Global};

/// GDEF, with the classes of the first glyphs beside it.
#[derive(Clone, Copy, Debug)]
pub struct ClassTable<'a> {
    /// GDEF.
    pub gdef: &'a [u8],
    props: &'a [u16],
}

// The class of a glyph by GDEF. (A function of its own, so that a look into the table is short.)
#[inline(never)]
fn props_by_search(gdef: &[u8], glyph: u16) -> Option<u16> {
    if has_glyph_classes(gdef) {
        Some(glyph_props(gdef, glyph))
    } else {
        None
    }
}

impl<'a> ClassTable<'a> {
    /// GDEF alone.
    ///
    /// <details><summary>Contract</summary>
    ///
    /// # Contract
    ///
    /// ```text
    /// ensures { result.gdef.now ≡ gdef.now }
    /// ```
    ///
    /// </details>
    pub fn of(gdef: &'a [u8]) -> Self {
        ClassTable { gdef, props: &[] }
    }

    /// The class of a glyph as lookups keep it, in a font that has classes; without a search where the table has the
    /// glyph.
    ///
    /// <details><summary>Contract</summary>
    ///
    /// # Contract
    ///
    /// ```text
    /// ensures { result ≡ props_if_any self.now.gdef.now glyph }
    /// ```
    ///
    /// - `props_if_any`: `crates/opentype_face/specs/ClassTables.antt`
    ///
    /// </details>
    #[inline]
    pub fn glyph_props(&self, glyph: u16) -> Option<u16> {
        let at = usize::from(glyph);
        if at < self.props.len() {
            return Some(self.props[at]);
        }
        props_by_search(self.gdef, glyph)
    }
}

/// GDEF, with a table of classes that was made of it.
#[derive(Debug)]
pub struct PreparedClasses<'a> {
    /// GDEF.
    pub gdef: &'a [u8],
    props: Vec<u16>,
}

// The classes of so many glyphs.
fn props_of(gdef: &[u8], count: u16, alloc: Global) -> Result<Vec<u16>, AllocError> {
    let mut props = Vec::with_capacity(alloc, usize::from(count))?;
    for glyph in 0..count {
        props.push(glyph_props(gdef, glyph))?;
    }
    Ok(props)
}

impl<'a> PreparedClasses<'a> {
    /// Makes a table of the classes of so many glyphs, of which each takes two bytes and a search or two. A
    /// budget in bytes pays for it. Where this or memory doesn't suffice, or the font has no classes, there is
    /// none.
    ///
    /// <details><summary>Contract</summary>
    ///
    /// # Contract
    ///
    /// ```text
    /// ensures { result.gdef.now ≡ gdef.now }
    /// ```
    ///
    /// </details>
    pub fn new(gdef: &'a [u8], count: u16, alloc: Global, budget: &mut usize) -> Self {
        let size = usize::from(count) * 2;
        if size <= *budget && has_glyph_classes(gdef) {
            if let Ok(props) = props_of(gdef, count, alloc) {
                *budget -= size;
                return PreparedClasses { gdef, props };
            }
        }
        PreparedClasses {
            gdef,
            props: Vec::new(alloc),
        }
    }

    /// GDEF with this table.
    ///
    /// <details><summary>Contract</summary>
    ///
    /// # Contract
    ///
    /// ```text
    /// ensures { result.gdef.now ≡ self.now.gdef.now }
    /// ```
    ///
    /// </details>
    #[inline]
    pub fn table(&self) -> ClassTable<'_> {
        ClassTable {
            gdef: self.gdef,
            props: self.props.as_slice(),
        }
    }
}
