// Generated from crates/hbhook_commands/src/font.rt by rust/erase; edit the source.

//! The font that the lines `font` and `applies` describe.

use crate::support::prelude::*;

use crate::support::alloc::{AllocError, Global};
use crate::support::collections::BTreeMap;
use sengadlit::buffer::Tag;
use sengadlit::font::{Font, GlyphId};

/// A font of the lines so far: glyphs of characters, advances of glyphs, and what its lookups
/// would apply to.
pub struct LineFont {
    glyphs: BTreeMap<u32, GlyphId>,
    advances: BTreeMap<u16, i32>,
    applied: Vec<Applied>,
}

// Glyphs to which a lookup would apply.
struct Applied {
    lookup: u16,
    glyphs: Vec<GlyphId>,
}

impl LineFont {
    /// A font without a glyph or a lookup.
    pub fn new(alloc: Global) -> Self {
        LineFont {
            glyphs: BTreeMap::new(alloc),
            advances: BTreeMap::new(alloc),
            applied: Vec::new(alloc),
        }
    }

    /// Gives a character a glyph, and the glyph an advance.
    pub fn add_glyph(
        &mut self,
        character: char,
        glyph: GlyphId,
        advance: i32,
    ) -> Result<(), AllocError> {
        self.glyphs.insert(u32::from(character), glyph)?;
        self.advances.insert(glyph.0, advance)?;
        Ok(())
    }

    /// From now on the lookup would apply to these glyphs.
    pub fn add_applied(&mut self, lookup: u16, glyphs: Vec<GlyphId>) -> Result<(), AllocError> {
        self.applied.push(Applied { lookup, glyphs })?;
        Ok(())
    }

    /// The advance of a glyph, 0 for a number that no glyph has.
    pub fn advance(&self, glyph_id: u32) -> i32 {
        match u16::try_from(glyph_id) {
            Ok(glyph) => self.glyph_h_advance(GlyphId(glyph)),
            Err(_) => 0,
        }
    }
}

impl Font for LineFont {
    fn nominal_glyph(&self, c: u32) -> Option<GlyphId> {
        self.glyphs.get(&c).copied()
    }

    fn has_glyph(&self, c: u32) -> bool {
        self.glyphs.contains_key(&c)
    }

    fn glyph_h_advance(&self, glyph: GlyphId) -> i32 {
        self.advances.get(&glyph.0).copied().unwrap_or(0)
    }

    fn would_apply(&self, lookup: u16, glyphs: &[GlyphId], _zero_context: bool) -> bool {
        self.applied
            .iter()
            .any(|line| line.lookup == lookup && line.glyphs.as_slice() == glyphs)
    }

    fn has_feature(&self, _tag: Tag) -> bool {
        false
    }
}
