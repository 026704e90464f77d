// Generated from crates/opentype_gsub/src/pass.rt by rust/erase; edit the source.

//! A lookup of GSUB as it is applied to a text, and which glyphs it sees.

use crate::generated::opentype_face::class_table::ClassTable;
use crate::generated::opentype_layout::sight::{Application, Sight, ignores_glyph};
use crate::generated::opentype_layout::tables::LayoutTable;
use crate::generated::shapers_buffer::buffer::{BufferClusterLevel, GlyphInfo};

/// A lookup as a plan applies it.
#[derive(Clone, Copy, Debug, PartialEq, Eq, Hash)]
pub struct LookupUse {
    /// The number of the lookup in GSUB.
    pub index: u16,
    /// The lookup applies to a glyph whose mask has one of these bits.
    pub mask: u32,
    /// Whether matching passes over zero width non-joiners.
    pub auto_zwnj: bool,
    /// Whether matching passes over zero width joiners.
    pub auto_zwj: bool,
    /// Whether an alternate is picked at random.
    pub random: bool,
    /// Whether a match stays within a syllable.
    pub per_syllable: bool,
}

/// What a lookup is applied by.
#[derive(Clone, Copy, Debug)]
pub struct Pass<'a> {
    /// The table GDEF, with its classes.
    pub classes: ClassTable<'a>,
    /// The table GSUB.
    pub gsub: &'a LayoutTable<'a>,
    /// The level of the text's clusters.
    pub level: BufferClusterLevel,
    /// Whether flags of concatenation are wanted.
    pub concat: bool,
    /// How many glyphs the text had before the lookup.
    pub len: usize,
    /// How many glyphs the text may get.
    pub limit: usize,
    /// The lookup of the plan.
    pub lookup: LookupUse,
}

/// What the two sides of a rule see.
#[derive(Clone, Copy, Debug)]
pub struct Sights {
    /// What its input sees.
    pub input: Sight,
    /// What the glyphs around the input are seen by: each feature counts there, and joiners don't.
    pub context: Sight,
}

impl LookupUse {
    // How its rules look at a text.
    #[inline]
    fn application(&self) -> Application {
        Application {
            of_gpos: false,
            mask: self.mask,
            auto_zwnj: self.auto_zwnj,
            auto_zwj: self.auto_zwj,
            per_syllable: self.per_syllable,
        }
    }

    /// What a lookup's table sees from a glyph on.
    ///
    /// <details><summary>Contract</summary>
    ///
    /// # Contract
    ///
    /// ```text
    /// ensures { result ≡ sights_of gdef.now self.now lookup.now glyph.now }
    /// ```
    ///
    /// - `sights_of`: `crates/opentype_gsub/specs/Setting.antt`
    ///
    /// </details>
    #[inline]
    pub fn sights(&self, gdef: &[u8], lookup: &[u8], glyph: &GlyphInfo) -> Sights {
        let how = self.application();
        Sights {
            input: Sight::of_input(gdef, lookup, &how, glyph.syllable),
            context: Sight::of_context(gdef, lookup, &how, glyph.syllable),
        }
    }

    /// The same within a syllable, by its number. With 0 this is what the lookup sees wherever it is.
    #[inline]
    pub(crate) fn sights_within(&self, gdef: &[u8], lookup: &[u8], syllable: u8) -> Sights {
        let how = self.application();
        Sights {
            input: Sight::of_input(gdef, lookup, &how, syllable),
            context: Sight::of_context(gdef, lookup, &how, syllable),
        }
    }

    // The syllable that its rules stay in from a glyph on; 0 for none.
    #[inline]
    fn syllable_from(&self, glyph: &GlyphInfo) -> u8 {
        if self.per_syllable { glyph.syllable } else { 0 }
    }

    /// What the input of a lookup's table sees wherever it is.
    #[inline]
    pub(crate) fn sight(&self, gdef: &[u8], lookup: &[u8]) -> Sight {
        Sight::of_input(gdef, lookup, &self.application(), 0)
    }

    /// The same from a glyph on.
    #[inline]
    pub(crate) fn sight_from(&self, sight: &Sight, glyph: &GlyphInfo) -> Sight {
        Sight {
            syllable: self.syllable_from(glyph),
            ..*sight
        }
    }

    /// What a lookup's table sees from a glyph on, by what it sees wherever it is.
    #[inline]
    pub(crate) fn sights_from(&self, sights: &Sights, glyph: &GlyphInfo) -> Sights {
        let syllable = self.syllable_from(glyph);
        Sights {
            input: Sight {
                syllable,
                ..sights.input
            },
            context: Sight {
                syllable,
                ..sights.context
            },
        }
    }

    /// Whether a lookup applies to a glyph, by what its table sees: the glyph has a bit of the mask, and
    /// isn't ignored.
    #[inline]
    pub(crate) fn sees_by(&self, gdef: &[u8], sights: &Sights, glyph: &GlyphInfo) -> bool {
        self.sees_in(gdef, &sights.input, glyph)
    }

    /// The same by what the input of its table sees.
    #[inline]
    pub(crate) fn sees_in(&self, gdef: &[u8], sight: &Sight, glyph: &GlyphInfo) -> bool {
        if glyph.mask & self.mask == 0 {
            return false;
        }
        !ignores_glyph(gdef, sight.flag, sight.set, glyph)
    }

    /// Whether a lookup, of this sight, applies to a glyph: the glyph has a bit of the mask, and isn't
    /// ignored.
    ///
    /// <details><summary>Contract</summary>
    ///
    /// # Contract
    ///
    /// ```text
    /// ensures { result ≡ is_seen gdef.now self.now lookup.now glyph.now }
    /// ```
    ///
    /// - `is_seen`: `crates/opentype_gsub/specs/Setting.antt`
    ///
    /// </details>
    #[inline]
    pub fn sees(&self, gdef: &[u8], lookup: &[u8], glyph: &GlyphInfo) -> bool {
        let sight = self.sight(gdef, lookup);
        self.sees_in(gdef, &sight, glyph)
    }
}
