// Generated from crates/opentype_gpos/src/pass.rt by rust/erase; edit the source.

//! What a lookup of GPOS is applied by, and which glyphs it sees.

use crate::generated::opentype_layout::sight::{Application, Sight};
use crate::generated::opentype_layout::tables::LayoutTable;
use crate::generated::shapers_buffer::buffer::Direction;

/// What a lookup is applied by.
#[derive(Clone, Copy, Debug)]
pub struct Pass<'a> {
    /// The table GDEF.
    pub gdef: &'a [u8],
    /// The table GPOS.
    pub gpos: &'a LayoutTable<'a>,
    /// The direction of the line.
    pub direction: Direction,
    /// How the plan has the lookup applied.
    pub how: Application,
    /// Whether flags of concatenation are wanted.
    pub concat: bool,
}

/// What the two sides of a rule see.
#[derive(Clone, Copy, Debug)]
pub struct Sights {
    /// What its input sees.
    pub input: Sight,
    /// What the glyphs around the input are seen by: each feature counts there.
    pub context: Sight,
}

impl<'a> Pass<'a> {
    /// What a lookup's table sees.
    ///
    /// <details><summary>Contract</summary>
    ///
    /// # Contract
    ///
    /// ```text
    /// ensures { result ≡ sights_in (setting_of self.now) lookup.now }
    /// ```
    ///
    /// - `setting_of`, `sights_in`: `crates/opentype_gpos/specs/Coming.antt`
    ///
    /// </details>
    #[inline]
    pub fn sights(&self, lookup: &[u8]) -> Sights {
        let input = Sight::of_input(self.gdef, lookup, &self.how, 0);
        let context = Sight {
            mask: 0xFFFF_FFFF,
            over_zwnj: self.how.of_gpos || self.how.auto_zwnj,
            over_zwj: true,
            ..input
        };
        Sights { input, context }
    }
}
