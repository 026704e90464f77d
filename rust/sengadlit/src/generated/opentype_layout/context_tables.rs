// Generated from crates/opentype_layout/src/context_tables.rt by rust/erase; edit the source.

//! Contexts of formats 1 and 2, with tables of their classes and of what their rules begin with.

use crate::support::prelude::*;

use crate::generated::opentype_face::bytes::u16_at;
use crate::generated::opentype_face::glyph_tables::{PreparedClassDef, PreparedCoverage};
use crate::generated::opentype_layout::budget::paid_for;
use crate::generated::opentype_layout::class_refs::ClassRef;
use crate::generated::opentype_layout::glyph_text::GlyphView;
use crate::generated::opentype_layout::rule_heads::PreparedRules;
use crate::generated::opentype_layout::rules::{
    Matched, Tables, find_rule, place_of_sets, rule_set,
};
use crate::generated::opentype_layout::sets::place_in_set;
use crate::generated::opentype_layout::sight::{Sight, number};
use crate::support::alloc::Global;

/// How many bytes a set of rules costs beside their heads.
const SET_COST: usize = 64;

// Where the count of a context's sets of rules stands, in formats 1 and 2.
#[inline]
fn place_of_rules(chained: bool, bytes: &[u8]) -> usize {
    if u16_at(bytes, 0) == 1 {
        4
    } else {
        place_of_sets(chained)
    }
}

// The first sets of a context's rules. Where a budget in bytes or memory doesn't suffice, there are
// fewer.
fn sets_of_rules<'a>(
    alloc: Global,
    chained: bool,
    bytes: &'a [u8],
    budget: &mut usize,
) -> Vec<PreparedRules<'a>> {
    let at = place_of_rules(chained, bytes);
    let count = paid_for(u16_at(bytes, at), SET_COST, budget);
    let Ok(mut sets) = Vec::with_capacity(alloc, usize::from(count)) else {
        return Vec::new(alloc);
    };
    for i in 0..count {
        let set = rule_set(bytes, at, u32::from(i));
        if sets
            .push(PreparedRules::new(alloc, chained, set, budget))
            .is_err()
        {
            return sets;
        }
    }
    sets
}

/// A context of format 1 or 2, with tables of its classes and of its rules.
#[derive(Debug)]
pub struct ContextTable<'a> {
    bytes: &'a [u8],
    kind: u16,
    format: u16,
    before: PreparedClassDef<'a>,
    input: PreparedClassDef<'a>,
    behind: PreparedClassDef<'a>,
    rules: Vec<PreparedRules<'a>>,
}

impl<'a> ContextTable<'a> {
    /// Makes the tables of a context, by its type in GSUB. A budget in bytes pays for them.
    pub(crate) fn new(alloc: Global, kind: u16, bytes: &'a [u8], budget: &mut usize) -> Self {
        let chained = kind == 6;
        let tables = Tables::of(chained, bytes);
        ContextTable {
            bytes,
            kind,
            format: tables.format,
            before: PreparedClassDef::new(tables.before.bytes, alloc, budget),
            input: PreparedClassDef::new(tables.input.bytes, alloc, budget),
            behind: PreparedClassDef::new(tables.behind.bytes, alloc, budget),
            rules: sets_of_rules(alloc, chained, bytes, budget),
        }
    }

    // The tables that the numbers of its rules refer to.
    #[inline]
    fn tables(&self) -> Tables<'_> {
        Tables {
            chained: self.kind == 6,
            format: self.format,
            before: ClassRef::prepared(&self.before),
            input: ClassRef::prepared(&self.input),
            behind: ClassRef::prepared(&self.behind),
        }
    }

    // The heads of a set of its rules, by the set's number, if it has them.
    #[inline]
    fn prepared(&self, number: u32) -> Option<&PreparedRules<'a>> {
        self.rules.get(number as usize)
    }

    // The first rule of a set, by its number, that fits a place.
    #[inline]
    fn first_of(
        &self,
        number: u32,
        gdef: &[u8],
        input: &Sight,
        context: &Sight,
        glyphs: &GlyphView<'_>,
        at: usize,
    ) -> Option<Matched<'_>> {
        let at_count = place_of_rules(self.kind == 6, self.bytes);
        let set = rule_set(self.bytes, at_count, number);
        let prepared = self.prepared(number);
        self.tables()
            .first_rule(gdef, input, context, set, prepared, glyphs, at)
    }

    /// The first rule that fits a place of a text: its input by one sight, its context by another. A
    /// table of the set of glyphs that the context begins with saves a search in the set.
    ///
    /// <details><summary>Contract</summary>
    ///
    /// # Contract
    ///
    /// ```text
    /// requires inside { at < length glyphs.now }
    /// requires set { IfSome set (λ it. it.now.set.now ≡ table_at self.now.bytes
    ///     (u16_in self.now.bytes (start_at (self.now.kind == 6) self.now.bytes))) }
    /// ensures { option_map (λ it. found it) result ≡ context_in (self.now.kind == 6) gdef.now
    ///     input.now context.now self.now.bytes glyphs.now at }
    /// ```
    ///
    /// - `table_at`, `u16_in`: `crates/opentype_face/specs/Bytes.antt`
    /// - `context_in`, `found`, `kind`, `start_at`: `crates/opentype_layout/specs/Rules.antt`
    ///
    /// </details>
    pub fn find_rule(
        &self,
        gdef: &[u8],
        input: &Sight,
        context: &Sight,
        set: Option<&PreparedCoverage<'_>>,
        glyphs: &GlyphView<'_>,
        at: usize,
    ) -> Option<Matched<'_>> {
        let (bytes, glyph) = (self.bytes, number(glyphs.at(at)));
        match u16_at(bytes, 0) {
            1 => {
                let place = place_in_set(bytes, 2, set, glyph)?;
                self.first_of(place, gdef, input, context, glyphs, at)
            }
            2 => {
                place_in_set(bytes, 2, set, glyph)?;
                let class = u32::from(self.input.class(glyph));
                self.first_of(class, gdef, input, context, glyphs, at)
            }
            _ => {
                let chained = self.kind == 6;
                find_rule(chained, gdef, input, context, bytes, set, glyphs, at)
            }
        }
    }
}
