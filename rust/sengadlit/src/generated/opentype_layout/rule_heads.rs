// Generated from crates/opentype_layout/src/rule_heads.rt by rust/erase; edit the source.

//! What the rules of a set begin with, read once.

use crate::support::prelude::*;

use crate::generated::opentype_face::bytes::{table_at, u16_at};
use crate::generated::opentype_face::lookup::rule_count;
use crate::generated::opentype_layout::budget::paid_for;
use crate::support::alloc::Global;

/// How many bytes a rule's head costs.
const HEAD_COST: usize = 12;

/// How many numbers the lists of a rule have, and which ones they begin with.
#[derive(Clone, Copy, Debug)]
pub(crate) struct RuleHead {
    /// How many glyphs it looks for before a place.
    pub before_count: u16,
    /// The first one's number.
    pub before: u16,
    /// How many its input has, with the one at the place.
    pub input_count: u16,
    /// The second one's number.
    pub input: u16,
    /// How many it looks for behind its input.
    pub behind_count: u16,
    /// The first one's number.
    pub behind: u16,
}

impl RuleHead {
    // The head of a rule of a chained context.
    fn chained(bytes: &[u8]) -> Self {
        let before_count = u16_at(bytes, 0);
        let input_at = 2 + usize::from(before_count) * 2;
        let input_count = u16_at(bytes, input_at);
        let behind_at = input_at + usize::from(input_count) * 2;
        RuleHead {
            before_count,
            before: u16_at(bytes, 2),
            input_count,
            input: u16_at(bytes, input_at + 2),
            behind_count: u16_at(bytes, behind_at),
            behind: u16_at(bytes, behind_at + 2),
        }
    }

    // The head of a rule of a context.
    fn unchained(bytes: &[u8]) -> Self {
        RuleHead {
            before_count: 0,
            before: 0,
            input_count: u16_at(bytes, 0),
            input: u16_at(bytes, 4),
            behind_count: 0,
            behind: 0,
        }
    }

    // The head of a rule of format 1 or 2.
    fn of(chained: bool, bytes: &[u8]) -> Self {
        if chained {
            Self::chained(bytes)
        } else {
            Self::unchained(bytes)
        }
    }
}

/// Entry `i` of a list of offsets behind its count: a rule of a set, or a ligature.
#[inline]
pub(crate) fn nth(set: &[u8], i: u16) -> &[u8] {
    table_at(set, usize::from(u16_at(set, 2 + usize::from(i) * 2)))
}

// The heads of a set's first rules. Where a budget in bytes or memory doesn't suffice, there are
// fewer.
fn heads_of(alloc: Global, chained: bool, set: &[u8], budget: &mut usize) -> Vec<RuleHead> {
    let count = paid_for(rule_count(set), HEAD_COST, budget);
    let Ok(mut heads) = Vec::with_capacity(alloc, usize::from(count)) else {
        return Vec::new(alloc);
    };
    for i in 0..count {
        let head = RuleHead::of(chained, nth(set, i));
        if heads.push(head).is_err() {
            return heads;
        }
    }
    heads
}

/// Which glyphs beside a place a set's rules ask about.
#[derive(Clone, Copy, Debug)]
pub(crate) struct Asked {
    /// The one before it.
    pub before: bool,
    /// The next one of the input.
    pub input: bool,
    /// The one behind the input.
    pub behind: bool,
}

impl Asked {
    /// What any rules may ask about; those that aren't chained have an input alone.
    #[inline]
    pub(crate) fn all(chained: bool) -> Self {
        Asked {
            before: chained,
            input: true,
            behind: chained,
        }
    }

    // What so many rules ask about, of which these are the first.
    fn by(heads: &[RuleHead], count: u16) -> Self {
        let is_unknown = heads.len() < usize::from(count);
        Asked {
            before: is_unknown || heads.iter().any(|head| head.before_count > 0),
            input: is_unknown || heads.iter().any(|head| head.input_count > 1),
            behind: is_unknown || heads.iter().any(|head| head.behind_count > 0),
        }
    }
}

/// A set of a context's rules, with their heads.
#[derive(Debug)]
pub(crate) struct PreparedRules<'a> {
    bytes: &'a [u8],
    chained: bool,
    heads: Vec<RuleHead>,
    asked: Asked,
}

impl<'a> PreparedRules<'a> {
    /// Reads the heads of a set's rules, for which a budget in bytes pays.
    pub(crate) fn new(alloc: Global, chained: bool, bytes: &'a [u8], budget: &mut usize) -> Self {
        let heads = heads_of(alloc, chained, bytes, budget);
        PreparedRules {
            bytes,
            chained,
            asked: Asked::by(&heads, rule_count(bytes)),
            heads,
        }
    }

    /// The set.
    #[inline]
    pub(crate) fn bytes(&self) -> &'a [u8] {
        self.bytes
    }

    /// Which glyphs its rules ask about.
    #[inline]
    pub(crate) fn asked(&self) -> Asked {
        self.asked
    }

    /// The head of a rule, if it was read.
    #[inline]
    pub(crate) fn head(&self, i: u16) -> Option<&RuleHead> {
        self.heads.get(usize::from(i))
    }
}
