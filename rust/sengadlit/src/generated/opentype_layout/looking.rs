// Generated from crates/opentype_layout/src/looking.rt by rust/erase; edit the source.

//! How far a lookup looks at a place: a text that is joined to there may give something else.

use crate::support::prelude::*;

use crate::generated::opentype_face::bytes::{table_at, u16_at};
use crate::generated::opentype_face::glyph_sets::coverage;
use crate::generated::opentype_face::lookup::rule_count;
use crate::generated::opentype_layout::glyph_text::GlyphView;
use crate::generated::opentype_layout::input::find_input;
use crate::generated::opentype_layout::pattern::Pattern;
use crate::generated::opentype_layout::places::Places;
use crate::generated::opentype_layout::rule_heads::nth;
use crate::generated::opentype_layout::rules::{Rule, Tables};
use crate::generated::opentype_layout::sight::{Sight, number};
use crate::generated::shapers_buffer::buffer::{BufferFlags, GlyphInfo, unsafe_to_concat_in};

/// A stretch of a text, from a place up to another one.
#[derive(Clone, Copy, Debug)]
pub struct Stretch {
    /// The first place.
    pub start: usize,
    /// The place behind the last one.
    pub stop: usize,
}

/// How far a search for several places went.
#[derive(Clone, Copy, Debug)]
pub struct Sweep {
    /// The place behind the last glyph that it looked at.
    pub to: usize,
    /// How many places it found.
    pub found: u16,
}

/// The rules that a subtable has for a glyph.
#[derive(Clone, Copy, Debug)]
pub enum RuleSet<'a> {
    /// Ligatures.
    Ligatures(&'a [u8]),
    /// The rules of a context of format 1 or 2.
    Rules(Tables<'a>, &'a [u8]),
    /// The rule of one of format 3.
    One(Tables<'a>, &'a [u8]),
}

// Whether a search for place `k` of a rule passes over a glyph.
#[inline]
fn passes(gdef: &[u8], sight: &Sight, pattern: &Pattern<'_>, k: u16, glyph: &GlyphInfo) -> bool {
    sight
        .sees(gdef, pattern.fits(k, number(glyph)), glyph)
        .is_none()
}

// The place behind the glyph at which a search from a place on ends.
fn stop_behind(
    gdef: &[u8],
    sight: &Sight,
    pattern: &Pattern<'_>,
    k: u16,
    glyphs: &GlyphView<'_>,
    from: usize,
) -> usize {
    let mut i = from;
    while let Some(glyph) = glyphs.get(i) {
        if !passes(gdef, sight, pattern, k, glyph) {
            return i + 1;
        }
        i += 1;
    }
    i
}

// The same backwards from a place, by how many glyphs stand between.
fn stop_back(
    gdef: &[u8],
    sight: &Sight,
    pattern: &Pattern<'_>,
    k: u16,
    glyphs: &GlyphView<'_>,
    at: usize,
    from: usize,
) -> usize {
    for i in from..at {
        if !passes(gdef, sight, pattern, k, glyphs.at(at - 1 - i)) {
            return i + 1;
        }
    }
    from.max(at)
}

/// How far a search for so many places goes from a place on.
///
/// <details><summary>Contract</summary>
///
/// # Contract
///
/// ```text
/// ensures value { result ≡ swept_behind gdef.now sight.now (fits pattern.now) count glyphs.now from }
/// ensures few { result.found ≤ count }
/// ```
///
/// - `swept_behind`: `crates/opentype_layout/specs/Looking.antt`
/// - `fits`: `crates/opentype_layout/specs/Pattern.antt`
///
/// </details>
pub fn sweep_behind(
    gdef: &[u8],
    sight: &Sight,
    pattern: &Pattern<'_>,
    count: u16,
    glyphs: &GlyphView<'_>,
    from: usize,
) -> Sweep {
    let mut to = from;
    for found in 0..count {
        let Some(i) = pattern.next(gdef, sight, found, glyphs, to) else {
            let to = stop_behind(gdef, sight, pattern, found, glyphs, to);
            return Sweep { to, found };
        };
        to = glyphs.after(i);
    }
    Sweep { to, found: count }
}

/// The same backwards from a place, by how many glyphs stand between.
///
/// <details><summary>Contract</summary>
///
/// # Contract
///
/// ```text
/// requires { at ≤ length glyphs.now }
/// ensures { result ≡ swept_before gdef.now sight.now (fits pattern.now) count glyphs.now at }
/// ```
///
/// - `swept_before`: `crates/opentype_layout/specs/Looking.antt`
/// - `fits`: `crates/opentype_layout/specs/Pattern.antt`
///
/// </details>
pub fn sweep_back(
    gdef: &[u8],
    sight: &Sight,
    pattern: &Pattern<'_>,
    count: u16,
    glyphs: &GlyphView<'_>,
    at: usize,
) -> Sweep {
    let mut to = 0;
    for found in 0..count {
        let Some(i) = pattern.previous(gdef, sight, found, glyphs, at, to) else {
            let to = stop_back(gdef, sight, pattern, found, glyphs, at, to);
            return Sweep { to, found };
        };
        to = i + 1;
    }
    Sweep { to, found: count }
}

impl Stretch {
    /// No glyph.
    ///
    /// <details><summary>Contract</summary>
    ///
    /// # Contract
    ///
    /// ```text
    /// ensures { result ≡ nothing at }
    /// ```
    ///
    /// - `nothing`: `crates/opentype_layout/specs/Looking.antt`
    ///
    /// </details>
    #[inline]
    pub fn none(at: usize) -> Self {
        Stretch {
            start: at,
            stop: at,
        }
    }

    /// Both, and what is between.
    ///
    /// <details><summary>Contract</summary>
    ///
    /// # Contract
    ///
    /// ```text
    /// ensures { result ≡ spanned self other }
    /// ```
    ///
    /// - `spanned`: `crates/opentype_layout/specs/Looking.antt`
    ///
    /// </details>
    #[inline]
    pub fn join(self, other: Stretch) -> Self {
        Stretch {
            start: self.start.min(other.start),
            stop: self.stop.max(other.stop),
        }
    }
}

/// How many glyphs a stretch has at most that is flagged, as in HarfBuzz.
const MOST_FLAGGED: usize = 255;

/// Whether a stretch of so many glyphs is flagged, in a text that had so many glyphs and has so many:
/// those that were added count less, those that were removed more.
///
/// <details><summary>Contract</summary>
///
/// # Contract
///
/// ```text
/// ensures { result ≡ is_short span old_len len }
/// ```
///
/// - `is_short`: `crates/opentype_layout/specs/Looking.antt`
///
/// </details>
pub fn is_short(span: usize, old_len: usize, len: usize) -> bool {
    if len >= old_len {
        let added = len - old_len;
        return added <= span && span - added <= MOST_FLAGGED;
    }
    let removed = old_len - len;
    removed <= MOST_FLAGGED && span <= MOST_FLAGGED - removed
}

/// A stretch, if it isn't too long to be flagged.
///
/// <details><summary>Contract</summary>
///
/// # Contract
///
/// ```text
/// ensures { result ≡ counted at old_len len start stop }
/// ```
///
/// - `counted`: `crates/opentype_layout/specs/Looking.antt`
///
/// </details>
#[inline]
pub fn count(at: usize, old_len: usize, len: usize, start: usize, stop: usize) -> Stretch {
    if start > stop {
        return Stretch::none(at);
    }
    if is_short(stop - start, old_len, len) {
        Stretch { start, stop }
    } else {
        Stretch::none(at)
    }
}

// The stretch that a rule looked at, where its input is found: what stands behind it, then before.
fn look_around(
    gdef: &[u8],
    context: &Sight,
    old_len: usize,
    glyphs: &GlyphView<'_>,
    at: usize,
    rule: &Rule<'_>,
    end: usize,
) -> Stretch {
    let len = glyphs.len();
    let behind = sweep_behind(gdef, context, &rule.behind, rule.behind_count, glyphs, end);
    if behind.found != rule.behind_count {
        return count(at, len, len, at, behind.to);
    }
    let before = sweep_back(gdef, context, &rule.before, rule.before_count, glyphs, at);
    if before.found == rule.before_count {
        return Stretch::none(at);
    }
    let start = at.saturating_sub(before.to.saturating_add(1));
    count(at, old_len, len, start, behind.to)
}

// The stretch that a rule looked at that doesn't fit.
fn look(
    gdef: &[u8],
    sight: &Sight,
    context: &Sight,
    old_len: usize,
    glyphs: &GlyphView<'_>,
    at: usize,
    rule: &Rule<'_>,
) -> Stretch {
    if rule.input_count == 0 || rule.input_count > 64 {
        return Stretch::none(at);
    }
    let input = sweep_behind(
        gdef,
        sight,
        &rule.input,
        rule.input_count - 1,
        glyphs,
        glyphs.after(at),
    );
    if !is_one_input(gdef, sight, rule, input.found, glyphs, at) {
        return Stretch::none(at);
    }
    if input.found != rule.input_count - 1 {
        return count(at, glyphs.len(), glyphs.len(), at, input.to);
    }
    look_around(gdef, context, old_len, glyphs, at, rule, input.to)
}

// Whether so many glyphs of a rule's input are there, and can be of one input.
fn is_one_input(
    gdef: &[u8],
    sight: &Sight,
    rule: &Rule<'_>,
    count: u16,
    glyphs: &GlyphView<'_>,
    at: usize,
) -> bool {
    let (input, mut places) = (&rule.input, Places::new());
    find_input(gdef, sight, input, count, glyphs, at, &mut places)
}

impl<'a> RuleSet<'a> {
    // How many rules there are.
    fn count(&self) -> u16 {
        match *self {
            RuleSet::Ligatures(set) => rule_count(set),
            RuleSet::Rules(_, set) => rule_count(set),
            RuleSet::One(_, _) => 1,
        }
    }

    // One of the rules.
    fn nth_rule(&self, i: u16) -> Rule<'a> {
        match *self {
            RuleSet::Ligatures(set) => ligature_rule(nth(set, i)),
            RuleSet::Rules(tables, set) => tables.rule(nth(set, i)),
            RuleSet::One(tables, rule) => tables.rule(rule),
        }
    }

    /// The stretch that the rules looked at, up to the first that fits.
    ///
    /// <details><summary>Contract</summary>
    ///
    /// # Contract
    ///
    /// ```text
    /// requires { at < length glyphs.now }
    /// ensures { result ≡ set_looked gdef.now sight.now context.now old_len glyphs.now at (rule_list self.now) }
    /// ```
    ///
    /// - `rule_list`, `set_looked`: `crates/opentype_layout/specs/Looking.antt`
    ///
    /// </details>
    pub fn look(
        &self,
        gdef: &[u8],
        sight: &Sight,
        context: &Sight,
        old_len: usize,
        glyphs: &GlyphView<'_>,
        at: usize,
    ) -> Stretch {
        let mut looked = Stretch::none(at);
        for i in 0..self.count() {
            let rule = self.nth_rule(i);
            looked = looked.join(look(gdef, sight, context, old_len, glyphs, at, &rule));
            if rule.fit(gdef, sight, context, glyphs, at).is_some() {
                return looked;
            }
        }
        looked
    }
}

// A ligature as a rule.
fn ligature_rule(bytes: &[u8]) -> Rule<'_> {
    Rule {
        before: Pattern::Glyphs(&[]),
        before_count: 0,
        input: Pattern::Glyphs(table_at(bytes, 4)),
        input_count: u16_at(bytes, 2),
        behind: Pattern::Glyphs(&[]),
        behind_count: 0,
        records: &[],
        count: 0,
    }
}

// The set of rules of a context, by its number.
fn rule_set(bytes: &[u8], at: usize, number: u32) -> &[u8] {
    if number >= u32::from(u16_at(bytes, at)) {
        return &[];
    }
    table_at(
        bytes,
        usize::from(u16_at(bytes, at + 2 + number as usize * 2)),
    )
}

// Where the offset of the set of format 3's first glyph stands.
#[inline]
fn place_of_first(chained: bool, bytes: &[u8]) -> usize {
    if chained {
        usize::from(u16_at(bytes, 2)) * 2 + 6
    } else {
        6
    }
}

/// The rules that a context has for a glyph.
///
/// <details><summary>Contract</summary>
///
/// # Contract
///
/// ```text
/// ensures { option_map (λ set. rule_list set) result ≡ context_rules chained bytes.now glyph }
/// ```
///
/// - `context_rules`, `rule_list`: `crates/opentype_layout/specs/Looking.antt`
///
/// </details>
pub fn context_rules<'a>(chained: bool, bytes: &'a [u8], glyph: u16) -> Option<RuleSet<'a>> {
    let tables = Tables::of(chained, bytes);
    let format = u16_at(bytes, 0);
    if format == 3 {
        let first = u16_at(bytes, place_of_first(chained, bytes));
        coverage(table_at(bytes, usize::from(first)), glyph)?;
        return Some(RuleSet::One(tables, bytes));
    }
    let covered = coverage(table_at(bytes, usize::from(u16_at(bytes, 2))), glyph);
    match (format, covered) {
        (1, Some(number)) => Some(RuleSet::Rules(tables, rule_set(bytes, 4, number))),
        (2, Some(_)) => {
            let number = u32::from(tables.input.class(glyph));
            let sets = if chained { 10 } else { 6 };
            Some(RuleSet::Rules(tables, rule_set(bytes, sets, number)))
        }
        _ => None,
    }
}

/// Flags a stretch as one with no concatenation, as far as the text goes.
///
/// <details><summary>Contract</summary>
///
/// # Contract
///
/// ```text
/// ensures { glyphs.new ≡ unjoined looked glyphs.old }
/// ```
///
/// - `unjoined`: `crates/opentype_layout/specs/Looking.antt`
///
/// </details>
pub fn flag_joins(glyphs: &mut [GlyphInfo], looked: Stretch) {
    let end = glyphs.len().min(looked.stop);
    if looked.start < end {
        let wanted = BufferFlags::PRODUCE_UNSAFE_TO_CONCAT;
        unsafe_to_concat_in(wanted, glyphs, looked.start, end);
    }
}

/// Whether flags of concatenation are wanted.
///
/// <details><summary>Contract</summary>
///
/// # Contract
///
/// ```text
/// ensures { result ≡ has_flag flags_concat flags }
/// ```
///
/// - `flags_concat`, `has_flag`: `crates/shapers_buffer/specs/Buffer.antt`
///
/// </details>
#[inline]
pub fn wants_concat(flags: BufferFlags) -> bool {
    flags.0 & BufferFlags::PRODUCE_UNSAFE_TO_CONCAT.0 == BufferFlags::PRODUCE_UNSAFE_TO_CONCAT.0
}
