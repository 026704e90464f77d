// Generated from crates/opentype_gpos/src/calling.rt by rust/erase; edit the source.

//! Rules of contexts that fit, and the lookups that they apply.

use crate::generated::opentype_face::bytes::u16_at;
use crate::generated::opentype_gpos::coming::{Came, come_to};
use crate::generated::opentype_gpos::making::{make_move, make_pair};
use crate::generated::opentype_gpos::moved::flag_up_to;
use crate::generated::opentype_gpos::pass::Pass;
use crate::generated::opentype_gpos::trying::flag_tried;
use crate::generated::opentype_layout::places::Places;
use crate::generated::opentype_layout::rules::Matched;
use crate::generated::opentype_layout::starts::LookupTable;
use crate::generated::shapers_buffer::buffer::{GlyphInfo, GlyphPosition};
use crate::support::arrayvec::ArrayVec;

/// A rule that fits, with lookups left to apply.
#[derive(Debug, Default)]
pub struct Frame<'a> {
    // the records of its lookups, how many they are, and which is next
    pub(crate) records: &'a [u8],
    pub(crate) count: u16,
    pub(crate) next: u16,
    // the places of its input
    pub(crate) places: Places,
}

/// Rules whose lookups apply one another.
pub type Frames<'a> = ArrayVec<Frame<'a>, 63>;

// Applies a lookup at a place; the rule that fits there, if one does.
fn call<'a>(
    pass: &Pass<'_>,
    lookup: &LookupTable<'a>,
    at: usize,
    glyphs: &mut [GlyphInfo],
    positions: &mut [GlyphPosition],
) -> Option<Matched<'a>> {
    let sights = pass.sights(lookup.bytes());
    let came = come_to(pass, &sights, lookup, glyphs, at);
    flag_tried(pass, &sights, lookup, glyphs, at);
    match came {
        Some(Came::Moves(change)) => {
            make_move(pass.direction, &change, at, glyphs, positions);
            None
        }
        Some(Came::Pairs(pair)) => {
            make_pair(pass.direction, &pair, at, glyphs, positions);
            None
        }
        Some(Came::Fits(rule)) => Some(rule),
        None => None,
    }
}

// Applies a record of a rule, if the input has the place that it names, and so many operations are
// left as the lookup takes; else none is left.
fn call_record<'a>(
    pass: &Pass<'a>,
    records: &[u8],
    places: &[usize],
    i: u16,
    left: &mut usize,
    glyphs: &mut [GlyphInfo],
    positions: &mut [GlyphPosition],
) -> Option<Matched<'a>> {
    let record = usize::from(i) * 4;
    let sequence = usize::from(u16_at(records, record));
    let called = pass.gpos.lookup(u16_at(records, record + 2));
    let operations = called.operations();
    if operations > *left {
        *left = 0;
        return None;
    }
    *left -= operations;
    if sequence >= places.len() {
        return None;
    }
    call(pass, &called, places[sequence], glyphs, positions)
}

// Flags what a rule looked at.
#[inline]
fn flag_rule(rule: &Matched<'_>, glyphs: &mut [GlyphInfo]) {
    flag_up_to(true, rule.start, rule.stop.saturating_sub(1), glyphs);
}

// Puts a rule on those that its caller is one of, if that isn't too deep.
fn push_rule<'a>(frames: &mut Frames<'a>, rule: Option<Matched<'a>>, glyphs: &mut [GlyphInfo]) {
    if frames.is_full() {
        return;
    }
    if let Some(rule) = rule {
        flag_rule(&rule, glyphs);
        frames.push(Frame {
            records: rule.records,
            count: rule.count,
            next: 0,
            places: rule.places,
        });
    }
}

// The next record of the rule on top, or the end of that rule: how many operations are left, or `None`
// where no rule is.
fn step<'a>(
    pass: &Pass<'a>,
    left: usize,
    frames: &mut Frames<'a>,
    glyphs: &mut [GlyphInfo],
    positions: &mut [GlyphPosition],
) -> Option<usize> {
    let Some(mut frame) = frames.pop() else {
        return None;
    };
    if frame.next >= frame.count {
        return Some(left);
    }
    let i = frame.next;
    frame.next += 1;
    let mut left = left;
    let inner = call_record(
        pass,
        frame.records,
        frame.places.as_slice(),
        i,
        &mut left,
        glyphs,
        positions,
    );
    frames.push(frame);
    push_rule(frames, inner, glyphs);
    Some(left)
}

// What a rule that another one's lookup found makes of a text; returns how many operations are left.
// (Its rules take many bytes, for which a caller that this is inlined into would make room at
// each call.)
#[inline(never)]
fn run<'a>(
    pass: &Pass<'a>,
    rule: Matched<'a>,
    left: usize,
    glyphs: &mut [GlyphInfo],
    positions: &mut [GlyphPosition],
) -> usize {
    let mut frames = Frames::new();
    push_rule(&mut frames, Some(rule), glyphs);
    let mut left = left;
    while left > 0 {
        match step(pass, left, &mut frames, glyphs, positions) {
            Some(fewer) => left = fewer,
            None => return left,
        }
    }
    0
}

// A record of a rule, with what the lookup makes that it applies; returns how many operations are left.
fn apply_record<'a>(
    pass: &Pass<'a>,
    rule: &Matched<'a>,
    i: u16,
    left: usize,
    glyphs: &mut [GlyphInfo],
    positions: &mut [GlyphPosition],
) -> usize {
    let mut left = left;
    let inner = call_record(
        pass,
        rule.records,
        rule.places.as_slice(),
        i,
        &mut left,
        glyphs,
        positions,
    );
    match inner {
        Some(inner) => run(pass, inner, left, glyphs, positions),
        None => left,
    }
}

// How many operations the rules at a place have.
const MOST_OPERATIONS: usize = 4096;

/// What a rule that fits makes of a text, with the lookups that it applies: at most 64 levels deep, and
/// in at most 4,096 operations, of which a lookup takes `LookupTable::operations`.
///
/// <details><summary>Contract</summary>
///
/// # Contract
///
/// ```text
/// requires { length positions.old ≡ length glyphs.old }
/// ensures glyphs { let w = rule_made 64 (setting_of pass.now) (found rule.now)
///     (record { glyphs = glyphs.old; positions = positions.old; left = 4096 }) in
///     glyphs.new ≡ w.glyphs }
/// ensures positions { let w = rule_made 64 (setting_of pass.now) (found rule.now)
///     (record { glyphs = glyphs.old; positions = positions.old; left = 4096 }) in
///     positions.new ≡ w.positions }
/// ```
///
/// - `rule_made`: `crates/opentype_gpos/specs/Called.antt`
/// - `setting_of`: `crates/opentype_gpos/specs/Coming.antt`
/// - `found`: `crates/opentype_layout/specs/Rules.antt`
///
/// </details>
pub fn apply_rule<'a>(
    pass: &Pass<'a>,
    rule: &Matched<'a>,
    glyphs: &mut [GlyphInfo],
    positions: &mut [GlyphPosition],
) {
    flag_rule(rule, glyphs);
    let mut left = MOST_OPERATIONS;
    for i in 0..rule.count {
        if left == 0 {
            return;
        }
        left = apply_record(pass, rule, i, left, glyphs, positions);
    }
}
