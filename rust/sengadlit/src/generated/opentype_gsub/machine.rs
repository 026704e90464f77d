// Generated from crates/opentype_gsub/src/machine.rt by rust/erase; edit the source.

//! Lookups that rules apply, on a stack in the place of a recursion.

use crate::generated::opentype_face::bytes::u16_at;
use crate::generated::opentype_gsub::apply::apply_one;
use crate::generated::opentype_gsub::flagging::flag_stretch;
use crate::generated::opentype_gsub::pass::{Pass, Sights};
use crate::generated::opentype_gsub::shifting::Rule;
use crate::generated::opentype_gsub::trying::flag_tried;
use crate::generated::opentype_layout::glyph_text::{GlyphText, GlyphView};
use crate::generated::opentype_layout::rules::{Matched, find_rule};
use crate::generated::opentype_layout::sight::number;
use crate::generated::opentype_layout::starts::LookupTable;
use crate::generated::opentype_layout::substitution_tables::SubtableRef;
use crate::generated::shapers_buffer::buffer::{LookupRecord, ShaperError};
use crate::support::arrayvec::ArrayVec;
use core::mem;

/// Rules that wait for the end of a rule that one of their lookups found. With that one they are at
/// most 64: so deep lookups may apply lookups. (Each is there; `None` is quickly written where none is.)
type Callers<'a> = ArrayVec<Option<Rule<'a>>, 63>;

/// What a lookup came to at a place.
#[derive(Debug)]
pub enum Outcome<'a> {
    /// It doesn't fit.
    Nothing,
    /// It is done, up to this place.
    Done(usize),
    /// A rule fits.
    Fits(Rule<'a>),
}

// Begins a rule: no break may be inside what it looked at.
fn begin<'a>(
    pass: &Pass<'_>,
    chained: bool,
    matched: Matched<'a>,
    text: &mut GlyphText,
) -> Rule<'a> {
    let len = text.len();
    let old_len = if chained { pass.len } else { len };
    flag_stretch(text, old_len, matched.start, matched.stop);
    Rule::begin(matched, len)
}

// The first rule of a context that fits a place.
fn rule_of<'a>(
    pass: &Pass<'_>,
    sights: &Sights,
    subtable: &SubtableRef<'a>,
    glyphs: &GlyphView<'_>,
    at: usize,
) -> Option<Matched<'a>> {
    let (gdef, input, context) = (pass.classes.gdef, &sights.input, &sights.context);
    let (chained, bytes, set) = (subtable.kind == 6, subtable.bytes, subtable.set);
    match subtable.context {
        Some(table) => table.find_rule(gdef, input, context, set, glyphs, at),
        None => find_rule(chained, gdef, input, context, bytes, set, glyphs, at),
    }
}

// What one of a lookup's subtables comes to at a place, by the number of the glyph there.
fn come_by<'a>(
    pass: &Pass<'_>,
    sights: &Sights,
    lookup: &LookupTable<'a>,
    i: u16,
    glyph: u16,
    text: &mut GlyphText,
    lookups: &mut LookupRecord,
    at: usize,
) -> Result<Outcome<'a>, ShaperError> {
    let subtable = lookup.subtable(i);
    let kind = subtable.kind;
    if kind == 5 || kind == 6 {
        return match rule_of(pass, sights, &subtable, &text.view(), at) {
            Some(matched) => Ok(Outcome::Fits(begin(pass, kind == 6, matched, text))),
            None => Ok(Outcome::Nothing),
        };
    }
    match apply_one(pass, &sights.input, &subtable.at(glyph), text, lookups, at)? {
        Some(next) => Ok(Outcome::Done(next)),
        None => Ok(Outcome::Nothing),
    }
}

// What the first of a lookup's subtables that fits comes to at a place.
fn come_among<'a>(
    pass: &Pass<'_>,
    sights: &Sights,
    lookup: &LookupTable<'a>,
    text: &mut GlyphText,
    lookups: &mut LookupRecord,
    at: usize,
) -> Result<Outcome<'a>, ShaperError> {
    let glyph = number(text.at(at));
    let (count, mut from) = (lookup.count(), 0);
    while from < count {
        let Some(i) = lookup.next_start(false, glyph, from) else {
            return Ok(Outcome::Nothing);
        };
        match come_by(pass, sights, lookup, i, glyph, text, lookups, at) {
            Ok(Outcome::Nothing) => from = i + 1,
            Ok(Outcome::Done(next)) => return Ok(Outcome::Done(next)),
            Ok(Outcome::Fits(rule)) => return Ok(Outcome::Fits(rule)),
            Err(e) => return Err(e),
        }
    }
    Ok(Outcome::Nothing)
}

// What a lookup sees from the glyph at a place on.
#[inline]
fn seen_from(pass: &Pass<'_>, sights: &Sights, text: &GlyphText, at: usize) -> Sights {
    pass.lookup.sights_from(sights, text.at(at))
}

// What a lookup comes to at a place.
fn come_to<'a>(
    pass: &Pass<'_>,
    sights: &Sights,
    lookup: &LookupTable<'a>,
    text: &mut GlyphText,
    lookups: &mut LookupRecord,
    at: usize,
) -> Result<Outcome<'a>, ShaperError> {
    if at >= text.len() {
        return Ok(Outcome::Nothing);
    }
    let seen = seen_from(pass, sights, text, at);
    come_among(pass, &seen, lookup, text, lookups, at)
}

// The same behind the flags of what is tried in vain.
fn try_at<'a>(
    pass: &Pass<'_>,
    sights: &Sights,
    lookup: &LookupTable<'a>,
    text: &mut GlyphText,
    lookups: &mut LookupRecord,
    at: usize,
) -> Result<Outcome<'a>, ShaperError> {
    flag_tried(pass, lookup.bytes(), text, at);
    come_to(pass, sights, lookup, text, lookups, at)
}

// The lookup that a rule applies next.
fn next_called<'a>(pass: &Pass<'a>, rule: &Rule<'_>) -> LookupTable<'a> {
    let record = usize::from(rule.next) * 4;
    pass.gsub.lookup(u16_at(rule.records, record + 2))
}

// Takes so many of the text's operations, if as many are left; else none is left, and the text isn't
// complete.
fn charge(lookups: &mut LookupRecord, operations: usize) -> bool {
    if operations > lookups.operations_left {
        lookups.operations_left = 0;
        lookups.is_complete = false;
        return false;
    }
    lookups.operations_left -= operations;
    true
}

// Applies the next lookup of a rule; the rule that fits there, if one does.
fn call<'a>(
    pass: &Pass<'a>,
    called: &LookupTable<'a>,
    text: &mut GlyphText,
    lookups: &mut LookupRecord,
    rule: &mut Rule<'a>,
) -> Result<Option<Rule<'a>>, ShaperError> {
    let sequence = usize::from(u16_at(rule.records, usize::from(rule.next) * 4));
    rule.next += 1;
    if sequence >= rule.places.len() {
        return Ok(None);
    }
    let place = rule.places[sequence];
    rule.sequence = sequence;
    rule.before = text.len();
    let sights = pass
        .lookup
        .sights_within(pass.classes.gdef, called.bytes(), 0);
    match try_at(pass, &sights, called, text, lookups, place) {
        Ok(Outcome::Nothing) => Ok(None),
        Ok(Outcome::Done(_)) => {
            rule.shift_behind(text.len());
            Ok(None)
        }
        Ok(Outcome::Fits(called_rule)) => Ok(Some(called_rule)),
        Err(e) => Err(e),
    }
}

// A rule that waited.
fn waited<'a>(caller: Option<Rule<'a>>) -> Rule<'a> {
    if let Some(rule) = caller {
        return rule;
    }
    Rule::default()
}

// Where a rule ends, its caller is in hand again; where it has none, the machine ends with the place
// behind what was done.
fn end_rule<'a>(
    len: usize,
    rule: &mut Rule<'a>,
    callers: &mut Callers<'a>,
) -> Option<Option<usize>> {
    let Some(caller) = callers.pop() else {
        return Some(Some(rule.end));
    };
    let mut caller = waited(caller);
    caller.shift_behind(len);
    *rule = caller;
    None
}

// A rule that was called is in hand, and its caller waits, if that isn't too deep.
fn go_deeper<'a>(called: Rule<'a>, rule: &mut Rule<'a>, callers: &mut Callers<'a>) {
    if !callers.is_full() {
        callers.push(Some(mem::replace(rule, called)));
    }
}

// One turn of the machine; `None` where it goes on, else what `run_called` returns.
fn step<'a>(
    pass: &Pass<'a>,
    text: &mut GlyphText,
    lookups: &mut LookupRecord,
    rule: &mut Rule<'a>,
    callers: &mut Callers<'a>,
) -> Result<Option<Option<usize>>, ShaperError> {
    if rule.next >= rule.count {
        if !charge(lookups, 1) {
            return Ok(Some(None));
        }
        return Ok(end_rule(text.len(), rule, callers));
    }
    let called = next_called(pass, rule);
    if !charge(lookups, called.operations()) {
        return Ok(Some(None));
    }
    if let Some(inner) = call(pass, &called, text, lookups, rule)? {
        go_deeper(inner, rule, callers);
    }
    Ok(None)
}

// The machine in at most so many turns, from a rule on that another one called; the place behind what
// was done. (Its stack of 36 KB is no part of functions that run for each glyph.)
#[inline(never)]
fn run_called<'a>(
    pass: &Pass<'a>,
    text: &mut GlyphText,
    lookups: &mut LookupRecord,
    caller: Rule<'a>,
    called: Rule<'a>,
    turns: usize,
) -> Result<Option<usize>, ShaperError> {
    let mut rule = called;
    let mut callers = Callers::new();
    callers.push(Some(caller));
    let mut left = turns;
    while left > 0 {
        left -= 1;
        match step(pass, text, lookups, &mut rule, &mut callers) {
            Ok(Some(end)) => return Ok(end),
            Ok(None) => {}
            Err(e) => return Err(e),
        }
    }
    lookups.operations_left = 0;
    lookups.is_complete = false;
    Ok(None)
}

// The same from a rule on that no other one called. (Most rules call none, and need no stack. Apart from
// the walk, since a rule fits at few places.)
#[inline(never)]
fn run<'a>(
    pass: &Pass<'a>,
    text: &mut GlyphText,
    lookups: &mut LookupRecord,
    rule: Rule<'a>,
    turns: usize,
) -> Result<Option<usize>, ShaperError> {
    let mut rule = rule;
    let mut left = turns;
    while left > 0 {
        left -= 1;
        if rule.next >= rule.count {
            if !charge(lookups, 1) {
                return Ok(None);
            }
            return Ok(Some(rule.end));
        }
        let called = next_called(pass, &rule);
        if !charge(lookups, called.operations()) {
            return Ok(None);
        }
        match call(pass, &called, text, lookups, &mut rule) {
            Ok(Some(inner)) => return run_called(pass, text, lookups, rule, inner, left),
            Ok(None) => {}
            Err(e) => return Err(e),
        }
    }
    lookups.operations_left = 0;
    lookups.is_complete = false;
    Ok(None)
}

/// Applies a lookup by its table at a place, and the lookups that its rules apply, with the operations
/// that the text has left: the end of a rule takes one, and each lookup that it applies
/// `LookupTable::operations`. It returns the place behind what was done, if the lookup fits. What the
/// table sees is the same at each place of a text.
///
/// # Errors
///
/// [`Memory`].
///
/// <details><summary>Contract</summary>
///
/// # Contract
///
/// ```text
/// requires { let it = setting_of pass.now in
///     sights.now ≡ sights_within it.gdef it.lookup lookup.now 0 }
/// ensures { IfOk result (λ end.
///     nested (setting_of pass.now) lookup.now text.old at lookups.old
///     ≡ record { text = text.new; end = end; lookups = lookups.new }) }
/// ```
///
/// - `nested`: `crates/opentype_gsub/specs/Machine.antt`
/// - `setting_of`, `sights_within`: `crates/opentype_gsub/specs/Setting.antt`
///
/// </details>
///
/// [`Memory`]: crate::ShaperError::Memory
#[inline]
pub fn apply_nested<'a>(
    pass: &Pass<'a>,
    sights: &Sights,
    lookup: &LookupTable<'a>,
    text: &mut GlyphText,
    lookups: &mut LookupRecord,
    at: usize,
) -> Result<Option<usize>, ShaperError> {
    // (`?` would move the rule once more, with the room for its places)
    match try_at(pass, sights, lookup, text, lookups, at) {
        Ok(Outcome::Nothing) => Ok(None),
        Ok(Outcome::Done(next)) => Ok(Some(next)),
        Ok(Outcome::Fits(rule)) => {
            // (each turn takes an operation at least)
            let turns = lookups.operations_left;
            run(pass, text, lookups, rule, turns)
        }
        Err(e) => Err(e),
    }
}
