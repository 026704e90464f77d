// Generated from crates/shapers_syllabic/src/ot_shaper_syllabic/reordering.rt by rust/erase; edit the source.

//! Reordering a text syllable by syllable.

use crate::generated::shapers_base::buffer::{Buffer, GlyphInfo, GlyphWalk, ShaperError};
use crate::generated::shapers_clusters::carried_groups::CarriedGroups;

// After how many glyphs the walk looks whether merges have flooded what stands before these: the
// syllables among so few flood it a few times at most, and a look at each would cost more.
const STRIDE: usize = 64;

/// Which glyphs may change their syllable.
pub trait MayChange {
    /// Whether a syllable with this glyph may change. A syllable without such a glyph stays as it
    /// is, and need not be looked at.
    ///
    /// <details><summary>Contract</summary>
    ///
    /// # Contract
    ///
    /// ```text
    /// ensures { result ≡ changes self.now glyph.now }
    /// ```
    ///
    /// </details>
    fn may_change(&self, glyph: &GlyphInfo) -> bool;
}

/// How one syllable is reordered. What it becomes is a function of its own glyphs, of the buffer's
/// script, and of the plan and the font that the order holds, and has the same glyph numbers. In
/// contracts `takes` is what is required of these numbers, `may_refuse` whether there may be no
/// memory, and `relation` the buffer before and after, clusters and glyph flags among it.
pub trait Reorder: MayChange {
    /// Reorders the syllable from `start` to `end`. Only an order that may refuse returns [`Memory`],
    /// and then nothing is said of the buffer.
    ///
    /// # Errors
    ///
    /// [`Memory`], where the order takes memory; nothing is said of the buffer then.
    ///
    /// # Panics
    ///
    /// May panic where `start` is above `end`, or `end` above the length:
    /// [`reorder_syllables`](crate::ot_shaper_syllabic::reorder_syllables) never makes such a call.
    ///
    /// <details><summary>Contract</summary>
    ///
    /// # Contract
    ///
    /// ```text
    /// requires in_order { start ≤ end }
    /// requires in_range { end ≤ length buffer.old.glyphs }
    /// requires without_positions { buffer.old.positions ≡ [] }
    /// requires takes { takes self.now (glyph_numbers (stretch_of start end buffer.old.glyphs)) }
    /// ensures related { OnOk result (relation self.now start end buffer.old buffer.new) }
    /// ensures refusal { RefusesIf (may_refuse self.now) result }
    /// ```
    ///
    /// - `stretch_of`: `crates/shapers_buffer/specs/Clusters.antt`
    /// - `RefusesIf`, `glyph_numbers`: `crates/shapers_syllabic/specs/Reordering.antt`
    ///
    /// </details>
    ///
    /// [`Memory`]: crate::ShaperError::Memory
    fn reorder(&self, buffer: &mut Buffer, start: usize, end: usize) -> Result<(), ShaperError>;
}

/// An order whose merges and moves are known: of the clusters and glyph flags after it, all laws of
/// such steps hold.
pub trait ReorderBySteps: Reorder {}

/// Reorders each syllable of the text, from left to right, and empties the placement list, so that
/// no place depends on how syllables were moved. The text becomes what its syllables become, one
/// after another, and the order's relation leads there, one link a syllable. It refuses where the
/// order does, and then nothing is said of the buffer.
///
/// It is linear unless merges of many syllables flood what stands before them again and again, as
/// they may where clusters fall: see [`reorder_syllables_by_steps`].
///
/// # Errors
///
/// What the order returns; nothing is said of the buffer then.
///
/// # Panics
///
/// Where the order does, or takes glyphs out of the buffer.
///
/// <details><summary>Contract</summary>
///
/// # Contract
///
/// ```text
/// requires without_positions { buffer.old.positions ≡ [] }
/// requires takes { TakesText (R.takes order.now) buffer.old.glyphs }
/// ensures ordered { OnOk result
///     (TextOrdered (R.meaning order.now buffer.old.script) buffer.old buffer.new) }
/// ensures linked { OnOk result
///     (SyllablesLinked (R.relation order.now) buffer.old buffer.new) }
/// ensures refusal { RefusesIf (R.may_refuse order.now) result }
/// ```
///
/// - `RefusesIf`, `SyllablesLinked`, `TakesText`, `TextOrdered`: `crates/shapers_syllabic/specs/Reordering.antt`
///
/// </details>
#[inline]
pub fn reorder_syllables<R: Reorder>(order: &R, buffer: &mut Buffer) -> Result<(), ShaperError> {
    let mut start = 0;
    while let Some(first) = next_changing(order, buffer.glyphs(), start) {
        let end = buffer.next_syllable(first);
        order.reorder(buffer, first, end)?;
        start = end;
    }
    buffer.clear_places();
    Ok(())
}

/// Reorders each syllable of the text, as [`reorder_syllables`], by an order whose merges and moves
/// are known: it is linear whatever the clusters are. It takes no memory but the order's.
///
/// # Errors
///
/// What the order returns; nothing is said of the buffer then.
///
/// # Panics
///
/// Where the order does, or takes glyphs out of the buffer.
///
/// <details><summary>Contract</summary>
///
/// # Contract
///
/// ```text
/// requires without_positions { buffer.old.positions ≡ [] }
/// requires takes { TakesText (R.takes order.now) buffer.old.glyphs }
/// ensures ordered { OnOk result
///     (TextOrdered (R.meaning order.now buffer.old.script) buffer.old buffer.new) }
/// ensures linked { OnOk result
///     (SyllablesLinked (R.relation order.now) buffer.old buffer.new) }
/// ensures refusal { RefusesIf (R.may_refuse order.now) result }
/// ```
///
/// - `RefusesIf`, `SyllablesLinked`, `TakesText`, `TextOrdered`: `crates/shapers_syllabic/specs/Reordering.antt`
///
/// </details>
#[inline]
pub fn reorder_syllables_by_steps<R: ReorderBySteps>(
    order: &R,
    buffer: &mut Buffer,
) -> Result<(), ShaperError> {
    let mut start = 0;
    while start < buffer.len() {
        let cluster = cluster_before(buffer.glyphs(), start);
        let next = reorder_some(order, buffer, start)?;
        if cluster_before(buffer.glyphs(), start) != cluster {
            return reorder_carrying(order, buffer, next);
        }
        start = next;
    }
    buffer.clear_places();
    Ok(())
}

// Reorders the syllables from one on, up to one that ends a stride behind it or later, or all. It
// returns where the rest starts.
#[inline]
fn reorder_some<R: ReorderBySteps>(
    order: &R,
    buffer: &mut Buffer,
    from: usize,
) -> Result<usize, ShaperError> {
    let enough = from.saturating_add(STRIDE);
    let mut start = from;
    while let Some(first) = next_changing(order, buffer.glyphs(), start) {
        let next = buffer.next_syllable(first);
        order.reorder(buffer, first, next)?;
        if next >= enough {
            return Ok(next);
        }
        start = next;
    }
    Ok(buffer.len())
}

// The cluster of the glyph before a place.
#[inline]
fn cluster_before(glyphs: &[GlyphInfo], place: usize) -> u32 {
    if place == 0 || place > glyphs.len() {
        0
    } else {
        glyphs[place - 1].cluster
    }
}

// Reorders the syllables from one on, behind some that flooded what stands before them: what merges
// flood from here on is carried along and written once, in room that the buffer lends.
#[cold]
#[inline(never)]
fn reorder_carrying<R: ReorderBySteps>(
    order: &R,
    buffer: &mut Buffer,
    from: usize,
) -> Result<(), ShaperError> {
    let mut groups = CarriedGroups::with_room(buffer.take_group_room());
    let reordered = reorder_along(order, &mut groups, buffer, from);
    buffer.put_group_room_back(groups.into_room());
    reordered
}

// Reorders the syllables from one on, one after another behind what is carried, and writes that.
#[inline]
fn reorder_along<R: ReorderBySteps>(
    order: &R,
    groups: &mut CarriedGroups,
    buffer: &mut Buffer,
    from: usize,
) -> Result<(), ShaperError> {
    let mut start = from;
    while let Some(first) = next_changing(order, buffer.glyphs(), start) {
        let after = buffer.next_syllable(first);
        reorder_guarded(order, groups, buffer, first, after)?;
        start = after;
    }
    write(groups, buffer);
    buffer.clear_places();
    Ok(())
}

// The walk before a syllable. (A closure would do, but what it leaves in the groups that it borrows
// isn't known behind its call.)
struct Guarding<'a> {
    groups: &'a mut CarriedGroups,
    first: usize,
    end: usize,
    count: usize,
}

impl<'a> GlyphWalk for Guarding<'a> {
    #[inline]
    fn walk(&mut self, glyphs: &mut [GlyphInfo]) {
        self.count = self.groups.guard(glyphs, self.first, self.end);
    }
}

// The walk behind a syllable.
struct TakingBack<'a> {
    groups: &'a mut CarriedGroups,
    count: usize,
}

impl<'a> GlyphWalk for TakingBack<'a> {
    #[inline]
    fn walk(&mut self, glyphs: &mut [GlyphInfo]) {
        self.groups.take_back(glyphs, self.count);
    }
}

// Lets one glyph stand for each group that the syllable from `first` to `end` could flood, and
// returns how many these are.
#[inline]
fn guard(groups: &mut CarriedGroups, buffer: &mut Buffer, first: usize, end: usize) -> usize {
    let mut guarding = Guarding {
        groups,
        first,
        end,
        count: 0,
    };
    buffer.walk(&mut guarding);
    guarding.count
}

// Takes back the glyphs that stood for so many groups while a syllable was reordered, and carries
// what it flooded.
#[inline]
fn take_back(groups: &mut CarriedGroups, buffer: &mut Buffer, count: usize) {
    buffer.walk(&mut TakingBack { groups, count });
}

// Writes what is carried into the glyphs.
#[inline]
fn write(groups: &mut CarriedGroups, buffer: &mut Buffer) {
    let len = buffer.len();
    guard(groups, buffer, len, len);
}

// Reorders a syllable, while one glyph stands for each group that it could flood.
#[inline(never)]
fn reorder_guarded<R: ReorderBySteps>(
    order: &R,
    groups: &mut CarriedGroups,
    buffer: &mut Buffer,
    first: usize,
    end: usize,
) -> Result<(), ShaperError> {
    let count = guard(groups, buffer, first, end);
    order.reorder(buffer, first, end)?;
    take_back(groups, buffer, count);
    Ok(())
}

// Where the next syllable starts that may change, of those from `start` on.
#[inline]
fn next_changing<M: MayChange>(order: &M, glyphs: &[GlyphInfo], start: usize) -> Option<usize> {
    let count = first_changing(order, &glyphs[start..])?;
    Some(syllable_start(glyphs, start, start + count))
}

// The first glyph that may change its syllable.
#[inline]
fn first_changing<M: MayChange>(order: &M, glyphs: &[GlyphInfo]) -> Option<usize> {
    glyphs.iter().position(|glyph| order.may_change(glyph))
}

// Where the syllable starts that `place` stands in, if one starts at `start`.
#[inline]
fn syllable_start(glyphs: &[GlyphInfo], start: usize, place: usize) -> usize {
    for i in (start..place).rev() {
        if glyphs[i].syllable != glyphs[i + 1].syllable {
            return i + 1;
        }
    }
    start
}
