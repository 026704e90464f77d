// Generated from crates/shapers_buffer/src/buffer/placements.rt by rust/erase; edit the source.

//! Placements one after another. A syllable may move in steps that merge clusters and search between
//! the moves: each step adds a placement, reads and merges through those before it, and behind the
//! last one the syllable is written once.

use crate::support::prelude::*;

use super::Buffer;
use super::cluster_ranges::ClusterRange;
use super::glyph::GlyphInfo;
use super::merging::{IntoCluster, merges};
use super::placement::{Placement, make_spare};
use super::walking::{GlyphChange, GlyphWalk};

/// Three placements of one syllable, one after another. At most one of them should be
/// [`Placement::Listed`], since the buffer has one list.
#[derive(Clone, Copy, Debug, PartialEq, Eq, Hash)]
pub struct Placements {
    /// What moves first.
    pub first: Placement,
    /// What moves then, by the places behind the first.
    pub second: Placement,
    /// What moves last, by the places behind the second.
    pub third: Placement,
}

impl Placements {
    /// Nothing moves.
    pub const STAY: Placements = Placements {
        first: Placement::Stays,
        second: Placement::Stays,
        third: Placement::Stays,
    };

    /// Whether nothing moves.
    ///
    /// <details><summary>Contract</summary>
    ///
    /// # Contract
    ///
    /// ```text
    /// ensures { result ≡ moves_nothing self.now }
    /// ```
    ///
    /// - `moves_nothing`: `crates/shapers_buffer/specs/Placements.antt`
    ///
    /// </details>
    #[inline]
    pub fn moves_nothing(&self) -> bool {
        is_still(self.first) && is_still(self.second) && is_still(self.third)
    }
}

// Whether a placement moves nothing.
#[inline]
fn is_still(placement: Placement) -> bool {
    match placement {
        Placement::Stays => true,
        Placement::Forward { .. } | Placement::Listed => false,
    }
}

// The place that the list says for `index`.
#[inline]
fn place_in(places: &[usize], index: usize) -> usize {
    places.get(index).copied().unwrap_or(0)
}

// The place from which a glyph comes to `index`, where the `count` glyphs from place `from` on come
// to the place `to`.
#[inline]
fn forward_place(to: usize, from: usize, count: usize, index: usize) -> usize {
    if index < to {
        index
    } else if index < to + count {
        from + (index - to)
    } else if index < from + count {
        index - count
    } else {
        index
    }
}

// The place from which a placement brings a glyph to `index`.
#[inline]
fn old_place(
    placement: Placement,
    places: &[usize],
    start: usize,
    end: usize,
    index: usize,
) -> usize {
    match placement {
        Placement::Stays => index,
        Placement::Forward { to, from, count } => forward_place(to, from, count, index),
        Placement::Listed => {
            if start <= index && index < end {
                place_in(places, index)
            } else {
                index
            }
        }
    }
}

// The place from which the placements, one after another, bring a glyph to `index`.
#[inline]
fn old_place_by_all(
    placements: &Placements,
    places: &[usize],
    start: usize,
    end: usize,
    index: usize,
) -> usize {
    let third = old_place(placements.third, places, start, end, index);
    let second = old_place(placements.second, places, start, end, third);
    old_place(placements.first, places, start, end, second)
}

/// A look at the glyphs of a syllable, which keeps what it found.
pub trait SyllableReading {
    /// Reads the syllable.
    ///
    /// <details><summary>Contract</summary>
    ///
    /// # Contract
    ///
    /// ```text
    /// requires { can_read self.old syllable.now }
    /// ensures { reads self.old self.new syllable.now }
    /// ```
    ///
    /// </details>
    fn read(&mut self, syllable: &[GlyphInfo]);
}

/// A text with one syllable moved by placements, to be read before the syllable is written.
#[derive(Debug)]
pub struct Arranged<'a> {
    buffer: &'a Buffer,
    placements: Placements,
    start: usize,
    end: usize,
}

impl<'a> Arranged<'a> {
    /// The number of glyphs.
    ///
    /// <details><summary>Contract</summary>
    ///
    /// # Contract
    ///
    /// ```text
    /// ensures { result ≡ length self.now }
    /// ```
    ///
    /// </details>
    #[inline]
    pub fn len(&self) -> usize {
        self.buffer.len()
    }

    /// How many glyphs of a cluster stand from place `start` on.
    ///
    /// <details><summary>Contract</summary>
    ///
    /// # Contract
    ///
    /// ```text
    /// requires { start ≤ length self.now }
    /// ensures len { result ≡ prefix_len (has_cluster cluster) (drop start self.now) }
    /// ensures within { start + result ≤ length self.now }
    /// ensures fits { start + result < 2 ^ 64 }
    /// ```
    ///
    /// - `has_cluster`: `crates/shapers_buffer/specs/Clusters.antt`
    ///
    /// </details>
    #[inline]
    pub fn cluster_behind(&self, start: usize, cluster: u32) -> usize {
        let end = self.len();
        for i in start..end {
            if self.get(i).cluster != cluster {
                return i - start;
            }
        }
        end - start
    }

    /// The glyph at `index`.
    ///
    /// <details><summary>Contract</summary>
    ///
    /// # Contract
    ///
    /// ```text
    /// requires { index < length self.now }
    /// ensures { result ≡ slice_index_or self.now index default_glyph }
    /// ```
    ///
    /// - `default_glyph`: `crates/shapers_buffer/specs/Glyph.antt`
    ///
    /// </details>
    #[inline]
    pub fn get(&self, index: usize) -> GlyphInfo {
        let place = self
            .buffer
            .arranged_place(&self.placements, self.start, self.end, index);
        self.buffer.get(place)
    }
}

impl Buffer {
    /// The text with the syllable from `start` to `end` moved by placements, to be read.
    ///
    /// <details><summary>Contract</summary>
    ///
    /// # Contract
    ///
    /// ```text
    /// requires { MayArrange placements.now start end (length self.now.glyphs) self.now.places }
    /// ensures text { let ps = placements.now in
    ///     result ≡ placed_by_all ps start end self.now.places self.now.glyphs }
    /// ensures same_length { length result ≡ length self.now.glyphs }
    /// ```
    ///
    /// - `MayArrange`, `placed_by_all`: `crates/shapers_buffer/specs/Placements.antt`
    ///
    /// </details>
    #[inline]
    pub(crate) fn arranged<'a>(
        &'a self,
        placements: &Placements,
        start: usize,
        end: usize,
    ) -> Arranged<'a> {
        Arranged {
            buffer: self,
            placements: *placements,
            start,
            end,
        }
    }

    /// Writes the syllable from `start` to `end`, moved by placements. Positions stay. It takes no
    /// memory.
    ///
    /// <details><summary>Contract</summary>
    ///
    /// # Contract
    ///
    /// ```text
    /// requires { MayArrange placements.now start end (length self.old.glyphs) self.old.places }
    /// ensures { let ps = placements.now in
    ///     let moved = placed_by_all ps start end self.old.places self.old.glyphs in
    ///     self.new ≡ record self.old { glyphs = moved } }
    /// ```
    ///
    /// - `MayArrange`, `placed_by_all`: `crates/shapers_buffer/specs/Placements.antt`
    ///
    /// </details>
    #[inline]
    pub(crate) fn apply_all(&mut self, start: usize, end: usize, placements: &Placements) {
        let Placements {
            first,
            second,
            third,
        } = *placements;
        if is_still(second) && is_still(third) {
            self.apply(start, end, first);
        } else if is_still(first) && is_still(third) {
            self.apply(start, end, second);
        } else if is_still(first) && is_still(second) {
            self.apply(start, end, third);
        } else {
            self.apply_one_after_another(start, end, placements);
        }
    }

    // The same by the place that each glyph comes from.
    #[cold]
    #[inline(never)]
    fn apply_one_after_another(&mut self, start: usize, end: usize, placements: &Placements) {
        make_spare(&mut self.spare, self.info[start..end].len());
        reorder(
            &mut self.info,
            &self.places,
            &mut self.spare,
            placements,
            start,
            end,
        );
    }

    /// Shows the syllable from `start` to `end`, moved by placements. It takes no memory.
    ///
    /// <details><summary>Contract</summary>
    ///
    /// # Contract
    ///
    /// ```text
    /// requires arranges { MayArrange placements.now start end
    ///     (length self.old.glyphs) self.old.places }
    /// requires readable { let moved = placed_by_all placements.now start end
    ///     self.old.places self.old.glyphs in
    ///     R.can_read reading.old (stretch_of start end moved) }
    /// ensures same { self.new ≡ self.old }
    /// ensures read { let moved = placed_by_all placements.now start end
    ///     self.old.places self.old.glyphs in
    ///     R.reads reading.old reading.new (stretch_of start end moved) }
    /// ```
    ///
    /// - `stretch_of`: `crates/shapers_buffer/specs/Clusters.antt`
    /// - `MayArrange`, `placed_by_all`: `crates/shapers_buffer/specs/Placements.antt`
    ///
    /// </details>
    #[inline(always)]
    pub(crate) fn read_arranged<R: SyllableReading>(
        &mut self,
        placements: &Placements,
        start: usize,
        end: usize,
        reading: &mut R,
    ) {
        if placements.moves_nothing() {
            reading.read(&self.info[start..end]);
        } else {
            gather_spare(
                &self.info,
                &self.places,
                &mut self.spare,
                placements,
                start,
                end,
            );
            reading.read(&self.spare[..end - start]);
        }
    }

    /// Walks over the syllable from `start` to `end`, moved by placements. It takes no memory.
    ///
    /// <details><summary>Contract</summary>
    ///
    /// # Contract
    ///
    /// ```text
    /// requires arranges { MayArrange placements.now start end
    ///     (length self.old.glyphs) self.old.places }
    /// requires walkable { let moved = arranged placements.now start end self.old in
    ///     W.can_walk walk.old (stretch_of start end moved.glyphs) }
    /// ensures walked { let old = arranged placements.now start end self.old in
    ///     let new = arranged placements.now start end self.new in
    ///     W.walks walk.old walk.new
    ///     (stretch_of start end old.glyphs) (stretch_of start end new.glyphs) }
    /// ensures glyphs { let old = arranged placements.now start end self.old in
    ///     let new = arranged placements.now start end self.new in
    ///     let syllable = stretch_of start end new.glyphs in
    ///     new ≡ record old { glyphs = with_stretch start end (λ _. syllable) old.glyphs } }
    /// ensures others { self.new ≡ record self.old { glyphs = self.new.glyphs } }
    /// ensures same_length { length self.new.glyphs ≡ length self.old.glyphs }
    /// ```
    ///
    /// - `stretch_of`, `with_stretch`: `crates/shapers_buffer/specs/Clusters.antt`
    /// - `MayArrange`, `arranged`: `crates/shapers_buffer/specs/Placements.antt`
    ///
    /// </details>
    #[inline(always)]
    pub(crate) fn walk_arranged<W: GlyphWalk>(
        &mut self,
        placements: &Placements,
        start: usize,
        end: usize,
        walk: &mut W,
    ) {
        if placements.moves_nothing() {
            walk_in(&mut self.info, start, end, walk);
        } else {
            self.walk_through(placements, start, end, walk);
        }
    }

    // The same over a copy of the syllable.
    #[cold]
    #[inline(never)]
    fn walk_through<W: GlyphWalk>(
        &mut self,
        placements: &Placements,
        start: usize,
        end: usize,
        walk: &mut W,
    ) {
        make_spare(&mut self.spare, self.info[start..end].len());
        walk_copy(
            &mut self.info,
            &self.places,
            &mut self.spare,
            placements,
            start,
            end,
            walk,
        );
    }

    /// The place from which placements bring a glyph to `index`.
    ///
    /// <details><summary>Contract</summary>
    ///
    /// # Contract
    ///
    /// ```text
    /// requires arranges { MayArrange placements.now start end
    ///     (length self.now.glyphs) self.now.places }
    /// requires inside { index < length self.now.glyphs }
    /// ensures place { result ≡ old_place_by_all placements.now start end self.now.places index }
    /// ensures within { result < length self.now.glyphs }
    /// ensures fits { result + 1 < 2 ^ 64 }
    /// ```
    ///
    /// - `MayArrange`, `old_place_by_all`: `crates/shapers_buffer/specs/Placements.antt`
    ///
    /// </details>
    #[inline]
    pub(crate) fn arranged_place(
        &self,
        placements: &Placements,
        start: usize,
        end: usize,
        index: usize,
    ) -> usize {
        old_place_by_all(placements, &self.places, start, end, index)
    }

    /// Changes each glyph that stands from `from` to `to` once the placements are applied.
    ///
    /// <details><summary>Contract</summary>
    ///
    /// # Contract
    ///
    /// ```text
    /// requires arranges { MayArrange placements.now start end
    ///     (length self.old.glyphs) self.old.places }
    /// requires in_order { from ≤ to }
    /// requires in_range { to ≤ length self.old.glyphs }
    /// ensures glyphs { let old = arranged placements.now start end self.old in
    ///     arranged placements.now start end self.new ≡ record old {
    ///       glyphs = with_stretch from to (map (C.changed change.now)) old.glyphs;
    ///     } }
    /// ensures others { self.new ≡ record self.old { glyphs = self.new.glyphs } }
    /// ensures same_length { length self.new.glyphs ≡ length self.old.glyphs }
    /// ```
    ///
    /// - `with_stretch`: `crates/shapers_buffer/specs/Clusters.antt`
    /// - `MayArrange`, `arranged`: `crates/shapers_buffer/specs/Placements.antt`
    ///
    /// </details>
    #[inline]
    pub(crate) fn change_arranged<C: GlyphChange>(
        &mut self,
        placements: &Placements,
        start: usize,
        end: usize,
        from: usize,
        to: usize,
        change: &C,
    ) {
        for i in from..to {
            let place = self.arranged_place(placements, start, end, i);
            self.change_each(place, place + 1, change);
        }
    }
}

// The least cluster of the glyphs from `start` to `end`.
#[inline]
fn least_cluster(glyphs: &Arranged, start: usize, end: usize) -> u32 {
    let mut least = glyphs.get(start).cluster;
    for i in start + 1..end {
        least = least.min(glyphs.get(i).cluster);
    }
    least
}

// How many glyphs of cluster `from` stand directly before place `end`, if that becomes another one.
#[inline]
fn equal_before(glyphs: &Arranged, end: usize, from: u32, to: u32) -> usize {
    if from == to {
        return 0;
    }
    for i in (0..end).rev() {
        if glyphs.get(i).cluster != from {
            return end - i - 1;
        }
    }
    end
}

// How many glyphs of cluster `from` stand from place `start` on, if that becomes another one.
#[inline]
fn equal_behind(glyphs: &Arranged, start: usize, from: u32, to: u32) -> usize {
    if from == to {
        return 0;
    }
    glyphs.cluster_behind(start, from)
}

// What a merge of the glyphs from `start` to `end`, of at least two places, puts into one cluster.
#[inline]
fn merged_range(glyphs: &Arranged, start: usize, end: usize) -> ClusterRange {
    let first = glyphs.get(start).cluster;
    let last = glyphs.get(end - 1).cluster;
    let cluster = least_cluster(glyphs, start + 1, end).min(first);
    let before = equal_before(glyphs, start, first, cluster);
    let behind = equal_behind(glyphs, end, last, cluster);
    ClusterRange {
        start: start - before,
        end: end + behind,
        cluster,
    }
}

impl Buffer {
    /// Merges the glyphs that stand from `from` to `to` once the placements are applied, as
    /// [`Buffer::merge_clusters`] does where they are.
    ///
    /// <details><summary>Contract</summary>
    ///
    /// # Contract
    ///
    /// ```text
    /// requires arranges { MayArrange placements.now start end
    ///     (length self.old.glyphs) self.old.places }
    /// requires in_order { from ≤ to }
    /// requires in_range { to ≤ length self.old.glyphs }
    /// ensures glyphs { let old = arranged placements.now start end self.old in
    ///     arranged placements.now start end self.new
    ///     ≡ record old { glyphs = merge self.old.level from to old.glyphs } }
    /// ensures others { self.new ≡ record self.old { glyphs = self.new.glyphs } }
    /// ensures same_length { length self.new.glyphs ≡ length self.old.glyphs }
    /// ```
    ///
    /// - `merge`: `crates/shapers_buffer/specs/Clusters.antt`
    /// - `MayArrange`, `arranged`: `crates/shapers_buffer/specs/Placements.antt`
    ///
    /// </details>
    #[inline]
    pub(crate) fn merge_arranged(
        &mut self,
        placements: &Placements,
        start: usize,
        end: usize,
        from: usize,
        to: usize,
    ) {
        if placements.moves_nothing() {
            self.merge_clusters(from, to);
        } else {
            self.merge_through(placements, start, end, from, to);
        }
    }

    // The same by the places where the glyphs are.
    fn merge_through(
        &mut self,
        placements: &Placements,
        start: usize,
        end: usize,
        from: usize,
        to: usize,
    ) {
        if merges(self.cluster_level) && to - from >= 2 {
            let range = merged_range(&self.arranged(placements, start, end), from, to);
            let change = IntoCluster(range.cluster);
            self.change_arranged(placements, start, end, range.start, range.end, &change);
        }
    }
}

// Writes the glyphs from `start` to `end`, moved by placements.
fn reorder(
    glyphs: &mut [GlyphInfo],
    places: &[usize],
    spare: &mut [GlyphInfo],
    placements: &Placements,
    start: usize,
    end: usize,
) {
    let spare = &mut spare[..end - start];
    gather(glyphs, places, placements, start, end, spare);
    glyphs[start..end].copy_from_slice(spare);
}

// Writes the glyphs that placements bring to the places from `start` to `end`.
fn gather(
    glyphs: &[GlyphInfo],
    places: &[usize],
    placements: &Placements,
    start: usize,
    end: usize,
    to: &mut [GlyphInfo],
) {
    for i in 0..end - start {
        let place = old_place_by_all(placements, places, start, end, start + i);
        to[i] = glyphs[place];
    }
}

// Writes the glyphs that placements bring to the places from `start` to `end` into the room for
// them.
#[cold]
#[inline(never)]
fn gather_spare(
    glyphs: &[GlyphInfo],
    places: &[usize],
    spare: &mut Vec<GlyphInfo>,
    placements: &Placements,
    start: usize,
    end: usize,
) {
    make_spare(spare, end - start);
    gather_front(glyphs, places, spare, placements, start, end);
}

// Writes them to the front of a list.
fn gather_front(
    glyphs: &[GlyphInfo],
    places: &[usize],
    spare: &mut [GlyphInfo],
    placements: &Placements,
    start: usize,
    end: usize,
) {
    let spare = &mut spare[..end - start];
    gather(glyphs, places, placements, start, end, spare);
}

// Walks over the glyphs from `start` to `end`.
#[inline]
fn walk_in<W: GlyphWalk>(glyphs: &mut [GlyphInfo], start: usize, end: usize, walk: &mut W) {
    walk.walk(&mut glyphs[start..end]);
}

// Walks over a copy of the glyphs that placements bring to the places from `start` to `end`, and
// writes each of them where it came from.
fn walk_copy<W: GlyphWalk>(
    glyphs: &mut [GlyphInfo],
    places: &[usize],
    spare: &mut [GlyphInfo],
    placements: &Placements,
    start: usize,
    end: usize,
    walk: &mut W,
) {
    let copy = &mut spare[..end - start];
    gather(glyphs, places, placements, start, end, copy);
    walk.walk(copy);
    put_back(glyphs, places, placements, start, end, copy);
}

// Writes the glyphs that placements bring to the places from `start` to `end` where they come from.
fn put_back(
    glyphs: &mut [GlyphInfo],
    places: &[usize],
    placements: &Placements,
    start: usize,
    end: usize,
    from: &[GlyphInfo],
) {
    for i in 0..end - start {
        let place = old_place_by_all(placements, places, start, end, start + i);
        glyphs[place] = from[i];
    }
}
