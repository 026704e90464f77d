// Generated from crates/shapers_buffer/src/buffer/cluster_ranges.rt by rust/erase; edit the source.

//! Ranges of glyphs that merges have put into one cluster, which is written once, behind the last
//! of these merges.

use super::glyph::GlyphInfo;
use super::merging::{least_cluster, merges, set_cluster};
use super::{Buffer, BufferClusterLevel};

/// Glyphs that merges have put into one cluster, which isn't written yet: where they start, the
/// place behind them, and their cluster.
#[derive(Clone, Copy, Debug, PartialEq, Eq)]
pub struct ClusterRange {
    pub(super) start: usize,
    pub(super) end: usize,
    pub(super) cluster: u32,
}

impl ClusterRange {
    /// No glyphs.
    pub const NONE: Self = ClusterRange {
        start: 0,
        end: 0,
        cluster: 0,
    };
}

impl Buffer {
    /// Merges the glyphs from `start` to `end`, as `merge_clusters`, of the buffer with a range in
    /// its cluster. Where they start in the range nothing is written and only what is new is read,
    /// else the range is written and another begins. Returns the range that is to be written then.
    ///
    /// # Panics
    ///
    /// Where `s` is above `e`, or `e` above the length; and where the run passes the end of the buffer.
    ///
    /// <details><summary>Contract</summary>
    ///
    /// # Contract
    ///
    /// ```text
    /// requires in_order { start ≤ end }
    /// requires in_range { end ≤ length self.old.glyphs }
    /// requires fits { RangeFits range self.old.glyphs }
    /// ensures others { self.new ≡ record self.old { glyphs = self.new.glyphs } }
    /// ensures merged { with_range result self.new.glyphs
    ///     ≡ merge self.old.level start end (with_range range self.old.glyphs) }
    /// ensures fits { RangeFits result self.new.glyphs }
    /// ensures same_length { length self.new.glyphs ≡ length self.old.glyphs }
    /// ```
    ///
    /// - `RangeFits`, `with_range`: `crates/shapers_buffer/specs/ClusterRanges.antt`
    /// - `merge`, `merged`: `crates/shapers_buffer/specs/Clusters.antt`
    ///
    /// </details>
    #[inline]
    pub(crate) fn merge_range(
        &mut self,
        range: ClusterRange,
        start: usize,
        end: usize,
    ) -> ClusterRange {
        merge_range_in(self.cluster_level, &mut self.info, range, start, end)
    }

    /// Puts the glyphs of a range into its cluster.
    ///
    /// # Panics
    ///
    /// Where the run passes the end of the buffer.
    ///
    /// <details><summary>Contract</summary>
    ///
    /// # Contract
    ///
    /// ```text
    /// requires { RangeFits range self.old.glyphs }
    /// ensures { self.new ≡ record self.old { glyphs = with_range range self.old.glyphs } }
    /// ```
    ///
    /// - `RangeFits`, `with_range`: `crates/shapers_buffer/specs/ClusterRanges.antt`
    ///
    /// </details>
    #[inline]
    pub(crate) fn write_range(&mut self, range: ClusterRange) {
        write_range_in(&mut self.info, range);
    }
}

/// Merges over glyphs in a slice, as [`Buffer::merge_range`].
///
/// <details><summary>Contract</summary>
///
/// # Contract
///
/// ```text
/// requires in_order { start ≤ end }
/// requires in_range { end ≤ length glyphs.old }
/// requires fits { RangeFits range glyphs.old }
/// ensures merged { with_range result glyphs.new ≡ merge level start end (with_range range glyphs.old) }
/// ensures fits { RangeFits result glyphs.new }
/// ```
///
/// - `RangeFits`, `with_range`: `crates/shapers_buffer/specs/ClusterRanges.antt`
/// - `merge`, `merged`: `crates/shapers_buffer/specs/Clusters.antt`
///
/// </details>
///
/// [`Buffer::merge_range`]: crate::Buffer::merge_range
#[inline]
pub fn merge_range_in(
    level: BufferClusterLevel,
    glyphs: &mut [GlyphInfo],
    range: ClusterRange,
    start: usize,
    end: usize,
) -> ClusterRange {
    if merges(level) && end - start >= 2 {
        merge_two(glyphs, range, start, end)
    } else {
        range
    }
}

/// Puts the glyphs of a range in a slice into its cluster.
///
/// <details><summary>Contract</summary>
///
/// # Contract
///
/// ```text
/// requires { RangeFits range glyphs.old }
/// ensures { glyphs.new ≡ with_range range glyphs.old }
/// ```
///
/// - `RangeFits`, `with_range`: `crates/shapers_buffer/specs/ClusterRanges.antt`
///
/// </details>
#[inline]
pub fn write_range_in(glyphs: &mut [GlyphInfo], range: ClusterRange) {
    set_cluster(&mut glyphs[range.start..range.end], range.cluster);
}

// Merges the glyphs from `start` to `end`, of at least two places.
#[inline]
fn merge_two(
    glyphs: &mut [GlyphInfo],
    range: ClusterRange,
    start: usize,
    end: usize,
) -> ClusterRange {
    let range = reaching(glyphs, range, start);
    if range.start <= start && start < range.end {
        return if end <= range.end {
            range
        } else {
            grown(glyphs, range, end)
        };
    }
    write_range_in(glyphs, range);
    grown(glyphs, range_of_one(glyphs, start), end)
}

// The range with the glyphs behind it up to `index`, if these are all in its cluster.
#[inline]
fn reaching(glyphs: &[GlyphInfo], range: ClusterRange, index: usize) -> ClusterRange {
    if range.start < range.end
        && range.end <= index
        && are_in(&glyphs[range.end..index + 1], range.cluster)
    {
        ClusterRange {
            end: index + 1,
            ..range
        }
    } else {
        range
    }
}

// Whether all glyphs are in a cluster.
#[inline]
fn are_in(glyphs: &[GlyphInfo], cluster: u32) -> bool {
    glyphs.iter().all(|glyph| glyph.cluster == cluster)
}

// One glyph as a range.
#[inline]
fn range_of_one(glyphs: &[GlyphInfo], index: usize) -> ClusterRange {
    ClusterRange {
        start: index,
        end: index + 1,
        cluster: glyphs[index].cluster,
    }
}

// The range that a merge from a place of this one to `end` makes, if that lies behind it.
#[inline]
fn grown(glyphs: &[GlyphInfo], range: ClusterRange, end: usize) -> ClusterRange {
    let added = &glyphs[range.end..end];
    let last = added[added.len() - 1].cluster;
    let cluster = least_cluster(added).min(range.cluster);
    let before = equal_before(&glyphs[..range.start], range.cluster, cluster);
    let behind = equal_behind(&glyphs[end..], last, cluster);
    ClusterRange {
        start: range.start - before,
        end: end + behind,
        cluster,
    }
}

// How many glyphs of cluster `from` end the list, if that becomes another one.
#[inline]
fn equal_before(glyphs: &[GlyphInfo], from: u32, to: u32) -> usize {
    if from == to {
        0
    } else {
        len_at_end(glyphs, from)
    }
}

// How many glyphs of cluster `from` begin the list, if that becomes another one.
#[inline]
fn equal_behind(glyphs: &[GlyphInfo], from: u32, to: u32) -> usize {
    if from == to {
        0
    } else {
        len_in_front(glyphs, from)
    }
}

// How many glyphs of a cluster end the list.
#[inline]
fn len_at_end(glyphs: &[GlyphInfo], cluster: u32) -> usize {
    glyphs
        .iter()
        .rev()
        .take_while(|glyph| glyph.cluster == cluster)
        .count()
}

// How many glyphs of a cluster begin the list.
#[inline]
fn len_in_front(glyphs: &[GlyphInfo], cluster: u32) -> usize {
    glyphs
        .iter()
        .take_while(|glyph| glyph.cluster == cluster)
        .count()
}
