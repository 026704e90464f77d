// Generated from crates/shapers_clusters/src/carried_groups.rt by rust/erase; edit the source.

//! Ranges of glyphs in front of a place where merges go on, each in one cluster, which are written
//! once.

use crate::support::prelude::*;

use crate::generated::shapers_buffer::buffer::{
    ClusterGroup, GlyphInfo, GroupRoom, change_each_by_in, least_cluster, put_into_cluster,
};
use crate::support::alloc::{AllocError, Global};

/// Groups of glyphs, one behind the other, up to the place where merges go on. The clusters rise
/// from each group to the next one: a group before one of a lower cluster can't be flooded from
/// behind it any more, and is written.
pub struct CarriedGroups {
    start: usize,
    end: usize,
    groups: Vec<ClusterGroup>,
    kept: Vec<GlyphInfo>,
}

impl CarriedGroups {
    /// No groups, and no room for any.
    ///
    /// <details><summary>Contract</summary>
    ///
    /// # Contract
    ///
    /// ```text
    /// ensures start { result.start ≡ 0 }
    /// ensures end { result.end ≡ 0 }
    /// ensures none { result.groups.items ≡ [] }
    /// ```
    ///
    /// </details>
    #[inline]
    pub fn new(alloc: Global) -> Self {
        CarriedGroups::with_room(GroupRoom::new(alloc))
    }

    /// No groups, with room that a buffer lends. Where it is enough for the text, carrying takes no
    /// memory.
    ///
    /// <details><summary>Contract</summary>
    ///
    /// # Contract
    ///
    /// ```text
    /// ensures start { result.start ≡ 0 }
    /// ensures end { result.end ≡ 0 }
    /// ensures none { result.groups.items ≡ [] }
    /// ```
    ///
    /// </details>
    #[inline]
    pub fn with_room(room: GroupRoom) -> Self {
        let mut groups = room.groups;
        groups.clear();
        CarriedGroups {
            start: 0,
            end: 0,
            groups,
            kept: room.glyphs,
        }
    }

    /// The room, for the buffer that lent it.
    #[inline]
    pub fn into_room(self) -> GroupRoom {
        GroupRoom {
            groups: self.groups,
            glyphs: self.kept,
        }
    }

    /// Writes all groups, and has none then.
    ///
    /// <details><summary>Contract</summary>
    ///
    /// # Contract
    ///
    /// ```text
    /// requires fits { AreCarried self.old glyphs.old }
    /// ensures written { glyphs.new ≡ with_groups self.old glyphs.old }
    /// ensures none { self.new.groups.items ≡ [] }
    /// ensures start { self.new.start ≡ self.old.end }
    /// ensures end { self.new.end ≡ self.old.end }
    /// ensures same_length { length glyphs.new ≡ length glyphs.old }
    /// ```
    ///
    /// - `AreCarried`, `with_groups`: `crates/shapers_clusters/specs/CarriedGroups.antt`
    ///
    /// </details>
    #[inline]
    pub fn write(&mut self, glyphs: &mut [GlyphInfo]) {
        write_groups(self.groups.as_slice(), glyphs, self.start);
        self.groups.truncate(0);
        self.start = self.end;
    }

    /// Before merges from `first` to `end`: lets one glyph stand for each of the last groups that
    /// they could flood, behind one that they can't, and returns how many these are. Where it is
    /// 0, all is written.
    ///
    /// <details><summary>Contract</summary>
    ///
    /// # Contract
    ///
    /// ```text
    /// requires fits { AreCarried self.old glyphs.old }
    /// requires in_order { first ≤ end }
    /// requires in_range { end ≤ length glyphs.old }
    /// ensures { GroupsGuarded first end self.old glyphs.old self.new result glyphs.new }
    /// ```
    ///
    /// - `AreCarried`, `GroupsGuarded`: `crates/shapers_clusters/specs/CarriedGroups.antt`
    ///
    /// </details>
    #[inline]
    pub fn guard(&mut self, glyphs: &mut [GlyphInfo], first: usize, end: usize) -> usize {
        let count = self.try_guard(glyphs, first, end);
        if count == 0 {
            self.write(glyphs);
            self.start = first;
            self.end = first;
        }
        count
    }

    // The same, but 0 where that is not to be, and then all is as before.
    #[inline]
    fn try_guard(&mut self, glyphs: &mut [GlyphInfo], first: usize, end: usize) -> usize {
        if first == end || first < self.end {
            return 0;
        }
        if !self.add_groups_to(glyphs, first) {
            return 0;
        }
        if !self.is_apart(glyphs) {
            return 0;
        }
        let count = self.count_from(least_cluster(&glyphs[first..end]));
        match self.represent_groups(glyphs, count) {
            Ok(()) => count,
            Err(_) => 0,
        }
    }

    /// Behind these merges: takes back the glyphs that stood for `count` groups, and puts the
    /// groups into their clusters.
    ///
    /// <details><summary>Contract</summary>
    ///
    /// # Contract
    ///
    /// ```text
    /// requires fits { CanTakeBack self.old count glyphs.old }
    /// ensures settled { GroupsTakenBack self.old count glyphs.old self.new glyphs.new }
    /// ensures same_length { length glyphs.new ≡ length glyphs.old }
    /// ```
    ///
    /// - `CanTakeBack`, `GroupsTakenBack`: `crates/shapers_clusters/specs/CarriedGroups.antt`
    ///
    /// </details>
    #[inline]
    pub fn take_back(&mut self, glyphs: &mut [GlyphInfo], count: usize) {
        if count == 0 {
            return;
        }
        let place = self.end - count;
        let index = self.group_count() - count;
        self.read_from(&glyphs[place..self.end], index);
        put_back(
            self.kept.as_slice(),
            glyphs,
            place.saturating_sub(1),
            self.end,
        );
        self.join(glyphs);
    }

    // Puts the groups from one on into the clusters of glyphs, unless these are above their own.
    #[inline]
    fn read_from(&mut self, glyphs: &[GlyphInfo], index: usize) {
        read_groups(glyphs, &mut self.groups.as_mut_slice()[index..]);
    }

    // How many groups there are.
    #[inline]
    fn group_count(&self) -> usize {
        self.groups.len()
    }

    // A group.
    #[inline]
    fn group(&self, index: usize) -> ClusterGroup {
        self.groups.as_slice()[index]
    }

    // Adds the glyphs up to a place, each as a group or to one. False where there is no memory, or
    // no group.
    #[inline]
    fn add_groups_to(&mut self, glyphs: &mut [GlyphInfo], place: usize) -> bool {
        while self.end < place {
            if self.add(glyphs).is_err() {
                return false;
            }
        }
        self.group_count() > 0
    }

    // Adds the glyph behind the groups.
    #[inline]
    fn add(&mut self, glyphs: &mut [GlyphInfo]) -> Result<(), AllocError> {
        let group = ClusterGroup {
            len: 1,
            cluster: glyphs[self.end].cluster,
        };
        self.groups.push(group)?;
        self.end += 1;
        self.join(glyphs);
        Ok(())
    }

    // Whether what stands before the groups ends in a cluster above that of the first one; and
    // there is one above that.
    #[inline]
    fn is_apart(&self, glyphs: &[GlyphInfo]) -> bool {
        let cluster = self.group(0).cluster;
        cluster < u32::MAX && (self.start == 0 || glyphs[self.start - 1].cluster > cluster)
    }

    // How many groups from the last one back to the first one of a cluster below `least`, or all.
    #[inline]
    fn count_from(&self, least: u32) -> usize {
        let mut index = self.group_count() - 1;
        while index > 0 && self.group(index).cluster >= least {
            index -= 1;
        }
        self.group_count() - index
    }

    // Lets one glyph stand for each of the last `count` groups, and one with another cluster before
    // these.
    #[inline]
    fn represent_groups(
        &mut self,
        glyphs: &mut [GlyphInfo],
        count: usize,
    ) -> Result<(), AllocError> {
        let place = self.end - count;
        self.kept.truncate(0);
        self.kept
            .extend_from_slice(&glyphs[place.saturating_sub(1)..self.end])?;
        self.show_from(glyphs, self.group_count() - count, place);
        put_before(glyphs, place, self.group(0).cluster + 1);
        Ok(())
    }

    // Lets one glyph stand for each group from one on, the first of them at this place.
    #[inline]
    fn show_from(&self, glyphs: &mut [GlyphInfo], index: usize, place: usize) {
        show_groups(self.groups_from(index), &mut glyphs[place..self.end]);
    }

    // The groups from one on.
    #[inline]
    fn groups_from(&self, index: usize) -> &[ClusterGroup] {
        &self.groups.as_slice()[index..]
    }

    // Joins the last groups that are in one cluster, and writes those that stand before one of a
    // lower cluster.
    #[inline]
    fn join(&mut self, glyphs: &mut [GlyphInfo]) {
        while self.group_count() >= 2 {
            let count = self.group_count();
            let before = self.group(count - 2);
            let last = self.group(count - 1);
            if before.cluster < last.cluster {
                return;
            }
            if before.cluster > last.cluster {
                self.write_before(glyphs);
                return;
            }
            self.join_last();
        }
    }

    // Makes one group of the last two, which are in one cluster.
    #[inline]
    fn join_last(&mut self) {
        let count = self.group_count();
        let last = self.group(count - 1);
        let before = self.group(count - 2);
        self.groups.truncate(count - 1);
        self.groups[count - 2] = ClusterGroup {
            len: before.len + last.len,
            ..before
        };
    }

    // Writes all groups but the last one.
    #[inline]
    fn write_before(&mut self, glyphs: &mut [GlyphInfo]) {
        let before = self.group_count() - 1;
        write_groups(&self.groups.as_slice()[..before], glyphs, self.start);
        let last = self.group(before);
        self.groups[0] = last;
        self.groups.truncate(1);
        self.start = self.end - last.len;
    }
}

// Puts the glyphs of groups, which begin at a place, into their clusters.
#[inline]
fn write_groups(groups: &[ClusterGroup], glyphs: &mut [GlyphInfo], start: usize) {
    let mut place = start;
    for group in groups {
        let end = place + group.len;
        put_into(glyphs, place, end, group.cluster);
        place = end;
    }
}

// Puts glyphs into a cluster.
#[inline]
fn put_into(glyphs: &mut [GlyphInfo], place: usize, end: usize, cluster: u32) {
    change_each_by_in(&mut glyphs[place..end], |glyph| {
        put_into_cluster(glyph, cluster)
    });
}

// Puts other glyphs into a stretch.
#[inline]
fn put_back(kept: &[GlyphInfo], glyphs: &mut [GlyphInfo], place: usize, end: usize) {
    glyphs[place..end].copy_from_slice(kept);
}

// Gives the glyph before a place, if there is one, another cluster.
#[inline]
fn put_before(glyphs: &mut [GlyphInfo], place: usize, cluster: u32) {
    if place > 0 {
        glyphs[place - 1].cluster = cluster;
    }
}

// Lets glyphs stand for groups, one for each.
#[inline]
fn show_groups(groups: &[ClusterGroup], glyphs: &mut [GlyphInfo]) {
    for i in 0..groups.len() {
        glyphs[i].cluster = groups[i].cluster;
    }
}

// Puts groups into the clusters of glyphs, unless these are above their own.
#[inline]
fn read_groups(glyphs: &[GlyphInfo], groups: &mut [ClusterGroup]) {
    for i in 0..glyphs.len() {
        groups[i].cluster = groups[i].cluster.min(glyphs[i].cluster);
    }
}
