// Generated from crates/opentype_layout/src/glyph_text.rt by rust/erase; edit the source.

//! A text that lookups edit, as one list with a gap.

use crate::support::prelude::*;

use crate::generated::shapers_buffer::buffer::{
    BufferClusterLevel, BufferFlags, GlyphInfo, ShaperError, merge_clusters_across,
    unsafe_to_break_in, unsafe_to_concat_in,
};

/// A text in two parts, one behind the other.
#[derive(Debug)]
pub struct GlyphView<'a> {
    before: &'a [GlyphInfo],
    behind: &'a [GlyphInfo],
}

impl<'a> GlyphView<'a> {
    /// A text in one part.
    ///
    /// <details><summary>Contract</summary>
    ///
    /// # Contract
    ///
    /// ```text
    /// ensures { result ≡ glyphs.now }
    /// ```
    ///
    /// </details>
    #[inline]
    pub fn of(glyphs: &'a [GlyphInfo]) -> Self {
        GlyphView {
            before: glyphs,
            behind: &[],
        }
    }

    /// How many glyphs it has.
    ///
    /// <details><summary>Contract</summary>
    ///
    /// # Contract
    ///
    /// ```text
    /// ensures { result ≡ length self.now }
    /// ```
    ///
    /// </details>
    #[inline]
    pub fn len(&self) -> usize {
        self.before.len() + self.behind.len()
    }

    /// The glyph at a place.
    ///
    /// # Panics
    ///
    /// Where there is none.
    ///
    /// <details><summary>Contract</summary>
    ///
    /// # Contract
    ///
    /// ```text
    /// requires { i < length self.now }
    /// ensures glyph { result.now ≡ glyph_at self.now i }
    /// ensures next { i + 1 < 2 ^ 64 }
    /// ```
    ///
    /// - `glyph_at`: `crates/opentype_layout/specs/Text.antt`
    ///
    /// </details>
    #[inline]
    pub fn at(&self, i: usize) -> &'a GlyphInfo {
        if i < self.before.len() {
            &self.before[i]
        } else {
            &self.behind[i - self.before.len()]
        }
    }

    /// The glyph at a place, if there is one. (A walk to the end asks this, which costs it less than
    /// the length.)
    ///
    /// <details><summary>Contract</summary>
    ///
    /// # Contract
    ///
    /// ```text
    /// ensures glyph { IfSome result (λ it. it.now ≡ glyph_at self.now i) }
    /// ensures within { IfSome result (λ it. i < length self.now) }
    /// ensures next { IfSome result (λ it. i + 1 < 2 ^ 64) }
    /// ensures end { IfNone result (length self.now ≤ i) }
    /// ```
    ///
    /// - `glyph_at`: `crates/opentype_layout/specs/Text.antt`
    ///
    /// </details>
    #[inline]
    pub fn get(&self, i: usize) -> Option<&'a GlyphInfo> {
        if i < self.before.len() {
            return Some(&self.before[i]);
        }
        let place = i - self.before.len();
        if place < self.behind.len() {
            Some(&self.behind[place])
        } else {
            None
        }
    }

    /// The place after one of its places. (It is counted from the end, so that the length tells that
    /// there is such a number; what is compiled adds 1.)
    ///
    /// <details><summary>Contract</summary>
    ///
    /// # Contract
    ///
    /// ```text
    /// requires { i < length self.now }
    /// ensures { result ≡ i + 1 }
    /// ```
    ///
    /// </details>
    #[inline]
    pub fn after(&self, i: usize) -> usize {
        let left = self.len() - i;
        self.len() - left + 1
    }

    /// The first part, and the one behind it.
    ///
    /// <details><summary>Contract</summary>
    ///
    /// # Contract
    ///
    /// ```text
    /// ensures { result.0.now ++ result.1.now ≡ self.now }
    /// ```
    ///
    /// </details>
    #[inline]
    pub fn parts(&self) -> (&'a [GlyphInfo], &'a [GlyphInfo]) {
        (self.before, self.behind)
    }
}

// Moves the gap of a list to before the glyph at a place, or to the end. Returns where it ends then.
fn move_gap(glyphs: &mut [GlyphInfo], before: usize, behind: usize, at: usize) -> usize {
    let gap = behind - before;
    let end = at + gap;
    if gap == 0 {
        return end;
    }
    if at < before {
        glyphs.copy_within(at..before, end);
    } else {
        glyphs.copy_within(behind..end, before);
    }
    end
}

// Where a list with a gap has the glyph at a place.
#[inline]
fn index(before: usize, behind: usize, at: usize) -> usize {
    if at < before {
        at
    } else {
        at + (behind - before)
    }
}

// The glyph at a place of a list with a gap.
#[inline]
fn glyph_in(glyphs: &[GlyphInfo], before: usize, behind: usize, at: usize) -> &GlyphInfo {
    &glyphs[index(before, behind, at)]
}

// Puts a glyph in the place of another in a list with a gap.
#[inline]
fn set_in(glyphs: &mut [GlyphInfo], before: usize, behind: usize, at: usize, glyph: GlyphInfo) {
    glyphs[index(before, behind, at)] = glyph;
}

// Merges the clusters of the first glyphs behind the gap.
fn merge_behind(
    level: BufferClusterLevel,
    glyphs: &mut [GlyphInfo],
    before: usize,
    behind: usize,
    count: usize,
) {
    let (front, rest) = glyphs.split_at_mut(behind);
    merge_clusters_across(level, &mut front[..before], rest, count);
}

// No break inside so many glyphs from a place on, to which the gap moves. Returns where it ends then.
#[inline]
fn flag_breaks(
    glyphs: &mut [GlyphInfo],
    before: usize,
    behind: usize,
    start: usize,
    count: usize,
) -> usize {
    let end = move_gap(glyphs, before, behind, start);
    unsafe_to_break_in(glyphs, end, end + count);
    end
}

// No concatenation in so many glyphs from a place on, where the flags want that. The gap moves to that
// place; returned is where it ends then.
#[inline]
fn flag_joins(
    flags: BufferFlags,
    glyphs: &mut [GlyphInfo],
    before: usize,
    behind: usize,
    start: usize,
    count: usize,
) -> usize {
    let end = move_gap(glyphs, before, behind, start);
    unsafe_to_concat_in(flags, glyphs, end, end + count);
    end
}

// Where a gap begins and ends.
#[derive(Clone, Copy)]
struct GapAt {
    before: usize,
    behind: usize,
}

// A gap, and if there is none a new one at the end, as large as the text, so that inserting one glyph
// after another is linear.
fn widen(glyphs: &mut Vec<GlyphInfo>, before: usize, behind: usize) -> Result<GapAt, ShaperError> {
    if before < behind {
        return Ok(GapAt { before, behind });
    }
    let len = glyphs.len();
    let more = len.max(1);
    if more > usize::MAX - len {
        return Err(ShaperError::Memory);
    }
    glyphs
        .resize(len + more, GlyphInfo::DEFAULT)
        .map_err(|_| ShaperError::Memory)?;
    Ok(GapAt {
        before: len,
        behind: len + more,
    })
}

/// A text that lookups edit. Its list has a gap where the last edit was, so that edits one after
/// another don't move the rest of the text each time.
#[derive(Debug)]
pub struct GlyphText {
    glyphs: Vec<GlyphInfo>,
    // where the gap begins, and where it ends
    before: usize,
    behind: usize,
}

impl GlyphText {
    /// A text of these glyphs. It takes no memory.
    ///
    /// <details><summary>Contract</summary>
    ///
    /// # Contract
    ///
    /// ```text
    /// ensures { result ≡ glyphs.items }
    /// ```
    ///
    /// </details>
    #[inline]
    pub fn new(glyphs: Vec<GlyphInfo>) -> Self {
        let len = glyphs.len();
        GlyphText {
            glyphs,
            before: len,
            behind: len,
        }
    }

    /// Its glyphs, without the gap. It takes no memory.
    ///
    /// <details><summary>Contract</summary>
    ///
    /// # Contract
    ///
    /// ```text
    /// ensures { result.items ≡ self }
    /// ```
    ///
    /// </details>
    #[inline]
    pub fn into_list(self) -> Vec<GlyphInfo> {
        let len = self.len();
        let GlyphText {
            glyphs,
            before,
            behind,
        } = self;
        // (most lookups leave no gap)
        if before == glyphs.len() {
            return glyphs;
        }
        let mut glyphs = glyphs;
        move_gap(&mut glyphs, before, behind, len);
        glyphs.truncate(len);
        glyphs
    }

    /// How many glyphs it has.
    ///
    /// <details><summary>Contract</summary>
    ///
    /// # Contract
    ///
    /// ```text
    /// ensures { result ≡ length self.now }
    /// ```
    ///
    /// </details>
    #[inline]
    pub fn len(&self) -> usize {
        self.before + (self.glyphs.len() - self.behind)
    }

    /// The text as it is, to be read.
    ///
    /// <details><summary>Contract</summary>
    ///
    /// # Contract
    ///
    /// ```text
    /// ensures { result ≡ self.now }
    /// ```
    ///
    /// </details>
    #[inline]
    pub fn view(&self) -> GlyphView<'_> {
        GlyphView {
            before: &self.glyphs[..self.before],
            behind: &self.glyphs[self.behind..],
        }
    }

    /// The glyph at a place.
    ///
    /// # Panics
    ///
    /// Where there is none.
    ///
    /// <details><summary>Contract</summary>
    ///
    /// # Contract
    ///
    /// ```text
    /// requires { i < length self.now }
    /// ensures glyph { result.now ≡ glyph_at self.now i }
    /// ensures next { i + 1 < 2 ^ 64 }
    /// ```
    ///
    /// - `glyph_at`: `crates/opentype_layout/specs/Text.antt`
    ///
    /// </details>
    #[inline]
    pub fn at(&self, i: usize) -> &GlyphInfo {
        glyph_in(&self.glyphs, self.before, self.behind, i)
    }

    /// Puts a glyph in the place of another.
    ///
    /// # Panics
    ///
    /// Where there is none.
    ///
    /// <details><summary>Contract</summary>
    ///
    /// # Contract
    ///
    /// ```text
    /// requires { i < length self.old }
    /// ensures text { self.new ≡ slice_set self.old i glyph }
    /// ensures next { i + 1 < 2 ^ 64 }
    /// ```
    ///
    /// </details>
    #[inline]
    pub fn set(&mut self, i: usize, glyph: GlyphInfo) {
        set_in(&mut self.glyphs, self.before, self.behind, i, glyph);
    }

    /// Takes a glyph out.
    ///
    /// # Panics
    ///
    /// Where there is none.
    ///
    /// <details><summary>Contract</summary>
    ///
    /// # Contract
    ///
    /// ```text
    /// requires { i < length self.old }
    /// ensures { self.new ≡ remove self.old i }
    /// ```
    ///
    /// </details>
    #[inline]
    pub fn remove(&mut self, i: usize) {
        self.behind = move_gap(&mut self.glyphs, self.before, self.behind, i) + 1;
        self.before = i;
    }

    /// Puts a glyph in before the one at a place, or at the end.
    ///
    /// # Errors
    ///
    /// [`Memory`]; nothing has changed then.
    ///
    /// # Panics
    ///
    /// Where the place is behind the end.
    ///
    /// <details><summary>Contract</summary>
    ///
    /// # Contract
    ///
    /// ```text
    /// requires { i ≤ length self.old }
    /// ensures ok { OnOk result (self.new ≡ take i self.old ++ (glyph ∷ drop i self.old)) }
    /// ensures err { OnErr result (self.new ≡ self.old) }
    /// ```
    ///
    /// </details>
    ///
    /// [`Memory`]: crate::ShaperError::Memory
    pub fn insert(&mut self, i: usize, glyph: GlyphInfo) -> Result<(), ShaperError> {
        let GapAt { before, behind } = widen(&mut self.glyphs, self.before, self.behind)?;
        self.behind = move_gap(&mut self.glyphs, before, behind, i);
        self.glyphs[i] = glyph;
        self.before = i + 1;
        Ok(())
    }

    /// The merge rule over the stretch from `start` to `end`.
    ///
    /// # Panics
    ///
    /// Where `start` is above `end`, or `end` above the length.
    ///
    /// <details><summary>Contract</summary>
    ///
    /// # Contract
    ///
    /// ```text
    /// requires in_order { start ≤ end }
    /// requires in_range { end ≤ length self.old }
    /// ensures { self.new ≡ merge level start end self.old }
    /// ```
    ///
    /// - `merge`: `crates/shapers_buffer/specs/Clusters.antt`
    ///
    /// </details>
    #[inline]
    pub fn merge_clusters(&mut self, level: BufferClusterLevel, start: usize, end: usize) {
        let behind = move_gap(&mut self.glyphs, self.before, self.behind, start);
        merge_behind(level, &mut self.glyphs, start, behind, end - start);
        self.before = start;
        self.behind = behind;
    }

    /// No break inside the stretch from `start` to `end`.
    ///
    /// # Panics
    ///
    /// Where `start` is above `end`, or `end` above the length.
    ///
    /// <details><summary>Contract</summary>
    ///
    /// # Contract
    ///
    /// ```text
    /// requires in_order { start ≤ end }
    /// requires in_range { end ≤ length self.old }
    /// ensures { self.new ≡ unsafe_inside start end self.old }
    /// ```
    ///
    /// - `unsafe_inside`: `crates/shapers_buffer/specs/GlyphFlags.antt`
    ///
    /// </details>
    #[inline]
    pub fn unsafe_to_break(&mut self, start: usize, end: usize) {
        let count = end - start;
        self.behind = flag_breaks(&mut self.glyphs, self.before, self.behind, start, count);
        self.before = start;
    }

    /// No concatenation in the stretch from `start` to `end`, where the flags want that.
    ///
    /// # Panics
    ///
    /// Where `start` is above `end`, or `end` above the length.
    ///
    /// <details><summary>Contract</summary>
    ///
    /// # Contract
    ///
    /// ```text
    /// requires in_order { start ≤ end }
    /// requires in_range { end ≤ length self.old }
    /// ensures { self.new ≡ unsafe_to_concat_in (has_flag flags_concat flags) start end self.old }
    /// ```
    ///
    /// - `flags_concat`, `has_flag`: `crates/shapers_buffer/specs/Buffer.antt`
    /// - `unsafe_to_concat_in`: `crates/shapers_buffer/specs/GlyphFlags.antt`
    ///
    /// </details>
    #[inline]
    pub fn unsafe_to_concat(&mut self, flags: BufferFlags, start: usize, end: usize) {
        let (before, behind) = (self.before, self.behind);
        self.behind = flag_joins(flags, &mut self.glyphs, before, behind, start, end - start);
        self.before = start;
    }
}
