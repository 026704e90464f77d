// Generated from crates/shapers_buffer/src/buffer/walking.rt by rust/erase; edit the source.

//! Changes and walks of the glyphs in place, over the slice that the buffer keeps them in.

use crate::support::prelude::*;

use super::Buffer;
use super::glyph::{GlyphInfo, GlyphPosition};
use core::mem;

/// A change of one glyph, which looks at nothing else.
pub trait GlyphChange {
    /// Changes the glyph.
    ///
    /// <details><summary>Contract</summary>
    ///
    /// # Contract
    ///
    /// ```text
    /// ensures { glyph.new ≡ changed self.now glyph.old }
    /// ```
    ///
    /// </details>
    fn change(&self, glyph: &mut GlyphInfo);
}

/// A walk over all glyphs, which may carry a state from one to the next and keep what it found.
pub trait GlyphWalk {
    /// Walks over the glyphs.
    ///
    /// <details><summary>Contract</summary>
    ///
    /// # Contract
    ///
    /// ```text
    /// requires { can_walk self.old glyphs.old }
    /// ensures { walks self.old self.new glyphs.old glyphs.new }
    /// ```
    ///
    /// </details>
    fn walk(&mut self, glyphs: &mut [GlyphInfo]);
}

/// A walk over all glyphs with their positions.
pub trait PositionedWalk {
    /// Walks over the glyphs and their positions.
    ///
    /// <details><summary>Contract</summary>
    ///
    /// # Contract
    ///
    /// ```text
    /// requires { can_walk self.now glyphs.old positions.old }
    /// ensures { walks self.now glyphs.old positions.old glyphs.new positions.new }
    /// ```
    ///
    /// </details>
    fn walk(&self, glyphs: &mut [GlyphInfo], positions: &mut [GlyphPosition]);
}

/// A change of the whole list of glyphs, which doesn't get longer.
pub trait GlyphEditing {
    /// Changes the list.
    ///
    /// <details><summary>Contract</summary>
    ///
    /// # Contract
    ///
    /// ```text
    /// requires { can_edit self.old glyphs.items }
    /// ensures edited { edits self.old self.new glyphs.items result.items }
    /// ensures few { length result.items ≤ length glyphs.items }
    /// ```
    ///
    /// </details>
    fn edit(&mut self, glyphs: Vec<GlyphInfo>) -> Vec<GlyphInfo>;
}

impl Buffer {
    /// Changes each glyph from `start` to `end`. It takes no memory.
    ///
    /// # Panics
    ///
    /// Where `start` is above `end`, or `end` above the length.
    ///
    /// <details><summary>Contract</summary>
    ///
    /// # Contract
    ///
    /// ```text
    /// requires in_order { start ≤ end }
    /// requires in_range { end ≤ length self.old.glyphs }
    /// ensures { let changed = map (C.changed change.now) in
    ///     self.new ≡ record self.old {
    ///       glyphs = with_stretch start end changed self.old.glyphs;
    ///     } }
    /// ```
    ///
    /// - `with_stretch`: `crates/shapers_buffer/specs/Clusters.antt`
    ///
    /// </details>
    #[inline]
    pub(crate) fn change_each<C: GlyphChange>(&mut self, start: usize, end: usize, change: &C) {
        change_each_in(&mut self.info[start..end], change);
    }

    /// Changes each glyph from `start` to `end` by a closure. It takes no memory.
    ///
    /// # Panics
    ///
    /// Where `start` is above `end`, or `end` above the length.
    ///
    /// <details><summary>Contract</summary>
    ///
    /// # Contract
    ///
    /// ```text
    /// requires in_order { start ≤ end }
    /// requires in_range { end ≤ length self.old.glyphs }
    /// requires callable { F.IsAlwaysCallable change }
    /// ensures { (f : Glyph → Glyph) → ChangesAs F.Fn change f → self.new ≡ record self.old {
    ///   glyphs = with_stretch start end (map f) self.old.glyphs;
    /// } }
    /// ```
    ///
    /// - `ChangesAs`: `crates/shapers_buffer/specs/Changes.antt`
    /// - `with_stretch`: `crates/shapers_buffer/specs/Clusters.antt`
    /// - `Glyph`: `crates/shapers_buffer/specs/Glyphs.antt`
    ///
    /// </details>
    #[inline]
    pub fn change_each_by<F: Fn(&mut GlyphInfo)>(&mut self, start: usize, end: usize, change: F) {
        change_each_by_in(&mut self.info[start..end], change);
    }

    /// Changes each glyph by a closure. It takes no memory.
    ///
    /// <details><summary>Contract</summary>
    ///
    /// # Contract
    ///
    /// ```text
    /// requires callable { F.IsAlwaysCallable change }
    /// ensures { (f : Glyph → Glyph) → ChangesAs F.Fn change f
    ///     → self.new ≡ record self.old { glyphs = map f self.old.glyphs } }
    /// ```
    ///
    /// - `ChangesAs`: `crates/shapers_buffer/specs/Changes.antt`
    /// - `Glyph`: `crates/shapers_buffer/specs/Glyphs.antt`
    ///
    /// </details>
    #[inline]
    pub fn change_all_by<F: Fn(&mut GlyphInfo)>(&mut self, change: F) {
        change_each_by_in(&mut self.info, change);
    }

    /// Changes each glyph, while the text is out of the buffer: a change that panics leaves the buffer
    /// empty, and no text of which some glyphs have changed. It takes no memory.
    ///
    /// <details><summary>Contract</summary>
    ///
    /// # Contract
    ///
    /// ```text
    /// ensures { self.new ≡
    ///     record self.old { glyphs = map (C.changed change.now) self.old.glyphs } }
    /// ```
    ///
    /// </details>
    #[inline]
    pub(crate) fn change_outside<C: GlyphChange>(&mut self, change: &C) {
        let alloc = self.alloc();
        let mut glyphs = mem::replace(&mut self.info, Vec::new(alloc));
        let positions = mem::replace(&mut self.pos, Vec::new(alloc));
        change_each_in(&mut glyphs, change);
        self.info = glyphs;
        self.pos = positions;
    }

    /// Walks over all glyphs, while the text is out of the buffer: a walk that panics leaves the buffer
    /// empty, and no text that it went over in part. It takes no memory.
    ///
    /// <details><summary>Contract</summary>
    ///
    /// # Contract
    ///
    /// ```text
    /// requires { W.can_walk walk.old self.old.glyphs }
    /// ensures walked { W.walks walk.old walk.new self.old.glyphs self.new.glyphs }
    /// ensures same_length { length self.new.glyphs ≡ length self.old.glyphs }
    /// ensures others { self.new ≡ record self.old { glyphs = self.new.glyphs } }
    /// ```
    ///
    /// </details>
    #[inline]
    pub(crate) fn walk_outside<W: GlyphWalk>(&mut self, walk: &mut W) {
        let alloc = self.alloc();
        let mut glyphs = mem::replace(&mut self.info, Vec::new(alloc));
        let positions = mem::replace(&mut self.pos, Vec::new(alloc));
        walk.walk(&mut glyphs);
        self.info = glyphs;
        self.pos = positions;
    }

    /// Changes the list of glyphs, while it is out of the buffer: a change that panics leaves the
    /// buffer empty. The buffer has no positions afterwards. It takes no memory.
    ///
    /// <details><summary>Contract</summary>
    ///
    /// # Contract
    ///
    /// ```text
    /// requires { E.can_edit editing.old self.old.glyphs }
    /// ensures edited { E.edits editing.old editing.new self.old.glyphs self.new.glyphs }
    /// ensures others { self.new ≡ record self.old { glyphs = self.new.glyphs; positions = [] } }
    /// ```
    ///
    /// </details>
    #[inline]
    pub fn edit_outside<E: GlyphEditing>(&mut self, editing: &mut E) {
        let (alloc, len) = (self.alloc(), self.info.len());
        let glyphs = mem::replace(&mut self.info, Vec::new(alloc));
        self.pos.clear();
        let mut glyphs = editing.edit(glyphs);
        // (in plain Rust a caller's change may make the list longer than it should)
        glyphs.truncate(len);
        self.info = glyphs;
    }

    /// Walks over all glyphs. It takes no memory.
    ///
    /// # Panics
    ///
    /// Where the walk does.
    ///
    /// <details><summary>Contract</summary>
    ///
    /// # Contract
    ///
    /// ```text
    /// requires { W.can_walk walk.old self.old.glyphs }
    /// ensures walked { W.walks walk.old walk.new self.old.glyphs self.new.glyphs }
    /// ensures same_length { length self.new.glyphs ≡ length self.old.glyphs }
    /// ensures others { self.new ≡ record self.old { glyphs = self.new.glyphs } }
    /// ```
    ///
    /// </details>
    #[inline]
    pub(crate) fn walk<W: GlyphWalk>(&mut self, walk: &mut W) {
        walk.walk(&mut self.info);
    }

    /// Calls `change` with all glyphs, which it may rewrite, and returns what it returned. It takes
    /// no memory.
    ///
    /// # Panics
    ///
    /// Where `change` does.
    ///
    /// <details><summary>Contract</summary>
    ///
    /// # Contract
    ///
    /// ```text
    /// requires { FnOnceTakesAtMut F.FnOnce change self.old.glyphs }
    /// ensures changed { let call = FnOnceReturnsAtMut F.FnOnce change in
    ///     call self.old.glyphs result self.new.glyphs }
    /// ensures same_length { length self.new.glyphs ≡ length self.old.glyphs }
    /// ensures others { self.new ≡ record self.old { glyphs = self.new.glyphs } }
    /// ```
    ///
    /// </details>
    #[inline]
    pub fn with_glyphs_mut<R, F: FnOnce(&mut [GlyphInfo]) -> R>(&mut self, change: F) -> R {
        change(&mut self.info)
    }

    /// Calls `change` with all positions, which it may rewrite, and returns what it returned. It
    /// takes no memory.
    ///
    /// # Panics
    ///
    /// Where `change` does.
    ///
    /// <details><summary>Contract</summary>
    ///
    /// # Contract
    ///
    /// ```text
    /// requires { FnOnceTakesAtMut F.FnOnce change self.old.positions }
    /// ensures changed { let call = FnOnceReturnsAtMut F.FnOnce change in
    ///     call self.old.positions result self.new.positions }
    /// ensures same_length { length self.new.positions ≡ length self.old.positions }
    /// ensures others { self.new ≡ record self.old { positions = self.new.positions } }
    /// ```
    ///
    /// </details>
    #[inline]
    pub fn with_positions_mut<R, F: FnOnce(&mut [GlyphPosition]) -> R>(&mut self, change: F) -> R {
        change(&mut self.pos)
    }

    /// Walks over all glyphs and their positions. It takes no memory.
    ///
    /// # Panics
    ///
    /// Where the walk does.
    ///
    /// <details><summary>Contract</summary>
    ///
    /// # Contract
    ///
    /// ```text
    /// requires { W.can_walk walk.now self.old.glyphs self.old.positions }
    /// ensures walked { W.walks walk.now
    ///     self.old.glyphs self.old.positions self.new.glyphs self.new.positions }
    /// ensures others { self.new ≡ record self.old {
    ///   glyphs = self.new.glyphs;
    ///   positions = self.new.positions;
    /// } }
    /// ```
    ///
    /// </details>
    #[inline]
    pub(crate) fn walk_positioned<W: PositionedWalk>(&mut self, walk: &W) {
        walk.walk(&mut self.info, &mut self.pos);
    }

    /// Walks over all glyphs and their positions, while the text is out of the buffer: a walk that
    /// panics leaves the buffer empty, and no text that it went over in part. It takes no memory.
    ///
    /// <details><summary>Contract</summary>
    ///
    /// # Contract
    ///
    /// ```text
    /// requires { W.can_walk walk.now self.old.glyphs self.old.positions }
    /// ensures walked { W.walks walk.now
    ///     self.old.glyphs self.old.positions self.new.glyphs self.new.positions }
    /// ensures others { self.new ≡ record self.old {
    ///   glyphs = self.new.glyphs;
    ///   positions = self.new.positions;
    /// } }
    /// ```
    ///
    /// </details>
    #[inline]
    pub(crate) fn walk_positioned_outside<W: PositionedWalk>(&mut self, walk: &W) {
        let alloc = self.alloc();
        let mut glyphs = mem::replace(&mut self.info, Vec::new(alloc));
        let mut positions = mem::replace(&mut self.pos, Vec::new(alloc));
        walk.walk(&mut glyphs, &mut positions);
        self.info = glyphs;
        self.pos = positions;
    }
}

/// Changes each of these glyphs.
///
/// <details><summary>Contract</summary>
///
/// # Contract
///
/// ```text
/// ensures { glyphs.new ≡ map (C.changed change.now) glyphs.old }
/// ```
///
/// </details>
#[inline]
pub fn change_each_in<C: GlyphChange>(glyphs: &mut [GlyphInfo], change: &C) {
    for glyph in glyphs.iter_mut() {
        change.change(glyph);
    }
}

/// Changes each of these glyphs by a closure.
///
/// <details><summary>Contract</summary>
///
/// # Contract
///
/// ```text
/// requires { F.IsAlwaysCallable change }
/// ensures { (f : Glyph → Glyph) → ChangesAs F.Fn change f → glyphs.new ≡ map f glyphs.old }
/// ```
///
/// - `ChangesAs`: `crates/shapers_buffer/specs/Changes.antt`
/// - `Glyph`: `crates/shapers_buffer/specs/Glyphs.antt`
///
/// </details>
#[inline]
pub fn change_each_by_in<F: Fn(&mut GlyphInfo)>(glyphs: &mut [GlyphInfo], change: F) {
    for glyph in glyphs.iter_mut() {
        change(glyph);
    }
}
