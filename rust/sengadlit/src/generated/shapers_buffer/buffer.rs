// Generated from crates/shapers_buffer/src/buffer.rt by rust/erase; edit the source.

//! The buffer of glyphs: what the shapers read and rewrite.

use crate::support::prelude::*;

use crate::support::alloc::Global;
use crate::support::arrayvec::ArrayVec;
use keeping::KeptRoom;
use placement::make_room;
use rooms::Rooms;

mod bits;
mod category;
mod cluster_ranges;
mod exchanging;
mod fields;
mod flags;
mod glyph;
mod glyph_flags;
mod glyph_props;
mod group_room;
mod keeping;
mod level;
mod lig_props;
mod lookup_record;
mod merging;
pub mod modified_combining_class;
mod placement;
mod placements;
mod refusal;
mod replacing;
mod reversing;
mod rooms;
mod settings;
mod syllables;
mod tag;
mod unicode_props;
mod walking;

pub use category::GeneralCategory;
pub use cluster_ranges::{ClusterRange, merge_range_in, write_range_in};
pub use flags::BufferFlags;
pub use glyph::{GlyphInfo, GlyphPosition};
pub use glyph_flags::{
    glyph_flag, safe_to_insert_tatweel_in, unsafe_to_break_in, unsafe_to_concat_in,
};
pub use glyph_props::GlyphProps;
pub use group_room::{ClusterGroup, GroupRoom};
pub use level::{BufferClusterLevel, Direction};
pub use lig_props::LigProps;
pub use lookup_record::LookupRecord;
pub use merging::{
    IntoCluster, least_cluster, merge_clusters_across, merge_clusters_in, put_into_cluster,
};
pub use placement::Placement;
pub use placements::{Arranged, Placements, SyllableReading};
pub use refusal::ShaperError;
pub use replacing::GlyphRewriting;
pub use settings::{BufferSettings, context_characters};
pub use syllables::{Span, first_syllable_len, has_span_of_kind, set_syllable, spans_cover};
pub use tag::{Script, Tag};
pub use unicode_props::UnicodeProps;
pub use walking::{
    GlyphChange, GlyphEditing, GlyphWalk, PositionedWalk, change_each_by_in, change_each_in,
};

/// How many characters of context a buffer keeps on each side.
pub const CONTEXT_LENGTH: usize = 5;

/// A list of glyphs, with positions or without, its settings, the text on both sides and what one
/// hook or lookup leaves for a later one. Its length never passes [`max_len`].
///
/// [`max_len`]: crate::Buffer::max_len
#[derive(Debug)]
pub struct Buffer {
    info: Vec<GlyphInfo>,
    pos: Vec<GlyphPosition>,
    direction: Direction,
    script: Option<Script>,
    cluster_level: BufferClusterLevel,
    flags: BufferFlags,
    pre_context: ArrayVec<char, CONTEXT_LENGTH>,
    post_context: ArrayVec<char, CONTEXT_LENGTH>,
    has_broken_syllable: bool,
    has_stch: bool,
    lookup_record: LookupRecord,
    max_len: usize,
    // room for one place and one glyph per glyph, so that a reordering takes no memory; it is
    // written as far as reorderings came
    places: Vec<usize>,
    spare: Vec<GlyphInfo>,
    // room for one group of glyphs and one glyph more per glyph, lent to walks
    group_room: GroupRoom,
    // room that calls make when they first need it, so that the next text takes no memory
    rooms: Rooms,
}

impl Buffer {
    /// An empty buffer, whose text goes from left to right. It takes no memory.
    ///
    /// <details><summary>Contract</summary>
    ///
    /// # Contract
    ///
    /// ```text
    /// ensures { result ≡ new_buffer max_len }
    /// ```
    ///
    /// - `new_buffer`: `crates/shapers_buffer/specs/Buffer.antt`
    ///
    /// </details>
    #[inline]
    pub fn new(alloc: Global, max_len: usize) -> Self {
        Buffer {
            info: Vec::new(alloc),
            pos: Vec::new(alloc),
            direction: Direction::LeftToRight,
            script: None,
            cluster_level: BufferClusterLevel::MonotoneGraphemes,
            flags: BufferFlags(0),
            pre_context: ArrayVec::new(),
            post_context: ArrayVec::new(),
            has_broken_syllable: false,
            has_stch: false,
            lookup_record: LookupRecord::for_text(0),
            max_len,
            places: Vec::new(alloc),
            spare: Vec::new(alloc),
            group_room: GroupRoom::new(alloc),
            rooms: Rooms::new(alloc),
        }
    }

    /// The allocator that the buffer was made with.
    #[inline]
    pub fn alloc(&self) -> Global {
        *self.info.allocator()
    }

    /// The number of glyphs.
    ///
    /// <details><summary>Contract</summary>
    ///
    /// # Contract
    ///
    /// ```text
    /// ensures length { result ≡ length self.now.glyphs }
    /// ensures fits { length self.now.glyphs ≤ self.now.max_len }
    /// ```
    ///
    /// </details>
    #[inline]
    pub fn len(&self) -> usize {
        self.info.len()
    }

    /// Whether there is no glyph.
    ///
    /// <details><summary>Contract</summary>
    ///
    /// # Contract
    ///
    /// ```text
    /// ensures { result ≡ (length self.now.glyphs == 0) }
    /// ```
    ///
    /// </details>
    #[inline]
    pub fn is_empty(&self) -> bool {
        self.info.is_empty()
    }

    /// The glyphs, from the first to the last.
    ///
    /// <details><summary>Contract</summary>
    ///
    /// # Contract
    ///
    /// ```text
    /// ensures { result.now ≡ self.now.glyphs }
    /// ```
    ///
    /// </details>
    #[inline]
    pub fn glyphs(&self) -> &[GlyphInfo] {
        self.info.as_slice()
    }

    /// The glyph at `index`.
    ///
    /// # Panics
    ///
    /// Where `index` is no place of the buffer.
    ///
    /// <details><summary>Contract</summary>
    ///
    /// # Contract
    ///
    /// ```text
    /// requires { index < length self.now.glyphs }
    /// ensures { result ≡ slice_index_or self.now.glyphs index result }
    /// ```
    ///
    /// </details>
    #[inline]
    pub fn get(&self, index: usize) -> GlyphInfo {
        self.info[index]
    }

    /// Puts a glyph at `index`.
    ///
    /// # Panics
    ///
    /// Where `index` is no place of the buffer.
    ///
    /// <details><summary>Contract</summary>
    ///
    /// # Contract
    ///
    /// ```text
    /// requires { index < length self.old.glyphs }
    /// ensures { self.new ≡ record self.old { glyphs = slice_set self.old.glyphs index glyph } }
    /// ```
    ///
    /// </details>
    #[inline]
    pub fn set(&mut self, index: usize, glyph: GlyphInfo) {
        self.info[index] = glyph;
    }

    /// Adds a glyph at the end. The buffer has no positions afterwards.
    ///
    /// # Errors
    ///
    /// [`TooLong`] where the buffer would be longer than [`max_len`], [`Memory`] where memory is
    /// refused; nothing has changed then.
    ///
    /// <details><summary>Contract</summary>
    ///
    /// # Contract
    ///
    /// ```text
    /// ensures ok { OnOk result (self.new ≡
    ///     record self.old { glyphs = self.old.glyphs ++ glyph ∷ []; positions = [] }) }
    /// ensures length { RefusesLength self.old.max_len (length self.old.glyphs + 1) result }
    /// ensures err { OnErr result (self.new ≡ self.old) }
    /// ```
    ///
    /// - `RefusesLength`: `crates/shapers_buffer/specs/Refusals.antt`
    ///
    /// </details>
    ///
    /// [`Memory`]: crate::ShaperError::Memory
    /// [`TooLong`]: crate::ShaperError::TooLong
    /// [`max_len`]: crate::Buffer::max_len
    #[inline]
    pub fn push(&mut self, glyph: GlyphInfo) -> Result<(), ShaperError> {
        if self.info.len() == self.max_len {
            return Err(ShaperError::TooLong);
        }
        make_room(
            &mut self.places,
            &mut self.spare,
            &mut self.group_room,
            self.info.len() + 1,
        )?;
        self.info.push(glyph).map_err(|_| ShaperError::Memory)?;
        self.pos.clear();
        Ok(())
    }

    /// Adds `count` default glyphs at the end and, unless there are no positions, `count` zero
    /// positions.
    ///
    /// # Errors
    ///
    /// [`TooLong`] where the buffer would be longer than [`max_len`], [`Memory`] where memory is
    /// refused; nothing has changed then.
    ///
    /// <details><summary>Contract</summary>
    ///
    /// # Contract
    ///
    /// ```text
    /// ensures ok { OnOk result (self.new ≡ grown count self.old) }
    /// ensures length { RefusesLength self.old.max_len (length self.old.glyphs + count) result }
    /// ensures err { OnErr result (self.new ≡ self.old) }
    /// ```
    ///
    /// - `grown`: `crates/shapers_buffer/specs/Buffer.antt`
    /// - `RefusesLength`: `crates/shapers_buffer/specs/Refusals.antt`
    ///
    /// </details>
    ///
    /// [`Memory`]: crate::ShaperError::Memory
    /// [`TooLong`]: crate::ShaperError::TooLong
    /// [`max_len`]: crate::Buffer::max_len
    #[inline]
    pub fn grow(&mut self, count: usize) -> Result<(), ShaperError> {
        if self.max_len - self.info.len() < count {
            return Err(ShaperError::TooLong);
        }
        let len = self.info.len() + count;
        make_room(&mut self.places, &mut self.spare, &mut self.group_room, len)?;
        self.info.reserve(count)?;
        add_zero_positions(&mut self.pos, count)?;
        self.info.resize(len, GlyphInfo::DEFAULT)?;
        Ok(())
    }

    /// Keeps the first `len` glyphs, with their positions.
    ///
    /// <details><summary>Contract</summary>
    ///
    /// # Contract
    ///
    /// ```text
    /// requires { len ≤ length self.old.glyphs }
    /// ensures { self.new ≡ record self.old {
    ///   glyphs = take len self.old.glyphs;
    ///   positions = take len self.old.positions;
    /// } }
    /// ```
    ///
    /// </details>
    #[inline]
    pub fn truncate(&mut self, len: usize) {
        self.info.truncate(len);
        self.pos.truncate(len);
    }

    /// An equal buffer.
    ///
    /// # Errors
    ///
    /// [`Memory`].
    ///
    /// <details><summary>Contract</summary>
    ///
    /// # Contract
    ///
    /// ```text
    /// ensures ok { IfOk result (λ copy. copy ≡ self.now) }
    /// ensures err { IfErr result (λ e. e ≡ Memory) }
    /// ```
    ///
    /// </details>
    ///
    /// [`Memory`]: crate::ShaperError::Memory
    #[inline]
    pub fn copy(&self) -> Result<Self, ShaperError> {
        let alloc = self.alloc();
        let groups = GroupRoom::with_capacity(alloc, self.info.len())?;
        self.copy_into(KeptRoom::new(alloc), groups)
    }

    // An equal buffer, with its lists in this room and with this room for groups.
    #[inline]
    fn copy_into(&self, room: KeptRoom, group_room: GroupRoom) -> Result<Self, ShaperError> {
        let alloc = self.alloc();
        let mut lists = room;
        lists.fill(&self.info, &self.pos, &self.places)?;
        Ok(Buffer {
            info: lists.info,
            pos: lists.pos,
            direction: self.direction,
            script: self.script,
            cluster_level: self.cluster_level,
            flags: self.flags,
            pre_context: context(self.pre_context.as_slice()),
            post_context: context(self.post_context.as_slice()),
            has_broken_syllable: self.has_broken_syllable,
            has_stch: self.has_stch,
            lookup_record: self.lookup_record,
            max_len: self.max_len,
            places: lists.places,
            spare: lists.spare,
            group_room,
            rooms: Rooms::new(alloc),
        })
    }
}

// Adds `count` zero positions, unless there are no positions.
#[inline]
fn add_zero_positions(positions: &mut Vec<GlyphPosition>, count: usize) -> Result<(), ShaperError> {
    if !positions.is_empty() {
        positions.resize(positions.len() + count, GlyphPosition::ZERO)?;
    }
    Ok(())
}

// The five nearest of these characters, which are nearest first.
#[inline]
fn context(chars: &[char]) -> ArrayVec<char, CONTEXT_LENGTH> {
    // (most texts have none)
    if chars.is_empty() {
        return ArrayVec::new();
    }
    let nearest = &chars[..chars.len().min(CONTEXT_LENGTH)];
    let mut context = ArrayVec::new();
    context.try_extend_from_slice(nearest).unwrap();
    context
}
