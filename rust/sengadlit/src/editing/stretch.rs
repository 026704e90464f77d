//! Which stretch of an edited text is shaped again, and how its glyphs come into the old ones.

use crate::buffer::{
    Buffer, Direction, GeneralCategory, GlyphInfo, GlyphPosition, ShaperError, glyph_flag,
};
use crate::font::Tables;
use crate::unicode::UnicodeTables;
use core::ops::Range;

/// An edit of a text: what stood from `start` to `old_end` gave way to what stands from `start` to
/// `new_end`. The offsets are bytes of UTF-8, and lie between characters.
#[derive(Clone, Copy, Debug, PartialEq, Eq, Hash)]
pub struct TextEdit {
    /// Where the edit begins, in both texts.
    pub start: usize,
    /// Where what was replaced ended in the old text; `start`, if nothing was.
    pub old_end: usize,
    /// Where what was put in its place ends in the new text; `start`, if that is nothing.
    pub new_end: usize,
}

impl TextEdit {
    // Where something that stands behind the edit in the old text stands in the new one.
    fn shifted(&self, offset: usize) -> usize {
        offset.wrapping_sub(self.old_end).wrapping_add(self.new_end)
    }
}

/// The glyphs of a shaped text or of a piece of one, in the order in which they are drawn, with a
/// position each.
#[derive(Clone, Copy, Debug)]
pub struct ShapedRun<'a> {
    /// The glyphs. Their clusters are offsets in the text, or for a piece from the piece's start.
    pub glyphs: &'a [GlyphInfo],
    /// Their positions, as many as there are glyphs.
    pub positions: &'a [GlyphPosition],
    /// The direction of the text. `Invalid` counts as left to right.
    pub direction: Direction,
}

/// What of a text is shaped again after an edit.
#[derive(Clone, Debug, PartialEq, Eq, Hash)]
pub struct Stretch {
    /// The offsets of the new text between which it is shaped again.
    pub text: Range<usize>,
    /// The glyphs of the old text, as they are drawn, which those of this stretch replace.
    pub glyphs: Range<usize>,
}

/// A text in some encoding, by whose units its clusters are counted.
pub trait EditedText {
    /// How many units it has.
    fn len(&self) -> usize;

    /// Whether it has none.
    fn is_empty(&self) -> bool {
        self.len() == 0
    }

    /// The character that begins at an offset; `None` where none begins.
    fn character(&self, offset: usize) -> Option<char>;
}

impl EditedText for str {
    fn len(&self) -> usize {
        str::len(self)
    }

    fn character(&self, offset: usize) -> Option<char> {
        self.get(offset..)?.chars().next()
    }
}

/// How many clusters on each side of an edit are shaped again at first. Those nearest to it may change, and
/// the last tells by not changing that no more does. Of 41 fonts that were tested one, Padauk, has a rule
/// that reaches over more without a flag.
const NEAREST: usize = 4;

/// Which stretch of a text is shaped again after an edit, by the text as it is now, and the glyphs that
/// it had before the edit: the edit, four clusters on each side, and what comes before the next cluster
/// without a flag. That is [`UNSAFE_TO_BREAK`], and [`UNSAFE_TO_CONCAT`] too if the glyphs were shaped with
/// [`PRODUCE_UNSAFE_TO_CONCAT`]. Spaces, joiners and marks don't count as clusters here, and no stretch
/// begins or ends before a mark or a joiner.
///
/// Shape the stretch with the text on both sides as its context, by the plan of the old glyphs. Then
/// [`Stretch::widened`] tells by its glyphs whether they may be put in with [`Buffer::splice`].
///
/// The old text isn't read, and of the old glyphs only those around the edit are: beside the stretch, the
/// time grows with the logarithm of their number. (`splice` writes each glyph behind the edit. [`affected`]
/// would read both texts, and isn't called: the flags tell where syllables end.)
///
/// # What is tested, and what doesn't hold
///
/// `checks/edits` of the repository compares with whole texts, shaped anew, in 41 fonts of 33 scripts. Glyphs,
/// clusters, positions and flags were the same, but for these:
///
/// - With [`Rounds::AsCode`] a letter that comes apart, as U+1026 in Noto Sans Myanmar, is drawn by whether
///   there is a mark anywhere in the text. Plans for this take [`Rounds::Always`].
/// - Ligatures are numbered along a text, and a mark is placed by these numbers, of which some are equal by
///   chance: in Noto Sans Khmer, the last subscript of `179B 1791 1780 17D2 178F 17B6 17D2 1780` is
///   elsewhere behind `17A2 17B6`.
/// - A rule over more than four letters that comes to match, where the old glyphs have no flag of its
///   having been tried, as Padauk's ligature of U+103C and U+102F, which passes over the letters between
///   them. Flags for `unsafe to concat` tell of most; with them much more is shaped again (in most fonts
///   for Arabic the whole line).
/// - Flags alone, in random strings of Meetei Mayek.
///
/// [`affected`]: super::affected
/// [`Rounds::AsCode`]: crate::ot_shape_normalize::Rounds::AsCode
/// [`Rounds::Always`]: crate::ot_shape_normalize::Rounds::Always
///
/// # Panics
///
/// If the offsets are out of order or behind the text, or there aren't as many positions as glyphs.
/// Where the glyphs aren't those of the text before the edit, or their clusters neither rise nor fall along
/// it (as at [`BufferClusterLevel::Characters`]), what is returned is unspecified.
///
/// [`BufferClusterLevel::Characters`]: crate::BufferClusterLevel::Characters
/// [`PRODUCE_UNSAFE_TO_CONCAT`]: crate::BufferFlags::PRODUCE_UNSAFE_TO_CONCAT
/// [`UNSAFE_TO_BREAK`]: glyph_flag::UNSAFE_TO_BREAK
/// [`UNSAFE_TO_CONCAT`]: glyph_flag::UNSAFE_TO_CONCAT
pub fn reshape<T: EditedText + ?Sized>(text: &T, edit: TextEdit, old: ShapedRun<'_>) -> Stretch {
    let edited = Edited::new(text, edit, old);
    let (first, end) = edited.around();
    edited.stretch(
        edited.clear_before(first, NEAREST),
        edited.clear_behind(end, NEAREST),
    )
}

impl Stretch {
    /// Whether the glyphs of this stretch may take the place of the old ones: `None` where its first
    /// cluster and its last came out as they were, with their positions and flags, but for an end that is
    /// the text's. Otherwise the edit reaches further than the old glyphs told, and a longer stretch is
    /// shaped in the place of this one: by twice as many clusters on the side that changed.
    ///
    /// The arguments are those of [`reshape`], and the glyphs of this stretch, whose clusters count from
    /// its start.
    ///
    /// # Panics
    ///
    /// As [`reshape`], and if this isn't a stretch for this edit of these glyphs.
    #[must_use]
    pub fn widened<T: EditedText + ?Sized>(
        &self,
        text: &T,
        edit: TextEdit,
        old: ShapedRun<'_>,
        piece: ShapedRun<'_>,
    ) -> Option<Stretch> {
        let edited = Edited::new(text, edit, old);
        let kept = edited.old.logical_range(&self.glyphs);
        let (first, end) = edited.around();
        let (mut front, mut back) = (kept.start, kept.end);
        let piece = Logical::new(piece);
        if front > 0 && !edited.begins_as_before(front, piece) {
            let clusters = edited.old.clusters(front..first);
            front = edited.clear_before(front, clusters.max(1));
        }
        if back < edited.old.len() && !edited.ends_as_before(back, piece, self.text.start) {
            let clusters = edited.old.clusters(end..back);
            back = edited.clear_behind(back, clusters.max(1));
        }
        let widened = edited.stretch(front, back);
        (widened.glyphs != self.glyphs).then_some(widened)
    }
}

impl Buffer {
    /// Puts the glyphs of a stretch, with their positions, in the place of the old ones. Those behind the
    /// edit stay, in their clusters' new places, for which each of them is written.
    ///
    /// The buffer is that of the old glyphs, and has their direction; the clusters of the piece count from
    /// the start of the stretch.
    ///
    /// # Errors
    ///
    /// [`ShaperError::Memory`] and [`ShaperError::TooLong`]; the buffer is as it was then.
    ///
    /// # Panics
    ///
    /// If the stretch isn't one of these glyphs, or the text or the piece has glyphs without positions.
    pub fn splice(
        &mut self,
        stretch: &Stretch,
        edit: TextEdit,
        piece: &Buffer,
    ) -> Result<(), ShaperError> {
        let piece = ShapedRun {
            glyphs: piece.glyphs(),
            positions: piece.positions(),
            direction: piece.direction(),
        };
        self.splice_run(stretch, edit, piece)
    }

    /// The same with glyphs that stand in no buffer.
    pub(crate) fn splice_run(
        &mut self,
        stretch: &Stretch,
        edit: TextEdit,
        piece: ShapedRun<'_>,
    ) -> Result<(), ShaperError> {
        let (len, added) = (self.len(), piece.glyphs.len());
        let Range { start, end } = stretch.glyphs;
        let is_backward = is_backward(self.direction());
        assert!(
            self.positions().len() == len && piece.positions.len() == added,
            "each glyph has its position"
        );
        let behind = start + added;
        let new_len = behind + (len - end);
        if new_len > len {
            self.grow(new_len - len)?;
        }
        if self.positions().len() < self.len() {
            // (a text without glyphs has no positions, and so gets none by growing)
            let positions = crate::alloc::Vec::from_slice(self.alloc(), piece.positions);
            let positions = positions.map_err(|_| ShaperError::Memory);
            let are_set = positions.map(|positions| self.set_positions(positions));
            debug_assert!(are_set != Ok(false));
            if let Err(refusal) = are_set {
                self.truncate(len);
                return Err(refusal);
            }
        }
        self.with_positions_mut(|positions| {
            positions.copy_within(end..len, behind);
            positions[start..behind].copy_from_slice(piece.positions);
        });
        self.with_glyphs_mut(|glyphs| {
            glyphs.copy_within(end..len, behind);
            glyphs[start..behind].copy_from_slice(piece.glyphs);
            move_clusters(&mut glyphs[start..behind], 0, stretch.text.start);
            let later = if is_backward {
                0..start
            } else {
                behind..new_len
            };
            move_clusters(&mut glyphs[later], edit.old_end, edit.new_end);
        });
        self.truncate(new_len);
        Ok(())
    }
}

/// The flags of glyphs.
const FLAGS: u32 =
    glyph_flag::UNSAFE_TO_BREAK | glyph_flag::UNSAFE_TO_CONCAT | glyph_flag::SAFE_TO_INSERT_TATWEEL;

// Moves clusters as far as from one offset to another.
fn move_clusters(glyphs: &mut [GlyphInfo], from: usize, to: usize) {
    if from == to {
        return;
    }
    #[expect(
        clippy::cast_possible_truncation,
        reason = "clusters are moved modulo 2^32"
    )]
    let far = to.wrapping_sub(from) as u32;
    for glyph in glyphs {
        glyph.cluster = glyph.cluster.wrapping_add(far);
    }
}

fn is_backward(direction: Direction) -> bool {
    matches!(direction, Direction::RightToLeft | Direction::BottomToTop)
}

/// Glyphs in the order of the text, in which clusters rise.
#[derive(Clone, Copy)]
struct Logical<'a> {
    run: ShapedRun<'a>,
    is_backward: bool,
}

impl<'a> Logical<'a> {
    fn new(run: ShapedRun<'a>) -> Self {
        assert!(
            run.glyphs.len() == run.positions.len(),
            "each glyph has its position"
        );
        Logical {
            run,
            is_backward: is_backward(run.direction),
        }
    }

    fn len(&self) -> usize {
        self.run.glyphs.len()
    }

    // Where the glyph of a place is drawn, counted from the start.
    fn drawn(&self, place: usize) -> usize {
        if self.is_backward {
            self.len() - 1 - place
        } else {
            place
        }
    }

    // Places as they are drawn of those in the order of the text, and the other way round.
    fn logical_range(&self, range: &Range<usize>) -> Range<usize> {
        if self.is_backward {
            self.len() - range.end..self.len() - range.start
        } else {
            range.clone()
        }
    }

    fn glyph(&self, place: usize) -> &'a GlyphInfo {
        &self.run.glyphs[self.drawn(place)]
    }

    fn cluster(&self, place: usize) -> usize {
        self.glyph(place).cluster as usize
    }

    // The place of the first glyph whose cluster is no lesser than an offset.
    fn first_from(&self, offset: usize) -> usize {
        let glyphs = self.run.glyphs;
        let is_before = |glyph: &GlyphInfo| (glyph.cluster as usize) < offset;
        if self.is_backward {
            self.len() - glyphs.partition_point(|glyph| !is_before(glyph))
        } else {
            glyphs.partition_point(is_before)
        }
    }

    // Where the cluster before a place begins.
    fn before(&self, place: usize) -> usize {
        let cluster = self.cluster(place - 1);
        let mut start = place - 1;
        while start > 0 && self.cluster(start - 1) == cluster {
            start -= 1;
        }
        start
    }

    // Where the cluster at a place ends.
    fn behind(&self, place: usize) -> usize {
        let cluster = self.cluster(place);
        let mut end = place + 1;
        while end < self.len() && self.cluster(end) == cluster {
            end += 1;
        }
        end
    }

    // How many clusters these places have.
    fn clusters(&self, mut places: Range<usize>) -> usize {
        let mut count = 0;
        while places.start < places.end {
            places.start = self.behind(places.start);
            count += 1;
        }
        count
    }

    // What is compared of the glyph at a place.
    fn shown(&self, place: usize) -> (u32, u32, GlyphPosition) {
        let glyph = self.glyph(place);
        let position = self.run.positions[self.drawn(place)];
        (glyph.glyph_id, glyph.mask & FLAGS, position)
    }
}

/// A text after an edit, with its glyphs before it.
struct Edited<'a, T: ?Sized> {
    text: &'a T,
    edit: TextEdit,
    old: Logical<'a>,
}

impl<'a, T: EditedText + ?Sized> Edited<'a, T> {
    fn new(text: &'a T, edit: TextEdit, old: ShapedRun<'a>) -> Self {
        assert!(
            edit.start <= edit.old_end && edit.start <= edit.new_end && edit.new_end <= text.len(),
            "the edit is one of the text"
        );
        let old = Logical::new(old);
        Edited { text, edit, old }
    }

    // The first place whose cluster doesn't begin before the edit, and the first whose cluster begins
    // behind it.
    fn around(&self) -> (usize, usize) {
        (
            self.old.first_from(self.edit.start),
            self.old.first_from(self.edit.old_end),
        )
    }

    // Where the stretch may begin that has so many clusters before a place, or more. Only those count that
    // lookups don't pass over.
    fn clear_before(&self, mut place: usize, clusters: usize) -> usize {
        let mut count = 0;
        while place > 0 && (count < clusters || !self.is_clear(place, self.old.cluster(place))) {
            place = self.old.before(place);
            count += usize::from(self.counts(self.old.cluster(place)));
        }
        place
    }

    // Where it may end that has so many behind a place.
    fn clear_behind(&self, mut place: usize, clusters: usize) -> usize {
        let (len, mut count) = (self.old.len(), 0);
        while place < len && (count < clusters || !self.is_clear(place, self.end_offset(place))) {
            count += usize::from(self.counts(self.end_offset(place)));
            place = self.old.behind(place);
        }
        place
    }

    // Whether nothing forbids the cluster that begins at a place, and in the new text at an offset, to be
    // shaped apart from that before it.
    fn is_clear(&self, place: usize, offset: usize) -> bool {
        const UNSAFE: u32 = glyph_flag::UNSAFE_TO_BREAK | glyph_flag::UNSAFE_TO_CONCAT;
        let is_flagged = |place| self.old.glyph(place).mask & UNSAFE != 0;
        let begins = |category: GeneralCategory| !continues(category);
        !(place..self.old.behind(place)).any(is_flagged)
            && self.category(offset).is_some_and(begins)
    }

    // Whether a cluster counts that begins at an offset of the new text: with no mark, joiner or space, over
    // which lookups reach.
    fn counts(&self, offset: usize) -> bool {
        self.category(offset)
            .is_some_and(|category| !continues(category) && category != GeneralCategory::Zs)
    }

    fn category(&self, offset: usize) -> Option<GeneralCategory> {
        let character = self.text.character(offset);
        character.map(|character| UnicodeTables.general_category(character))
    }

    // Where the clusters end in the new text that are before a place behind the edit.
    fn end_offset(&self, place: usize) -> usize {
        if place == self.old.len() {
            self.text.len()
        } else {
            self.edit.shifted(self.old.cluster(place))
        }
    }

    fn stretch(&self, front: usize, back: usize) -> Stretch {
        let len = self.text.len();
        let start = match front {
            0 => 0,
            _ => self.old.cluster(front).min(len),
        };
        Stretch {
            text: start..self.end_offset(back).clamp(start, len),
            glyphs: self.old.logical_range(&(front..back)),
        }
    }

    // Whether the first clusters of a piece, up to the first that counts, are the old ones from a place on.
    fn begins_as_before(&self, front: usize, piece: Logical<'_>) -> bool {
        let (first, start) = (self.around().0, self.old.cluster(front));
        let mut end = front;
        while end < first {
            let counts = self.counts(self.old.cluster(end));
            end = self.old.behind(end);
            if counts {
                break;
            }
        }
        let is_old = |place: usize| start + piece.cluster(place) == self.old.cluster(front + place);
        // (the cluster beside the edit comes next in both)
        let count = end - front;
        end < first
            && count < piece.len()
            && (0..=count).all(is_old)
            && (0..count).all(|place| piece.shown(place) == self.old.shown(front + place))
    }

    // Whether the last clusters of a piece that begins at `start`, from the last that counts on, are the
    // old ones before a place.
    fn ends_as_before(&self, back: usize, piece: Logical<'_>, start: usize) -> bool {
        let end = self.around().1;
        let mut first = back;
        while first > end {
            first = self.old.before(first);
            if self.counts(self.end_offset(first)) {
                break;
            }
        }
        let count = back - first;
        let Some(piece_first) = piece.len().checked_sub(count) else {
            return false;
        };
        let is_apart = piece_first == 0
            || count > 0 && piece.cluster(piece_first - 1) < piece.cluster(piece_first);
        is_apart
            && (0..count).all(|place| {
                let (old, new) = (first + place, piece_first + place);
                self.end_offset(old) == start + piece.cluster(new)
                    && self.old.shown(old) == piece.shown(new)
            })
    }
}

// Whether a character of this category goes with what stands before it.
fn continues(category: GeneralCategory) -> bool {
    category.is_mark() || category == GeneralCategory::Cf
}
