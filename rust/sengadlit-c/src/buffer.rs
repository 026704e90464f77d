//! The buffer of C: a text and its positions.
use crate::border::glyphs::{MAX_LENGTH, Takes, Text};
use crate::encodings::{Unit, characters, first, last};
use crate::layout::Properties;
use crate::numbers::{self, LEVEL_GRAPHEMES};
use crate::status::{Argument, Error};
use core::mem::replace;
use core::ops::Range;
use sengadlit::Shaper;
use sengadlit::alloc::{AllocError, Global, Vec as List};
use sengadlit::buffer::{
    Buffer as Inner, BufferSettings, CONTEXT_LENGTH, Direction, GlyphInfo, GlyphPosition, Script,
    ShaperError, Span,
};
#[cfg(feature = "opentype")]
use sengadlit::buffer::{BufferClusterLevel, LookupRecord};
use sengadlit::editing::caret_stops;
#[cfg(feature = "opentype")]
use sengadlit::editing::{EditedText, ShapedRun, Stretch, TextEdit, reshape};
use sengadlit::ot_shape_position::DefaultIgnorables;
use sengadlit::unicode::UnicodeTables;

/// `sengadlit_buffer_content_type_t`: what the glyphs of a buffer are, as far as the buffer knows.
#[derive(Clone, Copy, Debug, PartialEq, Eq)]
#[repr(u32)]
pub enum Content {
    /// Nobody said so.
    Unknown = 0,
    /// Characters.
    Characters = 1,
    /// Glyphs of a font.
    Glyphs = 2,
}

impl Content {
    /// The content of a number.
    pub fn from_number(number: u32) -> Option<Self> {
        let all = [Content::Unknown, Content::Characters, Content::Glyphs];
        all.get(number as usize).copied()
    }
}

/// The script and direction of a text, as far as they are known: no script, and the direction `Invalid`, are unknown.
#[derive(Clone, Copy, Debug, PartialEq, Eq)]
pub struct Segment {
    pub script: Option<Script>,
    pub direction: Direction,
}

impl Segment {
    /// Neither is known.
    pub const UNKNOWN: Self = Segment {
        script: None,
        direction: Direction::Invalid,
    };

    /// This, and where something is unknown the other's.
    pub fn or(self, other: Self) -> Self {
        Segment {
            script: self.script.or(other.script),
            direction: match self.direction {
                Direction::Invalid => other.direction,
                known => known,
            },
        }
    }

    /// This, and where something is unknown what the characters have: the script of the first that has one of its own, and the
    /// direction of the script.
    #[cfg(feature = "opentype")]
    pub fn or_guess(self, characters: &[GlyphInfo]) -> Self {
        let of_glyph = |glyph: &GlyphInfo| char::from_u32(glyph.glyph_id).and_then(Script::of_char);
        let script = self.script.or_else(|| characters.iter().find_map(of_glyph));
        self.or(Segment {
            script,
            direction: script.map_or(Direction::LeftToRight, Script::direction),
        })
    }

    // HarfBuzz's `hb_segment_properties_overlay`: the other's script counts where the directions agree.
    fn overlaid(self, other: Self) -> Self {
        let both = self.or(other);
        if both.direction == other.direction {
            both
        } else {
            self
        }
    }
}

/// What a `sengadlit_buffer_t` holds.
pub struct Buffer {
    pub text: Text,
    content: Content,
    // Whether the direction of the text is set; it is from left to right where not.
    has_direction: bool,
    // Whether the glyphs are a text that was shaped whole.
    is_complete: bool,
    // Whether no lookup of its font lacked operations or room.
    has_all_lookups: bool,
    // Whether the level is that at which graphemes are clusters, in any order.
    merges_graphemes: bool,
    // The flags as C set them.
    flags: u32,
    // What a text is made and shaped in before it replaces that of the buffer. It is kept for its room.
    spare: Text,
    // One per glyph, or none.
    positions: List<GlyphPosition>,
    // What was found last; it is kept for its room.
    spans: List<Span>,
    // The same of carets.
    stops: List<u32>,
}

impl Buffer {
    /// An empty buffer, which takes no memory.
    pub fn new() -> Self {
        Buffer {
            text: Text::new(),
            content: Content::Unknown,
            has_direction: false,
            is_complete: false,
            has_all_lookups: false,
            merges_graphemes: false,
            flags: 0,
            spare: Text::new(),
            positions: List::new(Global),
            spans: List::new(Global),
            stops: List::new(Global),
        }
    }

    /// Empties the buffer after a panic.
    #[cold]
    pub fn recover(&mut self) {
        self.text.recover();
        self.set_content(Content::Unknown);
        self.spare = Text::new();
        self.positions = List::new(Global);
    }

    /// What the glyphs are.
    pub fn content(&self) -> Content {
        self.content
    }

    /// Says what they are.
    pub fn set_content(&mut self, content: Content) {
        self.content = content;
        self.is_complete = false;
    }

    /// Whether they are a text that was shaped whole.
    pub fn is_complete(&self) -> bool {
        self.is_complete
    }

    /// Whether they are, and no lookup of the font left anything undone for want of operations or room.
    pub fn has_all_lookups(&self) -> bool {
        self.is_complete && self.has_all_lookups
    }

    /// Says that they are, and whether the lookups did all.
    pub fn set_complete(&mut self, has_all_lookups: bool) {
        self.content = Content::Glyphs;
        self.is_complete = true;
        self.has_all_lookups = has_all_lookups;
    }

    /// Takes a text of the crate's with its positions, and leaves an empty one.
    pub fn lend(&mut self, text: &mut Inner) {
        self.set_content(Content::Glyphs);
        self.positions = text.take_positions();
        self.text.lend(text);
    }

    /// Gives its glyphs back, into a text whose settings stay. Refuses glyphs that are no font's and, where positions are wanted,
    /// glyphs that don't have one each; the text has the glyphs then, and no positions.
    pub fn take_back(&mut self, text: &mut Inner, with_positions: bool) -> Result<(), Error> {
        let positions = replace(&mut self.positions, List::new(Global));
        self.text.take_back(text)?;
        if !with_positions {
            return Ok(());
        }
        if positions.len() != text.len() {
            return Err(Error::argument(Argument::Positions));
        }
        let are_taken = text.set_positions(positions);
        debug_assert!(are_taken);
        Ok(())
    }

    /// Gives the glyphs from `start` to `end` one cluster.
    pub fn merge_clusters(&mut self, start: usize, end: usize) -> Result<(), Error> {
        self.check_range(start, end)?;
        self.text.run(Takes::Numbers, |inner| {
            inner.merge_clusters(start, end);
            Ok(())
        })
    }

    /// Flags them: no line may be broken inside.
    pub fn unsafe_to_break(&mut self, start: usize, end: usize) -> Result<(), Error> {
        self.check_range(start, end)?;
        self.text.run(Takes::Numbers, |inner| {
            inner.unsafe_to_break(start, end);
            Ok(())
        })
    }

    fn check_range(&self, start: usize, end: usize) -> Result<(), Error> {
        if start <= end && end <= self.text.len() {
            Ok(())
        } else {
            Err(Error::argument(Argument::Range))
        }
    }

    /// Removes the text, and what was said of it.
    pub fn clear(&mut self) {
        self.text.clear();
        self.set_content(Content::Unknown);
        self.has_direction = false;
        self.positions.clear();
    }

    /// The same, and takes the properties of a new buffer.
    pub fn reset(&mut self) {
        self.clear();
        self.flags = 0;
        self.merges_graphemes = false;
        self.text.set_properties(&BufferSettings::new(MAX_LENGTH));
    }

    /// Keeps so many glyphs, or adds default ones; no position stays.
    #[inline]
    pub fn set_length(&mut self, length: usize) -> Result<(), Error> {
        self.text.set_len(length)?;
        if length == 0 {
            self.set_content(Content::Unknown);
        }
        self.is_complete = false;
        self.clear_positions();
        Ok(())
    }

    /// Adds the characters of an item of a text, with what Unicode says of each. What stands before the item in the text becomes
    /// the context of a text that was empty, and what stands after it the one behind; no position stays.
    pub fn add<U: Unit>(&mut self, text: &[U], item: Range<usize>) -> Result<(), Error> {
        if self.content == Content::Glyphs {
            return Err(Error::argument(Argument::Content));
        }
        add(&mut self.text, text, item)?;
        self.set_content(Content::Characters);
        self.clear_positions();
        Ok(())
    }

    /// Adds a character of a cluster, with what Unicode says of it; no position stays.
    pub fn push(&mut self, unicode: u32, cluster: u32) -> Result<(), Error> {
        if self.content == Content::Glyphs {
            return Err(Error::argument(Argument::Content));
        }
        let character =
            char::from_u32(unicode).ok_or_else(|| Error::argument(Argument::GlyphId))?;
        let place = self.text.len();
        if u32::try_from(place + 1).is_err() {
            return Err(ShaperError::TooLong.into());
        }
        self.text.set_len(place + 1)?;
        self.text.with_glyphs_mut(|glyphs| {
            glyphs[place] = GlyphInfo::from_character(character, cluster, &UnicodeTables);
        });
        self.set_content(Content::Characters);
        self.clear_positions();
        Ok(())
    }

    /// Adds the glyphs of another text from `start` to `end`, as HarfBuzz's `hb_buffer_append`: with their positions, and for
    /// characters with what stands around them as the context.
    pub fn append(&mut self, source: &Buffer, start: usize, end: usize) -> Result<(), Error> {
        source.check_range(start, end)?;
        if start == end {
            return Ok(());
        }
        let length = self.text.len();
        if length != 0 && self.content != source.content {
            return Err(Error::argument(Argument::Content));
        }
        if length != 0 && self.positions.is_empty() != source.positions.is_empty() {
            return Err(Error::argument(Argument::Positions));
        }
        if u32::try_from(length + (end - start)).is_err() {
            return Err(ShaperError::TooLong.into());
        }
        if !source.positions.is_empty() {
            self.positions
                .reserve(end - start)
                .map_err(ShaperError::from)?;
        }
        self.text.set_len(length + (end - start))?;
        self.text.with_glyphs_mut(|glyphs| {
            glyphs[length..].copy_from_slice(&source.text.glyphs()[start..end]);
        });
        if !source.positions.is_empty() {
            // (there is room for them)
            let added = self
                .positions
                .extend_from_slice(&source.positions.as_slice()[start..end]);
            debug_assert!(added.is_ok());
        }
        self.set_content(source.content);
        self.set_segment(self.segment().overlaid(source.segment()));
        if source.content == Content::Characters {
            self.take_contexts(source, start, end, length == 0);
        }
        Ok(())
    }

    // Takes what stands around a stretch of characters as the context: that behind it, and that before it of a text that was
    // empty, if there is any.
    fn take_contexts(&mut self, source: &Buffer, start: usize, end: usize, was_empty: bool) {
        let glyphs = source.text.glyphs();
        let of_glyph = |glyph: &GlyphInfo| char::from_u32(glyph.glyph_id).unwrap_or('\u{FFFD}');
        let (pre, post) = source.text.contexts();
        let mut room = ['\0'; CONTEXT_LENGTH];
        if was_empty && start + pre.len() > 0 {
            let before = glyphs[..start].iter().rev().map(of_glyph);
            let found = fill(&mut room, before.chain(pre.iter().copied()));
            self.text.set_pre_context(found);
        }
        let after = glyphs[end..].iter().map(of_glyph);
        let found = fill(&mut room, after.chain(post.iter().copied()));
        self.text.set_post_context(found);
    }

    /// Turns the glyphs from `start` to `end` round, with their positions.
    pub fn reverse(&mut self, start: usize, end: usize) -> Result<(), Error> {
        self.check_range(start, end)?;
        self.turn(start, end);
        Ok(())
    }

    fn turn(&mut self, start: usize, end: usize) {
        self.text
            .with_glyphs_mut(|glyphs| glyphs[start..end].reverse());
        if !self.positions.is_empty() {
            self.positions.as_mut_slice()[start..end].reverse();
        }
    }

    /// Turns the order of clusters round; that of the glyphs of each stays.
    pub fn reverse_clusters(&mut self) {
        let length = self.text.len();
        self.turn(0, length);
        let mut start = 0;
        for end in 1..=length {
            let glyphs = self.text.glyphs();
            if end == length || glyphs[end].cluster != glyphs[start].cluster {
                self.turn(start, end);
                start = end;
            }
        }
    }

    /// The script and direction, as far as they are set.
    pub fn segment(&self) -> Segment {
        let settings = self.text.settings();
        Segment {
            script: settings.script,
            direction: if self.has_direction {
                settings.direction
            } else {
                Direction::Invalid
            },
        }
    }

    fn set_segment(&mut self, segment: Segment) {
        self.has_direction = segment.direction != Direction::Invalid;
        let direction = match segment.direction {
            Direction::Invalid => Direction::LeftToRight,
            known => known,
        };
        self.text.set_segment(segment.script, direction);
    }

    /// Sets the script and direction that aren't set to those of the characters.
    #[cfg(feature = "opentype")]
    pub fn guess(&mut self) -> Result<(), Error> {
        if self.content == Content::Glyphs {
            return Err(Error::argument(Argument::Content));
        }
        self.set_segment(self.segment().or_guess(self.text.glyphs()));
        Ok(())
    }

    /// What becomes of characters that need not be drawn, by the flags.
    pub fn ignorables(&self) -> DefaultIgnorables {
        DefaultIgnorables::from_harfbuzz(self.flags)
    }

    /// Makes a text of these units and shapes it, in the place of that of the buffer. Where that is refused, all stays.
    #[cfg(feature = "opentype")]
    pub fn replace<U: Unit>(
        &mut self,
        units: &[U],
        shape: impl FnOnce(&mut Inner) -> Result<Segment, Error>,
    ) -> Result<(), Error> {
        self.empty_spare();
        add(&mut self.spare, units, 0..units.len())?;
        self.take_shaped(shape)?;
        self.text.set_pre_context(&[]);
        self.text.set_post_context(&[]);
        self.text.set_state(false, false);
        Ok(())
    }

    /// Shapes the characters of the buffer, for which it may know script and direction; they become those by which the text was
    /// shaped. Where that is refused, all stays.
    #[cfg(feature = "opentype")]
    pub fn shape_characters(
        &mut self,
        shape: impl FnOnce(Segment, &mut Inner) -> Result<Segment, Error>,
    ) -> Result<(), Error> {
        self.are_characters()?;
        if !self.positions.is_empty() {
            return Err(Error::argument(Argument::Positions));
        }
        let known = self.segment();
        self.empty_spare();
        let characters = self.text.glyphs();
        self.spare.set_len(characters.len())?;
        self.spare
            .with_glyphs_mut(|glyphs| glyphs.copy_from_slice(characters));
        let (before, after) = self.text.contexts();
        self.spare.set_pre_context(before);
        self.spare.set_post_context(after);
        self.take_shaped(|text| shape(known, text))
    }

    // Makes room for another text with the level, flags and greatest length of this one.
    #[cfg(feature = "opentype")]
    fn empty_spare(&mut self) {
        let settings = self.text.settings();
        self.spare.clear();
        self.spare.set_properties(&BufferSettings {
            flags: settings.flags,
            cluster_level: settings.cluster_level,
            ..BufferSettings::new(self.text.max_length())
        });
    }

    // Shapes the spare text, whose glyphs and positions are then the buffer's, with the script and direction.
    #[cfg(feature = "opentype")]
    fn take_shaped(
        &mut self,
        shape: impl FnOnce(&mut Inner) -> Result<Segment, Error>,
    ) -> Result<(), Error> {
        let merges_graphemes = self.merges_graphemes;
        let (segment, positions, lookups) = self.spare.run(Takes::Numbers, |text| {
            if merges_graphemes {
                text.merge_graphemes();
            }
            let segment = shape(text)?;
            Ok((segment, text.take_positions(), text.lookup_record()))
        })?;
        let shaped = self.spare.glyphs();
        // (an array that is lent may have no room for them)
        self.text.set_len(shaped.len())?;
        self.text
            .with_glyphs_mut(|glyphs| glyphs.copy_from_slice(shaped));
        self.positions = positions;
        self.set_segment(segment);
        self.set_complete(lookups.is_complete);
        Ok(())
    }

    /// Shapes again what an edit of its text changes, by the units of the text as it is now, and returns between which of them.
    /// The text has to be one that was shaped whole. Where that is refused, all stays.
    #[cfg(feature = "opentype")]
    pub fn reshape<U: Unit>(
        &mut self,
        units: &[U],
        edit: TextEdit,
        shape: impl Fn(Segment, &mut Inner) -> Result<Segment, Error>,
    ) -> Result<Range<usize>, Error> {
        if !self.is_complete || self.positions.len() != self.text.len() {
            return Err(Error::argument(Argument::Content));
        }
        if u32::try_from(units.len()).is_err() {
            return Err(ShaperError::TooLong.into());
        }
        let text = Units(units);
        let is_in_order = self.text.settings().cluster_level != BufferClusterLevel::Characters;
        let known = self.segment();
        let mut stretch = if is_in_order && known.script.is_some() {
            reshape(&text, edit, self.shaped_run())
        } else {
            Stretch {
                text: 0..units.len(),
                glyphs: 0..self.text.len(),
            }
        };
        loop {
            let (segment, positions, lookups) = self.shape_stretch(units, &stretch.text, &shape)?;
            if known.script.is_some() && segment != known {
                return Err(Error::argument(Argument::Options));
            }
            let piece = ShapedRun {
                glyphs: self.spare.glyphs(),
                positions: positions.as_slice(),
                direction: self.text.settings().direction,
            };
            let is_whole = stretch.text == (0..units.len());
            let widened = stretch.widened(&text, edit, self.shaped_run(), piece);
            match widened.filter(|_| !is_whole) {
                Some(widened) => stretch = widened,
                None => {
                    self.splice(&stretch, edit, positions)?;
                    self.set_segment(segment);
                    // (what was left undone around the stretch still is)
                    self.has_all_lookups =
                        lookups.is_complete && (is_whole || self.has_all_lookups);
                    return Ok(stretch.text);
                }
            }
        }
    }

    #[cfg(feature = "opentype")]
    fn shaped_run(&self) -> ShapedRun<'_> {
        ShapedRun {
            glyphs: self.text.glyphs(),
            positions: self.positions.as_slice(),
            direction: self.text.settings().direction,
        }
    }

    // Shapes a stretch of a text in the spare one, whose clusters then count from its start. Returns the script and direction,
    // which are those of the buffer or, where it has no script, those that the text has; the positions; and what became of the
    // lookups.
    #[cfg(feature = "opentype")]
    fn shape_stretch<U: Unit>(
        &mut self,
        units: &[U],
        stretch: &Range<usize>,
        shape: impl Fn(Segment, &mut Inner) -> Result<Segment, Error>,
    ) -> Result<(Segment, List<GlyphPosition>, LookupRecord), Error> {
        let known = match self.segment() {
            known if known.script.is_some() => known,
            _ => Segment::UNKNOWN,
        };
        self.empty_spare();
        add(&mut self.spare, units, stretch.clone())?;
        // (what stood around the text stands around its first and its last stretch)
        let (pre, post) = self.text.contexts();
        let (own_pre, own_post) = self.spare.contexts();
        let (mut before, mut after) = (['\0'; CONTEXT_LENGTH], ['\0'; CONTEXT_LENGTH]);
        let before = fill(&mut before, own_pre.iter().chain(pre).copied());
        let after = fill(&mut after, own_post.iter().chain(post).copied());
        self.spare.set_pre_context(before);
        self.spare.set_post_context(after);
        self.spare.with_glyphs_mut(|glyphs| {
            for glyph in glyphs {
                glyph.cluster -= stretch.start as u32;
            }
        });
        let merges_graphemes = self.merges_graphemes;
        self.spare.run(Takes::Numbers, |text| {
            if merges_graphemes {
                text.merge_graphemes();
            }
            let segment = shape(known, text)?;
            Ok((segment, text.take_positions(), text.lookup_record()))
        })
    }

    // Puts the spare text's glyphs, with these positions, in the place of those of a stretch.
    #[cfg(feature = "opentype")]
    fn splice(
        &mut self,
        stretch: &Stretch,
        edit: TextEdit,
        positions: List<GlyphPosition>,
    ) -> Result<(), Error> {
        let mut spare = replace(&mut self.spare, Text::new());
        let spliced = spare.run(Takes::Numbers, |piece| {
            let are_set = piece.set_positions(positions);
            debug_assert!(are_set);
            self.run_positioned(
                Takes::Numbers,
                |text| Ok(text.splice(stretch, edit, piece)?),
            )
        });
        self.spare = spare;
        spliced
    }

    /// The syllables of the text by the shaper's grammar, none for a shaper that has no grammar.
    pub fn find_spans(&mut self, shaper: Shaper) -> Result<&[Span], Error> {
        let spans = &mut self.spans;
        self.text
            .run(Takes::Numbers, |inner| Ok(shaper.spans_into(inner, spans)?))?;
        Ok(spans.as_slice())
    }

    /// Where a caret may stand in the text, whose glyphs are in the order in which they are drawn.
    pub fn find_stops(&mut self, direction: Direction) -> Result<&[u32], Error> {
        let stops = &mut self.stops;
        self.text.run(Takes::Numbers, |inner| {
            Ok(caret_stops(inner.glyphs(), direction, stops)?)
        })?;
        Ok(stops.as_slice())
    }

    /// The positions, one per glyph, all zero if there were none.
    pub fn positions(&mut self) -> Result<&mut [GlyphPosition], AllocError> {
        if self.positions.is_empty() {
            self.positions
                .resize(self.text.len(), GlyphPosition::ZERO)?;
        }
        Ok(self.positions.as_mut_slice())
    }

    /// The positions, one per glyph, or none.
    pub fn positions_there(&self) -> &[GlyphPosition] {
        self.positions.as_slice()
    }

    /// Removes the positions.
    #[inline]
    pub fn clear_positions(&mut self) {
        self.positions.clear();
    }

    /// Ends the loan of an array of C's, as [`Text::take_array`] does; no position stays.
    #[inline]
    pub fn take_array(&mut self) -> Result<(*mut GlyphInfo, usize, usize), Error> {
        let found = self.text.take_array()?;
        self.set_content(Content::Unknown);
        self.clear_positions();
        Ok(found)
    }

    /// Takes all properties, or none. Those that are 0 are a new buffer's.
    pub fn set_properties(&mut self, properties: &Properties) -> Result<(), Error> {
        let direction = numbers::direction(properties.direction)
            .ok_or_else(|| Error::argument(Argument::Direction))?;
        let max_length = match properties.max_length {
            0 => MAX_LENGTH,
            set => set as usize,
        };
        let level = numbers::cluster_level(properties.cluster_level);
        self.text.set_properties(&BufferSettings {
            cluster_level: level.ok_or_else(|| Error::argument(Argument::ClusterLevel))?,
            flags: numbers::buffer_flags(properties.flags),
            ..BufferSettings::new(max_length)
        });
        let script = numbers::script(properties.script);
        self.set_segment(Segment { script, direction });
        self.flags = properties.flags;
        self.merges_graphemes = properties.cluster_level == LEVEL_GRAPHEMES;
        Ok(())
    }

    /// All properties. Those that aren't set are 0.
    pub fn properties(&self) -> Properties {
        let Segment { script, direction } = self.segment();
        Properties {
            size: 0,
            script: script.map_or(0, |script| u32::from_be_bytes(script.to_bytes())),
            direction: direction.number().into(),
            cluster_level: if self.merges_graphemes {
                LEVEL_GRAPHEMES
            } else {
                self.text.settings().cluster_level.number().into()
            },
            flags: self.flags,
            max_length: match self.text.max_length() {
                MAX_LENGTH => 0,
                set => set as u32,
            },
        }
    }

    /// Takes the characters on both sides, or those of neither.
    pub fn set_context(&mut self, before: &[u32], after: &[u32]) -> Result<(), Error> {
        let (mut pre, mut post) = (['\0'; CONTEXT_LENGTH], ['\0'; CONTEXT_LENGTH]);
        let pre = nearest(before, 0, &mut pre)?;
        let post = nearest(after, before.len(), &mut post)?;
        self.text.set_pre_context(pre);
        self.text.set_post_context(post);
        Ok(())
    }

    /// What one hook leaves for a later one, as the bits of the header.
    #[inline]
    pub fn state(&self) -> u32 {
        let (has_broken_syllable, has_stch) = self.text.state();
        u32::from(has_broken_syllable) | u32::from(has_stch) << 1
    }

    /// Sets it.
    #[inline]
    pub fn set_state(&mut self, state: u32) {
        self.text.set_state(state & 1 != 0, state & 2 != 0);
    }

    /// That nobody said that they are glyphs, and each is a character, one of Unicode's scalar values.
    pub fn are_characters(&self) -> Result<(), Error> {
        if self.content == Content::Glyphs {
            return Err(Error::argument(Argument::Content));
        }
        let mut glyphs = self.text.glyphs().iter();
        match glyphs.position(|glyph| char::from_u32(glyph.glyph_id).is_none()) {
            Some(index) => Err(Error::argument_at(Argument::GlyphId, index)),
            None => Ok(()),
        }
    }

    /// Runs a hook that takes such numbers on glyphs without positions.
    #[inline]
    pub fn run<A>(
        &mut self,
        takes: Takes,
        hook: impl FnOnce(&mut Inner) -> Result<A, Error>,
    ) -> Result<A, Error> {
        if !self.positions.is_empty() {
            return Err(Error::argument(Argument::Positions));
        }
        self.text.run(takes, hook)
    }

    /// The same of what sets positions.
    pub fn run_to_positions<A>(
        &mut self,
        takes: Takes,
        hook: impl FnOnce(&mut Inner) -> Result<A, Error>,
    ) -> Result<A, Error> {
        if !self.positions.is_empty() {
            return Err(Error::argument(Argument::Positions));
        }
        let positions = &mut self.positions;
        self.text.run(takes, |inner| {
            let ended = hook(inner);
            *positions = inner.take_positions();
            ended
        })
    }

    /// The same with a position for each glyph.
    pub fn run_positioned<A>(
        &mut self,
        takes: Takes,
        hook: impl FnOnce(&mut Inner) -> Result<A, Error>,
    ) -> Result<A, Error> {
        if self.positions.len() != self.text.len() {
            return Err(Error::argument(Argument::Positions));
        }
        let positions = &mut self.positions;
        self.text.run(takes, |inner| {
            let are_taken = inner.exchange_positions(positions);
            debug_assert!(are_taken);
            let ended = hook(inner);
            *positions = inner.take_positions();
            ended
        })
    }
}

/// A text of C's, as edits read it.
#[cfg(feature = "opentype")]
struct Units<'a, U>(&'a [U]);

#[cfg(feature = "opentype")]
impl<U: Unit> EditedText for Units<'_, U> {
    fn len(&self) -> usize {
        self.0.len()
    }

    fn character(&self, offset: usize) -> Option<char> {
        let left = self.0.get(offset..).filter(|left| !left.is_empty())?;
        Some(U::first(left).0)
    }
}

// Adds the characters of an item of a text, with what Unicode says of each, and what stands around it as the context.
fn add<U: Unit>(to: &mut Text, text: &[U], item: Range<usize>) -> Result<(), Error> {
    let (before, start) = (&text[..item.start], to.len());
    let after = &text[item.end..];
    let length = start + characters(&text[item.clone()]).count();
    if u32::try_from(length.max(text.len())).is_err() {
        return Err(ShaperError::TooLong.into());
    }
    to.set_len(length)?;
    to.with_glyphs_mut(|glyphs| {
        for (glyph, (place, character)) in glyphs[start..]
            .iter_mut()
            .zip(characters(&text[item.clone()]))
        {
            let cluster = (item.start + place) as u32;
            *glyph = GlyphInfo::from_character(character, cluster, &UnicodeTables);
        }
    });
    let mut room = ['\0'; CONTEXT_LENGTH];
    if start == 0 && !before.is_empty() {
        to.set_pre_context(last(before, &mut room));
    }
    to.set_post_context(first(after, &mut room));
    Ok(())
}

// The first of these characters, as many as there is room for.
fn fill(room: &mut [char; CONTEXT_LENGTH], from: impl Iterator<Item = char>) -> &[char] {
    let mut length = 0;
    for (to, character) in room.iter_mut().zip(from) {
        *to = character;
        length += 1;
    }
    &room[..length]
}

// The nearest of these characters, which are counted from `first` on.
fn nearest<'a>(
    characters: &[u32],
    first: usize,
    room: &'a mut [char; CONTEXT_LENGTH],
) -> Result<&'a [char], Error> {
    let length = characters.len().min(CONTEXT_LENGTH);
    for (i, number) in characters[..length].iter().enumerate() {
        let character = char::from_u32(*number);
        room[i] = character.ok_or_else(|| Error::argument_at(Argument::Context, first + i))?;
    }
    Ok(&room[..length])
}

#[cfg(test)]
mod tests {
    use super::Buffer;
    use crate::border::glyphs::Takes;
    use crate::layout::Properties;
    use sengadlit::buffer::{BufferClusterLevel, BufferFlags, Direction, Script};

    type Told = (
        Option<Script>,
        Direction,
        BufferClusterLevel,
        BufferFlags,
        usize,
    );

    // What a hook finds of the properties.
    fn told(buffer: &mut Buffer) -> Told {
        let told = buffer.run(Takes::Numbers, |text| {
            let settings = text.settings();
            Ok((
                settings.script,
                settings.direction,
                settings.cluster_level,
                settings.flags,
                settings.max_len,
            ))
        });
        told.unwrap()
    }

    const HEBREW: Properties = Properties {
        size: 0,
        script: u32::from_be_bytes(*b"Hebr"),
        direction: 5,
        cluster_level: 2,
        flags: 0x10,
        max_length: 7,
    };

    // The same, as a hook finds them.
    fn hebrew() -> Told {
        (
            Some(Script(*b"Hebr")),
            Direction::RightToLeft,
            BufferClusterLevel::Characters,
            BufferFlags::from_harfbuzz(0x10),
            7,
        )
    }

    #[test]
    fn clearing_leaves_level_flags_and_greatest_length_alone() {
        let mut buffer = Buffer::new();
        let new = told(&mut buffer);
        assert!(buffer.set_properties(&HEBREW).is_ok());
        buffer.clear();
        let (_, _, level, flags, max_length) = hebrew();
        assert_eq!(told(&mut buffer), (new.0, new.1, level, flags, max_length));
        buffer.reset();
        assert_eq!(told(&mut buffer), new);
    }

    #[test]
    fn properties_that_are_zero_are_those_of_a_new_buffer() {
        let mut buffer = Buffer::new();
        let new = told(&mut buffer);
        assert_eq!(new.1, Direction::LeftToRight);
        assert!(buffer.set_properties(&HEBREW).is_ok());
        assert_eq!(told(&mut buffer), hebrew());
        let zero = Properties {
            size: 0,
            script: 0,
            direction: 0,
            cluster_level: 0,
            flags: 0,
            max_length: 0,
        };
        assert!(buffer.set_properties(&zero).is_ok());
        assert_eq!(told(&mut buffer), new);
    }
}

#[cfg(all(test, feature = "opentype"))]
mod lookup_tests {
    use super::*;

    // A font's answer to a text, which leaves the record so.
    fn leaves(text: &mut Inner, is_complete: bool) -> Result<Segment, Error> {
        let mut positions = List::new(Global);
        positions
            .resize(text.len(), GlyphPosition::ZERO)
            .map_err(ShaperError::from)?;
        assert!(text.set_positions(positions));
        text.set_lookup_record(LookupRecord {
            is_complete,
            ..LookupRecord::for_text(text.len())
        });
        Ok(Segment {
            script: Some(Script(*b"Latn")),
            direction: Direction::LeftToRight,
        })
    }

    #[test]
    fn what_lookups_leave_undone_is_told_until_the_whole_text_is_shaped_again() {
        let mut buffer = Buffer::new();
        let told = |buffer: &Buffer| (buffer.is_complete(), buffer.has_all_lookups());
        assert_eq!(told(&buffer), (false, false));
        for is_complete in [true, false] {
            let done = buffer.replace(b"a b c d e f", |text| leaves(text, is_complete));
            assert!(done.is_ok());
            assert_eq!(told(&buffer), (true, is_complete));
        }
        let edit = |start, old_end, new_end| TextEdit {
            start,
            old_end,
            new_end,
        };
        // what is shaped again is whole, and the text around it isn't
        let again = buffer.reshape(b"a b c d e f g", edit(11, 11, 13), |_, text| {
            leaves(text, true)
        });
        assert!(again.is_ok_and(|stretch| stretch.start > 0));
        assert_eq!(told(&buffer), (true, false));
        let again = buffer.reshape(b"x", edit(0, 13, 1), |_, text| leaves(text, true));
        assert!(again.is_ok_and(|stretch| stretch == (0..1)));
        assert_eq!(told(&buffer), (true, true));
        let again = buffer.reshape(b"xy", edit(1, 1, 2), |_, text| leaves(text, false));
        assert!(again.is_ok());
        assert_eq!(told(&buffer), (true, false));
        buffer.set_content(Content::Glyphs);
        assert_eq!(told(&buffer), (false, false));
    }
}
