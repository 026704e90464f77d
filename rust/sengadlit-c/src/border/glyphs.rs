//! The glyphs of a buffer: C reads and writes them between calls, and the crate during one. They are the crate's own structs,
//! of which any bytes are valid. They stand in a list of the buffer's, or in an array that C lends.
use super::arrays::{Array, Grow};
use super::plans::UserData;
use crate::status::{Argument, Error};
use core::ptr::null_mut;
use sengadlit::alloc::{Global, Vec as List};
use sengadlit::buffer::{
    Buffer as Inner, BufferSettings, Direction, GlyphInfo, GlyphRewriting, Script, ShaperError,
};

/// The greatest length of a text for which none is set.
pub const MAX_LENGTH: usize = Inner::MAX_LEN_DEFAULT;

/// The numbers of characters or glyphs that a hook takes.
#[derive(Clone, Copy)]
pub enum Takes {
    /// All numbers.
    Numbers,
    /// The numbers that a font's glyphs have, up to 65535.
    GlyphNumbers,
}

// The place of the first glyph whose number is no font's. As a rule there is none, and so they are tested by fours.
fn first_of_no_font(glyphs: &[GlyphInfo]) -> Option<usize> {
    let are_fonts = |some: &[GlyphInfo]| {
        let bits = some.iter().fold(0, |bits, glyph| bits | glyph.glyph_id);
        bits <= 0xFFFF
    };
    let mut fours = glyphs.chunks_exact(4);
    if fours.all(are_fonts) && are_fonts(fours.remainder()) {
        return None;
    }
    glyphs.iter().position(|glyph| glyph.glyph_id > 0xFFFF)
}

/// The glyphs and their settings.
pub struct Text {
    // (before the arrays, so that its lists are dropped first)
    inner: Inner,
    max_length: usize,
    // What C lends; none before it first does.
    array: Option<Array>,
    // What stands ready for the array that C lends next, and is lent itself no more.
    next: Option<Array>,
    // The function by which arrays grow, which may be none.
    grow: (Option<Grow>, UserData),
    // Glyphs for which C's array had no room, and which C was given in its place.
    handed: List<GlyphInfo>,
}

impl Text {
    /// An empty text, which takes no memory.
    pub fn new() -> Self {
        Text {
            inner: Inner::new(Global, MAX_LENGTH),
            max_length: MAX_LENGTH,
            array: None,
            next: None,
            grow: (None, null_mut()),
            handed: List::new(Global),
        }
    }

    /// An empty text with the settings of this one, whose glyphs a panic left in any state.
    #[cold]
    pub fn recover(&mut self) {
        self.renew();
        self.set_state(false, false);
        self.settle();
    }

    // Drops the lists.
    fn renew(&mut self) {
        self.inner = self.settled();
    }

    // An empty list of glyphs with the settings.
    fn settled(&self) -> Inner {
        let mut inner = Inner::new(Global, MAX_LENGTH);
        inner.set_settings(&self.inner.settings());
        inner
    }

    /// Takes the glyphs and settings of a text of the crate's, which is empty then.
    pub fn lend(&mut self, text: &mut Inner) {
        self.max_length = text.max_len();
        let empty = Inner::new(Global, MAX_LENGTH);
        self.inner = core::mem::replace(text, empty);
    }

    /// Gives the glyphs back, into a text of the crate's whose settings stay but for the greatest length. Refuses a glyph whose
    /// number is no font's, once they are given.
    pub fn take_back(&mut self, text: &mut Inner) -> Result<(), Error> {
        let wrong = self.wrong_glyph(Takes::GlyphNumbers);
        let mut inner = core::mem::replace(self, Text::new()).inner;
        let length = inner.len();
        let settings = text.settings();
        inner.set_settings(&BufferSettings {
            max_len: settings.max_len.max(length),
            ..settings
        });
        *text = inner;
        wrong.map_or(Ok(()), |index| {
            Err(Error::argument_at(Argument::GlyphId, index))
        })
    }

    /// Takes the function by which arrays grow that C lends.
    pub fn set_grow(&mut self, grow: Option<Grow>, user_data: UserData) {
        self.grow = (grow, user_data);
        if let Some(array) = &self.array {
            array.set_grow(self.grow);
        }
    }

    /// The function by which they grow, with what it is given.
    pub fn grow_func(&self) -> (Option<Grow>, UserData) {
        self.grow
    }

    /// Works in an array of C's from now on, of which the first glyphs are the text; what it had is gone. Where that is refused,
    /// all is as it was.
    ///
    /// # Safety
    ///
    /// If `first` isn't null, there is room for so many glyphs, which are all written, until C takes the array back.
    #[inline]
    pub unsafe fn lend_array(
        &mut self,
        first: *mut GlyphInfo,
        length: usize,
        room: usize,
    ) -> Result<(), Error> {
        let is_none = first.is_null() && room != 0;
        if is_none || length > room {
            return Err(Error::argument(Argument::Glyphs));
        }
        if self.has_spare_in_array() {
            let mut another = Text {
                inner: self.settled(),
                max_length: self.max_length,
                grow: self.grow,
                ..Text::new()
            };
            // SAFETY: the caller's promise.
            unsafe { another.lend_array(first, length, room) }?;
            *self = another;
            return Ok(());
        }
        let next = match self.next.take() {
            Some(next) => next,
            None => Array::new().ok_or(Error::MEMORY)?,
        };
        next.set_grow(self.grow);
        next.lend(first, room);
        if length > self.inner.max_len() {
            self.inner.set_max_len(length);
        }
        // SAFETY: the caller's promise; no list works in this array before. The list becomes the text's, and is dropped by
        // `take_array`, by another loan, or with the text before the array is.
        let mut list = unsafe { next.list(length) };
        let ended = self.inner.exchange_glyphs(&mut list);
        // (that of the text before, or, where it was refused, the one that works in the next array)
        drop(list);
        self.next = match ended {
            Ok(()) => self.array.replace(next),
            Err(_) => Some(next),
        };
        if let Some(next) = &self.next {
            next.give_back();
        }
        self.handed = List::new(Global);
        Ok(ended?)
    }

    // Whether the list that works in C's array is one that the crate has beside the text's. An array without room has no place
    // of its own by which to tell.
    fn has_spare_in_array(&self) -> bool {
        self.array.as_ref().is_some_and(|array| {
            let is_text = self.inner.glyphs().as_ptr() == array.first() && array.room() != 0;
            array.is_used() && !is_text
        })
    }

    /// Ends the loan, and leaves an empty text: returns where the glyphs are, how many, and the room that they have in C's
    /// array. If it hadn't any for them, they stand in a list that stays until the next loan or text.
    #[inline]
    pub fn take_array(&mut self) -> Result<(*mut GlyphInfo, usize, usize), Error> {
        let Some(array) = self.array.as_ref().filter(|array| array.is_lent()) else {
            return Err(Error::argument(Argument::Glyphs));
        };
        array.give_back();
        let mut glyphs = self.inner.take_glyphs();
        let (place, length) = (glyphs.as_mut_slice().as_mut_ptr(), glyphs.len());
        let found = if place == array.first() {
            drop(glyphs);
            (array.given(), length, array.room())
        } else {
            self.handed = glyphs;
            (place, length, 0)
        };
        if array.is_used() {
            self.renew();
        }
        Ok(found)
    }

    // Brings glyphs into the array that C lends, from where a hook left them, if it has room for them.
    #[inline]
    fn settle(&mut self) {
        if let Some(array) = self.array.as_ref() {
            if array.is_lent() && self.inner.glyphs().as_ptr() != array.first() {
                self.move_in();
            }
        }
    }

    #[cold]
    fn move_in(&mut self) {
        let Some(array) = self.array.as_ref() else {
            return;
        };
        let length = self.inner.len();
        self.inner.set_max_len(length.max(self.max_length));
        // The list in the array is one of three that the crate has beside the text's: the room for a lookup's list, ..
        drop(self.inner.take_list());
        if array.is_used() {
            // (.. that of spare glyphs, which a rewriting exchanges for that of the text, ..)
            let moved = self.inner.rewrite(length, &Same);
            debug_assert!(moved.is_ok());
        }
        if array.is_used() && self.inner.glyphs().as_ptr() != array.first() {
            // (.. or the room for a copy, after a refused text was given back)
            drop(self.inner.keep());
        }
        if !array.is_used() && length <= array.room() {
            // SAFETY: C lends the array, which has the room, and no list works in it. The new one is the text's, as in
            // `lend_array`.
            let mut list = unsafe {
                array.write(self.inner.glyphs());
                array.list(length)
            };
            let moved = self.inner.exchange_glyphs(&mut list);
            debug_assert!(moved.is_ok());
        }
    }

    /// Removes the glyphs, and what was said of the text.
    pub fn clear(&mut self) {
        self.inner.clear();
        self.handed = List::new(Global);
    }

    /// The number of glyphs.
    #[inline]
    pub fn len(&self) -> usize {
        self.inner.len()
    }

    /// The glyphs.
    #[inline]
    pub fn glyphs(&self) -> &[GlyphInfo] {
        self.inner.glyphs()
    }

    /// Writes glyphs.
    #[inline]
    pub fn with_glyphs_mut<A>(&mut self, write: impl FnOnce(&mut [GlyphInfo]) -> A) -> A {
        self.inner.with_glyphs_mut(write)
    }

    /// Where the glyphs stand, for C to read and write until the next call that is given the text.
    #[inline]
    pub fn place(&mut self) -> *mut GlyphInfo {
        self.with_glyphs_mut(<[GlyphInfo]>::as_mut_ptr)
    }

    /// Keeps so many glyphs, or adds default ones.
    #[inline]
    pub fn set_len(&mut self, length: usize) -> Result<(), ShaperError> {
        if length <= self.len() {
            self.inner.truncate(length);
            return Ok(());
        }
        self.handed = List::new(Global);
        if length > self.inner.max_len() {
            self.inner.set_max_len(length);
        }
        let grown = self.inner.grow(length - self.len());
        self.settle();
        grown
    }

    /// The settings.
    pub fn settings(&self) -> BufferSettings<'_> {
        self.inner.settings()
    }

    /// The greatest length of the text that is set.
    pub fn max_length(&self) -> usize {
        self.max_length
    }

    /// The characters before the text and behind it, the nearest first.
    pub fn contexts(&self) -> (&[char], &[char]) {
        (self.inner.pre_context(), self.inner.post_context())
    }

    /// Sets the script and direction.
    pub fn set_segment(&mut self, script: Option<Script>, direction: Direction) {
        self.inner.set_script(script);
        self.inner.set_direction(direction);
    }

    /// Takes the direction, script, level, flags and greatest length of these settings.
    pub fn set_properties(&mut self, settings: &BufferSettings<'_>) {
        self.set_segment(settings.script, settings.direction);
        self.inner.set_cluster_level(settings.cluster_level);
        self.inner.set_flags(settings.flags);
        self.max_length = settings.max_len;
        self.inner.set_max_len(settings.max_len.max(self.len()));
    }

    /// Sets the characters before the text, the nearest first.
    pub fn set_pre_context(&mut self, before: &[char]) {
        self.inner.set_pre_context(before);
    }

    /// Sets those after it.
    pub fn set_post_context(&mut self, after: &[char]) {
        self.inner.set_post_context(after);
    }

    /// What one hook leaves for a later one: that a syllable is broken, and that a mark stretches.
    #[inline]
    pub fn state(&self) -> (bool, bool) {
        (self.inner.has_broken_syllable(), self.inner.has_stch())
    }

    /// Sets it.
    #[inline]
    pub fn set_state(&mut self, has_broken_syllable: bool, has_stch: bool) {
        self.inner.set_has_broken_syllable(has_broken_syllable);
        self.inner.set_has_stch(has_stch);
    }

    // The place of the first glyph that isn't taken.
    #[inline]
    fn wrong_glyph(&self, takes: Takes) -> Option<usize> {
        match takes {
            Takes::Numbers => None,
            Takes::GlyphNumbers => first_of_no_font(self.glyphs()),
        }
    }

    /// Runs a hook of the crate's, if each glyph is taken.
    #[inline]
    pub fn run<A>(
        &mut self,
        takes: Takes,
        hook: impl FnOnce(&mut Inner) -> Result<A, Error>,
    ) -> Result<A, Error> {
        if let Some(index) = self.wrong_glyph(takes) {
            return Err(Error::argument_at(Argument::GlyphId, index));
        }
        if self.inner.max_len() != self.max_length {
            self.limit()?;
        }
        let ended = hook(&mut self.inner);
        self.settle();
        ended
    }

    // Holds the crate to the greatest length, if the text isn't longer already.
    #[cold]
    fn limit(&mut self) -> Result<(), Error> {
        if self.len() > self.max_length {
            return Err(ShaperError::TooLong.into());
        }
        self.inner.set_max_len(self.max_length);
        Ok(())
    }
}

// The same glyphs.
struct Same;

impl GlyphRewriting for Same {
    fn rewrite(&self, glyphs: &mut [GlyphInfo], to: &mut List<GlyphInfo>) {
        // (there is room for as many, by contract)
        let written = to.extend_from_slice(glyphs);
        debug_assert!(written.is_ok());
    }
}

#[cfg(test)]
mod tests {
    use super::{Takes, Text};
    use crate::status::{Argument, Error};
    use sengadlit::buffer::{BufferSettings, GlyphInfo};

    #[test]
    fn numbers_above_those_of_glyphs_are_seen() {
        let mut text = Text::new();
        text.set_len(3).unwrap();
        // SAFETY: a glyph of the text, which nobody borrows.
        unsafe { (*text.place().add(2)).glyph_id = 0x1_0000 };
        let refused = text.run(Takes::GlyphNumbers, |_| Ok(()));
        assert_eq!(refused, Err(Error::argument_at(Argument::GlyphId, 2)));
        assert_eq!(text.run(Takes::Numbers, |_| Ok(())), Ok(()));
        text.set_len(2).unwrap();
        assert_eq!(text.run(Takes::GlyphNumbers, |_| Ok(())), Ok(()));
        for place in [0, 3, 7, 8] {
            text.set_len(0).unwrap();
            text.set_len(9).unwrap();
            text.with_glyphs_mut(|glyphs| glyphs[place].glyph_id = 0x1_0000);
            let refused = text.run(Takes::GlyphNumbers, |_| Ok(()));
            assert_eq!(refused, Err(Error::argument_at(Argument::GlyphId, place)));
        }
    }

    #[test]
    fn a_text_is_no_longer_than_it_may_be() {
        let mut text = Text::new();
        text.set_len(3).unwrap();
        text.set_properties(&BufferSettings::new(2));
        assert!(text.run(Takes::Numbers, |_| Ok(())).is_err());
        text.set_len(2).unwrap();
        assert!(
            text.run(Takes::Numbers, |inner| Ok(inner.grow(1)?))
                .is_err()
        );
        text.set_len(5).unwrap();
        assert!(text.run(Takes::Numbers, |_| Ok(())).is_err());
        assert_eq!(text.glyphs(), [GlyphInfo::DEFAULT; 5]);
    }
}
