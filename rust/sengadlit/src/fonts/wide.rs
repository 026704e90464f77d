//! A font whose glyph numbers have 32 bits, and whose methods take `&mut self`.

use super::no_result;
use crate::buffer::Tag;
use crate::font::{Font, GlyphId};
use core::cell::{Cell, RefCell};
use core::error::Error;
use core::fmt;

/// What shaping needs of a font whose glyph numbers have 32 bits. It may change itself, to keep a
/// cache; the same arguments give the same result all the same.
pub trait WideGlyphs {
    /// The font's own glyph for a character, before any lookup.
    fn nominal_glyph(&mut self, c: u32) -> Option<u32>;

    /// How far a glyph moves the pen, in font units.
    fn glyph_h_advance(&mut self, glyph: u32) -> i32;

    /// Whether the lookup would apply to exactly these glyphs; with `zero_context`, only if it
    /// needs no context around them.
    fn would_apply(&mut self, lookup: u16, glyphs: &[u32], zero_context: bool) -> bool;

    /// Whether the font has a nominal glyph for a character.
    fn has_glyph(&mut self, c: u32) -> bool {
        self.nominal_glyph(c).is_some()
    }

    /// Whether one of the lookups would apply to exactly these glyphs.
    fn would_apply_any(&mut self, lookups: &[u16], glyphs: &[u32], zero_context: bool) -> bool {
        let would_apply = |lookup: &u16| self.would_apply(*lookup, glyphs, zero_context);
        lookups.iter().any(would_apply)
    }

    /// Whether a question to the font may panic: see [`Font::may_panic`].
    fn may_panic(&self) -> bool {
        true
    }
}

impl<F: WideGlyphs + ?Sized> WideGlyphs for &mut F {
    fn nominal_glyph(&mut self, c: u32) -> Option<u32> {
        (**self).nominal_glyph(c)
    }

    fn glyph_h_advance(&mut self, glyph: u32) -> i32 {
        (**self).glyph_h_advance(glyph)
    }

    fn would_apply(&mut self, lookup: u16, glyphs: &[u32], zero_context: bool) -> bool {
        (**self).would_apply(lookup, glyphs, zero_context)
    }

    fn has_glyph(&mut self, c: u32) -> bool {
        (**self).has_glyph(c)
    }

    fn would_apply_any(&mut self, lookups: &[u16], glyphs: &[u32], zero_context: bool) -> bool {
        (**self).would_apply_any(lookups, glyphs, zero_context)
    }

    fn may_panic(&self) -> bool {
        (**self).may_panic()
    }
}

/// A hook needed the glyph of a character, and the font's number for it, this one, doesn't fit 16
/// bits.
#[derive(Clone, Copy, Debug, PartialEq, Eq)]
pub struct GlyphTooLarge(pub u32);

impl fmt::Display for GlyphTooLarge {
    fn fmt(&self, f: &mut fmt::Formatter<'_>) -> fmt::Result {
        write!(f, "the glyph number {} is above 65535", self.0)
    }
}

impl Error for GlyphTooLarge {}

/// A [`Font`] for shaping alone, of [`WideGlyphs`].
///
/// - *Whether there is a glyph* for a character is known whatever its number.
/// - *Which glyph* it is has 16 bits: a larger number counts as no glyph, and [`Wide::check`] returns
///   an error afterwards. The hooks need the glyphs of the dotted circle, of Hangul's tones and of
///   the virama of an Indic script. While `check` returns no error, the results are those of a font
///   with numbers of 16 bits.
/// - *Lookups* are queried with numbers of the buffer's. The font isn't queried for one that is 65535
///   or greater: no lookup applies to it, and `check` returns an error afterwards.
/// - *Advances* are of numbers of at most 65535, by the condition of the hook that calls them.
///
/// A call costs a test that no other is in progress, and one for a lookup a copy of its glyphs: for
/// Indic's initial reordering, which makes most calls, 7 % more instructions. The hooks make one call
/// at a time; a font that calls its own adapter panics.
#[derive(Debug, Default)]
pub struct Wide<F> {
    font: RefCell<F>,
    too_large: Cell<Option<u32>>,
}

/// What the hooks pass for every glyph number from 65535 on: a font of 16 bits has at most 65,535
/// glyphs, and so none of that number.
const BEYOND: GlyphId = GlyphId(u16::MAX);

/// The most glyphs that one question for a lookup may have.
const QUESTION_LENGTH: usize = 8;

impl<F> Wide<F> {
    /// The font behind the adapter.
    pub const fn new(font: F) -> Self {
        Wide {
            font: RefCell::new(font),
            too_large: Cell::new(None),
        }
    }

    /// The font.
    pub fn into_inner(self) -> F {
        self.font.into_inner()
    }

    /// Whether the font had what the hooks needed since the last check.
    ///
    /// # Errors
    ///
    /// A glyph had too large a number. What the hook made is what it makes of a font without that
    /// glyph.
    pub fn check(&self) -> Result<(), GlyphTooLarge> {
        match self.too_large.take() {
            None => Ok(()),
            Some(number) => Err(GlyphTooLarge(number)),
        }
    }

    // The glyph of this number, or a note that it is too large.
    fn narrow(&self, number: u32) -> Option<GlyphId> {
        let glyph = u16::try_from(number).ok().map(GlyphId);
        if glyph.is_none() {
            self.too_large.set(Some(number));
        }
        glyph
    }
}

impl<F: WideGlyphs> Font for Wide<F> {
    fn nominal_glyph(&self, c: u32) -> Option<GlyphId> {
        let number = self.font.borrow_mut().nominal_glyph(c)?;
        self.narrow(number)
    }

    fn has_glyph(&self, c: u32) -> bool {
        self.font.borrow_mut().has_glyph(c)
    }

    fn glyph_h_advance(&self, glyph: GlyphId) -> i32 {
        self.font.borrow_mut().glyph_h_advance(glyph.0.into())
    }

    fn would_apply(&self, lookup: u16, glyphs: &[GlyphId], zero_context: bool) -> bool {
        self.would_apply_any(&[lookup], glyphs, zero_context)
    }

    /// # Panics
    ///
    /// If there are more than 8 glyphs: the hooks pass two or three.
    #[inline]
    fn would_apply_any(&self, lookups: &[u16], glyphs: &[GlyphId], zero_context: bool) -> bool {
        if lookups.is_empty() {
            return false;
        }
        if glyphs.contains(&BEYOND) {
            self.too_large.set(Some(BEYOND.0.into()));
            return false;
        }
        let mut numbers = [0; QUESTION_LENGTH];
        let numbers = &mut numbers[..glyphs.len()];
        for (number, glyph) in numbers.iter_mut().zip(glyphs) {
            *number = u32::from(glyph.0);
        }
        let mut font = self.font.borrow_mut();
        font.would_apply_any(lookups, numbers, zero_context)
    }

    fn has_feature(&self, _tag: Tag) -> bool {
        no_result("shaping", "a feature")
    }

    fn may_panic(&self) -> bool {
        self.font.borrow().may_panic()
    }
}
