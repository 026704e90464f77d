// Generated from crates/shapers_unicode/src/lib.rt by rust/erase; edit the source.

//! Unicode's tables, as the shapers read them: what the trait `Tables` returns, and what else a text
//! needs before the shapers' hooks.

use crate::generated::shapers_base::font::Tables;
use crate::generated::shapers_base::plan::{Category, JoiningType, Position};
use crate::generated::shapers_buffer::buffer::GeneralCategory;

mod pairs;
mod properties;
mod table;
mod tables;
mod vertical;

pub use pairs::{compose, decompose, mirrored};
pub use properties::{
    character_bits, character_kind, general_category, indic_categories, is_default_ignorable,
    is_extended_pictographic, joining_type, modified_combining_class, universal_category,
};
pub use vertical::vertical_form;

/// The version of Unicode that the tables have.
pub const UNICODE_VERSION: (u8, u8, u8) = (17, 0, 0);

/// Unicode's tables. A character that decomposes to one other decomposes to it and U+0000, as in
/// HarfBuzz.
#[derive(Clone, Copy, Debug, Default, PartialEq, Eq, Hash)]
pub struct UnicodeTables;

impl Tables for UnicodeTables {
    #[inline]
    fn joining_type(&self, c: char) -> JoiningType {
        properties::joining_type(c)
    }

    #[inline]
    fn general_category(&self, c: char) -> GeneralCategory {
        properties::general_category(c)
    }

    #[inline]
    fn indic_categories(&self, c: u32) -> (Category, Position) {
        properties::indic_categories(c)
    }

    #[inline]
    fn use_category(&self, c: u32) -> Category {
        properties::universal_category(c)
    }

    #[inline]
    fn compose(&self, a: char, b: char) -> Option<char> {
        pairs::compose(a, b)
    }

    #[inline]
    fn decompose(&self, ab: char) -> Option<(char, char)> {
        pairs::decompose(ab)
    }
}
