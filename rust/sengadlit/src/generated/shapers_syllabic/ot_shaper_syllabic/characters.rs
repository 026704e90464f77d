// Generated from crates/shapers_syllabic/src/ot_shaper_syllabic/characters.rt by rust/erase; edit the source.

//! What several shapers look up about a character.

use crate::generated::shapers_base::buffer::{Buffer, GlyphChange, GlyphInfo, change_each_in};
use crate::generated::shapers_base::font::Tables;

/// The composition of two characters by the table. A mark composes with nothing behind it, so that
/// a split vowel isn't put together again.
///
/// <details><summary>Contract</summary>
///
/// # Contract
///
/// ```text
/// ensures { result ≡ composed_behind (T.tables tables.now) a b }
/// ```
///
/// - `composed_behind`: `crates/shapers_syllabic/specs/Characters.antt`
///
/// </details>
#[inline]
pub fn compose<T: Tables>(tables: &T, a: char, b: char) -> Option<char> {
    if tables.general_category(a).is_mark() {
        return None;
    }
    tables.compose(a, b)
}

/// Gives each glyph the category that the table of the Indic, Khmer and Myanmar shapers has for its
/// character. It takes no memory.
///
/// <details><summary>Contract</summary>
///
/// # Contract
///
/// ```text
/// ensures { buffer.new ≡
///     record buffer.old { glyphs = map (with_category (T.tables tables.now)) buffer.old.glyphs } }
/// ```
///
/// - `with_category`: `crates/shapers_syllabic/specs/Characters.antt`
///
/// </details>
#[inline]
pub fn set_categories<T: Tables>(tables: &T, buffer: &mut Buffer) {
    buffer.change_outside(&Categories { tables });
}

/// `set_categories` for the glyphs of a slice.
///
/// <details><summary>Contract</summary>
///
/// # Contract
///
/// ```text
/// ensures { glyphs.new ≡ map (with_category (T.tables tables.now)) glyphs.old }
/// ```
///
/// - `with_category`: `crates/shapers_syllabic/specs/Characters.antt`
///
/// </details>
#[inline]
pub fn set_categories_in<T: Tables>(tables: &T, glyphs: &mut [GlyphInfo]) {
    change_each_in(glyphs, &Categories { tables });
}

/// Gives each glyph the category and, as its auxiliary byte, the position that the table of the
/// Indic, Khmer and Myanmar shapers has for its character. It takes no memory.
///
/// <details><summary>Contract</summary>
///
/// # Contract
///
/// ```text
/// ensures { let with_both = with_category_and_position (T.tables tables.now) in
///     let changed = map with_both buffer.old.glyphs in
///     buffer.new ≡ record buffer.old { glyphs = changed } }
/// ```
///
/// - `with_category_and_position`: `crates/shapers_syllabic/specs/Characters.antt`
///
/// </details>
#[inline]
pub fn set_categories_and_positions<T: Tables>(tables: &T, buffer: &mut Buffer) {
    buffer.change_outside(&CategoriesAndPositions { tables });
}

/// `set_categories_and_positions` for the glyphs of a slice.
///
/// <details><summary>Contract</summary>
///
/// # Contract
///
/// ```text
/// ensures { glyphs.new ≡ map (with_category_and_position (T.tables tables.now)) glyphs.old }
/// ```
///
/// - `with_category_and_position`: `crates/shapers_syllabic/specs/Characters.antt`
///
/// </details>
#[inline]
pub fn set_categories_and_positions_in<T: Tables>(tables: &T, glyphs: &mut [GlyphInfo]) {
    change_each_in(glyphs, &CategoriesAndPositions { tables });
}

// Gives a glyph the category of its character.
#[derive(Clone, Copy)]
struct Categories<'a, T: Tables> {
    tables: &'a T,
}

impl<'a, T: Tables> GlyphChange for Categories<'a, T> {
    #[inline]
    fn change(&self, glyph: &mut GlyphInfo) {
        glyph.category = self.tables.indic_categories(glyph.glyph_id).0;
    }
}

// Gives a glyph the category and the position of its character.
#[derive(Clone, Copy)]
struct CategoriesAndPositions<'a, T: Tables> {
    tables: &'a T,
}

impl<'a, T: Tables> GlyphChange for CategoriesAndPositions<'a, T> {
    #[inline]
    fn change(&self, glyph: &mut GlyphInfo) {
        let (category, position) = self.tables.indic_categories(glyph.glyph_id);
        glyph.category = category;
        glyph.auxiliary = position;
    }
}
