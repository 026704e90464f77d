// Generated from crates/opentype_layout/src/places.rt by rust/erase; edit the source.

//! Where the places of a rule find their glyphs.

use crate::generated::opentype_layout::glyph_text::GlyphView;
use crate::generated::opentype_layout::pattern::Pattern;
use crate::generated::opentype_layout::sight::Sight;
use crate::support::arrayvec::ArrayVec;

/// How many places a rule has at most behind its first one.
pub const MOST: usize = 63;

/// The places behind one where a rule's glyphs are.
pub type Places = ArrayVec<usize, 64>;

/// Puts into an empty list where so many places of a rule, from place 0, find their glyphs behind a
/// place of a text. Returns whether all of them find one; where they don't, what the list has is of no
/// use.
// (into a list that is lent, since such a list is large)
///
/// <details><summary>Contract</summary>
///
/// # Contract
///
/// ```text
/// requires few { count ≤ 63 }
/// requires none { places.old.items ≡ [] }
/// ensures within { (j : ℕ) → j < length places.new.items →
///     slice_index places.new.items j < length glyphs.now }
/// ensures number { result ≡ true → length places.new.items ≡ count }
/// ensures value { (if result then Some places.new.items else None)
///     ≡ places_from count (next_in gdef.now sight.now (fits pattern.now) glyphs.now) 0 from }
/// ```
///
/// - `fits`, `next_in`, `places_from`: `crates/opentype_layout/specs/Pattern.antt`
///
/// </details>
pub fn find_places(
    gdef: &[u8],
    sight: &Sight,
    pattern: &Pattern<'_>,
    count: u16,
    glyphs: &GlyphView<'_>,
    from: usize,
    places: &mut Places,
) -> bool {
    let mut from = from;
    for k in 0..count {
        let found = pattern.next(gdef, sight, k, glyphs, from);
        let Some(place) = found else {
            return false;
        };
        places.push(place);
        from = glyphs.after(place);
    }
    true
}
