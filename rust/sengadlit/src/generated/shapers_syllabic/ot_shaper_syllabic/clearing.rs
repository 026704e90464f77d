// Generated from crates/shapers_syllabic/src/ot_shaper_syllabic/clearing.rt by rust/erase; edit the source.

//! Clearing what one pause left on the glyphs for another.

use crate::generated::shapers_base::buffer::{Buffer, GlyphInfo, change_each_by_in};

/// Takes every glyph out of its syllable: its syllable byte becomes 0. It takes no memory.
///
/// <details><summary>Contract</summary>
///
/// # Contract
///
/// ```text
/// ensures { buffer.new ≡ record buffer.old { glyphs = map (in_syllable 0) buffer.old.glyphs } }
/// ```
///
/// - `in_syllable`: `crates/shapers_buffer/specs/Syllables.antt`
///
/// </details>
#[inline]
pub fn clear_syllables(buffer: &mut Buffer) {
    buffer.change_all_by(|glyph| glyph.syllable = 0);
}

/// Takes these glyphs out of their syllables, as `clear_syllables` does those of a buffer.
///
/// <details><summary>Contract</summary>
///
/// # Contract
///
/// ```text
/// ensures { glyphs.new ≡ map (in_syllable 0) glyphs.old }
/// ```
///
/// - `in_syllable`: `crates/shapers_buffer/specs/Syllables.antt`
///
/// </details>
#[inline]
pub fn clear_syllables_in(glyphs: &mut [GlyphInfo]) {
    change_each_by_in(glyphs, |glyph| glyph.syllable = 0);
}

/// Takes back from every glyph the mark that a lookup substituted it. It takes no memory.
///
/// <details><summary>Contract</summary>
///
/// # Contract
///
/// ```text
/// ensures { buffer.new ≡ record buffer.old { glyphs = map unsubstituted buffer.old.glyphs } }
/// ```
///
/// - `unsubstituted`: `crates/shapers_syllabic/specs/Syllabic.antt`
///
/// </details>
#[inline]
pub fn clear_substitution_flags(buffer: &mut Buffer) {
    buffer.change_all_by(|glyph| glyph.glyph_props.set_substituted(false));
}

/// Takes back from these glyphs the mark that a lookup substituted them.
///
/// <details><summary>Contract</summary>
///
/// # Contract
///
/// ```text
/// ensures { glyphs.new ≡ map unsubstituted glyphs.old }
/// ```
///
/// - `unsubstituted`: `crates/shapers_syllabic/specs/Syllabic.antt`
///
/// </details>
#[inline]
pub fn clear_substitution_flags_in(glyphs: &mut [GlyphInfo]) {
    change_each_by_in(glyphs, |glyph| glyph.glyph_props.set_substituted(false));
}
