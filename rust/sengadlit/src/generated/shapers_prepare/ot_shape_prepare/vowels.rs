// Generated from crates/shapers_prepare/src/ot_shape_prepare/vowels.rt by rust/erase; edit the source.

//! Circles between vowels that look like another one together.

use crate::support::prelude::*;

use super::vowel_pairs::{
    is_bengali_pair, is_brahmi_pair, is_devanagari_pair, is_gujarati_pair, is_gurmukhi_pair,
    is_kannada_pair, is_khojki_pair, is_khudawadi_pair, is_malayalam_pair, is_modi_pair,
    is_oriya_pair, is_sinhala_pair, is_takri_pair, is_tamil_pair, is_telugu_pair, is_tirhuta_pair,
};
use crate::generated::shapers_base::buffer::{
    Buffer, BufferFlags, GlyphInfo, GlyphRewriting, Script, ShaperError,
};

// The character of the dotted circle.
const DOTTED_CIRCLE: u32 = 0x25CC;

/// Parts vowels of the Indic and the universal shaper that look like another one together by a
/// dotted circle before the last of them, where the caller allows circles; the buffer's script says
/// which vowels. The circle has all of the vowel behind it but its character, and begins a grapheme.
/// Where no circle comes it takes no memory. (Microsoft's Indic_Shaping_Invalid_Cluster.)
///
/// # Errors
///
/// [`TooLong`] where the buffer would be longer than [`max_len`], [`Memory`] where memory is refused;
/// nothing has changed then.
///
/// # Panics
///
/// May panic, or leave an unspecified text, where the buffer has positions.
///
/// <details><summary>Contract</summary>
///
/// # Contract
///
/// ```text
/// requires { buffer.old.positions ≡ [] }
/// ensures ok { OnOk result (buffer.new ≡
///     record buffer.old { glyphs = vowels_circled buffer.old }) }
/// ensures length { RefusesLength buffer.old.max_len (length (vowels_circled buffer.old)) result }
/// ensures err { OnErr result (buffer.new ≡ buffer.old) }
/// ensures without_memory { vowels_circled buffer.old ≡ buffer.old.glyphs → IsOk result }
/// ```
///
/// - `RefusesLength`: `crates/shapers_buffer/specs/Refusals.antt`
/// - `vowels_circled`: `crates/shapers_prepare/specs/Vowels.antt`
///
/// </details>
///
/// [`Memory`]: crate::ShaperError::Memory
/// [`TooLong`]: crate::ShaperError::TooLong
/// [`max_len`]: crate::Buffer::max_len
pub fn preprocess_text_vowel_constraints(buffer: &mut Buffer) -> Result<(), ShaperError> {
    match vowel_script_of(buffer) {
        None => Ok(()),
        Some(script) => circle_vowels(script, buffer),
    }
}

/// A script that has such vowels.
#[derive(Clone, Copy, Debug, PartialEq, Eq, Hash)]
pub(super) enum VowelScript {
    Devanagari,
    Bengali,
    Gurmukhi,
    Gujarati,
    Oriya,
    Tamil,
    Telugu,
    Kannada,
    Malayalam,
    Sinhala,
    Brahmi,
    Khojki,
    Khudawadi,
    Tirhuta,
    Modi,
    Takri,
}

// The script of a buffer's text, where circles are allowed.
fn vowel_script_of(buffer: &Buffer) -> Option<VowelScript> {
    if buffer
        .flags()
        .contains(BufferFlags::DO_NOT_INSERT_DOTTED_CIRCLE)
    {
        return None;
    }
    match buffer.script() {
        None => None,
        Some(script) => vowel_script(script),
    }
}

// The script of this code, if it has such vowels.
fn vowel_script(script: Script) -> Option<VowelScript> {
    if script == Script(*b"Deva") {
        Some(VowelScript::Devanagari)
    } else if script == Script(*b"Beng") {
        Some(VowelScript::Bengali)
    } else if script == Script(*b"Guru") {
        Some(VowelScript::Gurmukhi)
    } else if script == Script(*b"Gujr") {
        Some(VowelScript::Gujarati)
    } else if script == Script(*b"Orya") {
        Some(VowelScript::Oriya)
    } else if script == Script(*b"Taml") {
        Some(VowelScript::Tamil)
    } else if script == Script(*b"Telu") {
        Some(VowelScript::Telugu)
    } else if script == Script(*b"Knda") {
        Some(VowelScript::Kannada)
    } else if script == Script(*b"Mlym") {
        Some(VowelScript::Malayalam)
    } else {
        universal_vowel_script(script)
    }
}

// The script of this code, if it is one of the universal shaper's that have such vowels.
fn universal_vowel_script(script: Script) -> Option<VowelScript> {
    if script == Script(*b"Sinh") {
        Some(VowelScript::Sinhala)
    } else if script == Script(*b"Brah") {
        Some(VowelScript::Brahmi)
    } else if script == Script(*b"Khoj") {
        Some(VowelScript::Khojki)
    } else if script == Script(*b"Sind") {
        Some(VowelScript::Khudawadi)
    } else if script == Script(*b"Tirh") {
        Some(VowelScript::Tirhuta)
    } else if script == Script(*b"Modi") {
        Some(VowelScript::Modi)
    } else if script == Script(*b"Takr") {
        Some(VowelScript::Takri)
    } else {
        None
    }
}

// Puts the circles into a text.
fn circle_vowels(script: VowelScript, buffer: &mut Buffer) -> Result<(), ShaperError> {
    let len = buffer.len();
    let count = count_circles(script, buffer.glyphs());
    if count == 0 {
        return Ok(());
    }
    if buffer.max_len() - len < count {
        return Err(ShaperError::TooLong);
    }
    buffer.rewrite(len + count, &VowelCircles { script })
}

// The rewriting that puts the circles in.
struct VowelCircles {
    script: VowelScript,
}

impl GlyphRewriting for VowelCircles {
    #[inline]
    fn rewrite(&self, glyphs: &mut [GlyphInfo], to: &mut Vec<GlyphInfo>) {
        write_circled(self.script, glyphs, to);
    }
}

// How many circles a text gets.
#[inline]
fn count_circles(script: VowelScript, glyphs: &[GlyphInfo]) -> usize {
    // (most texts have no character that opens a pair)
    if !has_opening(opening_range(script), glyphs) {
        return 0;
    }
    count_each(script, glyphs)
}

// Between which characters those are that open a pair of the script's, and the last one of
// Devanagari's triple.
#[inline]
fn opening_range(script: VowelScript) -> (u32, u32) {
    match script {
        VowelScript::Devanagari => (0x0905, 0x090F),
        VowelScript::Bengali => (0x0985, 0x098C),
        VowelScript::Gurmukhi => (0x0A05, 0x0A73),
        VowelScript::Gujarati => (0x0A85, 0x0AC5),
        VowelScript::Oriya => (0x0B05, 0x0B13),
        VowelScript::Tamil => (0x0B85, 0x0B85),
        VowelScript::Telugu => (0x0C12, 0x0C4A),
        VowelScript::Kannada => (0x0C89, 0x0C92),
        VowelScript::Malayalam => (0x0D07, 0x0D12),
        VowelScript::Sinhala => (0x0D85, 0x0D94),
        VowelScript::Brahmi => (0x11005, 0x1100F),
        VowelScript::Khojki => (0x11200, 0x11240),
        VowelScript::Khudawadi => (0x112B0, 0x112B0),
        VowelScript::Tirhuta => (0x11481, 0x114AA),
        VowelScript::Modi => (0x11600, 0x11601),
        VowelScript::Takri => (0x11680, 0x11686),
    }
}

// Whether a text has a character between these.
#[inline]
fn has_opening(range: (u32, u32), glyphs: &[GlyphInfo]) -> bool {
    glyphs.iter().any(|glyph| opens_between(range, glyph))
}

// Whether a glyph's character is between these.
#[inline]
fn opens_between(range: (u32, u32), glyph: &GlyphInfo) -> bool {
    range.0 <= glyph.glyph_id && glyph.glyph_id <= range.1
}

// How many circles a text gets, looked for at each character.
fn count_each(script: VowelScript, glyphs: &[GlyphInfo]) -> usize {
    let mut count = 0;
    let mut left = 0;
    for i in 0..glyphs.len() {
        if left == 1 {
            count += 1;
        }
        left = left_behind(script, left, glyphs[i], &glyphs[i + 1..]);
    }
    count
}

// Writes a text with its circles to a list that has room for it.
fn write_circled(script: VowelScript, glyphs: &[GlyphInfo], to: &mut Vec<GlyphInfo>) {
    let mut left = 0;
    for i in 0..glyphs.len() {
        write_with_circle(left, glyphs[i], to);
        left = left_behind(script, left, glyphs[i], &glyphs[i + 1..]);
    }
}

// Writes a glyph, with a circle before it where it is the last of a pair or triple, to a list that
// has room for it.
#[inline]
fn write_with_circle(left: usize, glyph: GlyphInfo, to: &mut Vec<GlyphInfo>) {
    if left == 1 {
        push_within(vowel_circle(glyph), to);
    }
    push_within(glyph, to);
}

// Adds a glyph to a list that has room for it.
#[inline]
fn push_within(glyph: GlyphInfo, to: &mut Vec<GlyphInfo>) {
    to.push(glyph).unwrap();
}

// The circle before a vowel: a copy of it, which begins a grapheme.
#[inline]
fn vowel_circle(glyph: GlyphInfo) -> GlyphInfo {
    let mut unicode_props = glyph.unicode_props;
    unicode_props.set_continuation(false);
    GlyphInfo {
        glyph_id: DOTTED_CIRCLE,
        unicode_props,
        ..glyph
    }
}

// How many glyphs behind this one are left of a pair or triple, if so many were left of one with it.
#[inline]
fn left_behind(script: VowelScript, left: usize, glyph: GlyphInfo, behind: &[GlyphInfo]) -> usize {
    if left == 0 {
        pair_behind(script, glyph.glyph_id, behind)
    } else {
        left - 1
    }
}

// How many glyphs behind this character are of a pair or triple that it opens.
#[inline]
fn pair_behind(script: VowelScript, a: u32, behind: &[GlyphInfo]) -> usize {
    let Some((b, behind)) = behind.split_first() else {
        return 0;
    };
    if is_vowel_pair(script, a, b.glyph_id) {
        1
    } else {
        triple_behind(script, a, b.glyph_id, behind)
    }
}

#[inline]
fn triple_behind(script: VowelScript, a: u32, b: u32, behind: &[GlyphInfo]) -> usize {
    let Some((c, _)) = behind.split_first() else {
        return 0;
    };
    if is_vowel_triple(script, a, b, c.glyph_id) {
        2
    } else {
        0
    }
}

// Whether Devanagari's RA, virama and I stand there, which look like II.
#[inline]
fn is_vowel_triple(script: VowelScript, a: u32, b: u32, c: u32) -> bool {
    match script {
        VowelScript::Devanagari => a == 0x0930 && b == 0x094D && c == 0x0907,
        _ => false,
    }
}

// Whether two characters are a pair of the script's.
#[inline]
fn is_vowel_pair(script: VowelScript, a: u32, b: u32) -> bool {
    match script {
        VowelScript::Devanagari => is_devanagari_pair(a, b),
        VowelScript::Bengali => is_bengali_pair(a, b),
        VowelScript::Gurmukhi => is_gurmukhi_pair(a, b),
        VowelScript::Gujarati => is_gujarati_pair(a, b),
        VowelScript::Oriya => is_oriya_pair(a, b),
        VowelScript::Tamil => is_tamil_pair(a, b),
        VowelScript::Telugu => is_telugu_pair(a, b),
        VowelScript::Kannada => is_kannada_pair(a, b),
        VowelScript::Malayalam => is_malayalam_pair(a, b),
        VowelScript::Sinhala => is_sinhala_pair(a, b),
        VowelScript::Brahmi => is_brahmi_pair(a, b),
        VowelScript::Khojki => is_khojki_pair(a, b),
        VowelScript::Khudawadi => is_khudawadi_pair(a, b),
        VowelScript::Tirhuta => is_tirhuta_pair(a, b),
        VowelScript::Modi => is_modi_pair(a, b),
        VowelScript::Takri => is_takri_pair(a, b),
    }
}
