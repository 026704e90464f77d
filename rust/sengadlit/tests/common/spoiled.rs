//! Buffers that safe Rust can make, whatever the contracts of its calls require.

use super::buffers::{letter, set_random_positions};
use super::numbers::Numbers;
use sengadlit::alloc::Vec as List;
use sengadlit::buffer::{
    Buffer, BufferClusterLevel, BufferFlags, BufferSettings, Direction, GlyphInfo, GlyphProps,
    GlyphRewriting, LigProps, Script, UnicodeProps,
};

/// Gives the glyphs any fields, and makes up to three calls, whether their conditions hold or not.
pub fn spoil(numbers: &mut Numbers, buffer: &mut Buffer) {
    buffer.with_glyphs_mut(|glyphs| {
        for glyph in glyphs {
            glyph.lig_props = LigProps(numbers.byte());
            glyph.glyph_props = GlyphProps(numbers.draw() as u16);
            glyph.unicode_props = UnicodeProps(numbers.draw() as u16);
        }
    });
    for _ in 0..numbers.below(4) {
        spoil_once(numbers, buffer);
    }
}

fn spoil_once(numbers: &mut Numbers, buffer: &mut Buffer) {
    let len = buffer.len();
    match numbers.below(9) {
        0..=3 => set_settings(numbers, buffer),
        4 => buffer.truncate(numbers.below(len + 3)),
        5 => {
            // positions may be there, of which there is one too few then; or it's too long
            let _ = buffer.push(letter(numbers.number(), numbers.number()));
        }
        6 => {
            let glyphs: Vec<_> = (0..numbers.below(9))
                .map(|i| letter(0x627, i as u32))
                .collect();
            let _ = buffer.replace_glyphs(List::from(glyphs));
        }
        7 => {
            let wanted = numbers.below(len + 9);
            let _ = buffer.rewrite(wanted, &Wrong(numbers.below(30)));
        }
        _ => set_random_positions(numbers, buffer),
    }
}

/// Any settings; the greatest length is mostly below the text's, and never so large that stretched
/// marks take much memory.
fn set_settings(numbers: &mut Numbers, buffer: &mut Buffer) {
    let len = buffer.len();
    let context: Vec<_> = (0..numbers.below(9))
        .map(|_| char::from_u32(numbers.number()).unwrap_or('\u{64B}'))
        .collect();
    buffer.set_settings(&BufferSettings {
        direction: numbers.one_of(&Direction::ALL),
        script: Some(Script(numbers.number().to_be_bytes())),
        cluster_level: numbers.one_of(&BufferClusterLevel::ALL),
        flags: BufferFlags(numbers.number()),
        pre_context: &context,
        post_context: &context,
        has_broken_syllable: numbers.once_in(2),
        has_stch: numbers.once_in(2),
        max_len: numbers.below(len + 1) * numbers.below(3),
    });
}

/// A rewriting that writes so many glyphs, whatever it reads, to a list that it made itself.
pub struct Wrong(pub usize);

impl GlyphRewriting for Wrong {
    fn rewrite(&self, _glyphs: &mut [GlyphInfo], to: &mut List<GlyphInfo>) {
        let own = vec![letter(0x1780, 3); self.0];
        *to = List::from(own);
    }
}
