//! Hangul over random texts of jamo, syllables and tones: rewritten, they spell the same.

mod common;

use common::buffers::{Contents, buffer_of, letter};
use common::fonts::{LotFont, Steady};
use common::numbers::Numbers;
use common::plans::plan_of;
use sengadlit::buffer::{BufferClusterLevel, GlyphInfo};
use sengadlit::shaper::Shaper;

/// The first of some characters, and how many: jamo of each sort, old ones too, syllables, tones, letters.
const CHARACTERS: [(u32, usize); 9] = [
    (0x1100, 22),
    (0x115F, 26),
    (0x11A7, 32),
    (0xA960, 2),
    (0xD7B0, 2),
    (0xD7CB, 2),
    (0xAC00, 11172),
    (0xAC00, 60),
    (0x302D, 4),
];

/// One to twelve characters.
fn characters(numbers: &mut Numbers) -> Vec<GlyphInfo> {
    (0..=numbers.below(12) as u32)
        .map(|cluster| {
            let (first, count) = numbers.one_of(&CHARACTERS);
            letter(first + numbers.below(count) as u32, cluster)
        })
        .collect()
}

/// The text spelled out: each syllable by its jamo, and neither tones nor circles.
fn spelled(glyphs: &[GlyphInfo]) -> Vec<u32> {
    let mut text = Vec::new();
    for glyph in glyphs {
        match glyph.glyph_id {
            0x302E | 0x302F | 0x25CC => {}
            syllable @ 0xAC00..=0xD7A3 => {
                let index = syllable - 0xAC00;
                text.extend([0x1100 + index / 588, 0x1161 + index % 588 / 28]);
                text.extend((index % 28 > 0).then_some(0x11A7 + index % 28));
            }
            other => text.push(other),
        }
    }
    text
}

/// How many tones the text has.
fn tones(glyphs: &[GlyphInfo]) -> usize {
    glyphs
        .iter()
        .filter(|glyph| matches!(glyph.glyph_id, 0x302E | 0x302F))
        .count()
}

#[test]
fn the_text_spells_the_same() {
    let mut numbers = Numbers::new(3);
    let plan = plan_of(Shaper::Hangul, b"Hang");
    let mut changed = 0;
    for turn in 0..1000 {
        let glyphs = characters(&mut numbers);
        let mut text = buffer_of(&glyphs, 1000);
        if turn % 2 == 0 {
            text.set_cluster_level(BufferClusterLevel::Characters);
        }
        let font = LotFont(Steady(turn));
        Shaper::Hangul
            .preprocess_text(&plan, &font, &mut text)
            .unwrap();
        let after = Contents::of(&text).glyphs;
        assert_eq!(spelled(&after), spelled(&glyphs), "turn {turn}");
        assert_eq!(tones(&after), tones(&glyphs), "turn {turn}");
        changed += usize::from(after != glyphs);
    }
    assert!(changed > 300, "{changed}");
}
