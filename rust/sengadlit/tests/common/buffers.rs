//! Buffers drawn by lot, and what a buffer holds.

use super::numbers::Numbers;
use sengadlit::alloc::{Global, Vec as List};
use sengadlit::buffer::{
    Buffer, BufferClusterLevel, BufferFlags, Direction, GeneralCategory, GlyphInfo, GlyphPosition,
    GlyphProps, LigProps, LookupRecord, Script, Span, UnicodeProps,
};

/// All that a caller can read of a buffer, to compare what was with what is.
#[derive(Clone, Debug, PartialEq)]
pub struct Contents {
    pub glyphs: Vec<GlyphInfo>,
    pub positions: Vec<GlyphPosition>,
    contexts: (Vec<char>, Vec<char>),
    settings: (Direction, Option<Script>, BufferClusterLevel, BufferFlags),
    marks: (bool, bool),
    lookups: LookupRecord,
    max_len: usize,
}

impl Contents {
    /// What a buffer holds.
    pub fn of(buffer: &Buffer) -> Self {
        Contents {
            glyphs: buffer.glyphs().to_vec(),
            positions: buffer.positions().to_vec(),
            contexts: (
                buffer.pre_context().to_vec(),
                buffer.post_context().to_vec(),
            ),
            settings: (
                buffer.direction(),
                buffer.script(),
                buffer.cluster_level(),
                buffer.flags(),
            ),
            marks: (buffer.has_broken_syllable(), buffer.has_stch()),
            lookups: buffer.lookup_record(),
            max_len: buffer.max_len(),
        }
    }

    /// The clusters, each once, in rising order.
    pub fn clusters(&self) -> Vec<u32> {
        sorted(self.glyphs.iter().map(|glyph| glyph.cluster), true)
    }

    /// The numbers of the glyphs in rising order.
    pub fn numbers(&self) -> Vec<u32> {
        sorted(self.glyphs.iter().map(number_of), false)
    }
}

/// The bits of `glyph_props` that hooks read or write.
const OF_HOOKS: u16 = 0x70;

/// A number of 13 bits in the bits of `glyph_props` that no hook reads or writes: by it a glyph is
/// known again.
pub fn numbered(number: u32) -> GlyphProps {
    let number = number as u16;
    GlyphProps(number & 0xF | number >> 4 << 7)
}

/// The number of a glyph.
pub fn number_of(glyph: &GlyphInfo) -> u32 {
    let bits = glyph.glyph_props.0 & !OF_HOOKS;
    (bits & 0xF | bits >> 7 << 4).into()
}

/// Numbers in rising order, each once if that is wanted.
pub fn sorted(numbers: impl Iterator<Item = u32>, once: bool) -> Vec<u32> {
    let mut numbers: Vec<_> = numbers.collect();
    numbers.sort_unstable();
    if once {
        numbers.dedup();
    }
    numbers
}

/// A buffer of these glyphs.
pub fn buffer_of(glyphs: &[GlyphInfo], max_len: usize) -> Buffer {
    let mut buffer = Buffer::new(Global, max_len);
    for glyph in glyphs {
        buffer.push(*glyph).unwrap();
    }
    buffer
}

/// A buffer of these characters with clusters 0, 1, 2 ..
pub fn text_of(characters: &[u32], max_len: usize) -> Buffer {
    let glyphs: Vec<_> = (0..).zip(characters).map(|(i, c)| letter(*c, i)).collect();
    buffer_of(&glyphs, max_len)
}

/// A letter of a cluster, by whose number it is known.
pub fn letter(glyph_id: u32, cluster: u32) -> GlyphInfo {
    GlyphInfo {
        glyph_id,
        cluster,
        glyph_props: numbered(cluster),
        unicode_props: UnicodeProps::new(GeneralCategory::Lo, 0),
        ..GlyphInfo::DEFAULT
    }
}

/// A nonspacing mark of a class, in a cluster.
pub fn mark(glyph_id: u32, cluster: u32, class: u8) -> GlyphInfo {
    GlyphInfo {
        unicode_props: UnicodeProps::new(GeneralCategory::Mn, class),
        ..letter(glyph_id, cluster)
    }
}

/// Gives the glyphs positions with these advances.
pub fn set_advances(buffer: &mut Buffer, advances: &[i32]) {
    let positions: Vec<_> = advances
        .iter()
        .map(|&x_advance| GlyphPosition {
            x_advance,
            ..GlyphPosition::ZERO
        })
        .collect();
    assert!(buffer.set_positions(List::from_slice(Global, &positions).unwrap()));
}

/// A buffer that holds the same.
pub fn copy_of(buffer: &Buffer) -> Buffer {
    buffer.copy().unwrap()
}

/// Which glyphs a buffer drawn by lot may have.
#[derive(Clone, Copy, Debug, PartialEq, Eq)]
pub enum Glyphs {
    /// Characters of the scripts' blocks.
    Letters,
    /// Whatever fits in the fields.
    Any,
    /// The same, and whatever else calls of safe Rust make of a buffer (`spoiled`).
    Spoiled,
}

/// The first characters of blocks whose letters the shapers know.
const BLOCKS: [u32; 12] = [
    0x590, 0x620, 0x710, 0x915, 0xE30, 0xEB0, 0x1000, 0x1100, 0x1160, 0x1780, 0x1800, 0xAC00,
];

/// A buffer drawn by lot, without positions. Each glyph's number is its place.
pub fn random_buffer(numbers: &mut Numbers, kind: Glyphs) -> Buffer {
    let most = numbers.one_of(&[3, 10, 24, 24, 60]);
    let length = numbers.below(most);
    let block = numbers.one_of(&BLOCKS);
    let clusters = random_clusters(numbers, length);
    let syllables = random_syllables(numbers, kind, length);
    let glyphs: Vec<_> = (0..length)
        .map(|i| {
            let glyph = random_glyph(numbers, kind, block);
            GlyphInfo {
                cluster: clusters[i],
                syllable: syllables[i],
                glyph_props: glyph.glyph_props | numbered(i as u32),
                ..glyph
            }
        })
        .collect();
    let mut buffer = buffer_of(&glyphs, length);
    set_anything(numbers, &mut buffer);
    buffer
}

/// Settings, contexts and marks drawn by lot.
fn set_anything(numbers: &mut Numbers, buffer: &mut Buffer) {
    // (a limit below the length counts as the length)
    buffer.set_max_len(numbers.below(buffer.len() + 200));
    buffer.set_cluster_level(numbers.one_of(&[
        BufferClusterLevel::MonotoneGraphemes,
        BufferClusterLevel::MonotoneCharacters,
        BufferClusterLevel::Characters,
    ]));
    buffer.set_direction(numbers.one_of(&[Direction::LeftToRight, Direction::RightToLeft]));
    buffer.set_flags(BufferFlags(numbers.below(8) as u32 * 0x20));
    buffer.set_script(Some(Script(*numbers.one_of(&super::plans::SCRIPTS))));
    buffer.set_pre_context(&['\u{628}', 'a'][..numbers.below(3)]);
    buffer.set_post_context(&['\u{64B}', '\u{628}'][..numbers.below(3)]);
    buffer.set_has_broken_syllable(numbers.once_in(2));
    buffer.set_has_stch(numbers.once_in(2));
    // (another than that of a new buffer)
    buffer.set_lookup_record(LookupRecord {
        ligature_serial: 3,
        random_state: 48271,
        operations_left: 65_000,
        is_complete: false,
    });
}

/// Clusters drawn by lot: rising, falling, all the same, or in no order.
fn random_clusters(numbers: &mut Numbers, length: usize) -> Vec<u32> {
    let kind = numbers.below(5);
    (0..length as u32)
        .map(|i| match kind {
            0 => i,
            1 => i / 3,
            2 => length as u32 - i,
            3 => 7,
            _ => numbers.number(),
        })
        .collect()
}

fn random_glyph(numbers: &mut Numbers, kind: Glyphs, block: u32) -> GlyphInfo {
    let glyph_id = match kind {
        Glyphs::Letters => block + numbers.below(48).min(numbers.below(48)) as u32,
        Glyphs::Any | Glyphs::Spoiled => numbers.number(),
    };
    GlyphInfo {
        glyph_id,
        mask: numbers.number(),
        category: random_byte(numbers, kind, 56),
        auxiliary: random_byte(numbers, kind, 15),
        unicode_props: random_properties(numbers, kind),
        lig_props: LigProps(numbers.byte()),
        glyph_props: GlyphProps(numbers.below(8) as u16 * 0x10),
        ..GlyphInfo::DEFAULT
    }
}

/// Every second glyph is a mark, so that classes matter; a number of no category counts as Cn.
fn random_properties(numbers: &mut Numbers, kind: Glyphs) -> UnicodeProps {
    let category = match numbers.below(2) {
        0 => GeneralCategory::Mn,
        _ => numbers.one_of(&GeneralCategory::ALL),
    };
    let bits = UnicodeProps(numbers.below(8) as u16 * 0x20);
    match kind {
        Glyphs::Any | Glyphs::Spoiled if numbers.once_in(4) => UnicodeProps(numbers.draw() as u16),
        _ => UnicodeProps::new(category, random_class(numbers)) | bits,
    }
}

/// Syllable bytes drawn by lot: runs of up to 12 glyphs of kinds that shapers know, once in a while
/// any byte.
fn random_syllables(numbers: &mut Numbers, kind: Glyphs, length: usize) -> Vec<u8> {
    let longest = numbers.one_of(&[2, 5, 12]);
    let kinds = match kind {
        Glyphs::Letters => 3,
        Glyphs::Any | Glyphs::Spoiled => 8,
    };
    let mut bytes = Vec::new();
    while bytes.len() < length {
        let byte = match kind {
            Glyphs::Any | Glyphs::Spoiled if numbers.once_in(30) => numbers.byte(),
            _ => (numbers.below(16) * 16 + numbers.below(kinds)) as u8,
        };
        let end = length.min(bytes.len() + 1 + numbers.below(longest));
        bytes.resize(end, byte);
    }
    bytes
}

/// A byte below `end`, or any.
fn random_byte(numbers: &mut Numbers, kind: Glyphs, end: usize) -> u8 {
    match kind {
        Glyphs::Any | Glyphs::Spoiled if numbers.once_in(4) => numbers.byte(),
        _ => numbers.below(end) as u8,
    }
}

fn random_class(numbers: &mut Numbers) -> u8 {
    match numbers.below(10) {
        0 => numbers.byte(),
        _ => numbers.one_of(&[0, 0, 20, 21, 22, 23, 25, 26, 220, 230]),
    }
}

/// Positions with advances drawn by lot, some of them extreme.
pub fn set_random_positions(numbers: &mut Numbers, buffer: &mut Buffer) {
    let is_extreme = numbers.once_in(4);
    let advances: Vec<_> = (0..buffer.len())
        .map(|_| match is_extreme {
            true => numbers.number() as i32,
            false => numbers.below(3000) as i32,
        })
        .collect();
    set_advances(buffer, &advances);
}

/// Spans drawn by lot, which mostly cover so many glyphs. Kinds are at most `last_kind`.
pub fn random_spans(numbers: &mut Numbers, length: usize, last_kind: u8) -> Vec<Span> {
    let mut spans = Vec::new();
    let mut rest = length;
    while rest > 0 {
        let len = 1 + numbers.below(rest.min(6));
        let kind = numbers.below(usize::from(last_kind) + 1) as u8;
        spans.push(Span { len, kind });
        rest -= len;
    }
    match numbers.below(40) {
        0 => drop(spans.pop()),
        1 => spans.push(Span { len: 0, kind: 0 }),
        2 => spans.push(Span {
            len: usize::MAX,
            kind: 0,
        }),
        _ => {}
    }
    spans
}
