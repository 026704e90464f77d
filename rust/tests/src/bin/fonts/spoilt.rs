//! Fonts with spoilt bytes, and random bytes: no look-up may panic, or take long.

use sengadlit::opentype_face::classes::{glyph_props, is_in_mark_set};
use sengadlit::opentype_face::directory::face_count;
use sengadlit::opentype_face::face::{Face, parse};
use sengadlit::opentype_face::outlines::{box_bottom, box_top, box_width, has_box};
use sengadlit_tests::numbers::Numbers;
use std::error::Error;
use std::fs;
use std::hint::black_box;
use std::ops::Range;
use std::panic::catch_unwind;
use std::time::{Duration, Instant};

/// How long a font may take: parsing and 1,000 look-ups.
pub const MOST: Duration = Duration::from_millis(50);
/// A font that took a quarter of that is tried so many times, since the machine may have been busy; the least
/// time counts.
const AGAIN: usize = 5;
/// How many bytes of a font are spoilt at most.
const SPOILT: usize = 40;
/// How much of a table's beginning is spoilt more often than the rest: its header, counts and offsets.
const HEADER: usize = 400;

/// A font's bytes, and where its tables are.
pub struct Font {
    pub path: String,
    pub bytes: Vec<u8>,
    directory: Range<usize>,
    tables: Vec<Range<usize>>,
}

impl Font {
    pub fn read(path: &str) -> Result<Self, Box<dyn Error>> {
        let bytes = fs::read(path).map_err(|error| format!("{path}: {error}"))?;
        let start = match bytes.get(..4) {
            Some(b"ttcf") => number(&bytes, 12),
            _ => 0,
        };
        let count = number(&bytes, start + 4) >> 16;
        let directory = start..start + 12 + count * 16;
        let tables = (0..count).map(|i| {
            let at = number(&bytes, start + 20 + i * 16).min(bytes.len());
            at..(at + number(&bytes, start + 24 + i * 16)).min(bytes.len())
        });
        let tables: Vec<_> = tables.filter(|table| !table.is_empty()).collect();
        if tables.is_empty() || directory.end > bytes.len() {
            return Err(format!("{path} has no tables").into());
        }
        Ok(Font {
            path: path.into(),
            directory,
            tables,
            bytes,
        })
    }

    /// Spoils 1 to 40 bytes, and returns what they were, in the order in which they were spoilt.
    pub fn spoil(&mut self, numbers: &mut Numbers) -> Vec<(usize, u8)> {
        let many = 1 + numbers.below(SPOILT);
        let mut before = vec![];
        while before.len() < many {
            let (at, new) = self.edit(numbers);
            for (at, byte) in (at..self.bytes.len()).zip(new).take(many - before.len()) {
                before.push((at, self.bytes[at]));
                self.bytes[at] = byte;
            }
        }
        before
    }

    /// Gives back the bytes that `spoil` changed.
    pub fn mend(&mut self, before: Vec<(usize, u8)>) {
        for (at, byte) in before.into_iter().rev() {
            self.bytes[at] = byte;
        }
    }

    /// A place, and the bytes that are written there.
    fn edit(&self, numbers: &mut Numbers) -> (usize, Vec<u8>) {
        let table = self.tables[numbers.below(self.tables.len())].clone();
        let in_header = table.start + numbers.below(table.len().min(HEADER));
        let records = (self.directory.len() - 12) / 16;
        let record = self.directory.start + 12 + numbers.below(records) * 16;
        match numbers.below(8) {
            0 => (numbers.below(self.bytes.len()), vec![numbers.byte()]),
            1 => {
                let at = self.directory.start + numbers.below(self.directory.len());
                (at, vec![numbers.byte()])
            }
            2 => (in_header, vec![numbers.byte()]),
            // a count or an offset of two bytes
            3 => (in_header & !1, vec![0xFF, 0xFF]),
            4 => (in_header & !1, self.place(numbers)),
            // a table's offset, its length, or both ends of it moved
            5 => (record + 8, self.place(numbers)),
            6 => (record + 12, self.place(numbers)),
            _ => (
                record + 8,
                self.bytes[self.directory.start + 20..][..8].to_vec(),
            ),
        }
    }

    /// A number of four bytes: an end of what they hold, an end of the file, or another table's place.
    fn place(&self, numbers: &mut Numbers) -> Vec<u8> {
        let length = self.bytes.len();
        let table = self.tables[numbers.below(self.tables.len())].start;
        let place = numbers.one_of(&[0, 1, length - 1, length, length + 1, table, table + 1]);
        let number = match numbers.below(3) {
            0 => numbers.number(),
            _ => u32::try_from(place).unwrap_or(u32::MAX),
        };
        number.to_be_bytes().to_vec()
    }
}

/// The number of four bytes at a place; behind the end each is 0.
fn number(bytes: &[u8], at: usize) -> usize {
    let byte = |at: usize| usize::from(bytes.get(at).copied().unwrap_or(0));
    (byte(at) << 24) + (byte(at + 1) << 16) + (byte(at + 2) << 8) + byte(at + 3)
}

/// What was tried so far, and how long a font may take.
pub struct Tried {
    most: Duration,
    pub parsed: usize,
    pub failed: usize,
    pub slowest: Duration,
}

impl Tried {
    pub fn new(most: Duration) -> Self {
        Tried {
            most,
            parsed: 0,
            failed: 0,
            slowest: Duration::ZERO,
        }
    }

    /// Asks a file, and counts it if it is a font. A panic, and one that takes too long each time, is
    /// printed and counted.
    pub fn try_file(
        &mut self,
        seed: u64,
        what: &str,
        ask: impl Fn() -> bool + std::panic::RefUnwindSafe,
    ) {
        let (mut least, mut is_font) = (Duration::MAX, false);
        for _ in 0..AGAIN {
            let (began, spent) = (Instant::now(), processor_time());
            let Ok(read) = catch_unwind(&ask) else {
                println!("FAILED: {what}, seed {seed}, panicked");
                self.failed += 1;
                return;
            };
            // (the clock alone counts what a busy machine does in between)
            let took = match (spent, processor_time()) {
                (Some(before), Some(after)) => began.elapsed().min(after.saturating_sub(before)),
                _ => began.elapsed(),
            };
            (least, is_font) = (least.min(took), read);
            if least < self.most / 4 {
                break;
            }
        }
        if least >= self.most {
            println!("FAILED: {what}, seed {seed}, took {least:?}");
            self.failed += 1;
        }
        self.parsed += usize::from(is_font);
        self.slowest = self.slowest.max(least);
    }
}

/// The processor time of this thread, where Linux tells it.
fn processor_time() -> Option<Duration> {
    let times = fs::read_to_string("/proc/thread-self/schedstat").ok()?;
    Some(Duration::from_nanos(times.split(' ').next()?.parse().ok()?))
}

/// Tries all, prints what was tried, and returns whether nothing failed.
pub fn try_all(
    count: u64,
    random: u64,
    paths: &[String],
    most: Duration,
) -> Result<bool, Box<dyn Error>> {
    let fonts: Result<Vec<Font>, _> = paths.iter().map(|path| Font::read(path)).collect();
    let mut fonts = fonts?;
    let mut tried = Tried::new(most);
    for seed in 0..count {
        let mut numbers = Numbers::new(seed);
        let font = numbers.below(fonts.len());
        let font = &mut fonts[font];
        let before = font.spoil(&mut numbers);
        tried.try_file(seed, &font.path, || ask(&font.bytes, seed));
        font.mend(before);
    }
    for seed in 0..random {
        let bytes = random_file(&mut Numbers::new(seed), &fonts);
        tried.try_file(seed, "random bytes", || ask(&bytes, seed));
    }
    println!(
        "{} files of {} fonts and {random} of random bytes: {} are fonts, the slowest took {:?}, {} failed",
        count,
        fonts.len(),
        tried.parsed,
        tried.slowest,
        tried.failed
    );
    Ok(tried.failed == 0)
}

/// Random bytes; behind the beginning of a font, of half of them, and behind a directory, of a quarter.
fn random_file(numbers: &mut Numbers, fonts: &[Font]) -> Vec<u8> {
    let font = &fonts[numbers.below(fonts.len())];
    let mut bytes = match numbers.below(4) {
        0 => vec![0, 1, 0, 0],
        1 => font.bytes[..font.directory.end].to_vec(),
        _ => vec![],
    };
    let length = numbers.below(10_000);
    bytes.extend((0..length).map(|_| numbers.byte()));
    bytes
}

/// Reads a font and makes 1,000 look-ups. Returns whether it is one.
fn ask(bytes: &[u8], seed: u64) -> bool {
    let mut numbers = Numbers::new(seed);
    let index = match face_count(bytes) {
        0 => 0,
        count => numbers.draw() as u32 % count,
    };
    let Ok(face) = parse(bytes, index) else {
        return false;
    };
    for _ in 0..500 {
        black_box(face.nominal_glyph(character(&mut numbers)));
    }
    for _ in 0..150 {
        let selector = numbers.one_of(&[0xFE00, 0xFE0E, 0xFE0F, 0xE0100, 0xE0101, u32::MAX]);
        black_box(face.variation_glyph(character(&mut numbers), selector));
    }
    for _ in 0..50 {
        ask_of_glyph(&face, &mut numbers);
    }
    true
}

/// A character, mostly a letter; any number of 32 bits at times.
fn character(numbers: &mut Numbers) -> u32 {
    let number = numbers.draw() as u32;
    match numbers.below(4) {
        0 => number % 0x600,
        1 => number % 0x1_0000,
        2 => number % 0x11_0000,
        _ => numbers.number(),
    }
}

/// Seven look-ups.
fn ask_of_glyph(face: &Face<'_>, numbers: &mut Numbers) {
    let glyph = match numbers.below(4) {
        0 => numbers.draw() as u16,
        _ => (numbers.draw() % (u64::from(face.glyph_count()) + 2)) as u16,
    };
    black_box((face.h_advance(glyph), face.left_side_bearing(glyph)));
    black_box((face.v_advance(glyph), face.v_origin(glyph)));
    let outline = face.outline(glyph).filter(|outline| has_box(outline));
    black_box(outline.map(|it| (box_top(it), box_bottom(it), box_width(it))));
    black_box(face.glyph_name(glyph));
    let set = numbers.below(4) as u16;
    black_box((
        glyph_props(face.gdef, glyph),
        is_in_mark_set(face.gdef, set, glyph),
    ));
}

#[cfg(test)]
mod tests {
    use super::*;

    /// The same on each platform whose tests run, and by rustc's builds without optimization, which take their time.
    #[test]
    fn the_sample_font() {
        let path = concat!(env!("CARGO_MANIFEST_DIR"), "/../../fonts/sample.ttf");
        assert!(try_all(2_000, 200, &[path.into()], Duration::MAX).unwrap());
    }
}
