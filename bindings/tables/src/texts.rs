//! Texts in UTF-8, UTF-16 and UTF-32 at random, decoded by the C library's decoder and by HarfBuzz's.

use crate::encodings::{Unit, characters, first, last};
use crate::rows::ask;

/// How many texts of each encoding.
const COUNT: u64 = 200_000;

// Units at which a decoder branches, and others.
const UNITS: [(u32, &str, &[u32]); 3] = [
    (
        1,
        "UTF-8",
        &[
            0x41, 0x7F, 0x80, 0x8F, 0x90, 0x9F, 0xA0, 0xBF, 0xC0, 0xC1, 0xC2, 0xDF, 0xE0, 0xE1, 0xEC, 0xED, 0xEE, 0xEF,
            0xF0, 0xF1, 0xF3, 0xF4, 0xF5, 0xFF, 0x9E, 0xA5, 0xE3,
        ],
    ),
    (2, "UTF-16", &[0x41, 0xD7FF, 0xD800, 0xD801, 0xDBFF, 0xDC00, 0xDC01, 0xDFFF, 0xE000, 0xFFFF, 0x1780]),
    (4, "UTF-32", &[0x41, 0xD7FF, 0xD800, 0xDFFF, 0xE000, 0x1780, 0x10_FFFF, 0x11_0000, u32::MAX]),
];

// xorshift
struct Random(u64);

impl Random {
    fn below(&mut self, n: usize) -> usize {
        self.0 ^= self.0 << 13;
        self.0 ^= self.0 >> 7;
        self.0 ^= self.0 << 17;
        (self.0 % n as u64) as usize
    }
}

struct Text {
    bytes: u32,
    units: Vec<u32>,
    start: usize,
    end: usize,
}

fn texts(bytes: u32, alphabet: &[u32]) -> Vec<Text> {
    let mut random = Random(0x9E37_79B9_7F4A_7C15);
    let mut text = || {
        let units: Vec<u32> = (0..random.below(40)).map(|_| alphabet[random.below(alphabet.len())]).collect();
        let start = random.below(units.len() + 1);
        let end = start + random.below(units.len() - start + 1);
        Text { bytes, units, start, end }
    };
    (0..COUNT).map(|_| text()).collect()
}

fn asked(text: &Text) -> Vec<u32> {
    let head = [text.bytes, text.units.len() as u32, text.start as u32, (text.end - text.start) as u32];
    [&head, &text.units[..]].concat()
}

// What is written of a text: the context before, the characters with their clusters, the context after.
fn decoded<U: Unit>(units: &[U], start: usize, end: usize) -> Vec<u32> {
    let mut written = Vec::new();
    let mut room = ['\0'; 5];
    let before = last(&units[..start], &mut room);
    written.push(before.len() as u32);
    written.extend(before.iter().map(|character| u32::from(*character)));
    let text: Vec<(usize, char)> = characters(&units[start..end]).collect();
    written.push(text.len() as u32);
    written.extend(text.iter().flat_map(|(place, character)| [u32::from(*character), (start + place) as u32]));
    let after = first(&units[end..], &mut room);
    written.push(after.len() as u32);
    written.extend(after.iter().map(|character| u32::from(*character)));
    written
}

fn ours(text: &Text) -> Vec<u32> {
    let (start, end) = (text.start, text.end);
    match text.bytes {
        1 => decoded(&text.units.iter().map(|unit| *unit as u8).collect::<Vec<_>>(), start, end),
        2 => decoded(&text.units.iter().map(|unit| *unit as u16).collect::<Vec<_>>(), start, end),
        _ => decoded(&text.units, start, end),
    }
}

/// Compares all three encodings; how many passed and failed.
pub fn compare(program: &str) -> (u64, u64) {
    let (mut passed, mut failed) = (0, 0);
    for (bytes, name, alphabet) in UNITS {
        let texts = texts(bytes, alphabet);
        let input: Vec<u8> = texts.iter().flat_map(asked).flat_map(u32::to_ne_bytes).collect();
        let printed = ask(program, &["texts"], input);
        let mut theirs = printed.chunks_exact(4).map(|word| u32::from_ne_bytes(word.try_into().expect("four")));
        let wrong = texts.iter().find(|text| {
            let ours = ours(text);
            let theirs: Vec<u32> = theirs.by_ref().take(ours.len()).collect();
            ours != theirs
        });
        match wrong {
            None => println!("HarfBuzz: {COUNT} texts in {name} are decoded alike"),
            Some(text) => println!("FAILED: {name}, {:04X?}, from {} to {}", text.units, text.start, text.end),
        }
        passed += u64::from(wrong.is_none());
        failed += u64::from(wrong.is_some());
    }
    (passed, failed)
}
