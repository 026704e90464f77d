//! Compares the syllables that `sengadlit` finds with those of the generated machines of HarfRust 0.12.0 and rustybuzz
//! 0.18.0.
//!
//! `spans compare RANDOM` compares all short strings of categories, and so many random ones; the last line is 'N passed,
//! M failed'. `spans worst` times the worst texts at 10^4 and 10^6 glyphs. `spans one WHO GRAMMAR` finds the syllables of
//! many strings as they stand in real words, for a tool that counts instructions; WHO is sengadlit, list or harfrust.

mod machines;

use machines::{harfrust, rustybuzz};
use sengadlit::alloc::{Global, Vec as List};
use sengadlit::spans::{Indic, Khmer, Myanmar, Universal, find_syllables, spans_into};
use sengadlit::{GeneralCategory, GlyphInfo, Span, UnicodeProps};
use std::hint::black_box;
use std::time::Instant;

const NAMES: [&str; 4] = ["Indic", "Khmer", "Myanmar", "universal"];

// The categories that each grammar names, and one that none names.
const CATEGORIES: [&[u8]; 4] = [
    &[0, 1, 2, 3, 4, 5, 6, 7, 8, 9, 10, 11, 12, 13, 14, 15, 16, 17, 18, 57],
    &[0, 1, 2, 4, 5, 6, 10, 11, 15, 20, 21, 22, 23, 25, 26, 27],
    &[0, 1, 2, 3, 4, 5, 6, 8, 9, 10, 11, 15, 18, 20, 21, 22, 23, 32, 35, 36, 37, 38, 39, 40, 41, 57],
    &[
        0, 1, 4, 5, 6, 11, 12, 13, 14, 16, 18, 22, 23, 24, 25, 26, 27, 28, 29, 30, 31, 32, 33, 34, 35, 37, 38, 39, 41,
        42, 43, 44, 45, 46, 47, 48, 49, 50, 51, 52, 53, 54, 55, 56, 57,
    ],
];

type Text = Vec<(u8, bool)>;

fn glyphs(text: &[(u8, bool)]) -> Vec<GlyphInfo> {
    let glyph = |&(category, mark)| GlyphInfo {
        category,
        unicode_props: UnicodeProps::new(if mark { GeneralCategory::Mn } else { GeneralCategory::Lo }, 0),
        ..GlyphInfo::DEFAULT
    };
    text.iter().map(glyph).collect()
}

#[inline(never)]
fn find(grammar: usize, glyphs: &mut [GlyphInfo]) {
    match grammar {
        0 => find_syllables(&Indic, glyphs),
        1 => find_syllables(&Khmer, glyphs),
        2 => find_syllables(&Myanmar, glyphs),
        _ => find_syllables(&Universal, glyphs),
    }
}

#[inline(never)]
fn list(grammar: usize, glyphs: &[GlyphInfo], spans: &mut List<Span>) {
    match grammar {
        0 => spans_into(&Indic, glyphs, spans),
        1 => spans_into(&Khmer, glyphs, spans),
        2 => spans_into(&Myanmar, glyphs, spans),
        _ => spans_into(&Universal, glyphs, spans),
    }
    .expect("memory");
}

// The bytes, by each of the two ways here, which must agree.
fn bytes(grammar: usize, text: &[(u8, bool)]) -> Vec<u8> {
    let mut found = glyphs(text);
    let mut spans = List::new(Global);
    list(grammar, &found, &mut spans);
    find(grammar, &mut found);
    let listed = spans
        .iter()
        .enumerate()
        .flat_map(|(i, span)| std::iter::repeat_n((i % 15 + 1) as u8 * 16 + span.kind, span.len));
    let found: Vec<u8> = found.iter().map(|glyph| glyph.syllable).collect();
    assert!(listed.eq(found.iter().copied()), "{} {text:?}", NAMES[grammar]);
    found
}

// The same categories with the old kinds alone: those that rustybuzz 0.18.0 knows.
fn is_old(grammar: usize, text: &[(u8, bool)]) -> bool {
    let new = [57, 0xFF, 57, 56][grammar];
    text.iter().all(|&(category, _)| category != new)
}

// Whether the text has one of the two strings on which the two crates differ.
fn differs_by_version(grammar: usize, text: &[(u8, bool)]) -> bool {
    match grammar {
        2 => text.windows(2).any(|two| two[0].0 == 8 && two[1].0 == 39) || text.iter().any(|glyph| glyph.0 == 39),
        3 => text.iter().any(|glyph| glyph.0 == 47),
        _ => false,
    }
}

#[derive(Default)]
struct Count {
    passed: u64,
    failed: u64,
    old: u64,
}

impl Count {
    fn check(&mut self, grammar: usize, text: &[(u8, bool)]) {
        let mut buffer = harfrust::buffer(text);
        harfrust::find(grammar, &mut buffer);
        let theirs: Vec<u8> = buffer.info.iter().map(|glyph| glyph.syllable).collect();
        // what is passed over in front stands in no syllable there, and here in a span of its own
        let lead = theirs.iter().take_while(|byte| **byte == 0).count();
        let mut same = lead == 0 || bytes(grammar, text)[..lead].iter().all(|byte| *byte == 0x18);
        // (they number the universal kinds from 1 on)
        let here: Vec<u8> = bytes(grammar, &text[lead..]).iter().map(|byte| byte + u8::from(grammar == 3)).collect();
        same &= theirs[lead..] == here;
        let broken = here.iter().any(|byte| byte % 16 == [4, 1, 2, 8][grammar]);
        same &= broken == (buffer.scratch_flags != 0);
        if is_old(grammar, text) && !differs_by_version(grammar, text) {
            let mut buffer = rustybuzz::buffer(text);
            rustybuzz::find(grammar, &mut buffer);
            same &= buffer.info.iter().map(|glyph| glyph.syllable).eq(theirs.iter().copied());
            self.old += 1;
        }
        self.passed += u64::from(same);
        self.failed += u64::from(!same);
        if !same && self.failed <= 5 {
            println!("{} {text:?}: {here:02X?} here, {theirs:02X?} there", NAMES[grammar]);
        }
    }
}

// All strings of so many glyphs.
fn each(alphabet: &[(u8, bool)], length: usize, mut f: impl FnMut(&[(u8, bool)])) {
    let mut places = vec![0; length];
    loop {
        let text: Text = places.iter().map(|&place| alphabet[place]).collect();
        f(&text);
        let Some(i) = places.iter().rposition(|&place| place + 1 < alphabet.len()) else { return };
        places[i] += 1;
        places[i + 1..].fill(0);
    }
}

// xorshift
struct Random(u64);

impl Random {
    fn below(&mut self, n: usize) -> usize {
        self.0 ^= self.0 << 13;
        self.0 ^= self.0 >> 7;
        self.0 ^= self.0 << 17;
        (self.0 % n as u64) as usize
    }
}

fn compare(random: u64) -> u64 {
    let mut all = Count::default();
    for grammar in 0..4 {
        let mut alphabet: Text = CATEGORIES[grammar].iter().map(|&category| (category, false)).collect();
        if grammar == 3 {
            alphabet.extend([(1, true), (6, true), (14, true), (33, true)]);
        }
        let mut count = Count::default();
        let longest = [4, 4, 3, 3][grammar];
        for length in 0..=longest {
            each(&alphabet, length, |text| count.check(grammar, text));
        }
        let mut source = Random(0x9E37_79B9_7F4A_7C15);
        for _ in 0..random {
            let few: Text = (0..=source.below(8)).map(|_| alphabet[source.below(alphabet.len())]).collect();
            let text: Text = (0..source.below(40)).map(|_| few[source.below(few.len())]).collect();
            count.check(grammar, &text);
        }
        println!(
            "{}: all strings up to {longest}, and {random} random ones: {} as HarfRust's, {} of them looked up in rustybuzz's too, {} differ",
            NAMES[grammar], count.passed, count.old, count.failed
        );
        all.passed += count.passed;
        all.failed += count.failed;
    }
    println!("{} passed, {} failed", all.passed, all.failed);
    all.failed
}

// Texts in which a run may belong to what comes behind it.
const WORST: &[(usize, &str, &[u8])] = &[
    (0, "ZWNJ", &[5]),
    (0, "C, 9 ZWNJ", &[1, 5, 5, 5, 5, 5, 5, 5, 5, 5]),
    (0, "C H", &[1, 4]),
    (1, "ZWJ", &[6]),
    (1, "VAbv ZWJ", &[20, 6]),
    (2, "Ra As", &[15, 32]),
    (3, "SB", &[51]),
    (3, "SB CGJ", &[51, 6]),
    (3, "ZWNJ CGJ", &[14, 6]),
    (3, "B, 9 CGJ", &[1, 6, 6, 6, 6, 6, 6, 6, 6, 6]),
    (3, "N HN", &[4, 13]),
];

fn worst() {
    println!("nanoseconds per glyph at 10^4 and 10^6 glyphs, and HarfRust's at 10^4");
    for &(grammar, name, unit) in WORST {
        let text =
            |n: usize| -> Text { unit.iter().copied().cycle().take(n).map(|category| (category, false)).collect() };
        let here = |n: usize| {
            let mut found = glyphs(&text(n));
            let start = Instant::now();
            find(grammar, black_box(&mut found));
            start.elapsed().as_secs_f64() * 1e9 / n as f64
        };
        let mut buffer = harfrust::buffer(&text(10_000));
        let start = Instant::now();
        harfrust::find(grammar, &mut buffer);
        let theirs = start.elapsed().as_secs_f64() * 1e9 / 1e4;
        println!("{:10} {name:12} {:8.1} {:8.1} {theirs:10.1}", NAMES[grammar], here(10_000), here(1_000_000));
    }
}

// Syllables as they stand in words, by category; `m` in the original lists is a mark.
const WORDS: [&[&[u8]]; 4] = [
    &[&[1, 7, 1, 4, 1, 7], &[1, 1, 7, 8], &[15, 4, 1, 7, 1], &[2, 1, 4, 15, 7, 1, 7], &[1, 7, 8, 1, 7, 1, 4, 1]],
    &[&[1, 4, 1, 23, 1], &[1, 20, 1, 4, 15, 22], &[1, 25, 21, 1, 26], &[2, 1, 23, 1, 4, 1, 27], &[1, 22, 1]],
    &[&[1, 36, 20, 8, 1, 32], &[1, 21, 9, 1, 32], &[15, 32, 4, 1, 23], &[1, 38, 37, 23, 1, 32, 8], &[2, 1, 22, 35]],
    &[&[1, 33, 1, 12, 1, 34], &[1, 35, 39, 1], &[1, 28, 33, 1, 24], &[1, 22, 1, 37, 1, 12, 1, 35], &[4, 1, 33]],
];

fn one(who: &str, grammar: usize) {
    let texts: Vec<Text> =
        WORDS[grammar].iter().map(|word| word.iter().map(|&category| (category, category > 15)).collect()).collect();
    let mut spans = List::new(Global);
    let mut count = 0;
    let mut here: Vec<_> = texts.iter().map(|text| glyphs(text)).collect();
    let mut there: Vec<_> = texts.iter().map(|text| harfrust::buffer(text)).collect();
    for _ in 0..2000 {
        for i in 0..texts.len() {
            count += texts[i].len();
            match who {
                "sengadlit" => find(grammar, black_box(&mut here[i])),
                "list" => list(grammar, black_box(&here[i]), &mut spans),
                _ => harfrust::find(grammar, black_box(&mut there[i])),
            }
        }
    }
    println!("{count} glyphs");
}

fn main() {
    let words: Vec<String> = std::env::args().skip(1).collect();
    match words.iter().map(String::as_str).collect::<Vec<_>>()[..] {
        ["compare", random] => {
            if compare(random.parse().expect("a number")) > 0 {
                std::process::exit(1);
            }
        }
        ["worst"] => worst(),
        ["one", who, grammar] => one(who, grammar.parse().expect("the number of a grammar")),
        _ => panic!("spans compare RANDOM | worst | one WHO GRAMMAR"),
    }
}
