//! How long shaping takes with the repository's own font: the words of fonts/words.txt by script, one by
//! one and in lines of ten, with a plan at hand; and a word with the font read and the plan made anew.

use sengadlit::{Face, PlanCache, Script, UnicodeBuffer, shape, shape_with_cache};
use std::collections::BTreeMap;
use std::hint::black_box;
use std::time::{Duration, Instant};

/// How long a measurement runs under `cargo bench`.
const TIME: Duration = Duration::from_millis(300);

fn main() {
    let is_measuring = std::env::args().any(|argument| argument == "--bench");
    let folder = concat!(env!("CARGO_MANIFEST_DIR"), "/../../fonts/");
    let data = std::fs::read(format!("{folder}sample.ttf")).expect("the sample font");
    let words = std::fs::read_to_string(format!("{folder}words.txt")).expect("its words");
    let face = Face::parse(&data, 0).expect("a font");
    let time = if is_measuring { TIME } else { Duration::ZERO };
    println!(
        "{:8}{:>8}{:>16}{:>16}{:>16}",
        "", "", "words, each", "lines, each", "font and word"
    );
    println!(
        "{:8}{:>8}{:>16}{:>16}{:>16}",
        "script", "texts", "ns/character", "ns/character", "ns"
    );
    for (script, words) in by_script(&words) {
        let lines: Vec<String> = words.chunks(10).map(|line| line.join(" ")).collect();
        let lines: Vec<&str> = lines.iter().map(String::as_str).collect();
        let [each, in_lines] = [&words, &lines].map(|texts| {
            let characters: usize = texts.iter().map(|text| text.chars().count()).sum();
            let mut cache = PlanCache::new();
            nanoseconds(time, || shape_all(&face, &mut cache, texts)) / characters as f64
        });
        let anew = nanoseconds(time, || {
            let face = Face::parse(black_box(&data), 0).expect("a font");
            black_box(shape(&face, &[], text_of(words[0])));
        });
        let code = String::from_utf8_lossy(&script.0);
        println!(
            "{code:8}{:>8}{each:>16.0}{in_lines:>16.0}{anew:>16.0}",
            words.len()
        );
    }
}

/// The words by the script of their first letter.
fn by_script(words: &str) -> BTreeMap<Script, Vec<&str>> {
    let mut scripts = BTreeMap::<_, Vec<_>>::new();
    for line in words.lines().filter(|line| !line.starts_with('#')) {
        let (word, _) = line.split_once(';').expect("a word and its glyphs");
        if let Some(script) = word.chars().find_map(Script::of_char) {
            scripts.entry(script).or_default().push(word);
        }
    }
    scripts
}

fn text_of(text: &str) -> UnicodeBuffer {
    let mut buffer = UnicodeBuffer::new();
    buffer.push_str(text);
    buffer
}

/// Shapes texts one after the other, in the memory of the first, with the plans of a cache.
fn shape_all(face: &Face<'_>, cache: &mut PlanCache, texts: &[&str]) {
    let mut buffer = UnicodeBuffer::new();
    for text in texts {
        buffer.push_str(text);
        let glyphs = shape_with_cache(face, cache, &[], buffer);
        assert!(glyphs.is_complete() && !glyphs.is_empty(), "{text}");
        buffer = black_box(glyphs).clear();
    }
}

/// How long a call takes, in nanoseconds: the mean of the calls that begin within this time, at least one.
fn nanoseconds(time: Duration, mut call: impl FnMut()) -> f64 {
    let start = Instant::now();
    let mut calls = 0.0;
    loop {
        call();
        calls += 1.0;
        let taken = start.elapsed();
        if taken >= time {
            return taken.as_secs_f64() * 1e9 / calls;
        }
    }
}
