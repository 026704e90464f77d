//! Texts shaped again and again in one buffer, with one plan: the buffer keeps its lists, so that
//! soon no text takes memory.

use crate::allocator::refusing;
use sengadlit::{Face, Script, ShapePlan, UnicodeBuffer, script, shape_with_plan};

/// Words of the scripts that the repository's font draws, and of three that it lacks.
const WORDS: [(Script, &[&str]); 8] = [
    (script::LATIN, &["Tofi", "LATVo", "fluffy", "née", "ẹ́ọ̀"]),
    (script::ARABIC, &["سلام", "العربية", "لا", "بِسْمِ", "لَّا"]),
    (script::DEVANAGARI, &["हिन्दी", "कर्म", "क्षेत्र", "र्कि", "ि"]),
    (script::KHMER, &["ខ្មែរ", "ក្រុង", "កោ", "ន្តី", "ំ"]),
    (script::THAI, &["ภาษาไทย", "ที่นี่", "น้ำ", "ำ"]),
    (script::HEBREW, &["שָׁלוֹם", "בּ"]),
    (script::MYANMAR, &["မြန်မာ", "ဦ"]),
    (script::HANGUL, &["한글", "각", "\u{1100}\u{1161}"]),
];

/// How many requests for memory the fifth of five calls makes that shape this text.
fn requests_of_the_fifth(face: &Face<'_>, plan: &ShapePlan, script: Script, text: &str) -> usize {
    let mut buffer = UnicodeBuffer::new();
    let mut requests = 0;
    for _ in 0..5 {
        buffer.push_str(text);
        buffer.set_script(script);
        buffer.set_direction(script.direction());
        let (glyphs, count) = refusing(0, || shape_with_plan(face, plan, buffer));
        assert!(glyphs.is_complete() && !glyphs.is_empty(), "{text}");
        requests = count;
        buffer = glyphs.clear();
    }
    requests
}

/// The repository's font, prepared or not, with a plan for the script.
fn with_plans(script: Script, test: impl Fn(&Face<'_>, &ShapePlan)) {
    let font = concat!(env!("CARGO_MANIFEST_DIR"), "/../../fonts/sample.ttf");
    let data = std::fs::read(font).unwrap();
    let face = Face::parse(&data, 0).unwrap();
    let mut prepared = face.clone();
    prepared.prepare();
    for face in [&face, &prepared] {
        let plan = ShapePlan::new(face, script.direction(), Some(script), None, &[]);
        test(face, &plan);
    }
}

pub fn the_fifth_text_takes_no_memory() {
    for (script, words) in WORDS {
        let line = words.join(" ").repeat(5);
        with_plans(script, |face, plan| {
            for text in words.iter().copied().chain([&line[..]]) {
                let requests = requests_of_the_fifth(face, plan, script, text);
                assert_eq!(requests, 0, "{text}");
            }
        });
    }
}
