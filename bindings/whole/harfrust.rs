//! Shapes the lines of a file with HarfRust as it is: `harfrust FONT TEXTS TIMES HOW SCRIPT DIRECTION`.

use harfrust::{Direction, FontRef, Script, ShapeOptions, ShapePlan, ShaperData, UnicodeBuffer};
use std::{env, fs, process};

/// How many texts are shaped with a font that has just been read.
const FIRST: usize = 10;

fn main() {
    let arguments: Vec<String> = env::args().skip(1).collect();
    let [font, texts, times, how, script, direction] = &arguments[..] else {
        eprintln!("usage: harfrust FONT TEXTS TIMES anew|cache|first|kept SCRIPT ltr|rtl");
        process::exit(2);
    };
    let data = fs::read(font).expect("the font can be read");
    let texts = fs::read_to_string(texts).expect("the texts can be read");
    let lines: Vec<&str> = texts.lines().collect();
    let times: usize = times.parse().expect("a number of times");
    let script: Script = script.parse().expect("a script");
    let direction = match direction.as_str() {
        "rtl" => Direction::RightToLeft,
        _ => Direction::LeftToRight,
    };
    let sum = if how == "first" {
        let lines = &lines[..lines.len().min(FIRST)];
        let sums = (0..times).map(|_| shape_all(&data, lines, 1, "anew", script, direction));
        sums.sum()
    } else {
        shape_all(&data, &lines, times, how, script, direction)
    };
    println!("{sum}");
}

/// Reads the font, and adds up the numbers of the glyphs of all lines, so many times.
fn shape_all(data: &[u8], lines: &[&str], times: usize, how: &str, script: Script, direction: Direction) -> u64 {
    let font = FontRef::new(data).expect("a font");
    let shaper_data = ShaperData::new(&font);
    let shaper = shaper_data.shaper(&font).build();
    // (HarfRust has no cache of plans, so `cache` keeps the plan that a caller would keep)
    let plan = (how != "anew").then(|| ShapePlan::new(&shaper, direction, Some(script), None, &[]));
    let (mut buffer, mut sum) = (UnicodeBuffer::new(), 0u64);
    for line in (0..times).flat_map(|_| lines) {
        buffer.push_str(line);
        buffer.set_script(script);
        buffer.set_direction(direction);
        let glyphs = shaper.shape(buffer, ShapeOptions::new().plan(plan.as_ref()));
        let numbers = glyphs.glyph_infos().iter().map(|glyph| u64::from(glyph.glyph_id));
        sum += numbers.sum::<u64>();
        buffer = match how {
            "kept" => glyphs.clear(),
            _ => UnicodeBuffer::new(),
        };
    }
    sum
}
