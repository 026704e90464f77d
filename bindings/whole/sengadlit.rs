//! Shapes the lines of a file with the crate: `sengadlit FONT TEXTS TIMES HOW SCRIPT DIRECTION`.

use sengadlit::{
    Direction, Face, GlyphBuffer, PlanCache, Script, ShapePlan, UnicodeBuffer, shape, shape_with_cache, shape_with_plan,
};
use std::{env, fs, process};

/// What is kept from text to text.
enum Kept {
    Nothing,
    Plans(PlanCache),
    Plan(ShapePlan),
}

/// How many texts are shaped with a font that has just been read.
const FIRST: usize = 10;

fn main() {
    let arguments: Vec<String> = env::args().skip(1).collect();
    let [font, texts, times, how, script, direction] = &arguments[..] else {
        eprintln!("usage: sengadlit FONT TEXTS TIMES anew|cache|first|kept|parsed|prepare|prepared SCRIPT ltr|rtl");
        process::exit(2);
    };
    let data = fs::read(font).expect("the font can be read");
    let texts = fs::read_to_string(texts).expect("the texts can be read");
    let lines: Vec<&str> = texts.lines().collect();
    let times: usize = times.parse().expect("a number of times");
    let script = Script(script.as_bytes().try_into().expect("four letters"));
    let direction = match direction.as_str() {
        "rtl" => Direction::RightToLeft,
        _ => Direction::LeftToRight,
    };
    let sum = match how.as_str() {
        "first" => first(&data, &lines, times, script, direction),
        "prepare" => prepare(&data, times),
        how => shape_all(&data, &lines, times, how, script, direction),
    };
    println!("{sum}");
}

/// Adds up the numbers of the glyphs of all lines, so many times.
fn shape_all(data: &[u8], lines: &[&str], times: usize, how: &str, script: Script, direction: Direction) -> u64 {
    let mut face = Face::parse(data, 0).expect("a font");
    if matches!(how, "kept" | "cache" | "prepared") {
        face.prepare();
    }
    let mut kept = match how {
        "kept" | "parsed" => Kept::Plan(ShapePlan::new(&face, direction, Some(script), None, &[])),
        "cache" => Kept::Plans(PlanCache::new()),
        _ => Kept::Nothing,
    };
    let (mut buffer, mut sum) = (UnicodeBuffer::new(), 0);
    for line in (0..times).flat_map(|_| lines) {
        set(&mut buffer, line, script, direction);
        let glyphs = match &mut kept {
            Kept::Nothing => shape(&face, &[], buffer),
            Kept::Plans(cache) => shape_with_cache(&face, cache, &[], buffer),
            Kept::Plan(plan) => shape_with_plan(&face, plan, buffer),
        };
        sum += numbers(&glyphs);
        buffer = match kept {
            Kept::Plan(_) => glyphs.clear(),
            _ => UnicodeBuffer::new(),
        };
    }
    sum
}

/// Reads the font each time, and shapes the first lines.
fn first(data: &[u8], lines: &[&str], times: usize, script: Script, direction: Direction) -> u64 {
    let mut sum = 0;
    for _ in 0..times {
        let face = Face::parse(data, 0).expect("a font");
        for line in lines.iter().take(FIRST) {
            let mut buffer = UnicodeBuffer::new();
            set(&mut buffer, line, script, direction);
            sum += numbers(&shape(&face, &[], buffer));
        }
    }
    sum
}

/// Reads and prepares the font each time.
fn prepare(data: &[u8], times: usize) -> u64 {
    let mut sum = 0;
    for _ in 0..times {
        let mut face = Face::parse(data, 0).expect("a font");
        face.prepare();
        sum += u64::from(face.glyph_count());
    }
    sum
}

fn set(buffer: &mut UnicodeBuffer, line: &str, script: Script, direction: Direction) {
    buffer.push_str(line);
    buffer.set_script(script);
    buffer.set_direction(direction);
}

fn numbers(glyphs: &GlyphBuffer) -> u64 {
    let numbers = glyphs.glyph_infos().iter().map(|glyph| u64::from(glyph.glyph_id));
    numbers.sum()
}
