//! shape_sengadlit FONT TEXTS TIMES kept|anew: shapes each line of a file so many times, with one buffer
//! and plan, or with new ones for each line, and prints the sum of the glyphs' numbers.

use std::fs;

fn main() {
    let arguments: Vec<String> = std::env::args().collect();
    let [_, font, texts, times, how] = &arguments[..] else { panic!("shape_sengadlit FONT TEXTS TIMES kept|anew") };
    let font = fs::read(font).expect("a font");
    let texts = fs::read_to_string(texts).expect("texts");
    let lines: Vec<&str> = texts.lines().collect();
    let times = times.parse().expect("a number");
    let shape = match how.as_str() {
        "anew" => programs::sengadlit::shape_times_anew,
        _ => programs::sengadlit::shape_times,
    };
    println!("{}", shape(&font, &lines, times));
}
