//! Shapes `0E14 0E34 0E48 0E33` with a font, by rustybuzz of the project that this is.

use rustybuzz::{shape, Face, SerializeFlags, UnicodeBuffer};

fn main() {
    let font = std::fs::read(std::env::args().nth(1).expect("a font's path")).expect("a font");
    let face = Face::from_slice(&font, 0).expect("a font");
    let mut buffer = UnicodeBuffer::new();
    buffer.push_str("\u{0E14}\u{0E34}\u{0E48}\u{0E33}");
    buffer.guess_segment_properties();
    println!("{}", shape(&face, &[], buffer).serialize(&face, SerializeFlags::default()));
}
