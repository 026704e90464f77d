//! Shapes `0E14 0E34 0E48 0E33` with a font, by harfrust of the project that this is.

use harfrust::{FontRef, SerializeFlags, ShapeOptions, ShaperData, UnicodeBuffer};

fn main() {
    let font = std::fs::read(std::env::args().nth(1).expect("a font's path")).expect("a font");
    let font = FontRef::new(&font).expect("a font");
    let data = ShaperData::new(&font);
    let shaper = data.shaper(&font).build();
    let mut buffer = UnicodeBuffer::new();
    buffer.push_str("\u{0E14}\u{0E34}\u{0E48}\u{0E33}");
    buffer.guess_segment_properties();
    println!("{}", shaper.shape(buffer, ShapeOptions::new()).serialize(&shaper, SerializeFlags::default()));
}
