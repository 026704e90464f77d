//! The repository's own font: its words are shaped as hb-shape shapes them, by its answers in
//! fonts/words.txt.

use sengadlit::{Face, SerializeFlags, UnicodeBuffer, shape};
use std::path::Path;

#[test]
fn words_of_the_sample_font() {
    let folder = Path::new(env!("CARGO_MANIFEST_DIR")).join("../../fonts");
    let data = std::fs::read(folder.join("sample.ttf")).unwrap();
    let face = Face::parse(&data, 0).unwrap();
    let mut prepared = face.clone();
    prepared.prepare();
    let words = std::fs::read_to_string(folder.join("words.txt")).unwrap();
    let mut count = 0;
    for line in words.lines().filter(|line| !line.starts_with('#')) {
        let (word, expected) = line.split_once(';').unwrap();
        for face in [&face, &prepared] {
            let mut text = UnicodeBuffer::new();
            text.push_str(word);
            let glyphs = shape(face, &[], text);
            let found = glyphs.serialize(face, SerializeFlags::default());
            assert_eq!(found.to_string(), expected, "{word}");
        }
        count += 1;
    }
    assert!(count >= 40, "{count} words");
}
