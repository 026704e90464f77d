//! Texts in fonts with spoilt bytes: none may panic, become longer than is promised, or take long.

use crate::spoilt::{Font, Tried};
use sengadlit::opentype_face::face::parse;
use sengadlit::{Face, UnicodeBuffer, try_shape};
use sengadlit_tests::numbers::Numbers;
use std::error::Error;
use std::time::Duration;

/// How long a text may take in a font that is only parsed and in one that is prepared, together: a
/// second each. (In the slowest of 100,000 spoilt fonts both take 0.9 seconds, with checks of overflow.)
pub const MOST: Duration = Duration::from_secs(2);
/// How many characters a text has.
const LENGTH: usize = 1000;
/// A text's characters stand beside each other among those of its font, so that they are of one script.
const NEIGHBOURS: usize = 60;

/// A font, and the characters that it has glyphs for.
struct Sample {
    font: Font,
    characters: Vec<char>,
}

impl Sample {
    fn read(path: &str) -> Result<Self, Box<dyn Error>> {
        let font = Font::read(path)?;
        let face = parse(&font.bytes, 0).map_err(|error| format!("{path}: {error:?}"))?;
        let has_glyph = |it: &char| face.nominal_glyph(u32::from(*it)).is_some();
        let characters: Vec<char> = ('\u{21}'..='\u{1FFFF}').filter(has_glyph).collect();
        if characters.is_empty() {
            return Err(format!("{path} has no characters").into());
        }
        Ok(Sample { font, characters })
    }

    fn text(&self, numbers: &mut Numbers) -> String {
        let start = numbers.below(self.characters.len());
        let end = self.characters.len().min(start + NEIGHBOURS);
        let script = &self.characters[start..end];
        (0..LENGTH).map(|_| numbers.one_of(script)).collect()
    }
}

/// Tries that many fonts, prints what was tried, and returns whether nothing failed.
pub fn try_all(count: u64, paths: &[String], most: Duration) -> Result<bool, Box<dyn Error>> {
    let samples: Result<Vec<Sample>, _> = paths.iter().map(|path| Sample::read(path)).collect();
    let mut samples = samples?;
    let mut tried = Tried::new(most);
    for seed in 0..count {
        let mut numbers = Numbers::new(seed);
        let index = numbers.below(samples.len());
        let text = samples[index].text(&mut numbers);
        let font = &mut samples[index].font;
        let before = font.spoil(&mut numbers);
        tried.try_file(seed, &font.path, || shape_twice(&font.bytes, &text));
        font.mend(before);
    }
    println!(
        "{count} texts in spoilt files of {} fonts: {} are fonts, the slowest took {:?}, {} failed",
        samples.len(),
        tried.parsed,
        tried.slowest,
        tried.failed
    );
    Ok(tried.failed == 0)
}

/// Shapes a text in a face as it was parsed and in the same, prepared, which gives the same. Returns
/// whether the bytes are a font.
fn shape_twice(bytes: &[u8], text: &str) -> bool {
    let Ok(mut face) = Face::parse(bytes, 0) else {
        return false;
    };
    let parsed = glyphs(&face, text);
    face.prepare();
    assert_eq!(parsed, glyphs(&face, text), "prepared");
    true
}

/// A text's glyphs with their clusters, or why it is refused; they are no more than is promised.
fn glyphs(face: &Face<'_>, text: &str) -> Result<Vec<(u32, u32)>, String> {
    let mut buffer = UnicodeBuffer::new();
    buffer.push_str(text);
    let shaped = try_shape(face, &[], buffer).map_err(|error| format!("{error:?}"))?;
    let infos = shaped.glyph_infos();
    assert!(infos.len() <= 65_536.max(256 * LENGTH), "{}", infos.len());
    Ok(infos.iter().map(|it| (it.glyph_id, it.cluster)).collect())
}

#[cfg(test)]
mod tests {
    use super::*;

    #[test]
    fn the_sample_font() {
        let path = concat!(env!("CARGO_MANIFEST_DIR"), "/../../fonts/sample.ttf");
        assert!(try_all(200, &[path.into()], Duration::MAX).unwrap());
    }
}
