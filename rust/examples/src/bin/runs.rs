//! `runs FONT TEXT`: a text of several scripts, split into stretches of one script and its direction,
//! which are shaped one by one; each sees the characters beside it, so that Arabic letters join across
//! a change of font or style, too. A line of output has the stretch's bytes, script and glyphs, which
//! stand from left to right. The order of the stretches is that of the text: where scripts of both
//! directions meet, a program has Unicode's bidirectional algorithm order them.

use sengadlit::try_shape_with_cache;
use sengadlit::{Direction, Face, PlanCache, Script, SerializeFlags, UnicodeBuffer};
use std::error::Error;
use std::ops::Range;

fn main() -> Result<(), Box<dyn Error>> {
    let mut arguments = std::env::args().skip(1);
    let (Some(path), Some(text)) = (arguments.next(), arguments.next()) else {
        return Err("runs FONT TEXT".into());
    };
    let data = std::fs::read(path)?;
    let face = Face::parse(&data, 0)?;
    let (mut cache, mut buffer) = (PlanCache::new(), UnicodeBuffer::new());
    for run in runs(&text) {
        buffer.set_pre_context(&text[..run.text.start]);
        buffer.set_post_context(&text[run.text.end..]);
        buffer.set_script(run.script);
        buffer.set_direction(run.direction);
        buffer.try_push_str(&text[run.text.clone()])?;
        let shaped = try_shape_with_cache(&face, &mut cache, &[], buffer);
        let glyphs = shaped.map_err(|refused| refused.error)?;
        let code = String::from_utf8_lossy(&run.script.0);
        let printed = glyphs.serialize(&face, SerializeFlags::default());
        println!("{}..{} {code} {printed}", run.text.start, run.text.end);
        // (the next text takes the memory of this one)
        buffer = glyphs.clear();
    }
    Ok(())
}

/// The script of a text without letters, by ISO 15924.
const COMMON: Script = Script(*b"Zyyy");

/// A stretch of a text.
struct Run {
    text: Range<usize>,
    script: Script,
    direction: Direction,
}

/// The stretches of a text. A character without a script of its own, as a space or a mark, belongs to
/// the letters before it, or at the start to those behind it (Unicode Standard Annex 24, 5.1).
fn runs(text: &str) -> Vec<Run> {
    let first = text.chars().find_map(Script::of_char);
    let mut script = first.unwrap_or(COMMON);
    let mut runs: Vec<Run> = vec![];
    for (at, character) in text.char_indices() {
        script = Script::of_char(character).unwrap_or(script);
        let end = at + character.len_utf8();
        match runs.last_mut() {
            Some(run) if run.script == script => run.text.end = end,
            _ => runs.push(Run {
                text: at..end,
                script,
                direction: script.direction(),
            }),
        }
    }
    runs
}

#[cfg(test)]
mod tests {
    use super::*;
    use sengadlit::script;

    #[test]
    fn spaces_and_marks_belong_to_the_letters_before_them() {
        let split = |text| -> Vec<(Range<usize>, Script)> {
            runs(text)
                .into_iter()
                .map(|run| (run.text, run.script))
                .collect()
        };
        assert_eq!(split(""), []);
        assert_eq!(split("1, "), [(0..3, COMMON)]);
        assert_eq!(split(" a\u{301} 1"), [(0..6, script::LATIN)]);
        assert_eq!(
            split("a ب ខ"),
            [
                (0..2, script::LATIN),
                (2..5, script::ARABIC),
                (5..8, script::KHMER)
            ]
        );
        assert_eq!(runs("ab")[0].direction, Direction::LeftToRight);
        assert_eq!(runs("ب1")[0].direction, Direction::RightToLeft);
    }
}
