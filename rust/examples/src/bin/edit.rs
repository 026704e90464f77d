//! `edit FONT TEXT BYTE WORD`: types a word into a text of one script, before the character at a byte. Each
//! key is an edit of the text, after which [`GlyphBuffer::reshape`] shapes a few clusters again; a line of
//! output tells how many of the text's clusters these were, and whether the glyphs are those of the text
//! shaped whole.
//!
//! ```text
//! --script CODE, --direction ltr|rtl   instead of those of the first letter
//! ```

use sengadlit::editing::TextEdit;
use sengadlit::ot_shape_normalize::Rounds;
use sengadlit::{Face, GlyphBuffer, ShapePlan, UnicodeBuffer, try_shape_with_plan};
use sengadlit_examples::arguments::Arguments;
use std::error::Error;
use std::fs;
use std::ops::Range;

fn main() -> Result<(), Box<dyn Error>> {
    let arguments = Arguments::read(&["--script", "--direction"])?;
    let [path, text, byte, word] = &arguments.rest[..] else {
        return Err("edit FONT TEXT BYTE WORD".into());
    };
    let (script, direction) = arguments.script(&format!("{text}{word}"))?;
    let (mut text, mut at) = (text.clone(), byte.parse()?);
    if !text.is_char_boundary(at) {
        return Err("no character begins at this byte".into());
    }
    let data = fs::read(path)?;
    let face = Face::parse(&data, 0)?;
    let plan = ShapePlan::builder().script(script).direction(direction);
    let plan = plan.rounds(Rounds::Always).build(&face)?;
    let mut glyphs = shape(&face, &plan, &text)?;
    for key in word.chars() {
        text.insert(at, key);
        let edit = TextEdit {
            start: at,
            old_end: at,
            new_end: at + key.len_utf8(),
        };
        at = edit.new_end;
        let again = glyphs.reshape(&face, &plan, &text, edit)?;
        let whole = shape(&face, &plan, &text)?;
        let verdict = if is_same(&glyphs, &whole) {
            "as the whole"
        } else {
            "NOT as the whole"
        };
        let (count, all) = (clusters(&whole, again), clusters(&whole, 0..text.len()));
        println!("{key}: {count} of {all} clusters shaped again in {text}, {verdict}");
    }
    Ok(())
}

fn shape(face: &Face<'_>, plan: &ShapePlan, text: &str) -> Result<GlyphBuffer, Box<dyn Error>> {
    let mut buffer = UnicodeBuffer::new();
    buffer.try_push_str(text)?;
    let shaped = try_shape_with_plan(face, plan, buffer);
    Ok(shaped.map_err(|refused| refused.error)?)
}

// How many clusters begin between these bytes.
fn clusters(glyphs: &GlyphBuffer, text: Range<usize>) -> usize {
    let infos = glyphs.glyph_infos();
    let clusters = infos.chunk_by(|one, next| one.cluster == next.cluster);
    clusters
        .filter(|cluster| text.contains(&(cluster[0].cluster as usize)))
        .count()
}

fn is_same(glyphs: &GlyphBuffer, whole: &GlyphBuffer) -> bool {
    let shown = |glyphs: &GlyphBuffer| -> Vec<(u32, u32)> {
        let infos = glyphs.glyph_infos().iter();
        infos.map(|glyph| (glyph.glyph_id, glyph.cluster)).collect()
    };
    shown(glyphs) == shown(whole) && glyphs.glyph_positions() == whole.glyph_positions()
}
