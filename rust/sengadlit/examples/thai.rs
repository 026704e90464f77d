//! Takes a line of Thai through the hook before normalization, and prints its glyphs: character,
//! cluster, mask, syllable, category, auxiliary byte, combining class.
//!
//! `cargo run --example thai`, or with a text `cargo run --example thai -- ก่ำ`

use sengadlit::font::NominalOnly;
use sengadlit::{Buffer, GlyphId, GlyphInfo, Plan, Shaper, script};
use std::env;
use std::error::Error;

/// The glyph of a font that has one for each character of Thai.
fn glyph_of(c: u32) -> Option<GlyphId> {
    let number = u16::try_from(c).ok()?.checked_sub(0x0E00)?;
    (number < 0x80).then_some(GlyphId(number))
}

/// The glyphs of a text, as a font wants them that has Thai in its GSUB table. Clusters are places of
/// characters.
fn shape(text: &str) -> Result<Buffer, Box<dyn Error>> {
    let plan = Plan::builder()
        .script(script::THAI)
        .found_script(true)
        .build_for(Shaper::Thai)?;
    let characters = (0..).zip(text.chars());
    let mut buffer: Buffer = characters
        .map(|(place, character)| GlyphInfo::of_character(character, place))
        .collect();
    buffer.set_script(plan.script);
    Shaper::Thai.checked_preprocess_text(&plan, &NominalOnly(glyph_of), &mut buffer)?;
    Ok(buffer)
}

/// The line of a glyph.
fn line(glyph: &GlyphInfo) -> String {
    format!(
        "{:04x} {} {:08x} {:02x} {} {} {}",
        glyph.glyph_id,
        glyph.cluster,
        glyph.mask,
        glyph.syllable,
        glyph.category,
        glyph.auxiliary,
        glyph.unicode_props.modified_combining_class(),
    )
}

fn main() -> Result<(), Box<dyn Error>> {
    // DO DEK, MAI CHATTAWA, SARA AM
    let text = env::args().nth(1);
    let text = text.as_deref().unwrap_or("\u{0E14}\u{0E4B}\u{0E33}");
    for glyph in &shape(text)? {
        println!("{}", line(glyph));
    }
    Ok(())
}
