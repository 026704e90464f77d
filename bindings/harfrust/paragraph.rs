//! paragraph FONT TEXTS: lays out, by parley, a paragraph of several lines: those Bengali words of a
//! file that begin with a consonant and the vowel sign E or AI, which is drawn before it, in a form
//! of its own at a word's start. Prints how many lines begin with the glyph that the line has as a
//! paragraph of its own.

use parley::fontique::{Blob, Collection, CollectionOptions, SourceCache};
use parley::{FontContext, FontFamily, Layout, LayoutContext, PositionedLayoutItem, StyleProperty};
use std::sync::Arc;

const MOST: usize = 200;

fn begins_with_a_left_sign(word: &&str) -> bool {
    let mut characters = word.chars();
    let consonant = characters.next().is_some_and(|c| ('\u{995}'..='\u{9B9}').contains(&c));
    consonant && characters.next().is_some_and(|c| matches!(c, '\u{9C7}' | '\u{9C8}'))
}

/// The number of the first glyph of each line.
fn first_glyphs(fonts: &mut FontContext, family: &str, text: &str) -> Vec<Option<u32>> {
    let mut context = LayoutContext::new();
    let mut builder = context.ranged_builder(fonts, text, 1.0, true);
    builder.push_default(StyleProperty::FontFamily(FontFamily::named(family)));
    let mut layout: Layout<()> = builder.build(text);
    layout.break_all_lines(None);
    let first = |item: PositionedLayoutItem<'_, ()>| match item {
        PositionedLayoutItem::GlyphRun(run) => run.glyphs().next().map(|glyph| glyph.id),
        PositionedLayoutItem::InlineBox(_) => None,
    };
    layout.lines().map(|line| line.items().find_map(first)).collect()
}

fn main() {
    let arguments: Vec<String> = std::env::args().collect();
    let [_, font, texts] = &arguments[..] else { panic!("paragraph FONT TEXTS") };
    let mut collection = Collection::new(CollectionOptions { shared: false, system_fonts: false });
    let font = Blob::new(Arc::new(std::fs::read(font).expect("a font")));
    let (family, _) = collection.register_fonts(font, None)[0].clone();
    let name = collection.family_name(family).expect("a name").to_string();
    let mut fonts = FontContext { collection, source_cache: SourceCache::default() };
    let texts = std::fs::read_to_string(texts).expect("texts");
    let words: Vec<&str> = texts.lines().filter(begins_with_a_left_sign).take(MOST).collect();
    let lines = first_glyphs(&mut fonts, &name, &words.join("\n"));
    let right =
        words.iter().zip(&lines).filter(|(word, first)| first_glyphs(&mut fonts, &name, word)[0] == **first).count();
    println!("{right} of {} lines begin in the form of a word's start", lines.len());
}
