//! What a step did, in sentences.

use sengadlit::GlyphInfo;
use std::collections::{BTreeMap, BTreeSet};

// The most glyphs that are told one by one.
const MOST_TOLD: usize = 4;

// The glyph flags among the bits of a mask.
const GLYPH_FLAGS: u32 = 7;

/// What a step did to the glyphs before it; `origins` has the place before of each glyph after it, or
/// nothing where that isn't known.
pub(super) fn told(before: &[GlyphInfo], after: &[GlyphInfo], origins: &[usize]) -> String {
    if origins.len() != after.len() {
        return counted(before, after);
    }
    let pairs: Vec<Pair> = origins
        .iter()
        .zip(after)
        .filter_map(|(place, after)| Some((before.get(*place)?, after)))
        .collect();
    let mut parts = moves(after, origins);
    parts.extend(changes(&pairs));
    parts.extend(comings(before, after, origins));
    parts.extend(merges(&pairs));
    parts.extend(fields(&pairs));
    if parts.is_empty() {
        return "Nothing changed.".into();
    }
    capitalized(&parts.join("; ")) + "."
}

// How many glyphs are others, where it isn't known what each came from.
fn counted(before: &[GlyphInfo], after: &[GlyphInfo]) -> String {
    if before.len() != after.len() {
        let glyphs = if before.len() == 1 { "glyph" } else { "glyphs" };
        return format!("{} {glyphs} became {}.", before.len(), after.len());
    }
    let pairs = before.iter().zip(after);
    let count = pairs.filter(|(a, b)| a.glyph_id != b.glyph_id).count();
    match count {
        0 => "The glyphs are the same.".into(),
        1 => "1 glyph became another.".into(),
        _ if sorted_numbers(before) == sorted_numbers(after) => {
            "The same glyphs stand in another order.".into()
        }
        _ => format!("{count} glyphs became others."),
    }
}

fn sorted_numbers(glyphs: &[GlyphInfo]) -> Vec<u32> {
    let mut numbers: Vec<u32> = glyphs.iter().map(|glyph| glyph.glyph_id).collect();
    numbers.sort_unstable();
    numbers
}

// A sentence's first letter as a capital.
fn capitalized(text: &str) -> String {
    let mut characters = text.chars();
    let first = characters.next().map(|first| first.to_ascii_uppercase());
    first.into_iter().chain(characters).collect()
}

/// The places whose glyphs moved: the fewest without which the others stand in their old order.
pub(super) fn moved_places(origins: &[usize]) -> BTreeSet<usize> {
    // ends[n] is the place of the least last origin of a row of n + 1 glyphs in order.
    let mut ends: Vec<usize> = Vec::new();
    let mut previous: Vec<Option<usize>> = Vec::new();
    for (place, origin) in origins.iter().enumerate() {
        let count = ends.partition_point(|end| origins[*end] <= *origin);
        previous.push(count.checked_sub(1).map(|i| ends[i]));
        ends.truncate(ends.len().max(count));
        match ends.get_mut(count) {
            Some(end) => *end = place,
            None => ends.push(place),
        }
    }
    let mut moved: BTreeSet<usize> = (0..origins.len()).collect();
    let mut place = ends.last().copied();
    while let Some(stayed) = place {
        moved.remove(&stayed);
        place = previous[stayed];
    }
    moved
}

// A glyph before the step, and what became of it.
type Pair<'a> = (&'a GlyphInfo, &'a GlyphInfo);

// The glyphs that moved.
fn moves(after: &[GlyphInfo], origins: &[usize]) -> Vec<String> {
    let moved = moved_places(origins);
    let told = moved.iter().map(|place| {
        let number = after[*place].glyph_id;
        let origin = origins[*place];
        format!("{number:04X} moved from place {origin} to place {place}")
    });
    shortened(told.collect(), "moved")
}

// The glyphs that became others.
fn changes(pairs: &[Pair]) -> Vec<String> {
    let changed = pairs.iter().filter(|(a, b)| a.glyph_id != b.glyph_id);
    let told = changed.map(|(a, b)| format!("{:04X} became {:04X}", a.glyph_id, b.glyph_id));
    shortened(told.collect(), "became others")
}

// The glyphs that came in, which share the place of another, and those that nothing came from.
fn comings(before: &[GlyphInfo], after: &[GlyphInfo], origins: &[usize]) -> Vec<String> {
    let mut seen = BTreeSet::new();
    let new = after
        .iter()
        .zip(origins)
        .filter(|(_, origin)| !seen.insert(**origin));
    let came = new.map(|(glyph, _)| format!("{:04X} came in", glyph.glyph_id));
    let mut parts = shortened(came.collect(), "came in");
    let gone = (0..before.len()).filter(|place| !origins.contains(place));
    let went = gone.map(|place| format!("{:04X} went into another", before[place].glyph_id));
    parts.extend(shortened(went.collect(), "went into others"));
    parts
}

// The clusters that became one.
fn merges(pairs: &[Pair]) -> Vec<String> {
    let mut olds: BTreeMap<u32, BTreeSet<u32>> = BTreeMap::new();
    for (before, after) in pairs {
        olds.entry(after.cluster)
            .or_default()
            .insert(before.cluster);
    }
    let merged = olds.iter().filter(|(_, olds)| olds.len() > 1);
    let told = merged.map(|(cluster, olds)| {
        let olds: Vec<String> = olds.iter().map(u32::to_string).collect();
        format!("clusters {} merged into {cluster}", olds.join(", "))
    });
    shortened(told.collect(), "merged")
}

// How many glyphs have other fields.
fn fields(pairs: &[Pair]) -> Vec<String> {
    let count = |differs: &dyn Fn(&Pair) -> bool| pairs.iter().filter(|pair| differs(pair)).count();
    let counts = [
        (
            count(&|(a, b)| (a.mask ^ b.mask) & !GLYPH_FLAGS != 0),
            "other features",
        ),
        (
            count(&|(a, b)| (a.mask ^ b.mask) & GLYPH_FLAGS != 0),
            "other glyph flags",
        ),
        (
            count(&|(a, b)| a.syllable != b.syllable),
            "another syllable",
        ),
        (
            count(&|(a, b)| (a.category, a.auxiliary) != (b.category, b.auxiliary)),
            "another category",
        ),
        (
            count(&|(a, b)| (a.glyph_props, a.unicode_props) != (b.glyph_props, b.unicode_props)),
            "other properties",
        ),
    ];
    let told = counts.into_iter().filter(|(count, _)| *count > 0);
    told.map(|(count, what)| match count {
        1 => format!("1 glyph has {what}"),
        _ => format!("{count} glyphs have {what}"),
    })
    .collect()
}

// The first of these, and how many more there are that did the same.
fn shortened(mut told: Vec<String>, did: &str) -> Vec<String> {
    let more = told.len().saturating_sub(MOST_TOLD);
    if more > 0 {
        told.truncate(MOST_TOLD);
        told.push(format!("{more} more {did}"));
    }
    told
}
