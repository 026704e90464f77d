//! All fields of a glyph, with their names.

use crate::drawing::Row;
use sengadlit::GlyphInfo;

/// What a shaper calls a glyph's bytes, and the features that its mask turns on.
#[derive(Debug, Default)]
pub(super) struct Names {
    category: Option<(&'static str, &'static str)>,
    auxiliary: Option<(&'static str, &'static str)>,
    features: Vec<String>,
}

impl Names {
    /// The names of a glyph of a row.
    pub(super) fn of(row: &Row, glyph: &GlyphInfo) -> Self {
        let category = row.category_name(glyph);
        let auxiliary = row.auxiliary_name(glyph);
        let features = row.features.iter();
        let features = features.filter(|feature| glyph.mask & feature.mask != 0);
        Names {
            category: category.map(|name| (name.short, name.meaning)),
            auxiliary: auxiliary.map(|name| (name.short, name.meaning)),
            features: features
                .map(|feature| feature.tag.0.map(char::from).iter().collect())
                .collect(),
        }
    }
}

/// The fields of a glyph.
pub(super) fn fields_of(glyph: &GlyphInfo, names: &Names) -> Vec<(&'static str, String)> {
    let syllable = format!(
        "{:02x}: serial {}, kind {}",
        glyph.syllable,
        glyph.syllable >> 4,
        glyph.syllable & 15
    );
    let props = glyph.unicode_props;
    vec![
        ("glyph", number_and_character(glyph.glyph_id)),
        ("cluster", glyph.cluster.to_string()),
        ("mask", format!("{:08x}{}", glyph.mask, features_of(names))),
        ("glyph flags", glyph_flags_of(glyph.mask)),
        ("syllable", syllable),
        ("category", named(glyph.category, names.category)),
        ("auxiliary", named(glyph.auxiliary, names.auxiliary)),
        ("combining class", props.high_byte().to_string()),
        ("general category", props.general_category().to_string()),
        ("marks", marks_of(glyph)),
    ]
}

// A glyph's number, with the character that has it.
fn number_and_character(number: u32) -> String {
    match char::from_u32(number) {
        Some(character) if !character.is_control() => format!("{number:04X} {character}"),
        _ => format!("{number:04X}"),
    }
}

// A byte with its name and what that means.
fn named(byte: u8, name: Option<(&str, &str)>) -> String {
    match name {
        Some((short, meaning)) if byte != 0 => format!("{byte}: {short}, {meaning}"),
        _ => byte.to_string(),
    }
}

fn features_of(names: &Names) -> String {
    if names.features.is_empty() {
        String::new()
    } else {
        format!(": {}", names.features.join(" "))
    }
}

// The glyph flags of a mask, by their names.
fn glyph_flags_of(mask: u32) -> String {
    let flags = [
        (1, "unsafe to break"),
        (2, "unsafe to concat"),
        (4, "safe to insert a tatweel"),
    ];
    joined(flags.into_iter().filter(|(bit, _)| mask & bit != 0))
}

// The marks of a glyph, by their names.
fn marks_of(glyph: &GlyphInfo) -> String {
    let (by_lookups, props) = (glyph.glyph_props, glyph.unicode_props);
    let named = [
        (by_lookups.is_substituted(), "substituted"),
        (by_lookups.is_ligated(), "ligated"),
        (by_lookups.is_multiplied(), "multiplied"),
        (props.is_ignorable(), "ignorable"),
        (props.is_continuation(), "continuation"),
    ];
    joined(named.into_iter().filter(|(is_set, _)| *is_set))
}

// The names of these, or that there is none.
fn joined<T>(named: impl Iterator<Item = (T, &'static str)>) -> String {
    let names: Vec<&str> = named.map(|(_, name)| name).collect();
    if names.is_empty() {
        "none".into()
    } else {
        names.join(", ")
    }
}
