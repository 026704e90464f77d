//! The text, and the lines that change fields of its glyphs.

use super::Draft;

/// Adds a text of these characters, and for some of its glyphs lines `at`: its length.
pub fn write_text(draft: &mut Draft, characters: &[u32]) -> usize {
    let longest = draft.numbers.one_of(&[2, 8, 8, 8, 16, 16, 40]);
    let length = draft.numbers.below(longest + 1);
    let by_numbers = draft.percent(80);
    let text: String = (0..length)
        .map(|_| field_of(draft.numbers.one_of(characters), by_numbers))
        .collect();
    draft.add(format_args!("text{text}"));
    match draft.numbers.below(10) {
        0 => change_any_fields(draft, length),
        1..=3 => change_clusters(draft, length),
        _ => {}
    }
    length
}

/// A field of a text: a character by its number, or itself where it may be.
fn field_of(number: u32, by_number: bool) -> String {
    match char::from_u32(number) {
        Some(character) if !by_number && !character.is_ascii() => format!(" {character}"),
        _ => format!(" {number:04X}"),
    }
}

/// Clusters that rise by more than one, fall, or are in no order.
fn change_clusters(draft: &mut Draft, length: usize) {
    let kind = draft.numbers.below(3);
    for place in 0..length {
        let cluster = match kind {
            0 => place / 2,
            1 => length - place,
            _ => draft.numbers.number() as usize,
        };
        draft.add(format_args!("at {place} cluster {cluster}"));
    }
}

/// Whatever fits in the fields.
fn change_any_fields(draft: &mut Draft, length: usize) {
    for place in 0..length {
        for _ in 0..draft.numbers.below(4) {
            let byte = draft.numbers.byte();
            let number = draft.numbers.number();
            match draft.numbers.below(9) {
                0 => draft.add(format_args!("at {place} glyph {number}")),
                1 => draft.add(format_args!("at {place} cluster {number}")),
                2 => draft.add(format_args!("at {place} mask {number:x}")),
                3 => draft.add(format_args!("at {place} syllable {byte}")),
                4 => draft.add(format_args!("at {place} cat {byte}")),
                5 => draft.add(format_args!("at {place} aux {byte}")),
                6 => draft.add(format_args!("at {place} class {byte}")),
                7 => draft.add(format_args!("at {place} gc {}", byte % 30)),
                _ => substitute(draft, place),
            }
        }
    }
}

/// What a substitution leaves in a glyph: marks, and the component of a ligature.
pub fn substitute(draft: &mut Draft, place: usize) {
    let marks = draft
        .numbers
        .one_of(&["s", "sl", "sm", "l", "m", "i", "c", "slmic", "-"]);
    draft.add(format_args!("at {place} marks {marks}"));
    if draft.percent(50) {
        let component = draft.numbers.below(16);
        draft.add(format_args!("at {place} comp {component}"));
    }
}

/// Substitutions of some glyphs of a text.
pub fn substitute_some(draft: &mut Draft, length: usize) {
    for place in 0..length {
        if draft.percent(35) {
            substitute(draft, place);
        }
    }
}

/// Classes of combining marks, most of them marks indeed.
pub fn set_classes(draft: &mut Draft, length: usize) {
    for place in 0..length {
        let class = draft
            .numbers
            .one_of(&[0, 0, 20, 21, 22, 23, 25, 26, 220, 230]);
        if draft.percent(90) {
            draft.add(format_args!("at {place} gc 12"));
        }
        draft.add(format_args!("at {place} class {class}"));
    }
}

/// Categories and positions as the tables or an earlier pause would have set them.
pub fn set_categories(draft: &mut Draft, length: usize) {
    for place in 0..length {
        let category = draft
            .numbers
            .one_of(&[1, 1, 1, 4, 4, 7, 15, 3, 6, 16, 18, 22]);
        draft.add(format_args!("at {place} cat {category}"));
        let position = draft.numbers.below(15);
        draft.add(format_args!("at {place} aux {position}"));
    }
}

/// Positions, some with advances of their own.
pub fn add_positions(draft: &mut Draft, length: usize) {
    draft.add(format_args!("set positions yes"));
    let is_extreme = draft.percent(10);
    for place in 0..length {
        if draft.percent(60) {
            let advance = match is_extreme {
                true => draft.numbers.number() as i32,
                false => draft.numbers.below(4000) as i32 - 100,
            };
            draft.add(format_args!("at {place} adv {advance}"));
        }
    }
}

/// Spans that mostly cover the text. Mostly they are of the kinds that shapers know, and few are
/// broken.
pub fn add_spans(draft: &mut Draft, length: usize) {
    let kinds = draft.numbers.one_of(&[2, 3, 5, 7, 8, 16]);
    let longest = draft.numbers.one_of(&[2, 5, 5, 12]);
    let mut rest = length;
    while rest > 0 {
        let span = 1 + draft.numbers.below(rest.min(longest));
        let kind = draft.numbers.below(kinds);
        draft.add(format_args!("span {span} {kind}"));
        rest -= span;
    }
    if draft.percent(2) {
        let length = draft.numbers.one_of(&[0, 1, u32::MAX as usize]);
        draft.add(format_args!("span {length} 0"));
    }
}
