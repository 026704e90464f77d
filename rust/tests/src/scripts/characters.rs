//! The characters of a script, and the lines that say what the font and the tables know of them.

use super::Draft;

/// A shaper with texts for it.
#[derive(Clone, Copy, Debug)]
pub struct Writing {
    pub shaper: &'static str,
    pub scripts: &'static [&'static str],
    characters: &'static [u32],
    /// Numbers of its Indic or universal categories, the frequent ones several times.
    categories: &'static [u8],
}

const INDIC_CATEGORIES: [u8; 32] = [
    1, 1, 1, 1, 1, 15, 15, 4, 4, 4, 3, 7, 7, 7, 2, 5, 6, 8, 9, 10, 11, 12, 13, 14, 16, 17, 18, 0,
    1, 4, 7, 15,
];

const KHMER_CATEGORIES: [u8; 20] = [
    1, 1, 1, 1, 15, 15, 4, 4, 4, 2, 22, 20, 21, 23, 25, 26, 27, 11, 5, 6,
];

const MYANMAR_CATEGORIES: [u8; 26] = [
    1, 1, 1, 1, 15, 15, 4, 4, 32, 32, 22, 22, 20, 21, 23, 35, 36, 36, 37, 38, 39, 40, 41, 9, 11, 6,
];

const UNIVERSAL_CATEGORIES: [u8; 36] = [
    1, 1, 1, 1, 1, 18, 18, 12, 12, 12, 22, 22, 23, 30, 30, 33, 34, 35, 27, 28, 29, 37, 38, 39, 41,
    42, 43, 44, 45, 46, 47, 4, 5, 0, 49, 55,
];

/// Every shaper, those with more rules more often.
pub const WRITINGS: [Writing; 13] = [
    ARABIC, ARABIC, HANGUL, HEBREW, THAI, KHMER, MYANMAR, ZAWGYI, UNIVERSAL, UNIVERSAL, INDIC,
    INDIC, INDIC,
];

const ARABIC: Writing = Writing {
    shaper: "arabic",
    scripts: &["Arab", "Arab", "Syrc", "Syrc", "Mong", "Nkoo"],
    characters: &[
        0x627, 0x628, 0x62F, 0x644, 0x640, 0x64B, 0x651, 0x654, 0x655, 0x6E7, 0x70F, 0x710, 0x712,
        0x715, 0x1820, 0x1821, 0x180B, 0x180D, 0x180F, 0x200D,
    ],
    categories: &[0, 1],
};

const HANGUL: Writing = Writing {
    shaper: "hangul",
    scripts: &["Hang"],
    characters: &[
        0x1100, 0x1112, 0x1161, 0x1175, 0x11A8, 0x11C2, 0xAC00, 0xAC01, 0xD788, 0xD7A3, 0x302E,
        0x302F, 0x115F, 0x1160, 0xA960, 0xD7B0, 0xD7CB, 0x25CC,
    ],
    categories: &[0],
};

const HEBREW: Writing = Writing {
    shaper: "hebrew",
    scripts: &["Hebr"],
    characters: &[
        0x5D0, 0x5D5, 0x5D9, 0x5E9, 0x5F2, 0x5B0, 0x5B4, 0x5B7, 0x5B8, 0x5B9, 0x5BC, 0x5BD, 0x5BF,
        0x5C1, 0x5C2, 0xFB49,
    ],
    categories: &[0],
};

const THAI: Writing = Writing {
    shaper: "thai",
    scripts: &["Thai", "Thai", "Thai", "Laoo"],
    characters: &[
        0xE01, 0xE0D, 0xE0E, 0xE10, 0xE1B, 0xE1D, 0xE31, 0xE33, 0xE33, 0xE34, 0xE38, 0xE39, 0xE47,
        0xE48, 0xE49, 0xE4D, 0xE81, 0xEB1, 0xEB3, 0xEC8,
    ],
    categories: &[0],
};

const KHMER: Writing = Writing {
    shaper: "khmer",
    scripts: &["Khmr"],
    characters: &[
        0x1780, 0x1784, 0x179A, 0x17D2, 0x17D2, 0x17C1, 0x17BE, 0x17C4, 0x17C6, 0x17C9, 0x17CC,
        0x200C, 0x25CC,
    ],
    categories: &KHMER_CATEGORIES,
};

const MYANMAR: Writing = Writing {
    shaper: "myanmar",
    scripts: &["Mymr"],
    characters: &[
        0x1000, 0x1004, 0x101B, 0x103A, 0x1039, 0x1031, 0x103B, 0x103C, 0x103D, 0x102D, 0x102F,
        0x1036, 0x1038, 0xFE00, 0x25CC,
    ],
    categories: &MYANMAR_CATEGORIES,
};

const ZAWGYI: Writing = Writing {
    shaper: "zawgyi",
    ..MYANMAR
};

const INDIC: Writing = Writing {
    shaper: "indic",
    scripts: &[
        "Deva", "Deva", "Beng", "Guru", "Mlym", "Mlym", "Knda", "Telu", "Taml", "Sinh", "Orya",
    ],
    characters: &[
        0x915, 0x924, 0x930, 0x93C, 0x93F, 0x940, 0x947, 0x94D, 0x94D, 0x902, 0x951, 0x9B0, 0x9CD,
        0xD30, 0xD4D, 0xD4E, 0xDCA, 0xC4D, 0x200C, 0x200D, 0x25CC,
    ],
    categories: &INDIC_CATEGORIES,
};

const UNIVERSAL: Writing = Writing {
    shaper: "universal",
    scripts: &[
        "Bali", "Java", "Mong", "Mong", "Syrc", "Adlm", "Brah", "Phag",
    ],
    characters: &[
        0x1B05, 0x1B13, 0x1B2D, 0x1B35, 0x1B3E, 0x1B44, 0x1B44, 0x1820, 0x1821, 0x180B, 0x1E900,
        0x11013, 0x11046, 0x200C, 0x200D, 0x25CC,
    ],
    categories: &UNIVERSAL_CATEGORIES,
};

/// The last characters of the planes and of what glyph numbers hold.
const STRANGE: [u32; 8] = [0, 0x41, 0x300, 0x7FFF, 0xD7FF, 0xE000, 0xFFFF, 0x10FFFF];

/// The Private Use characters that a Thai font may have.
const THAI_FORMS: [u32; 10] = [
    0xF70A, 0xF705, 0xF713, 0xF88A, 0xF718, 0xF710, 0xF701, 0xF711, 0xF70F, 0xF700,
];

/// Chooses characters of a writing, and adds the lines that describe them.
pub fn describe(draft: &mut Draft, writing: &Writing) -> Vec<u32> {
    let count = 2 + draft.numbers.below(10);
    let characters: Vec<_> = (0..count).map(|_| choose(draft, writing)).collect();
    for &character in &characters {
        if draft.percent(85) {
            add_table(draft, writing, character);
        }
        if draft.percent(70) {
            add_glyph(draft, character);
        }
    }
    for _ in 0..draft.numbers.below(4) {
        add_glyph_of_shaper(draft, writing);
    }
    add_pairs(draft, &characters);
    add_lookups(draft, &characters);
    characters
}

fn choose(draft: &mut Draft, writing: &Writing) -> u32 {
    match draft.numbers.below(25) {
        0 => draft.numbers.one_of(&STRANGE),
        1 => {
            let other = draft.numbers.one_of(&WRITINGS);
            draft.numbers.one_of(other.characters)
        }
        _ => draft.numbers.one_of(writing.characters),
    }
}

fn add_table(draft: &mut Draft, writing: &Writing, character: u32) {
    let joining = draft
        .numbers
        .one_of(&[0, 1, 2, 2, 3, 3, 3, 3, 4, 5, 7, 7, 8]);
    let general = draft.numbers.one_of(&[7, 7, 7, 12, 12, 10, 11, 1]);
    let general = if draft.percent(5) {
        draft.numbers.below(30)
    } else {
        general
    };
    let category = draft.numbers.one_of(writing.categories);
    let (indic, universal) = match writing.shaper {
        "universal" => (0, category),
        _ => (category, 0),
    };
    let positions = if draft.percent(3) { 256 } else { 15 };
    let position = draft.numbers.below(positions);
    draft.add(format_args!(
        "table {character:X} {joining} {general} {indic} {position} {universal}"
    ));
}

/// A glyph whose number is the character's, as texts have them, or any.
fn add_glyph(draft: &mut Draft, character: u32) {
    let glyph = match u16::try_from(character) {
        Ok(glyph) if draft.percent(70) => glyph,
        _ => draft.numbers.below(40) as u16,
    };
    let advance = match draft.numbers.below(12) {
        0 => draft.numbers.number() as i32,
        1 => 0,
        _ => draft.numbers.below(1500) as i32,
    };
    draft.add(format_args!("font {character:X} {glyph} {advance}"));
}

/// A glyph that the shaper looks for: a form, a syllable, the dotted circle.
fn add_glyph_of_shaper(draft: &mut Draft, writing: &Writing) {
    let character = match writing.shaper {
        "thai" => draft.numbers.one_of(&THAI_FORMS),
        "hangul" => 0xAC00 + draft.numbers.below(40) as u32,
        "hebrew" => 0xFB2A + draft.numbers.below(0x20) as u32,
        _ => 0x25CC,
    };
    add_glyph(draft, character);
}

fn add_pairs(draft: &mut Draft, characters: &[u32]) {
    for _ in 0..draft.numbers.below(4) {
        let [a, b, c] = [(); 3].map(|()| draft.numbers.one_of(characters));
        draft.add(format_args!("pair {a:X} {b:X} {c:X}"));
    }
}

/// Lookups that would apply to two or three of the characters.
fn add_lookups(draft: &mut Draft, characters: &[u32]) {
    let glyphs: Vec<_> = characters.iter().filter(|c| **c <= 0xFFFF).collect();
    if glyphs.is_empty() {
        return;
    }
    for _ in 0..draft.numbers.below(12) {
        let lookup = draft.numbers.below(10);
        let [a, b, c] = [(); 3].map(|()| *draft.numbers.one_of(&glyphs));
        match draft.percent(70) {
            true => draft.add(format_args!("applies {lookup} {a} {b}")),
            false => draft.add(format_args!("applies {lookup} {a} {b} {c}")),
        }
    }
}
