//! A font, tables, a context of normalization and properties of characters, whose answers are drawn from a
//! seed and the question, the same in both crates.

/// Mixes the bits of a number.
pub fn mixed(number: u64) -> u64 {
    let number = (number ^ number >> 30).wrapping_mul(0xBF58_476D_1CE4_E5B9);
    let number = (number ^ number >> 27).wrapping_mul(0x94D0_49BB_1331_11EB);
    number ^ number >> 31
}

/// The words of an answer, by the trait (0 a font, 1 tables, 2 a context, 3 properties), the place of the method
/// in it, the seed and the words of the question.
pub fn answer(of: u64, method: u64, seed: u64, question: &[u64]) -> Vec<u64> {
    let question = match (of, method) {
        // whether there is a glyph is known from the glyph
        (0, 1) => return vec![answer(0, 0, seed, question)[0]],
        (2, 5) => return vec![answer(2, 3, seed, question)[0]],
        // one of the lookups would apply: the answers for each of them
        (0, 4) => {
            let (lookups, rest) = question[1..].split_at(question[0] as usize);
            let would_apply = |lookup: &u64| answer(0, 3, seed, &[&[*lookup], rest].concat())[0] == 1;
            return vec![u64::from(lookups.iter().any(would_apply))];
        }
        // three questions at once
        (3, 3) => return (0..3).map(|method| answer(3, method, seed, question)[0]).collect(),
        // and what a glyph keeps of these three
        (3, 4) => return vec![stored_properties(&answer(3, 3, seed, question), question[0])],
        _ => question,
    };
    let start = mixed(seed ^ (of * 8 + method + 1));
    let lot = question.iter().fold(start, |lot, word| mixed(lot ^ word));
    let first = question.first().copied().unwrap_or(0);
    match (of, method) {
        (0, 0) if lot % 5 == 0 => vec![0],
        (0, 0) => vec![1, lot >> 8 & if lot % 3 == 0 { 0xFFFF } else { 0xFF }],
        (0, 2) => vec![[lot >> 16 & 0x3FF, 0, 0xFFFF_FFFF, 0x7FFF_FFFF, 0x8000_0000][if lot % 16 < 11 { 0 } else { (lot % 16 - 11) as usize }] & 0xFFFF_FFFF],
        (0, _) => vec![lot & 1],
        (1, 0) => vec![lot % 8],
        (1, 1) => vec![[10, 12, 7, 11][(lot >> 8) as usize & 3].min(29) * (lot & 1) + (lot >> 16) % 30 * (1 - (lot & 1))],
        (1, 2) => vec![lot % 37, (lot >> 16) % 16],
        (1, 3) => vec![lot % 58],
        (1, 4) if lot % 3 == 0 => vec![0],
        (1, 4) => vec![1, 0x100 + (lot >> 8) % 0xD00],
        (1, _) if lot % 3 == 0 => vec![0],
        (1, _) => vec![1, 0x100 + (lot >> 8) % 0xD00, 0x300 + (lot >> 32) % 0x70 + first % 2],
        // (few characters come apart, of those that stand before the blocks of others)
        (2, 0) => vec![lot % 3],
        (2, 1) if lot % 3 != 0 || first < 0x20 => vec![0],
        (2, 1) => vec![1, first / 2 + lot % 2, [0, 0x300, 0x334, 0x20][(lot >> 8) as usize % 4]],
        (2, 2) if lot % 2 == 0 => vec![0],
        (2, 2) => vec![1, 0xC0 + (lot >> 8) % 0x200],
        (2, 3 | 4) => answer(0, 0, seed, question),
        (2, 6) => answer(1, 1, seed, question),
        (2, 7) => vec![[0, 220, 230, 230, 22, 7][(lot >> 8) as usize % 6]],
        (2, 8) => vec![u64::from(lot % 5 == 0)],
        (2, 9) => answer(0, 0, seed, &[0x2_0000]),
        (2, 10) => vec![lot & 1],
        (3, 0) => answer(1, 1, seed, question),
        (3, 1) => answer(2, 7, seed, question),
        (3, 2) => answer(2, 8, seed, question),
        (3, 5) => vec![u64::from(lot % 4 == 0)],
        // (another character, mirrored or upright)
        (3, 6 | 7) if lot % 2 == 0 => vec![0],
        (3, 6 | 7) => vec![1, (first + 1 + lot % 3) & 0xFFFF_FFFF],
        _ => unreachable!("a font, tables, a context, and properties"),
    }
}

/// What a glyph keeps of a character of this category, this class, and that need or need not be drawn, by the bits of
/// `UnicodeProps`: the category, ignorable 0x20, hidden 0x40, a mark's continuation 0x80, and the high byte.
fn stored_properties(kind: &[u64], c: u64) -> u64 {
    let [general, class, ignorable] = [kind[0], kind[1], kind[2]];
    let is_mark = (10..=12).contains(&general);
    if c < 0x80 || !is_mark && ignorable == 0 {
        return general;
    }
    let is_seen = matches!(c, 0x34F | 0x180B..=0x180D | 0x180F | 0xE0020..=0xE007F);
    let joiner = match c {
        0x200D => 1,
        0x200C => 2,
        _ => 0,
    };
    let byte = if is_mark { class } else { joiner };
    general + 0x20 * ignorable + 0x40 * (ignorable & u64::from(is_seen)) + 0x80 * u64::from(is_mark) + 0x100 * byte
}
