//! What the fields of a line may be.

/// The shapers by name, in the order of `Shaper::ALL`.
pub const SHAPERS: [&str; 9] = [
    "arabic",
    "hangul",
    "hebrew",
    "indic",
    "khmer",
    "myanmar",
    "zawgyi",
    "thai",
    "universal",
];

/// The pauses by name, in the order of `Pause::ALL`.
pub const PAUSES: [&str; 15] = [
    "setup_syllables_indic",
    "setup_syllables_khmer",
    "setup_syllables_myanmar",
    "setup_syllables_use",
    "initial_reordering",
    "reorder_khmer",
    "reorder_myanmar",
    "reorder_use",
    "final_reordering",
    "record_stch",
    "record_rphf",
    "record_pref",
    "syllabic_clear_var",
    "clear_substitution_flags",
    "arabic_fallback_shape",
];

const COMMANDS: [&str; 13] = [
    "font", "applies", "table", "pair", "mask", "stage", "set", "text", "context", "at", "span",
    "spans", "run",
];

const HOOKS: [&str; 8] = [
    "text",
    "preprocess",
    "masks",
    "marks",
    "postprocess",
    "compose",
    "decompose",
    "pause",
];

// The settings with what their values may be.
const SETTINGS: [(&str, Field); 15] = [
    ("shaper", Field::Word(&SHAPERS)),
    ("script", Field::Tag),
    ("chosen", Field::Tag),
    ("found", Field::Word(&["yes", "no"])),
    ("gposmark", Field::Word(&["yes", "no"])),
    ("direction", Field::Word(&["ltr", "rtl"])),
    ("level", Field::Decimal(2)),
    ("flags", Field::BufferFlags),
    ("maxlen", Field::Decimal(usize::MAX as u64)),
    ("global", Field::Hexadecimal),
    ("positions", Field::Word(&["yes", "no"])),
    ("stretch", Field::Word(&["code", "centred"])),
    ("breaks", Field::Word(&["code", "sound"])),
    ("base", Field::Word(&["nonmedial", "all"])),
    ("tables", Field::Word(&["lines", "unicode"])),
];

// The fields of a glyph with what their values may be.
const GLYPH_FIELDS: [(&str, Field); 11] = [
    ("glyph", Field::Decimal(0xFFFF_FFFF)),
    ("cluster", Field::Decimal(0xFFFF_FFFF)),
    ("mask", Field::Hexadecimal),
    ("syllable", Field::Decimal(255)),
    ("cat", Field::Decimal(255)),
    ("aux", Field::Decimal(255)),
    ("gc", Field::Decimal(29)),
    ("class", Field::Decimal(255)),
    ("comp", Field::Decimal(15)),
    ("marks", Field::Marks),
    ("adv", Field::Signed),
];

const PLACE: Field = Field::Decimal(usize::MAX as u64);

/// What a field may be.
#[derive(Clone, Copy, Debug)]
pub enum Field {
    /// A character, by its hexadecimal number.
    Character,
    /// A character by its number, or characters themselves, one of them outside of ASCII.
    Text,
    /// A decimal number up to this one.
    Decimal(u64),
    /// A joining type.
    Joining,
    /// A decimal number of 32 bits, which may be negative.
    Signed,
    /// A hexadecimal number of 32 bits.
    Hexadecimal,
    /// The mask of a feature.
    FeatureMask,
    /// The flags of a buffer.
    BufferFlags,
    /// Four ASCII characters.
    Tag,
    /// The letters of marks.
    Marks,
    /// One of these words.
    Word(&'static [&'static str]),
    /// A setting.
    Setting,
    /// The name of a glyph's field.
    Name,
}

impl Field {
    /// Whether a text is such a field.
    pub fn accepts(self, text: &str) -> bool {
        match self {
            Field::Character => character(text).is_some(),
            Field::Text => !text.is_ascii() || character(text).is_some(),
            Field::Decimal(most) => decimal(text).is_some_and(|number| number <= most),
            Field::Joining => decimal(text).is_some_and(|number| matches!(number, 0..=5 | 7 | 8)),
            Field::Signed => {
                let digits = text.strip_prefix('-').unwrap_or(text);
                decimal(digits).is_some() && text.parse::<i32>().is_ok()
            }
            Field::Hexadecimal => hexadecimal(text).is_some(),
            Field::FeatureMask => hexadecimal(text).is_some_and(|mask| mask & 7 == 0),
            Field::BufferFlags => hexadecimal(text).is_some_and(|flags| flags & !0xE0 == 0),
            Field::Tag => text.len() == 4 && text.is_ascii(),
            Field::Marks => text == "-" || text.chars().all(|letter| "slmic".contains(letter)),
            Field::Word(words) => words.contains(&text),
            Field::Setting => SETTINGS.iter().any(|(key, _)| *key == text),
            Field::Name => GLYPH_FIELDS.iter().any(|(name, _)| *name == text),
        }
    }

    /// What was expected in place of a text that is no such field.
    pub fn expected(self, text: &str) -> String {
        match self {
            Field::Character | Field::Text => expected_character(text),
            Field::Decimal(most) => format!("a decimal number from 0 to {most}"),
            Field::Joining => "a joining type: 0, 1, 2, 3, 4, 5, 7 or 8".into(),
            Field::Signed => {
                "a decimal number of 32 bits, with a minus where it is negative".into()
            }
            Field::Hexadecimal => "a hexadecimal number of 32 bits, without 0x".into(),
            Field::FeatureMask => {
                "a hexadecimal number without 0x whose low three bits are 0".into()
            }
            Field::BufferFlags => {
                "a hexadecimal number without 0x, with no bits but 20, 40 and 80".into()
            }
            Field::Tag => "four ASCII characters, none of them a space".into(),
            Field::Marks => "letters of slmic, or - alone for none".into(),
            Field::Word(words) => one_of(words, text),
            Field::Setting => one_of(&SETTINGS.map(|(key, _)| key), text),
            Field::Name => one_of(&GLYPH_FIELDS.map(|(name, _)| name), text),
        }
    }
}

/// What the fields of a line may be that has these: all that its words tell.
pub fn fields_of(texts: &[&str]) -> Vec<Field> {
    let [word, texts @ ..] = texts else {
        return Vec::new();
    };
    let mut fields = vec![Field::Word(&COMMANDS)];
    match *word {
        "font" => fields.extend([Field::Character, Field::Decimal(65535), Field::Signed]),
        "applies" => fields.extend(texts.iter().map(|_| Field::Decimal(65535))),
        "table" => {
            fields.extend([Field::Character, Field::Joining, Field::Decimal(29)]);
            fields.extend([Field::Decimal(255); 3]);
        }
        "pair" => fields.extend([Field::Character; 3]),
        "mask" => fields.extend([Field::Tag, Field::FeatureMask]),
        "stage" => fields.extend([Field::Tag, Field::Decimal(65536), Field::Decimal(65536)]),
        "set" => {
            fields.push(Field::Setting);
            fields.extend(value_of(&SETTINGS, texts.first()));
        }
        "text" => fields.extend(texts.iter().map(|_| Field::Text)),
        "context" => {
            fields.push(Field::Word(&["0", "1"]));
            fields.extend(texts.iter().map(|_| Field::Text));
        }
        "at" => {
            fields.extend([PLACE, Field::Name]);
            fields.extend(value_of(&GLYPH_FIELDS, texts.get(1)));
        }
        "span" => fields.extend([Field::Decimal(0xFFFF_FFFF), Field::Decimal(15)]),
        "spans" => fields.push(Field::Word(&["found"])),
        "run" => {
            fields.push(Field::Word(&HOOKS));
            fields.extend(arguments_of(texts.first()));
        }
        _ => {}
    }
    fields
}

// What the value of a name may be.
fn value_of(names: &[(&str, Field)], name: Option<&&str>) -> Option<Field> {
    let (_, field) = names.iter().find(|(it, _)| Some(it) == name)?;
    Some(*field)
}

// What the arguments of a hook may be.
fn arguments_of(hook: Option<&&str>) -> Vec<Field> {
    match hook.copied() {
        Some("marks") => vec![PLACE; 2],
        Some("compose") => vec![Field::Character; 2],
        Some("decompose") => vec![Field::Character],
        Some("pause") => vec![Field::Word(&PAUSES)],
        _ => Vec::new(),
    }
}

/// The character of a hexadecimal number.
pub fn character(text: &str) -> Option<char> {
    char::from_u32(hexadecimal(text)?)
}

/// The characters of a field of `text`: of ASCII alone it is the number of one, else it is they.
pub fn characters(text: &str) -> Vec<char> {
    if text.is_ascii() {
        character(text).into_iter().collect()
    } else {
        text.chars().collect()
    }
}

fn hexadecimal(text: &str) -> Option<u32> {
    let is_hexadecimal = text.bytes().all(|byte| byte.is_ascii_hexdigit());
    u32::from_str_radix(text, 16)
        .ok()
        .filter(|_| is_hexadecimal)
}

fn decimal(text: &str) -> Option<u64> {
    let is_decimal = text.bytes().all(|byte| byte.is_ascii_digit());
    text.parse().ok().filter(|_| is_decimal)
}

// A character, with the one as an example that a prefix hides.
fn expected_character(text: &str) -> String {
    let prefixes = ["U+", "u+", "0x", "0X", "\\u", "\\x"];
    let digits = prefixes.iter().find_map(|prefix| text.strip_prefix(prefix));
    match digits.filter(|digits| character(digits).is_some()) {
        Some(digits) => format!("a character such as {digits}, without U+ or 0x"),
        None if hexadecimal(text).is_some() => {
            "a character: at most 10FFFF, and none of D800 to DFFF".into()
        }
        None => "a character such as 0E14, by its hexadecimal number".into(),
    }
}

// One of some words; the one that differs in case alone, where there is such a word.
fn one_of(words: &[&str], text: &str) -> String {
    match words.iter().find(|word| word.eq_ignore_ascii_case(text)) {
        Some(word) => format!("`{word}`, in lower case"),
        None => format!("one of these words: {}", words.join(", ")),
    }
}

#[cfg(test)]
mod tests {
    use super::*;
    use crate::generated::hbhook_commands::{Expected, LineFault};
    use crate::generated::hbhook_lines::Session;
    use sengadlit::alloc::Global;
    use sengadlit::plan::Pause;

    // What the program expects of a line behind others.
    fn expected_by_program(lines: &[&str]) -> Option<Expected> {
        let mut session = Session::new(Global);
        lines
            .iter()
            .find_map(|line| match session.carry_out(line.as_bytes()) {
                Ok(()) => None,
                Err(LineFault::Unreadable(expected)) => Some(expected),
                Err(LineFault::Refused(refusal)) => panic!("{refusal}"),
            })
    }

    // The words that the program expects where a line has `?`, in alphabetical order.
    fn words_of_program(line: &str) -> Vec<&'static str> {
        let Some(Expected::Word(words)) = expected_by_program(&[line]) else {
            panic!("{line} expects no words");
        };
        sorted(words.split(", "))
    }

    fn sorted<'a>(words: impl IntoIterator<Item = &'a str>) -> Vec<&'a str> {
        let mut words: Vec<&str> = words.into_iter().collect();
        words.sort_unstable();
        words
    }

    #[test]
    fn words_are_those_of_the_program() {
        assert_eq!(sorted(COMMANDS), words_of_program("?"));
        assert_eq!(sorted(SHAPERS), words_of_program("set shaper ?"));
        assert_eq!(sorted(PAUSES), words_of_program("run pause ?"));
        let keys = SETTINGS.map(|(key, _)| key);
        assert_eq!(sorted(keys), words_of_program("set ? 1"));
        let names = GLYPH_FIELDS.map(|(name, _)| name);
        assert_eq!(sorted(names), words_of_program("at 0 ? 1"));
        for (key, field) in SETTINGS {
            if let Field::Word(words) = field {
                let line = format!("set {key} ?");
                assert_eq!(sorted(words.iter().copied()), words_of_program(&line));
            }
        }
    }

    #[test]
    fn pauses_are_in_the_order_of_their_numbers() {
        for (pause, name) in Pause::ALL.iter().zip(PAUSES) {
            let name: String = name.split('_').flat_map(str::chars).collect();
            assert_eq!(format!("{pause:?}").to_ascii_lowercase(), name);
        }
    }

    // Texts of all kinds, among them the ends of each range and what lies beside them.
    const TEXTS: [&str; 61] = [
        "0",
        "1",
        "2",
        "3",
        "5",
        "6",
        "7",
        "8",
        "9",
        "15",
        "16",
        "29",
        "30",
        "255",
        "256",
        "65535",
        "65536",
        "65537",
        "2147483647",
        "2147483648",
        "-2147483648",
        "-2147483649",
        "-1",
        "-",
        "+1",
        "4294967295",
        "4294967296",
        "18446744073709551615",
        "18446744073709551616",
        "41",
        "A0",
        "e0",
        "E8",
        "100",
        "D7FF",
        "D800",
        "DFFF",
        "E000",
        "10FFFF",
        "110000",
        "FFFFFFFF",
        "100000000",
        "U+41",
        "0x41",
        "yes",
        "no",
        "YES",
        "thai",
        "Thai",
        "ltr",
        "code",
        "sound",
        "centred",
        "nonmedial",
        "slm",
        "slmx",
        "preprocess",
        "reorder_use",
        "glyph",
        "mask",
        "\u{E14}",
    ];

    // Lines that the program takes, of each form.
    const LINES: [&str; 43] = [
        "font 41 1 -5",
        "applies 1 2 3",
        "applies 1 2 3 4",
        "table 41 3 7 1 14 0",
        "pair 41 300 C0",
        "mask half 8",
        "stage half 0 65536",
        "set shaper thai",
        "set script Thai",
        "set chosen dev2",
        "set found yes",
        "set gposmark no",
        "set direction rtl",
        "set level 2",
        "set flags e0",
        "set maxlen 1000",
        "set global 9",
        "set positions no",
        "set stretch code",
        "set breaks code",
        "set base all",
        "text 41",
        "text 41 42",
        "context 0 41",
        "context 1 41 42",
        "at 0 glyph 7",
        "at 0 cluster 7",
        "at 0 mask f",
        "at 0 syllable 9",
        "at 0 cat 9",
        "at 0 aux 9",
        "at 0 gc 29",
        "at 0 class 9",
        "at 0 comp 9",
        "at 0 marks sl",
        "at 0 marks -",
        "span 2 15",
        "run text",
        "run preprocess",
        "run marks 0 1",
        "run compose 41 42",
        "run decompose 41",
        "run pause reorder_use",
    ];

    // With any other text in a field, a line is taken or a condition of its call fails, unless a
    // field of it isn't what the line has there.
    #[test]
    fn fields_are_accepted_as_the_program_does() {
        for line in LINES {
            let texts: Vec<&str> = line.split(' ').collect();
            assert!(
                expected_by_program(&["set shaper thai", "text 41 42", line]).is_none(),
                "{line}"
            );
            for (i, text) in (0..texts.len()).flat_map(|i| TEXTS.map(|text| (i, text))) {
                let mut texts = texts.clone();
                texts[i] = text;
                let line = texts.join(" ");
                let fields = fields_of(&texts);
                let is_accepted = fields
                    .iter()
                    .zip(&texts)
                    .all(|(field, text)| field.accepts(text));
                let lines = ["set shaper thai", "text 41 42", &line];
                match expected_by_program(&lines) {
                    None => assert!(is_accepted, "{line}"),
                    Some(Expected::Fields(_)) => {}
                    Some(Expected::Condition(condition)) if is_accepted => {
                        let of_calls = ["a first ", "at least ", "a place ", "a shaper that "];
                        let is_of_calls = of_calls.iter().any(|start| condition.starts_with(start));
                        assert!(is_of_calls, "{line}: {condition}");
                    }
                    Some(expected) => assert!(!is_accepted, "{line}: {expected}"),
                }
            }
        }
    }
}
