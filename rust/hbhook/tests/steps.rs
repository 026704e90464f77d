//! The last step of a text has the glyphs that `--text` prints: both go the pipeline's way, one step
//! after the other and all at once.

use hbhook::{Choices, MOST_SHOWN, Steps, print_text, script_named};
use sengadlit::ot_shape_plan::ShapeChoices;
use sengadlit::plan::BreakFlags;
use std::path::{Path, PathBuf};
use std::{env, fs};

fn from_top(path: &str) -> PathBuf {
    let top = Path::new(env!("CARGO_MANIFEST_DIR")).join("../..");
    top.join(path)
}

// Compares a text of a script, or of its own; false where no script with hooks is known of it.
fn is_compared(text: &str, script: Option<[u8; 4]>, is_sound: bool) -> bool {
    let choices = Choices {
        script,
        is_sound,
        ..Choices::default()
    };
    let Some(steps) = Steps::of_text(text, &choices) else {
        return false;
    };
    let break_flags = if is_sound {
        BreakFlags::Sound
    } else {
        BreakFlags::AsCode
    };
    let choices = ShapeChoices {
        break_flags,
        ..ShapeChoices::default()
    };
    let text: String = text.chars().take(MOST_SHOWN).collect();
    let printed = print_text(&text, script, choices).unwrap();
    assert_eq!(steps.ended, None, "{text:?} {script:?}");
    let last = steps.steps.last().unwrap();
    assert_eq!(last.printed, printed, "{text:?} {script:?}");
    true
}

// The characters of fields as lines have them: numbers, and characters themselves.
fn characters(fields: &str) -> String {
    let of_field = |field: &str| match u32::from_str_radix(field, 16) {
        Ok(number) if field.is_ascii() => char::from_u32(number).into_iter().collect(),
        _ => String::from(field),
    };
    fields.split_whitespace().map(of_field).collect()
}

#[test]
fn texts_of_worked_rows() {
    let mut count = 0;
    for entry in fs::read_dir(from_top("crates/hbhook_rows/data")).unwrap() {
        let mut script = None;
        for line in fs::read_to_string(entry.unwrap().path()).unwrap().lines() {
            if line.is_empty() {
                script = None;
            } else if let Some(name) = line.strip_prefix("> set script ") {
                script = script_named(name);
            } else if let Some(fields) = line.strip_prefix("> text ") {
                count += usize::from(is_compared(&characters(fields), script, false));
            }
        }
    }
    assert!(count > 300, "{count}");
}

// The words of bindings/page/examples.txt: code points, each with how often it comes (0915 0951*256),
// or the text itself.
fn examples() -> Vec<(Option<[u8; 4]>, String)> {
    let page = fs::read_to_string(from_top("bindings/page/examples.txt")).unwrap();
    let example = |line: &str| {
        let [name, _, text] = line.split('\t').collect::<Vec<_>>()[..] else {
            panic!("three fields, not {line}")
        };
        let times = |item: &str| match item.split_once('*') {
            Some((item, times)) => characters(item).repeat(times.parse().unwrap()),
            None => characters(item),
        };
        let text = if text.is_ascii() {
            text.split(' ').map(times).collect()
        } else {
            text.into()
        };
        (name.as_bytes().try_into().ok(), text)
    };
    page.lines().map(example).collect()
}

#[test]
fn examples_of_the_page() {
    let examples = examples();
    assert_eq!(examples.len(), 49);
    for (script, text) in examples {
        for is_sound in [false, true] {
            assert!(is_compared(&text, script, is_sound), "{text:?}");
        }
        // with fractions, some of which lack a side, characters that are mirrored, and an emoji
        let text = format!("{text} 1\u{2044}23 \u{2044}4 5\u{2044} (\u{1F64F}<{text}");
        assert!(is_compared(&text, script, false), "{text:?}");
    }
}

// The characters of each example in any order, with joiners and a circle among them.
#[test]
fn characters_of_examples_in_any_order() {
    let mut state: u32 = 1;
    let mut chosen = |count: usize| {
        state = state.wrapping_mul(1_664_525).wrapping_add(1_013_904_223);
        (state >> 8) as usize % count
    };
    for (script, text) in examples() {
        let joiners = "\u{200C}\u{200D}\u{034F}\u{25CC}".chars();
        let pool: Vec<char> = text.chars().take(12).chain(joiners).collect();
        for _ in 0..20 {
            let length = 1 + chosen(8);
            let word: String = (0..length).map(|_| pool[chosen(pool.len())]).collect();
            is_compared(&word, script, false);
        }
    }
}

// 1,000 words of each script, real ones first, as bindings/hooks/texts writes them: checks/harfrust names
// their folder by SENGADLIT_WORDS. Without that the test compares nothing.
#[test]
fn words_of_each_script() {
    const MOST: usize = 1000;
    let Some(folder) = env::var_os("SENGADLIT_WORDS").map(PathBuf::from) else {
        return;
    };
    let scripts = fs::read_to_string(folder.join("scripts")).unwrap();
    for line in scripts.lines() {
        let (name, _) = line.split_once('\t').unwrap();
        let words = ["real", "torn", "random"].map(|kind| {
            let path = folder.join(format!("{name}.{kind}"));
            fs::read_to_string(path).unwrap()
        });
        let words = words.iter().flat_map(|text| text.lines()).take(MOST);
        let count = words
            .filter(|word| is_compared(word, Some(code_of(name)), false))
            .count();
        assert_eq!(count, MOST, "{name}");
    }
    println!("{} scripts, {MOST} words of each", scripts.lines().count());
}

// The code of a script as bindings/hooks/texts calls it.
fn code_of(name: &str) -> [u8; 4] {
    let (name, _) = name.split_once(',').unwrap_or((name, ""));
    match name {
        "N'Ko" => *b"Nkoo",
        "Hanifi Rohingya" => *b"Rohg",
        "Phags-pa" => *b"Phag",
        "Brahmi" => *b"Brah",
        "Grantha" => *b"Gran",
        _ => script_named(name).unwrap_or_else(|| panic!("{name} has no code")),
    }
}
