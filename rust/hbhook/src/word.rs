//! The lines of a word: what a script needs around a text so that the hooks of its shaper run.

mod far;

use crate::whole_font::second_specification;
use sengadlit::alloc::Global;
use sengadlit::font::FeaturesOnly;
use sengadlit::map::F_GLOBAL;
use sengadlit::unicode::{UnicodeTables, decompose, general_category};
use sengadlit::{Direction, Pause, Plan, Planner, Request, Script, Shaper, Tag, script};

/// The line of the hook before normalization.
pub(crate) const PREPROCESS: &str = "run preprocess";

/// Whether a script's text runs from right to left.
pub(crate) fn runs_from_right(script: Script) -> bool {
    script.direction() == Direction::RightToLeft
}

/// The lines that run the hooks of a word's script over it, in the order of a pipeline: what comes
/// before normalization, masks, and the pauses that set syllables up and reorder them. The script is
/// set up by its second specification, where it has one. The features that hooks turn on have masks;
/// vowel signs of several parts are taken apart, as normalization does. Reorderings of Indic take
/// numbers of glyphs: for them a character above U+FFFF has a number that no character of the word has,
/// and its own again behind them. The script is that of the first character that is of one with a
/// shaper; without such a character there are no lines.
///
/// ```
/// let lines = hbhook::lines_of_word("\u{0E19}\u{0E33}").unwrap();
/// assert_eq!(
///     lines,
///     "set tables unicode\nset shaper thai\nset script Thai\ntext \u{0E19}\u{0E33}\nrun preprocess\n"
/// );
/// assert!(hbhook::lines_of_word("word").is_none());
/// ```
#[must_use]
pub fn lines_of_word(word: &str) -> Option<String> {
    let script = Script(script_of_word(word)?);
    let shaper = Shaper::for_script(script, Direction::LeftToRight, None)?;
    let planned = Planned::of(shaper, script)?;
    let text = with_parts(shaper, script, word);
    let mut lines = settings_of(shaper, script, &planned.features);
    lines.push(line_of_text(&text));
    lines.extend(hooks_of(shaper, &planned.pauses));
    if shaper == Shaper::Indic {
        lines = far::with_numbers(lines, &text);
    }
    Some(lines.join("\n") + "\n")
}

/// The codes of the scripts that [`lines_of_word`] knows, each once.
#[must_use]
pub fn scripts_with_hooks() -> Vec<[u8; 4]> {
    let scripts = script::ALL.iter().map(|(_, script)| *script);
    let mut codes: Vec<[u8; 4]> = scripts.filter(has_shaper).map(|script| script.0).collect();
    codes.sort_unstable();
    codes
}

// Whether the texts of a script have a shaper.
fn has_shaper(script: &Script) -> bool {
    Shaper::for_script(*script, Direction::LeftToRight, None).is_some()
}

/// The code of a script, from its name in Unicode or from the code itself, in any case: `khmer`,
/// `tai tham`, `Khmr`. A code of four letters may be of any script.
#[must_use]
pub fn script_named(name: &str) -> Option<[u8; 4]> {
    let of_name = |known: &str| {
        known
            .replace('_', " ")
            .eq_ignore_ascii_case(&name.replace(['_', '-'], " "))
    };
    if let Some((_, script)) = script::ALL.iter().find(|(known, _)| of_name(known)) {
        return Some(script.0);
    }
    let mut code: [u8; 4] = name.as_bytes().try_into().ok()?;
    if !code.iter().all(u8::is_ascii_alphabetic) {
        return None;
    }
    code.make_ascii_lowercase();
    code[0].make_ascii_uppercase();
    Some(code)
}

/// The script of the first character that is of one with a shaper.
pub(crate) fn script_of_word(word: &str) -> Option<[u8; 4]> {
    let mut scripts = word.chars().filter_map(Script::of_char);
    scripts.find(has_shaper).map(|script| script.0)
}

// The lines that set a script up: its shaper and direction, and a mask for each of these features.
fn settings_of(shaper: Shaper, script: Script, features: &[Tag]) -> Vec<String> {
    let mut lines = vec!["set tables unicode".into()];
    lines.push(format!("set shaper {}", name_of(shaper)));
    lines.push(format!("set script {}", String::from_utf8_lossy(&script.0)));
    lines.extend(line_of_specification(script));
    if runs_from_right(script) {
        lines.push("set direction rtl".into());
    }
    let masks = features.iter().zip(4..32);
    lines.extend(masks.map(|(tag, bit)| {
        let tag = String::from_utf8_lossy(&tag.0);
        format!("mask {tag} {:x}", 1u32 << bit)
    }));
    lines
}

/// The line that chooses the second specification of a script that has one.
pub(crate) fn line_of_specification(script: Script) -> Option<String> {
    let chosen = second_specification(script)?;
    Some(format!("set chosen {}", String::from_utf8_lossy(&chosen.0)))
}

// The lines of a shaper's hooks and of these pauses, in the order of a pipeline.
fn hooks_of(shaper: Shaper, pauses: &[&str]) -> Vec<String> {
    let mut lines = Vec::new();
    if matches!(shaper, Shaper::Thai | Shaper::Hangul) {
        lines.push(PREPROCESS.into());
    }
    if shaper.has_hook(sengadlit::shaper::Hook::SetupMasks) {
        lines.push("run masks".into());
    }
    if !pauses.is_empty() {
        lines.push("spans found".into());
    }
    lines.extend(pauses.iter().map(|name| format!("run pause {name}")));
    lines
}

/// What the program calls a shaper.
pub(crate) fn name_of(shaper: Shaper) -> &'static str {
    match shaper {
        Shaper::Arabic => "arabic",
        Shaper::Hangul => "hangul",
        Shaper::Hebrew => "hebrew",
        Shaper::Indic => "indic",
        Shaper::Khmer => "khmer",
        Shaper::Myanmar => "myanmar",
        Shaper::MyanmarZawgyi => "zawgyi",
        Shaper::Thai => "thai",
        Shaper::Universal => "universal",
    }
}

/// What a shaper requests for a script: the features that its hooks turn on glyph by glyph, and the
/// pauses that do something without lookups.
pub(crate) struct Planned {
    pub(crate) features: Vec<Tag>,
    pauses: Vec<&'static str>,
}

impl Planned {
    pub(crate) fn of(shaper: Shaper, script: Script) -> Option<Self> {
        let mut planner = Planner::new(Global, Some(script));
        shaper
            .collect_features(&FeaturesOnly(|_: Tag| true), &mut planner)
            .ok()?;
        let mut planned = Planned {
            features: Vec::new(),
            pauses: Vec::new(),
        };
        for request in planner.requests() {
            match *request {
                Request::Feature(tag, flags, _) if flags & F_GLOBAL == 0 => {
                    planned.features.push(tag)
                }
                Request::Pause(Some(pause)) if needs_no_lookup(pause) => {
                    planned.pauses.push(name_of_pause(pause));
                }
                Request::Feature(..) | Request::Pause(_) => {}
            }
        }
        Some(planned)
    }
}

// Whether a pause does something to a text that no lookup was applied to.
fn needs_no_lookup(pause: Pause) -> bool {
    !matches!(
        pause,
        Pause::RecordStch
            | Pause::RecordRphf
            | Pause::RecordPref
            | Pause::SyllabicClearVar
            | Pause::ClearSubstitutionFlags
            | Pause::ArabicFallbackShape
    )
}

/// What the program calls a pause.
pub(crate) fn name_of_pause(pause: Pause) -> &'static str {
    match pause {
        Pause::SetupSyllablesIndic => "setup_syllables_indic",
        Pause::SetupSyllablesKhmer => "setup_syllables_khmer",
        Pause::SetupSyllablesMyanmar => "setup_syllables_myanmar",
        Pause::SetupSyllablesUse => "setup_syllables_use",
        Pause::InitialReordering => "initial_reordering",
        Pause::FinalReordering => "final_reordering",
        Pause::ReorderKhmer => "reorder_khmer",
        Pause::ReorderMyanmar => "reorder_myanmar",
        Pause::ReorderUse => "reorder_use",
        Pause::RecordStch => "record_stch",
        Pause::RecordRphf => "record_rphf",
        Pause::RecordPref => "record_pref",
        Pause::SyllabicClearVar => "syllabic_clear_var",
        Pause::ClearSubstitutionFlags => "clear_substitution_flags",
        Pause::ArabicFallbackShape => "arabic_fallback_shape",
    }
}

// The characters of a word, vowel signs of several parts taken apart, where the shaper has syllables.
fn with_parts(shaper: Shaper, script: Script, word: &str) -> String {
    let Ok(plan) = Plan::builder().script(script).build_for(shaper) else {
        return word.into();
    };
    let has_syllables = matches!(
        shaper,
        Shaper::Indic | Shaper::Khmer | Shaper::Myanmar | Shaper::Universal
    );
    let mut parts = String::new();
    for character in word.chars() {
        if has_syllables && general_category(character).is_mark() {
            push_parts(shaper, &plan, character, &mut parts);
        } else {
            parts.push(character);
        }
    }
    parts
}

// Adds a character's parts, of which only the first may have parts again.
fn push_parts(shaper: Shaper, plan: &Plan, character: char, parts: &mut String) {
    let own = shaper.decompose(plan, &UnicodeTables, character);
    match own.unwrap_or_else(|| decompose(character)) {
        Some((first, second)) => {
            push_parts(shaper, plan, first, parts);
            parts.push(second);
        }
        None => parts.push(character),
    }
}

/// The line of a text: characters of ASCII by their numbers, and others as they are.
pub(crate) fn line_of_text(text: &str) -> String {
    let mut line = String::from("text ");
    for character in text.chars() {
        if character.is_ascii() || character.is_whitespace() || character.is_control() {
            line = format!("{} {:02X} ", line.trim_end(), u32::from(character));
        } else {
            line.push(character);
        }
    }
    line.trim_end().into()
}

#[cfg(test)]
mod tests {
    use super::{lines_of_word, runs_from_right, script_named, script_of_word, scripts_with_hooks};
    use sengadlit::Script;

    #[test]
    fn a_script_has_a_name_and_a_code() {
        for name in ["khmer", "Khmer", "khmr", "KHMR"] {
            assert_eq!(script_named(name), Some(*b"Khmr"), "{name}");
        }
        assert_eq!(script_named("tai tham"), Some(*b"Lana"));
        assert_eq!(script_named("Meetei-Mayek"), Some(*b"Mtei"));
        assert_eq!(script_named("latn"), Some(*b"Latn"));
        for name in ["", "khm", "klingon", "khm1"] {
            assert_eq!(script_named(name), None, "{name}");
        }
    }

    #[test]
    fn a_text_is_of_its_first_script_with_a_shaper() {
        for (text, code) in [
            // (a full stop is of many scripts, and Latin has no shaper)
            ("a. \u{0964}\u{0995}", Some(*b"Beng")),
            ("\u{10A10}", Some(*b"Khar")),
            ("\u{0300}1", None),
            ("", None),
        ] {
            assert_eq!(script_of_word(text), code, "{text:?}");
        }
        let codes = scripts_with_hooks();
        assert!(codes.is_sorted() && codes.contains(b"Hang") && !codes.contains(b"Latn"));
    }

    #[test]
    fn a_script_runs_from_the_right() {
        assert!(runs_from_right(Script(*b"Rohg")));
        assert!(!runs_from_right(Script(*b"Phag")));
        let lines = lines_of_word("\u{084C}\u{0840}").unwrap();
        assert!(
            lines.contains("\nset script Mand\nset direction rtl\n"),
            "{lines}"
        );
    }

    #[test]
    fn a_vowel_of_two_parts_is_taken_apart() {
        let lines = lines_of_word("\u{0B95}\u{0BCA}").unwrap();
        assert!(
            lines.contains("\ntext \u{0B95}\u{0BC6}\u{0BBE}\n"),
            "{lines}"
        );
        let lines = lines_of_word("\u{1780}\u{17C4}").unwrap();
        assert!(
            lines.contains("\ntext \u{1780}\u{17C1}\u{17C4}\n"),
            "{lines}"
        );
        let lines = lines_of_word("\u{0DDD}").unwrap();
        assert!(
            lines.contains("\ntext \u{0DD9}\u{0DCF}\u{0DCA}\n"),
            "{lines}"
        );
    }

    #[test]
    fn spaces_and_ascii_are_numbers() {
        let lines = lines_of_word("1 \u{0628}\u{0627}\n\u{0628}\u{0081}").unwrap();
        assert!(
            lines.contains("\ntext 31 20 \u{0628}\u{0627} 0A \u{0628} 81\n"),
            "{lines}"
        );
        assert!(lines.contains("\nset direction rtl\n"), "{lines}");
    }

    #[test]
    fn other_texts_have_no_lines() {
        for text in ["", "word", "\u{65E5}", " "] {
            assert_eq!(lines_of_word(text), None, "{text}");
        }
    }
}
