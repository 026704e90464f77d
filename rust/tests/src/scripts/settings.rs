//! The lines that set things, and those of features.

use super::Draft;
use super::characters::Writing;

/// The features that shapers read.
const FEATURES: [&str; 26] = [
    "isol", "fina", "fin2", "fin3", "medi", "med2", "init", "stch", "ljmo", "vjmo", "tjmo", "rphf",
    "pref", "blwf", "abvf", "half", "pstf", "vatu", "cjct", "cfar", "nukt", "akhn", "rkrf", "pres",
    "abvs", "haln",
];

/// Adds the lines `set`, `mask`, `stage` and `context`.
pub fn set(draft: &mut Draft, writing: &Writing) {
    draft.add(format_args!("set shaper {}", writing.shaper));
    set_scripts(draft, writing);
    for key in ["found", "gposmark"] {
        let value = draft.numbers.one_of(&["yes", "no"]);
        sometimes(draft, 50, format_args!("set {key} {value}"));
    }
    let direction = draft.numbers.one_of(&["ltr", "rtl"]);
    sometimes(draft, 60, format_args!("set direction {direction}"));
    let level = draft.numbers.below(3);
    sometimes(draft, 60, format_args!("set level {level}"));
    let flags = draft.numbers.below(8) * 0x20;
    sometimes(draft, 50, format_args!("set flags {flags:x}"));
    let global = draft.numbers.number();
    sometimes(draft, 20, format_args!("set global {global:X}"));
    let stretch = draft.numbers.one_of(&["code", "centred"]);
    sometimes(draft, 40, format_args!("set stretch {stretch}"));
    let breaks = draft.numbers.one_of(&["code", "sound"]);
    sometimes(draft, 60, format_args!("set breaks {breaks}"));
    let base = draft.numbers.one_of(&["nonmedial", "all"]);
    sometimes(draft, 60, format_args!("set base {base}"));
    let max_len = 8 + draft.numbers.below(40);
    sometimes(draft, 15, format_args!("set maxlen {max_len}"));
    add_features(draft);
    add_contexts(draft);
}

fn sometimes(draft: &mut Draft, percent: usize, line: std::fmt::Arguments) {
    if draft.percent(percent) {
        draft.add(line);
    }
}

fn set_scripts(draft: &mut Draft, writing: &Writing) {
    let script = match draft.percent(95) {
        true => draft.numbers.one_of(writing.scripts),
        false => draft.numbers.one_of(&["Latn", "Zyyy", "aaaa"]),
    };
    sometimes(draft, 95, format_args!("set script {script}"));
    let chosen = draft
        .numbers
        .one_of(&["dev2", "mlm2", "knd2", "deva", "DFLT", "mym2", "bng2"]);
    sometimes(draft, 50, format_args!("set chosen {chosen}"));
}

/// Masks and lookups of some of the features.
fn add_features(draft: &mut Draft) {
    let percent = draft.numbers.one_of(&[10, 50, 90]);
    for (bit, feature) in FEATURES.iter().enumerate() {
        if draft.percent(percent) {
            let mask = match draft.percent(90) {
                true => 8 << (bit % 29),
                false => draft.numbers.number() & !7,
            };
            draft.add(format_args!("mask {feature} {mask:x}"));
        }
        if draft.percent(percent) {
            let start = draft.numbers.below(10);
            let end = start + draft.numbers.below(4);
            draft.add(format_args!("stage {feature} {start} {end}"));
        }
    }
}

/// What stands before and after the text.
fn add_contexts(draft: &mut Draft) {
    for side in 0..2 {
        if draft.percent(40) {
            let count = draft.numbers.below(6);
            let characters: String = (0..count)
                .map(|_| {
                    draft
                        .numbers
                        .one_of(&[" 628", " 62F", " \u{64B}", " 41", " 1820", " \u{915}"])
                })
                .collect();
            draft.add(format_args!("context {side}{characters}"));
        }
    }
}
