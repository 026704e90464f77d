//! Where bindings/page/definitions.md defines what a line runs.

use sengadlit::Shaper;

/// A crate, and the entry of a definition there.
pub(super) type Subject = (&'static str, &'static str);

/// The definition of a line of this shaper, if it runs a hook or a pause.
pub(super) fn subject_of(line: &str, shaper: Shaper) -> Option<Subject> {
    let mut fields = line.strip_prefix("run ")?.split(' ');
    match fields.next()? {
        "pause" => subject_of_pause(fields.next()?),
        "text" => Some(("shapers_pipeline", "Prepared")),
        "preprocess" => match shaper {
            Shaper::Thai => Some(("shapers_text", "Thai")),
            Shaper::Hangul => Some(("shapers_hangul", "Hangul")),
            _ => None,
        },
        "masks" => subject_of_masks(shaper),
        "marks" => match shaper {
            Shaper::Hebrew => Some(("shapers_text", "Hebrew")),
            Shaper::Arabic => Some(("shapers_arabic", "Marks")),
            _ => None,
        },
        "compose" | "decompose" => match shaper {
            Shaper::Hebrew => Some(("shapers_text", "Hebrew")),
            Shaper::Indic => Some(("shapers_indic", "Characters")),
            Shaper::Khmer => Some(("shapers_khmer", "Khmer")),
            Shaper::Universal => Some(("shapers_syllabic", "Characters")),
            _ => None,
        },
        "postprocess" => Some(("shapers_stretch", "Stretch")),
        _ => None,
    }
}

// By shaper, what sets masks.
fn subject_of_masks(shaper: Shaper) -> Option<Subject> {
    match shaper {
        Shaper::Arabic => Some(("shapers_arabic", "Joining")),
        Shaper::Hangul => Some(("shapers_hangul", "Masks")),
        Shaper::Indic | Shaper::Khmer | Shaper::Myanmar => Some(("shapers_syllabic", "Characters")),
        Shaper::Universal => Some(("shapers_universal", "UniversalMasks")),
        Shaper::Hebrew | Shaper::Thai | Shaper::MyanmarZawgyi => None,
    }
}

// By name, what a pause does.
fn subject_of_pause(name: &str) -> Option<Subject> {
    match name {
        "setup_syllables_indic"
        | "setup_syllables_khmer"
        | "setup_syllables_myanmar"
        | "syllabic_clear_var"
        | "clear_substitution_flags" => Some(("shapers_syllabic", "Syllabic")),
        "setup_syllables_use" | "record_rphf" | "record_pref" => {
            Some(("shapers_universal", "UniversalSyllables"))
        }
        "reorder_khmer" => Some(("shapers_khmer", "Khmer")),
        "reorder_myanmar" => Some(("shapers_myanmar", "Myanmar")),
        "reorder_use" => Some(("shapers_universal", "Universal")),
        "initial_reordering" => Some(("shapers_indic_initial", "InitialReordering")),
        "final_reordering" => Some(("shapers_indic_final", "FinalReordering")),
        "record_stch" => Some(("shapers_stretch", "Recorded")),
        "arabic_fallback_shape" => Some(("rustybuzz_shapers", "Pauses")),
        _ => None,
    }
}
