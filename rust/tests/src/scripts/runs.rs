//! The lines that run hooks and pauses.

use super::Draft;
use super::characters::Writing;
use super::glyphs::{add_positions, add_spans, set_categories, set_classes, substitute_some};

/// Every pause.
const PAUSES: [&str; 15] = [
    "setup_syllables_indic",
    "setup_syllables_khmer",
    "setup_syllables_myanmar",
    "setup_syllables_use",
    "initial_reordering",
    "final_reordering",
    "reorder_khmer",
    "reorder_myanmar",
    "reorder_use",
    "record_rphf",
    "record_pref",
    "record_stch",
    "arabic_fallback_shape",
    "syllabic_clear_var",
    "clear_substitution_flags",
];

/// What a pipeline does: a hook, a pause, or what stands between them.
#[derive(Clone, Copy, Debug)]
enum Step {
    Run(&'static str),
    Spans,
    Substitutions,
    Categories,
    Classes,
    Marks,
    Positions,
    Questions,
}

use Step::{Categories, Classes, Marks, Positions, Questions, Run, Spans, Substitutions};

/// What the pipeline of a shaper does.
fn steps_of(shaper: &str) -> &'static [Step] {
    match shaper {
        "arabic" => &[
            Run("masks"),
            Classes,
            Marks,
            Substitutions,
            Run("pause record_stch"),
            Run("pause arabic_fallback_shape"),
            Positions,
            Run("postprocess"),
        ],
        "hangul" => &[Run("preprocess"), Run("masks")],
        "hebrew" => &[Classes, Marks, Questions],
        "thai" => &[Run("preprocess")],
        "khmer" => &[
            Questions,
            Run("masks"),
            Spans,
            Run("pause setup_syllables_khmer"),
            Run("pause reorder_khmer"),
            Run("pause syllabic_clear_var"),
        ],
        "myanmar" | "zawgyi" => &[
            Run("masks"),
            Spans,
            Run("pause setup_syllables_myanmar"),
            Run("pause reorder_myanmar"),
            Run("pause syllabic_clear_var"),
        ],
        "indic" => &[
            Run("preprocess"),
            Questions,
            Run("masks"),
            Spans,
            Run("pause setup_syllables_indic"),
            Run("pause initial_reordering"),
            Substitutions,
            Run("pause final_reordering"),
            Run("pause syllabic_clear_var"),
        ],
        _ => &[
            Run("preprocess"),
            Questions,
            Run("masks"),
            Spans,
            Run("pause setup_syllables_use"),
            Run("pause clear_substitution_flags"),
            Substitutions,
            Run("pause record_rphf"),
            Run("pause clear_substitution_flags"),
            Substitutions,
            Run("pause record_pref"),
            Run("pause reorder_use"),
            Run("pause syllabic_clear_var"),
        ],
    }
}

/// Adds the lines of a pipeline, or of hooks in any order.
pub fn run(draft: &mut Draft, writing: &Writing, length: usize) {
    if draft.percent(85) {
        for step in steps_of(writing.shaper) {
            if draft.percent(95) {
                take(draft, *step, length);
            }
            if draft.percent(2) {
                run_any(draft, length);
            }
        }
    } else {
        run_in_any_order(draft, length);
    }
}

/// Hooks and pauses in any order, some of which the shaper lacks.
fn run_in_any_order(draft: &mut Draft, length: usize) {
    for _ in 0..1 + draft.numbers.below(5) {
        let step = draft.numbers.one_of(&[
            Spans,
            Substitutions,
            Categories,
            Classes,
            Marks,
            Questions,
            Run("preprocess"),
            Run("masks"),
        ]);
        take(draft, step, length);
        run_any(draft, length);
    }
    if draft.percent(30) {
        take(draft, Positions, length);
        take(draft, Run("postprocess"), length);
    }
}

fn run_any(draft: &mut Draft, length: usize) {
    if draft.percent(20) {
        add_spans(draft, length);
    }
    let pause = draft.numbers.one_of(&PAUSES);
    draft.add(format_args!("run pause {pause}"));
}

fn take(draft: &mut Draft, step: Step, length: usize) {
    match step {
        Run("preprocess" | "masks") if draft.percent(10) => draft.add(format_args!("run text")),
        Run(hook) => draft.add(format_args!("run {hook}")),
        Spans => add_spans(draft, length),
        Substitutions => substitute_some(draft, length),
        Categories => set_categories(draft, length),
        Classes => set_classes(draft, length),
        Marks => run_marks(draft, length),
        Positions => add_positions(draft, length),
        Questions => ask(draft),
    }
}

/// Marks of some places, seldom of none that are there.
fn run_marks(draft: &mut Draft, length: usize) {
    let start = draft.numbers.below(length + 1);
    let end = start + draft.numbers.below(length - start + 1);
    match draft.percent(2) {
        true => draft.add(format_args!("run marks {} {start}", end + 1)),
        false => draft.add(format_args!("run marks {start} {end}")),
    }
}

/// Characters that compose or decompose by a rule.
const ASKED: [u32; 14] = [
    0x5D0, 0x5D9, 0x5E9, 0xFB49, 0x5B4, 0x5B7, 0x5BC, 0x5C1, 0x931, 0x9DC, 0x9DF, 0x17BE, 0xDDA,
    0x1B35,
];

/// Questions of the normalizer.
fn ask(draft: &mut Draft) {
    let [a, b] = [(); 2].map(|()| draft.numbers.one_of(&ASKED));
    if draft.percent(60) {
        draft.add(format_args!("run compose {a:X} {b:X}"));
    }
    if draft.percent(40) {
        draft.add(format_args!("run decompose {a:X}"));
    }
}
