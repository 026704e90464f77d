use super::told::{moved_places, told};
use super::*;
use sengadlit::GlyphProps;
use std::collections::BTreeSet;
use std::fs;
use std::path::Path;

fn steps_of(text: &str) -> Steps {
    Steps::of_text(text, &Choices::default()).unwrap()
}

fn glyph(number: u32, cluster: u32) -> GlyphInfo {
    GlyphInfo {
        glyph_id: number,
        cluster,
        ..GlyphInfo::DEFAULT
    }
}

#[test]
fn the_fewest_places_moved() {
    assert_eq!(moved_places(&[]), BTreeSet::new());
    assert_eq!(moved_places(&[0, 0, 1, 3]), BTreeSet::new());
    assert_eq!(moved_places(&[3, 0, 1, 2]), BTreeSet::from([0]));
    assert_eq!(moved_places(&[1, 2, 3, 0]), BTreeSet::from([3]));
    assert_eq!(moved_places(&[2, 1, 0]).len(), 2);
}

#[test]
fn a_step_is_told_in_sentences() {
    let before = [glyph(0x41, 0), glyph(0x42, 1), glyph(0x43, 2)];
    assert_eq!(told(&before, &before, &[0, 1, 2]), "Nothing changed.");
    let after = [glyph(0x43, 0), glyph(0x41, 0), glyph(0x42, 0)];
    assert_eq!(
        told(&before, &after, &[2, 0, 1]),
        "0043 moved from place 2 to place 0; clusters 0, 1, 2 merged into 0."
    );
    let after = [glyph(0x41, 0), glyph(0x44, 0), glyph(0x45, 1)];
    assert_eq!(
        told(&before, &after, &[0, 0, 1]),
        "0041 became 0044; 0042 became 0045; 0044 came in; 0043 went into another."
    );
}

#[test]
fn where_no_origin_is_known_others_are_counted() {
    let before = [glyph(0x41, 0), glyph(0x42, 1), glyph(0x43, 2)];
    let after = [glyph(0x44, 0), glyph(0x45, 1), glyph(0x43, 2)];
    assert_eq!(told(&before, &after[..1], &[]), "3 glyphs became 1.");
    assert_eq!(told(&before[..1], &after, &[]), "1 glyph became 3.");
    assert_eq!(told(&before, &before, &[]), "The glyphs are the same.");
    assert_eq!(
        told(&before[1..], &after[1..], &[]),
        "1 glyph became another."
    );
    assert_eq!(told(&before, &after, &[]), "2 glyphs became others.");
    let turned = [before[1], before[2], before[0]];
    assert_eq!(
        told(&before, &turned, &[]),
        "The same glyphs stand in another order."
    );
}

#[test]
fn more_than_four_are_told_by_their_count() {
    let before: Vec<GlyphInfo> = (0..6).map(|i| glyph(0x41 + i, i)).collect();
    let after: Vec<GlyphInfo> = (0..6).map(|i| glyph(0x61 + i, i)).collect();
    assert_eq!(
        told(&before, &after, &[0, 1, 2, 3, 4, 5]),
        "0041 became 0061; 0042 became 0062; 0043 became 0063; 0044 became 0064; 2 more became others."
    );
    let reversed: Vec<GlyphInfo> = before.iter().rev().copied().collect();
    assert_eq!(
        told(&before, &reversed, &[5, 4, 3, 2, 1, 0]),
        "0046 moved from place 5 to place 0; 0045 moved from place 4 to place 1; \
         0044 moved from place 3 to place 2; 0043 moved from place 2 to place 3; 1 more moved."
    );
    let of_one = [before[0]; 6];
    assert_eq!(
        told(&before[..1], &of_one, &[0; 6]),
        "0041 came in; 0041 came in; 0041 came in; 0041 came in; 1 more came in."
    );
    assert_eq!(
        told(&before, &before[..1], &[0]),
        "0042 went into another; 0043 went into another; 0044 went into another; \
         0045 went into another; 1 more went into others."
    );
}

// Of a syllable's byte the kind counts as the serial does.
#[test]
fn another_syllable_has_another_serial_or_kind() {
    let before = [GlyphInfo {
        syllable: 0x12,
        ..glyph(0x41, 0)
    }];
    for syllable in [0x22, 0x13] {
        let after = [GlyphInfo {
            syllable,
            ..before[0]
        }];
        assert_eq!(told(&before, &after, &[0]), "1 glyph has another syllable.");
    }
}

// The low three bits of a mask are glyph flags, the others features.
#[test]
fn flags_and_features_are_told_apart() {
    let before = [glyph(0x41, 0)];
    for (mask, what) in [(4, "glyph flags"), (8, "features")] {
        let after = [GlyphInfo { mask, ..before[0] }];
        assert_eq!(
            told(&before, &after, &[0]),
            format!("1 glyph has other {what}.")
        );
    }
}

#[test]
fn a_text_takes_the_steps_of_its_shaper() {
    let heads = |text| -> Vec<String> {
        let steps = steps_of(text).steps;
        steps.into_iter().flat_map(|step| step.heads).collect()
    };
    let before = [
        "initialize_masks",
        "set_unicode_properties",
        "form_clusters",
        "ensure_native_direction",
    ];
    let between = ["rotate_chars", "ot_shape_normalize", "set_fractions"];
    let thai = heads("\u{0E14}\u{0E33}");
    assert_eq!(thai[1..5], before);
    assert_eq!(thai[5], "preprocess_text");
    assert_eq!(thai[6..9], between);
    assert_eq!(thai[9..], ["map_glyphs"]);
    let khmer = heads("\u{1780}\u{17C1}");
    assert_eq!(khmer[1..5], before);
    assert_eq!(khmer[5..8], between);
    assert_eq!(
        khmer[8..],
        [
            "setup_masks",
            "map_glyphs",
            "run pause setup_syllables_khmer",
            "run pause reorder_khmer",
            "run pause syllabic_clear_var"
        ]
    );
    assert_eq!(
        heads("\u{0905}\u{0906}")[5..7],
        ["preprocess_text_vowel_constraints", "rotate_chars"]
    );
}

#[test]
fn with_sound_a_text_of_indic_has_its_joiners_flagged() {
    let choices = Choices {
        is_sound: true,
        ..Choices::default()
    };
    let steps = Steps::of_text("\u{0915}\u{200C}\u{093E}", &choices).unwrap();
    let flagged = &steps.steps[6];
    assert_eq!(flagged.heads, ["flag_zwnj_graphemes"]);
    let flags: Vec<u32> = flagged.glyphs.iter().map(|it| it.mask & 7).collect();
    assert_eq!(flags, [0, 3, 3]);
}

// Normalization leaves the numbers of glyphs where the marks of lookups stand: they aren't marks.
#[test]
fn numbers_of_glyphs_are_no_marks() {
    let khmer = steps_of("\u{1780}\u{17C4}").steps;
    let place = khmer
        .iter()
        .position(|step| step.heads == ["ot_shape_normalize"])
        .unwrap();
    for step in &khmer[place..] {
        assert!(!step.drawn.contains("glyph</"), "{:?}", step.heads);
        for glyph in &step.glyphs {
            assert_eq!(glyph.glyph_props, GlyphProps::NONE, "{:?}", step.heads);
        }
    }
    assert_eq!(khmer[place].told, "17C4 became 17C1; 17C4 came in.");
    assert_eq!(khmer[place + 1].told, "Nothing changed.");
    assert_eq!(khmer[place + 3].heads, ["map_glyphs"]);
    assert_eq!(khmer[place + 3].told, "Nothing changed.");
}

// The font has no character of private use: its glyph is number 0.
#[test]
fn a_character_that_the_font_lacks_is_glyph_0() {
    let steps = steps_of("\u{0E01}\u{E000}").steps;
    let last = steps.last().unwrap();
    assert_eq!(last.heads, ["map_glyphs"]);
    assert_eq!(last.told, "E000 became 0000.");
}

// Jamo compose in a font that has syllables of Hangul.
#[test]
fn decomposed_hangul_composes() {
    let steps = steps_of("\u{1109}\u{1175}\u{11AB}\u{1107}\u{1165}\u{11B8}").steps;
    let last = steps.last().unwrap();
    let numbers: Vec<u32> = last.glyphs.iter().map(|glyph| glyph.glyph_id).collect();
    assert_eq!(numbers, [0xC2E0, 0xBC95]);
}

// By the second specification a syllable of Bengali keeps its ZWNJ in a cluster of its own (HarfBuzz).
#[test]
fn indic_is_set_up_by_its_second_specification() {
    let text = "\u{09B8}\u{099F}\u{09CD}\u{200C}\u{0995}\u{09BE}\u{0987}";
    let steps = steps_of(text).steps;
    let last = steps.last().unwrap();
    let clusters: Vec<u32> = last.glyphs.iter().map(|glyph| glyph.cluster).collect();
    assert_eq!(clusters, [0, 1, 1, 3, 4, 4, 6]);
}

// What is chosen reaches the plan: where GPOS places marks, a letter and a point stay apart; a text
// that a caller wants from left to right is turned.
#[test]
fn choices_are_those_of_the_plan() {
    let last = |text: &str, choices: Choices| -> Vec<u32> {
        let steps = Steps::of_text(text, &choices).unwrap().steps;
        let glyphs = &steps.last().unwrap().glyphs;
        glyphs.iter().map(|glyph| glyph.glyph_id).collect()
    };
    let choices = Choices::default();
    assert_eq!(last("\u{05D9}\u{05B4}", choices), [0xFB1D]);
    let choices = Choices {
        has_gpos_mark: true,
        ..choices
    };
    assert_eq!(last("\u{05D9}\u{05B4}", choices), [0x05D9, 0x05B4]);
    let choices = Choices {
        is_rtl: Some(false),
        ..choices
    };
    assert_eq!(last("\u{05D0}\u{05D1}", choices), [0x05D1, 0x05D0]);
    let choices = Choices {
        has_all_rounds: true,
        ..Choices::default()
    };
    assert_eq!(last("\u{1026}", choices), [0x1026]);
    assert_eq!(last("\u{1026}", Choices::default()), [0x1025, 0x102E]);
}

#[test]
fn a_mark_at_the_beginning_gets_a_circle() {
    let choices = Choices {
        is_beginning: true,
        ..Choices::default()
    };
    let steps = Steps::of_text("\u{17C1}\u{1780}", &choices).unwrap();
    let circle = &steps.steps[3];
    assert_eq!(circle.heads, ["insert_dotted_circle"]);
    let numbers: Vec<u32> = circle.glyphs.iter().map(|it| it.glyph_id).collect();
    assert_eq!(numbers, [0x25CC, 0x17C1, 0x1780]);
    assert_ne!(
        steps_of("\u{17C1}").steps[3].heads,
        ["insert_dotted_circle"]
    );
}

#[test]
fn the_style_is_that_of_drawn_pages() {
    let style = drawing_style();
    assert!(style.trim_start().starts_with(":root{") && style.contains("\n.row{"));
    assert!(!style.contains('<'));
}

#[test]
fn other_texts_have_no_steps() {
    for text in ["", "word", " "] {
        assert!(Steps::of_text(text, &Choices::default()).is_none());
    }
}

#[test]
fn normalization_takes_a_vowel_apart() {
    // Tamil O is E and AA; E then goes before the letter
    let steps = steps_of("\u{0B95}\u{0BCA}");
    let numbers = |step: &Step| -> Vec<u32> { step.glyphs.iter().map(|it| it.glyph_id).collect() };
    let normalized = &steps.steps[7];
    assert_eq!(normalized.heads, ["ot_shape_normalize"]);
    assert_eq!(numbers(normalized), [0x0B95, 0x0BC6, 0x0BBE]);
    assert_eq!(normalized.origins, [0, 1, 1]);
    assert_eq!(
        numbers(steps.steps.last().unwrap()),
        [0x0BC6, 0x0B95, 0x0BBE]
    );
}

#[test]
fn the_moves_of_a_glyph_lead_to_the_text() {
    let steps = steps_of("\u{0D9A}\u{0DD9}");
    let last = steps.steps.len() - 1;
    let reordered = steps
        .steps
        .iter()
        .position(|step| step.heads == ["run pause reorder_use"])
        .unwrap();
    assert_eq!(steps.moves(reordered, 0), [(reordered, 1, 0)]);
    assert_eq!(steps.moves(last, 0), [(reordered, 1, 0)]);
    assert_eq!(steps.moves(last, 1), []);
    assert_eq!(steps.moves(last + 1, 9), []);
    let fields = steps.fields(last, 0);
    assert_eq!(fields[0], ("glyph", "0DD9 \u{0DD9}".into()));
    assert_eq!(
        fields[5].1,
        "22: VPre, a vowel before the base, which goes to the front"
    );
    assert!(steps.fields(last, 2).is_empty());
}

// What would break a line of the page, or can't be seen, has a number alone.
#[test]
fn a_control_character_is_shown_by_its_number() {
    let steps = steps_of("\u{0D9A}\n\u{0085}");
    let number = |place| steps.fields(0, place)[0].clone();
    assert_eq!(number(0), ("glyph", "0D9A \u{0D9A}".into()));
    assert_eq!(number(1), ("glyph", "000A".into()));
    assert_eq!(number(2), ("glyph", "0085".into()));
}

// The serial of a syllable is its byte's high four bits, its kind the low four: that of a word joiner
// is 8, other.
#[test]
fn a_syllable_has_a_serial_and_a_kind() {
    let steps = steps_of("\u{0D9A}\u{0DD9}\u{2060}\u{0D9A}");
    let is_set_up = |step: &Step| step.heads == ["run pause setup_syllables_use"];
    let step = steps.steps.iter().position(is_set_up).unwrap();
    let syllable = |place| steps.fields(step, place)[4].clone();
    assert_eq!(syllable(0), ("syllable", "12: serial 1, kind 2".into()));
    assert_eq!(syllable(2), ("syllable", "28: serial 2, kind 8".into()));
}

// A slash that lacks one side is flagged where the buffer wants that flag; one with both has features.
#[test]
fn fractions_have_features_and_flags() {
    let masks = |text: &str, flags| -> Vec<u32> {
        let choices = Choices {
            flags,
            ..Choices::default()
        };
        let steps = Steps::of_text(text, &choices).unwrap().steps;
        let is_fractions = |step: &&Step| step.heads == ["set_fractions"];
        let step = steps.iter().find(is_fractions).unwrap();
        step.glyphs.iter().map(|glyph| glyph.mask).collect()
    };
    let lacking = "\u{0E01}\u{2044}1";
    assert_eq!(masks(lacking, 0)[1] & 3, 0);
    assert_eq!(masks(lacking, 0x40)[1] & 3, 2);
    let whole = masks("\u{0E01}1\u{2044}2", 0);
    assert_eq!([whole[1] & 1, whole[2] & 1, whole[3] & 1], [0, 1, 1]);
    let (numerator, slash, denominator) = (whole[1], whole[2] & !7, whole[3] & !7);
    assert_eq!(numerator & denominator, slash);
    assert!(numerator != slash && denominator != slash && numerator != denominator);
}

#[test]
fn a_line_may_not_break_where_the_last_step_flags_it() {
    let steps = steps_of("\u{0628}\u{0628} \u{0628}");
    assert_eq!(steps.pieces(), ["\u{0628}\u{0628}", " ", "\u{0628}"]);
    // a grapheme is one cluster, inside of which no line breaks
    assert_eq!(
        steps_of("\u{0E14}\u{0E48}\u{0E14}").pieces(),
        ["\u{0E14}\u{0E48}", "\u{0E14}"]
    );
    assert!(Steps::of_lines("text 0E14").pieces().is_empty());
    // the slash is flagged unsafe to concatenate alone
    let choices = Choices {
        flags: 0x40,
        ..Choices::default()
    };
    let steps = Steps::of_text("\u{0E01}\u{2044}1", &choices).unwrap();
    assert_eq!(steps.pieces(), ["\u{0E01}", "\u{2044}", "1"]);
}

#[test]
fn lines_end_where_one_is_rejected() {
    let steps = Steps::of_lines("set shaper thai\ntext 0E14 0E33\nrun preprocess\nrun nothing");
    assert_eq!(steps.steps.len(), 2);
    assert_eq!(steps.steps[0].heads, ["text 0E14 0E33"]);
    assert!(
        steps
            .ended
            .unwrap()
            .starts_with("line 4: field 2, `nothing`")
    );
    let long = "text ".to_owned() + &["41"; MOST_SHOWN + 1].join(" ");
    let ended = Steps::of_lines(&long).ended.unwrap();
    assert_eq!(ended, "line 1: 2001 glyphs; no more than 2000 are drawn");
    let many = "set shaper khmer\ntext ".to_owned() + &"\u{1780}".repeat(MOST_SHOWN);
    let steps = Steps::of_lines(&(many + &"\nrun masks".repeat(30)));
    assert_eq!(steps.steps.len(), 25);
    let ended = steps.ended.unwrap();
    assert_eq!(
        ended,
        "line 27: the steps have more than 50000 glyphs together"
    );
}

#[test]
fn a_long_text_is_cut_off() {
    let steps = steps_of(&"\u{0E01}".repeat(MOST_SHOWN + 1));
    assert_eq!(steps.steps[0].glyphs.len(), MOST_SHOWN);
    assert_eq!(steps.ended, None);
}

// The entries of bindings/page/definitions.md, which the page shows beside its steps.
#[test]
fn each_step_has_its_definition() {
    let path = Path::new(env!("CARGO_MANIFEST_DIR")).join("../../bindings/page/definitions.md");
    let page = fs::read_to_string(path).unwrap();
    for code in crate::scripts_with_hooks() {
        let choices = Choices {
            script: Some(code),
            ..Choices::default()
        };
        for step in Steps::of_text("\u{25CC}", &choices)
            .unwrap()
            .steps
            .iter()
            .skip(1)
        {
            let Some((part, entry)) = step.subject else {
                panic!("{:?} has no definition", step.heads);
            };
            let (_, part) = page.split_once(&format!("\n## `{part}`\n")).unwrap();
            let part = part.split("\n## ").next().unwrap();
            assert!(part.contains(&format!("\n**{entry}** ")), "{entry}");
        }
    }
}

// A reordering is defined in the crate of its shaper.
#[test]
fn each_reordering_has_its_own_definition() {
    let rows = [
        ("\u{1780}", "reorder_khmer", "shapers_khmer"),
        ("\u{1000}", "reorder_myanmar", "shapers_myanmar"),
        ("\u{0D9A}", "reorder_use", "shapers_universal"),
        ("\u{0915}", "initial_reordering", "shapers_indic_initial"),
        ("\u{0915}", "final_reordering", "shapers_indic_final"),
    ];
    for (text, pause, part) in rows {
        let steps = steps_of(text).steps;
        let head = format!("run pause {pause}");
        let step = steps.iter().find(|step| step.heads == [head.as_str()]);
        assert_eq!(step.unwrap().subject.unwrap().0, part);
    }
}
