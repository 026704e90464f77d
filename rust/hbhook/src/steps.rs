//! The steps of a text through the hooks, one by one, with what a page shows of each.
//!
//! [`Steps::of_text`] takes a text the whole way up to a font's lookups and through the pauses
//! between them, by the steps of the crate's `prepare_text` and `run_stages`, one after the other.
//! [`Steps::in_font`] shapes it with a font file, lookup by lookup. [`Steps::of_lines`] carries out
//! lines. Rows are drawn as `draw_lines` draws them.

mod calls;
mod fractions;
mod glyph;
mod in_font;
mod subjects;
mod told;
mod walk;

use crate::drawing::HEAD;
use crate::way::{Wanted, Way};
use crate::word::script_of_word;
use calls::calls_of;
use glyph::Names;
use sengadlit::ot_shape_normalize::Rounds;
use sengadlit::ot_shape_plan::ShapeChoices;
use sengadlit::plan::BreakFlags;
use sengadlit::{GlyphInfo, Script, Shaper, ShaperError};
use std::collections::BTreeSet;
pub(crate) use walk::Walk;

/// The most characters that [`Steps::of_text`] takes of a text, and the most glyphs of a row.
pub const MOST_SHOWN: usize = 2_000;

// The most glyphs that all steps have together: a text of MOST_SHOWN characters takes up to nineteen.
const MOST_IN_ALL: usize = 50_000;

// The glyph flag of a glyph before which a line may not break.
const UNSAFE_TO_BREAK: u32 = 1;

/// What is chosen for a text.
#[derive(Clone, Copy, Debug, Default)]
pub struct Choices {
    /// The script; the text's own, by its first character of one with hooks, where there is none.
    pub script: Option<[u8; 4]>,
    /// Whether the text runs from right to left; as its script does, where there is none.
    pub is_rtl: Option<bool>,
    /// The cluster level, to 2.
    pub level: u8,
    /// The buffer's flags by HarfBuzz's bits: of 20, 40 and 80 those that are set.
    pub flags: u32,
    /// Whether hooks flag what either half of a broken text needs (`BreakFlags::Sound`).
    pub is_sound: bool,
    /// Whether all rounds of normalization run (`Rounds::Always`).
    pub has_all_rounds: bool,
    /// Whether the font places marks by GPOS.
    pub has_gpos_mark: bool,
    /// Whether the text is the beginning of one, before which a mark gets a dotted circle.
    pub is_beginning: bool,
}

/// A step: what was done, and the glyphs that it left.
#[derive(Debug)]
pub struct Step {
    /// What was done: the lines that were carried out, or the name of a call.
    pub heads: Vec<String>,
    /// What a hook printed, one line each.
    pub answers: Vec<String>,
    /// What moved, merged and changed, in sentences.
    pub told: String,
    /// The row, in HTML; every text in it is escaped.
    pub drawn: String,
    /// The glyphs as the program prints them, one line each.
    pub printed: String,
    /// Where bindings/page/definitions.md defines the step: the crate and the entry.
    pub subject: Option<(&'static str, &'static str)>,
    glyphs: Vec<GlyphInfo>,
    names: Vec<Names>,
    // The place of each glyph before the step; none where that isn't known.
    origins: Vec<usize>,
}

/// The steps of a text.
#[derive(Debug)]
pub struct Steps {
    /// The steps, in order.
    pub steps: Vec<Step>,
    /// What the drawings and names mean, in HTML.
    pub legend: String,
    /// The script that was taken for a text.
    pub script: Option<[u8; 4]>,
    /// Why there are no more steps, where a line or a call ended them.
    pub ended: Option<String>,
    // The text that was shaped.
    text: String,
}

impl Steps {
    /// The steps of a text: features of the whole text, Unicode's properties, a circle in front,
    /// graphemes, direction, the hook before normalization, rotated characters, normalization,
    /// fractions, masks, glyphs, and the pauses, which set syllables up, reorder and clear them. The font
    /// has every character but those of private use, every feature and no lookup: the last step has the
    /// glyphs that [`print_text`](crate::print_text) prints. `None` where no script with hooks is chosen,
    /// or known of the text. More than [`MOST_SHOWN`] characters are cut off.
    ///
    /// ```
    /// use hbhook::{Choices, Steps};
    ///
    /// let steps = Steps::of_text("\u{0D9A}\u{0DD9}", &Choices::default()).unwrap();
    /// assert_eq!(steps.script, Some(*b"Sinh"));
    /// let reordered = steps.steps.iter().find(|step| step.heads == ["run pause reorder_use"]).unwrap();
    /// assert!(reordered.told.starts_with("0DD9 moved from place 1 to place 0"));
    /// ```
    #[must_use]
    pub fn of_text(text: &str, choices: &Choices) -> Option<Self> {
        let text: String = text.chars().take(MOST_SHOWN).collect();
        let code = choices.script.or_else(|| script_of_word(&text))?;
        let way = Way::of(Script(code), wanted_of(choices)).ok()?;
        let shaper = way.plan.shaper()?;
        let mut walk = Walk::new();
        let ended = walk_text(&mut walk, &way, shaper, &text, choices).err();
        let steps = walk.finished(Some(code), ended);
        Some(Steps { text, ..steps })
    }

    /// The steps of lines (docs/HBHOOK.md): one for each text with the lines that write to its glyphs,
    /// and one for each hook.
    #[must_use]
    pub fn of_lines(lines: &str) -> Self {
        let mut walk = Walk::new();
        let ended = walk.carry_out_all(lines).err();
        walk.finished(None, ended)
    }

    /// The fields of the glyph at a place behind a step, each with its name. None where there is no
    /// such glyph.
    #[must_use]
    pub fn fields(&self, step: usize, place: usize) -> Vec<(&'static str, String)> {
        let found = self
            .steps
            .get(step)
            .and_then(|step| Some((step.glyphs.get(place)?, step.names.get(place)?)));
        found.map_or_else(Vec::new, |(glyph, names)| glyph::fields_of(glyph, names))
    }

    /// The steps up to this one that moved the glyph at a place, the last first: the step's number,
    /// and the places before and behind it. It ends where it isn't known from where a glyph came.
    #[must_use]
    pub fn moves(&self, step: usize, place: usize) -> Vec<(usize, usize, usize)> {
        let mut moves = Vec::new();
        let mut place = place;
        for (number, step) in self.steps.iter().enumerate().take(step + 1).rev() {
            let Some(origin) = step.origins.get(place).copied() else {
                break;
            };
            if told::moved_places(&step.origins).contains(&place) {
                moves.push((number, origin, place));
            }
            place = origin;
        }
        moves
    }

    /// The text cut where no flag of the last step forbids a line break. For steps of lines, nothing.
    #[must_use]
    pub fn pieces(&self) -> Vec<String> {
        let glyphs = self.steps.last().map_or(&[][..], |step| &step.glyphs);
        let starts: BTreeSet<u32> = glyphs.iter().map(|glyph| glyph.cluster).collect();
        let unsafe_starts: BTreeSet<u32> = glyphs
            .iter()
            .filter(|glyph| glyph.mask & UNSAFE_TO_BREAK != 0)
            .map(|glyph| glyph.cluster)
            .collect();
        let mut pieces: Vec<String> = Vec::new();
        for (place, character) in (0..).zip(self.text.chars()) {
            let may_break = starts.contains(&place) && !unsafe_starts.contains(&place);
            match pieces.last_mut() {
                Some(piece) if !may_break => piece.push(character),
                _ => pieces.push(character.into()),
            }
        }
        pieces
    }
}

/// The style of what [`Step::drawn`] and [`Steps::legend`] have, in CSS.
#[must_use]
pub fn drawing_style() -> &'static str {
    let (_, style) = HEAD.split_once("<style>").unwrap_or(("", ""));
    style.split("</style>").next().unwrap_or("")
}

// What a text's way is decided by.
fn wanted_of(choices: &Choices) -> Wanted {
    let break_flags = if choices.is_sound {
        BreakFlags::Sound
    } else {
        BreakFlags::default()
    };
    let rounds = if choices.has_all_rounds {
        Rounds::Always
    } else {
        Rounds::default()
    };
    Wanted {
        is_rtl: choices.is_rtl,
        shape: ShapeChoices {
            break_flags,
            ..ShapeChoices::default()
        },
        rounds,
        has_gpos_mark: choices.has_gpos_mark,
    }
}

// Takes a text through its steps; returns why there are no more, where one ended them.
fn walk_text(
    walk: &mut Walk,
    way: &Way,
    shaper: Shaper,
    text: &str,
    choices: &Choices,
) -> Result<(), String> {
    let settings = [
        format!("set level {}", choices.level),
        format!("set flags {:x}", choices.flags),
    ];
    for line in settings.iter().chain(&way.lines(text)) {
        walk.carry_out(line)?;
    }
    for call in calls_of(way, shaper, choices.is_beginning) {
        walk.call(call, way)?;
    }
    Ok(())
}

#[cfg(test)]
mod tests;
