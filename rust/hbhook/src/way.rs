//! The way of a text up to a font's lookups and through the pauses between them: what is decided for
//! its script, for a font that stands in for a real one.

use crate::whole_font::WholeFont;
use crate::word::{Planned, line_of_specification, line_of_text, name_of, runs_from_right};
use sengadlit::alloc::Global;
use sengadlit::ot_shape::{SingleLookups, TextPlan, prepare_text, substitute_text};
use sengadlit::ot_shape_normalize::{NormalizeSettings, Rounds};
use sengadlit::ot_shape_plan::{EnginePlan, ShapeChoices};
use sengadlit::shaper::checked::CallError;
use sengadlit::spans::checked_run_pause_found;
use sengadlit::unicode::UnicodeTables;
use sengadlit::{Buffer, Direction, Pause, Script, ShaperError, Tag};

/// What is chosen for a text besides its script.
#[derive(Clone, Copy, Default)]
pub(crate) struct Wanted {
    /// Whether it runs from right to left; as its script does, where there is none.
    pub(crate) is_rtl: Option<bool>,
    /// What the plan is made by.
    pub(crate) shape: ShapeChoices,
    /// Which rounds of normalization run.
    pub(crate) rounds: Rounds,
    /// Whether the font places marks by GPOS.
    pub(crate) has_gpos_mark: bool,
}

/// The way of the texts of a script.
pub(crate) struct Way {
    pub(crate) script: Script,
    pub(crate) direction: Direction,
    pub(crate) plan: EnginePlan,
    pub(crate) font: WholeFont,
    pub(crate) settings: NormalizeSettings,
}

impl Way {
    /// The way of a script's texts, by what is chosen.
    pub(crate) fn of(script: Script, wanted: Wanted) -> Result<Self, ShaperError> {
        let is_rtl = wanted.is_rtl.unwrap_or_else(|| runs_from_right(script));
        let direction = if is_rtl {
            Direction::RightToLeft
        } else {
            Direction::LeftToRight
        };
        let font = WholeFont::of(script, wanted.has_gpos_mark);
        let named = Some(script);
        let plan =
            EnginePlan::with_choices(Global, named, direction, &font, &font, &[], wanted.shape)?;
        let settings = NormalizeSettings {
            rounds: wanted.rounds,
            ..NormalizeSettings::default()
        };
        Ok(Way {
            script,
            direction,
            plan,
            font,
            settings,
        })
    }

    /// The lines that put a text into a buffer, with the masks that the plan has for features.
    pub(crate) fn lines(&self, text: &str) -> Vec<String> {
        let mut lines = vec!["set tables unicode".into()];
        if let Some(shaper) = self.plan.shaper() {
            lines.push(format!("set shaper {}", name_of(shaper)));
        }
        let code = String::from_utf8_lossy(&self.script.0);
        lines.push(format!("set script {code}"));
        lines.extend(line_of_specification(self.script));
        if self.direction == Direction::RightToLeft {
            lines.push("set direction rtl".into());
        }
        for tag in self.features() {
            let mask = self.plan.plan().ot_map.one_mask(tag);
            lines.push(format!("mask {} {mask:x}", String::from_utf8_lossy(&tag.0)));
        }
        lines.push(line_of_text(text));
        lines
    }

    // The features that are turned on glyph by glyph: the shaper's, and those of fractions.
    fn features(&self) -> Vec<Tag> {
        let shaper = self.plan.shaper();
        let planned = shaper.and_then(|shaper| Planned::of(shaper, self.script));
        let mut features = planned.map_or_else(Vec::new, |planned| planned.features);
        features.extend([Tag(*b"frac"), Tag(*b"numr"), Tag(*b"dnom")]);
        features
    }

    /// The pauses, in their order.
    pub(crate) fn pauses(&self) -> impl Iterator<Item = Pause> {
        self.plan.stages().iter().filter_map(|stage| stage.pause)
    }

    /// Does all that comes before lookups; its glyphs are characters again behind it.
    pub(crate) fn prepare(&self, buffer: &mut Buffer) -> Result<(), ShaperError> {
        let plan = TextPlan {
            shaper: self.plan.shaper(),
            plan: self.plan.plan(),
            direction: self.plan.direction(),
            masks: self.plan.masks(),
            ranges: self.plan.ranges(),
        };
        let prepared = self.font.to_characters(buffer, |buffer| {
            prepare_text(&plan, &self.settings, &self.font, &UnicodeTables, buffer)
        });
        prepared.map_err(refusal_of)
    }

    /// Does all that comes before lookups, and runs the pauses between them; the glyphs are characters
    /// again behind it.
    pub(crate) fn substitute(&self, buffer: &mut Buffer) -> Result<(), ShaperError> {
        let (plan, lookups) = (&self.plan, SingleLookups { singles: &[] });
        let substituted = self.font.to_characters(buffer, |buffer| {
            substitute_text(
                plan,
                &self.settings,
                &self.font,
                &UnicodeTables,
                &lookups,
                buffer,
            )
        });
        substituted.map_err(refusal_of)
    }

    /// Runs a pause, with the syllables that the shaper's grammar finds.
    pub(crate) fn pause(&self, pause: Pause, buffer: &mut Buffer) -> Result<(), ShaperError> {
        let plan = self.plan.plan();
        self.font.on_glyphs(buffer, |buffer| {
            checked_run_pause_found(pause, plan, &self.font, buffer).map_err(refusal_of)?;
            Ok(())
        })
    }
}

// The refusal of a call whose conditions are met: the plan has its shaper's data, and the text is of
// characters, without positions.
fn refusal_of(error: CallError) -> ShaperError {
    match error {
        CallError::Refused(refusal) => refusal,
        CallError::Condition(condition) => unreachable!("{condition:?} isn't met"),
    }
}

#[cfg(test)]
mod tests {
    use super::*;
    use sengadlit::script;

    // The features that the shaper turns on glyph by glyph, and those of fractions, as the plan has them.
    #[test]
    fn the_lines_of_a_text_have_the_plans_masks() {
        let way = Way::of(script::KHMER, Wanted::default()).unwrap();
        let lines = way.lines("\u{1780}");
        for tag in [
            b"pref", b"blwf", b"abvf", b"pstf", b"cfar", b"frac", b"numr", b"dnom",
        ] {
            let mask = way.plan.plan().ot_map.one_mask(Tag(*tag));
            let line = format!("mask {} {mask:x}", String::from_utf8_lossy(tag));
            assert!(mask != 0 && lines.contains(&line), "{line}: {lines:?}");
        }
        assert_eq!(
            lines
                .iter()
                .filter(|line| line.starts_with("mask "))
                .count(),
            8
        );
    }
}
