//! What is decided for texts before they are seen.

use super::kerning::kern_mask;
use super::{Face, Feature};
use crate::alloc::Global;
use crate::buffer::{Direction, Script, ShaperError};
use crate::generated::opentype_font::script_features::ScriptFeatures;
use crate::generated::opentype_font::text_tags::TextTags;
use crate::language::{Language, text_tags};
use crate::ot_shape_normalize::Rounds;
use crate::ot_shape_plan::{self, ShapeChoices};
use crate::plan::{BaseSearch, BreakFlags, ZeroContext};
use crate::shaper::Shaper;

/// What a face, a script, a language, a direction and the user's features decide before a text is seen.
/// It serves every text of this script, language and direction, in this face.
#[derive(Debug)]
pub struct ShapePlan {
    pub(super) plan: ot_shape_plan::EnginePlan,
    pub(super) rounds: Rounds,
    pub(super) tags: TextTags,
    pub(super) kern_mask: u32,
    script: Option<Script>,
    language: Option<Language>,
}

impl ShapePlan {
    /// A plan with HarfBuzz's choices.
    ///
    /// # Panics
    ///
    /// Memory is refused: see [`ShapePlan::builder`].
    pub fn new(
        face: &Face<'_>,
        direction: Direction,
        script: Option<Script>,
        language: Option<&Language>,
        features: &[Feature],
    ) -> Self {
        let builder = ShapePlan::builder().direction(direction).script(script);
        builder
            .language(language.copied())
            .features(features)
            .build(face)
            .expect("memory isn't refused")
    }

    /// A plan with choices of one's own.
    pub fn builder() -> ShapePlanBuilder<'static> {
        ShapePlanBuilder::default()
    }

    /// The direction of the texts.
    pub fn direction(&self) -> Direction {
        self.plan.direction()
    }

    /// The script of the texts.
    pub fn script(&self) -> Option<Script> {
        self.script
    }

    /// The language of the texts.
    pub fn language(&self) -> Option<Language> {
        self.language
    }

    /// The shaper whose hooks the texts go through, by their script and by the font's; `None` where
    /// there is nothing that a shaper does for them.
    pub fn shaper(&self) -> Option<Shaper> {
        self.plan.shaper()
    }
}

/// Makes a [`ShapePlan`]. What isn't set is as in HarfBuzz: no script, no language, no features, and the
/// direction in which the script is written, which is left to right without a script.
#[derive(Clone, Copy, Debug)]
pub struct ShapePlanBuilder<'f> {
    script: Option<Script>,
    language: Option<Language>,
    direction: Option<Direction>,
    features: &'f [Feature],
    choices: ShapeChoices,
    rounds: Rounds,
}

impl Default for ShapePlanBuilder<'_> {
    fn default() -> Self {
        ShapePlanBuilder {
            script: None,
            language: None,
            direction: None,
            features: &[],
            choices: ShapeChoices {
                base_search: BaseSearch::AllConsonants,
                zero_context: ZeroContext::NewSpec,
                ..ShapeChoices::default()
            },
            rounds: Rounds::default(),
        }
    }
}

impl ShapePlanBuilder<'_> {
    /// The script of the texts.
    #[must_use]
    pub fn script(self, script: impl Into<Option<Script>>) -> Self {
        ShapePlanBuilder {
            script: script.into(),
            ..self
        }
    }

    /// The language of the texts.
    #[must_use]
    pub fn language(self, language: impl Into<Option<Language>>) -> Self {
        ShapePlanBuilder {
            language: language.into(),
            ..self
        }
    }

    /// The direction of the texts, where it isn't the script's.
    #[must_use]
    pub fn direction(self, direction: Direction) -> Self {
        ShapePlanBuilder {
            direction: Some(direction),
            ..self
        }
    }

    /// The features that the user requests.
    #[must_use]
    pub fn features(self, features: &[Feature]) -> ShapePlanBuilder<'_> {
        ShapePlanBuilder { features, ..self }
    }

    /// Which places are flagged unsafe to break.
    #[must_use]
    pub fn break_flags(mut self, break_flags: BreakFlags) -> Self {
        self.choices.break_flags = break_flags;
        self
    }

    /// Among which consonants Indic looks for the base of a syllable.
    #[must_use]
    pub fn base_search(mut self, base_search: BaseSearch) -> Self {
        self.choices.base_search = base_search;
        self
    }

    /// In which fonts Indic's questions leave out rules that need context.
    #[must_use]
    pub fn zero_context(mut self, zero_context: ZeroContext) -> Self {
        self.choices.zero_context = zero_context;
        self
    }

    /// Which texts are normalized in all rounds.
    #[must_use]
    pub fn rounds(self, rounds: Rounds) -> Self {
        ShapePlanBuilder { rounds, ..self }
    }

    /// Makes the plan.
    ///
    /// # Errors
    ///
    /// [`ShaperError::Memory`].
    #[inline]
    pub fn build(self, face: &Face<'_>) -> Result<ShapePlan, ShaperError> {
        let of_script = || {
            self.script
                .map_or(Direction::LeftToRight, Script::direction)
        };
        let direction = self.direction.unwrap_or_else(of_script);
        let tags = text_tags(self.script, self.language.as_ref());
        let font = face.for_tags(tags);
        let (gsub, gpos) = (face.face.gsub, face.face.gpos);
        let features = ScriptFeatures::new(gsub, gpos, &tags, Global)?;
        let plan = ot_shape_plan::EnginePlan::with_choices(
            Global,
            self.script,
            direction,
            &font,
            &features,
            self.features,
            self.choices,
        )?;
        Ok(ShapePlan {
            kern_mask: kern_mask(&plan, &features),
            plan,
            rounds: self.rounds,
            tags,
            script: self.script,
            language: self.language,
        })
    }
}

#[cfg(test)]
mod tests {
    use super::*;

    #[test]
    fn choices_are_harfbuzzs_unless_one_chooses() {
        let choices = ShapePlan::builder().choices;
        assert_eq!(choices.base_search, BaseSearch::AllConsonants);
        assert_eq!(choices.zero_context, ZeroContext::NewSpec);
        let chosen = ShapePlan::builder().zero_context(ZeroContext::OldSpec);
        assert_eq!(chosen.choices.zero_context, ZeroContext::OldSpec);
    }
}
