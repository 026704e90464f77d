// Generated from crates/shapers_plan/src/ot_shape_plan.rt by rust/erase; edit the source.

//! The plan of a text: its shaper, the font's lookups in stages, and the masks of its features.

use crate::support::prelude::*;

use crate::generated::rustybuzz_shapers::shaper::Shaper;
use crate::generated::shapers_base::buffer::{Direction, Script, ShaperError};
use crate::generated::shapers_base::font::Font;
use crate::generated::shapers_base::map::TableIndex;
use crate::generated::shapers_base::plan::Plan;
use crate::generated::shapers_plan::ot_map::{CompiledMap, FontFeatures, Stage, StageLookup};
use crate::support::alloc::Global;
use collecting::{collect, text_shaper};
use making::{hooks_plan, takes_gpos, user_ranges};

mod choices;
mod collecting;
mod making;
mod user;

pub use choices::ShapeChoices;
pub use making::driver_masks;
pub use user::{UserFeature, UserRange};

/// The masks of features that the driver itself turns on; 0 where the font lacks one.
#[derive(Clone, Copy, Debug, PartialEq, Eq, Hash)]
pub struct DriverMasks {
    /// Fractions.
    pub frac: u32,
    /// Numerators.
    pub numr: u32,
    /// Denominators.
    pub dnom: u32,
    /// Mirrored forms for text from right to left.
    pub rtlm: u32,
    /// Forms for vertical text.
    pub vert: u32,
}

/// What is decided for the texts of one script, direction and font before one is seen.
#[derive(Debug, PartialEq, Eq)]
pub struct EnginePlan {
    pub(crate) shaper: Option<Shaper>,
    pub(crate) plan: Plan,
    pub(crate) direction: Direction,
    pub(crate) substitutions: Vec<Stage>,
    pub(crate) lookups: Vec<StageLookup>,
    pub(crate) applies_gpos: bool,
    pub(crate) positioning: Vec<StageLookup>,
    pub(crate) masks: DriverMasks,
    pub(crate) ranges: Vec<UserRange>,
}

impl EnginePlan {
    /// The plan of a text of this script and direction in a font, with the user's features. The
    /// shaper follows from the script by which the font's features were found (HarfBuzz's planner).
    ///
    /// # Errors
    ///
    /// [`Memory`].
    ///
    /// <details><summary>Contract</summary>
    ///
    /// # Contract
    ///
    /// ```text
    /// ensures ok { let has_rclt = (F.font face.now).offers rclt in
    ///     let tables = L.tables features.now in
    ///     let plan = text_plan tables has_rclt script direction users.now default_choices in
    ///     IfOk result (λ it. it ≡ plan) }
    /// ensures refusal { IsOkUnless result Memory }
    /// ```
    ///
    /// - `rclt`: `crates/shapers_arabic/specs/Requests.antt`
    /// - `default_choices`, `text_plan`: `crates/shapers_plan/specs/Planning.antt`
    ///
    /// </details>
    ///
    /// [`Memory`]: crate::ShaperError::Memory
    pub fn new<F: Font, L: FontFeatures>(
        alloc: Global,
        script: Option<Script>,
        direction: Direction,
        face: &F,
        features: &L,
        users: &[UserFeature],
    ) -> Result<Self, ShaperError> {
        let choices = ShapeChoices::default();
        Self::with_choices(alloc, script, direction, face, features, users, choices)
    }

    /// The same, with the caller's choices in place of the default ones.
    ///
    /// # Errors
    ///
    /// [`Memory`].
    ///
    /// <details><summary>Contract</summary>
    ///
    /// # Contract
    ///
    /// ```text
    /// ensures ok { let has_rclt = (F.font face.now).offers rclt in
    ///     let tables = L.tables features.now in
    ///     let plan = text_plan tables has_rclt script direction users.now choices in
    ///     IfOk result (λ it. it ≡ plan) }
    /// ensures refusal { IsOkUnless result Memory }
    /// ```
    ///
    /// - `rclt`: `crates/shapers_arabic/specs/Requests.antt`
    /// - `text_plan`: `crates/shapers_plan/specs/Planning.antt`
    ///
    /// </details>
    ///
    /// [`Memory`]: crate::ShaperError::Memory
    pub fn with_choices<F: Font, L: FontFeatures>(
        alloc: Global,
        script: Option<Script>,
        direction: Direction,
        face: &F,
        features: &L,
        users: &[UserFeature],
        choices: ShapeChoices,
    ) -> Result<Self, ShaperError> {
        let shaper = text_shaper(script, direction, features.chosen_script(TableIndex::GSUB));
        let planner = collect(alloc, shaper, script, direction, face, users)?;
        let compiled = CompiledMap::new(alloc, features, planner.requests())?;
        let ranges = user_ranges(alloc, compiled.features.as_slice(), users)?;
        let masks = driver_masks(&compiled.map);
        Ok(EnginePlan {
            shaper,
            plan: hooks_plan(shaper, script, choices, compiled.map),
            direction,
            substitutions: compiled.stages,
            lookups: compiled.lookups,
            applies_gpos: takes_gpos(shaper, features),
            positioning: compiled.positioning,
            masks,
            ranges,
        })
    }

    /// The shaper, or none for a text that no shaper has hooks for.
    ///
    /// <details><summary>Contract</summary>
    ///
    /// # Contract
    ///
    /// ```text
    /// ensures { result ≡ self.now.shaper }
    /// ```
    ///
    /// </details>
    #[inline]
    pub fn shaper(&self) -> Option<Shaper> {
        self.shaper
    }

    /// The plan that the shaper's hooks read.
    ///
    /// <details><summary>Contract</summary>
    ///
    /// # Contract
    ///
    /// ```text
    /// ensures { result.now ≡ self.now.plan }
    /// ```
    ///
    /// </details>
    #[inline]
    pub fn plan(&self) -> &Plan {
        &self.plan
    }

    /// The direction of the text.
    ///
    /// <details><summary>Contract</summary>
    ///
    /// # Contract
    ///
    /// ```text
    /// ensures { result ≡ self.now.direction }
    /// ```
    ///
    /// </details>
    #[inline]
    pub fn direction(&self) -> Direction {
        self.direction
    }

    /// The stages of GSUB, in order.
    ///
    /// <details><summary>Contract</summary>
    ///
    /// # Contract
    ///
    /// ```text
    /// ensures { result.now ≡ self.now.stages }
    /// ```
    ///
    /// </details>
    #[inline]
    pub fn stages(&self) -> &[Stage] {
        self.substitutions.as_slice()
    }

    /// The lookups of GSUB, stage by stage.
    ///
    /// <details><summary>Contract</summary>
    ///
    /// # Contract
    ///
    /// ```text
    /// ensures { result.now ≡ self.now.lookups }
    /// ```
    ///
    /// </details>
    #[inline]
    pub fn lookups(&self) -> &[StageLookup] {
        self.lookups.as_slice()
    }

    /// Whether GPOS is applied: the font has it, and the shaper takes the script chosen there.
    ///
    /// <details><summary>Contract</summary>
    ///
    /// # Contract
    ///
    /// ```text
    /// ensures { result ≡ self.now.applies_gpos }
    /// ```
    ///
    /// </details>
    #[inline]
    pub fn applies_gpos(&self) -> bool {
        self.applies_gpos
    }

    /// The lookups of GPOS.
    ///
    /// <details><summary>Contract</summary>
    ///
    /// # Contract
    ///
    /// ```text
    /// ensures { result.now ≡ self.now.positioning }
    /// ```
    ///
    /// </details>
    #[inline]
    pub fn positioning(&self) -> &[StageLookup] {
        self.positioning.as_slice()
    }

    /// The masks of the features that the driver turns on.
    ///
    /// <details><summary>Contract</summary>
    ///
    /// # Contract
    ///
    /// ```text
    /// ensures { result ≡ self.now.masks }
    /// ```
    ///
    /// </details>
    #[inline]
    pub fn masks(&self) -> DriverMasks {
        self.masks
    }

    /// What the user's features do to clusters' masks, in order.
    ///
    /// <details><summary>Contract</summary>
    ///
    /// # Contract
    ///
    /// ```text
    /// ensures { result.now ≡ self.now.ranges }
    /// ```
    ///
    /// </details>
    #[inline]
    pub fn ranges(&self) -> &[UserRange] {
        self.ranges.as_slice()
    }
}
