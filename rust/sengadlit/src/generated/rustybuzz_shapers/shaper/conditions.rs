// Generated from crates/rustybuzz_shapers/src/shaper/conditions.rt by rust/erase; edit the source.

//! What the hooks require of their callers: the plan's data, and tests of the rest.

use super::Shaper;
use crate::generated::shapers_arabic::ot_shaper_arabic;
use crate::generated::shapers_base::buffer::{Buffer, GlyphInfo, Span};
use crate::generated::shapers_base::plan::{Pause, Plan, PlanData};
use crate::generated::shapers_hangul::ot_shaper_hangul;
use crate::generated::shapers_indic::ot_shaper_indic;
use crate::generated::shapers_khmer::ot_shaper_khmer;
use crate::generated::shapers_universal::ot_shaper_use;

impl Shaper {
    /// The plan with the data that the shaper keeps, if it keeps any. So it fits the shaper's hooks
    /// and each pause in its lists. No mask in these data touches a glyph flag bit.
    ///
    /// <details><summary>Contract</summary>
    ///
    /// # Contract
    ///
    /// ```text
    /// ensures data { result ≡ with_created (data_created self plan) plan }
    /// ensures fits { PlanFits self result }
    /// ensures pauses { PausesFit self result }
    /// ensures off_flags { has_hook self CreateData ≡ true → MasksOffFlags result.plan_data }
    /// ```
    ///
    /// - `MasksOffFlags`, `PlanFits`, `data_created`, `with_created`: `crates/rustybuzz_shapers/specs/Hooks.antt`
    /// - `PausesFit`: `crates/rustybuzz_shapers/specs/Pauses.antt`
    /// - `has_hook`: `crates/rustybuzz_shapers/specs/Standing.antt`
    ///
    /// </details>
    pub fn with_data(self, mut plan: Plan) -> Plan {
        match self {
            Self::Arabic => plan.plan_data = ot_shaper_arabic::create_data(&plan),
            Self::Hangul => plan.plan_data = ot_shaper_hangul::create_data(&plan),
            Self::Indic => plan.plan_data = ot_shaper_indic::create_data(&plan),
            Self::Khmer => plan.plan_data = ot_shaper_khmer::create_data(&plan),
            Self::Universal => plan.plan_data = ot_shaper_use::create_data(&plan),
            Self::Hebrew | Self::Myanmar | Self::MyanmarZawgyi | Self::Thai => {}
        }
        plan
    }

    /// Whether the plan's data are of the kind that [`setup_masks`] reads. It takes constant time.
    ///
    /// <details><summary>Contract</summary>
    ///
    /// # Contract
    ///
    /// ```text
    /// ensures { IsTrue result ↔ PlanFits self plan.now }
    /// ```
    ///
    /// - `PlanFits`: `crates/rustybuzz_shapers/specs/Hooks.antt`
    ///
    /// </details>
    ///
    /// [`setup_masks`]: crate::Shaper::setup_masks
    #[inline]
    pub fn plan_fits(self, plan: &Plan) -> bool {
        match self {
            Self::Arabic => matches!(plan.plan_data, PlanData::Arabic(_)),
            Self::Hangul => matches!(plan.plan_data, PlanData::Hangul(_)),
            Self::Universal => matches!(plan.plan_data, PlanData::Universal(_)),
            Self::Hebrew
            | Self::Indic
            | Self::Khmer
            | Self::Myanmar
            | Self::MyanmarZawgyi
            | Self::Thai => true,
        }
    }

    /// Whether [`reorder_marks`] takes this many marks: for Arabic at most 32.
    ///
    /// <details><summary>Contract</summary>
    ///
    /// # Contract
    ///
    /// ```text
    /// ensures { IsTrue result ↔ MarksFit self start end }
    /// ```
    ///
    /// - `MarksFit`: `crates/rustybuzz_shapers/specs/Hooks.antt`
    ///
    /// </details>
    ///
    /// [`reorder_marks`]: crate::Shaper::reorder_marks
    #[inline]
    pub fn marks_fit(self, start: usize, end: usize) -> bool {
        match self {
            Self::Arabic => end.saturating_sub(start) <= 32,
            Self::Hangul
            | Self::Hebrew
            | Self::Indic
            | Self::Khmer
            | Self::Myanmar
            | Self::MyanmarZawgyi
            | Self::Thai
            | Self::Universal => true,
        }
    }

    /// Whether the glyphs are such as [`setup_masks`] requires: for Arabic, and for the universal
    /// shaper where letters join, characters.
    ///
    /// <details><summary>Contract</summary>
    ///
    /// # Contract
    ///
    /// ```text
    /// ensures { IsTrue result ↔ GlyphsFit self plan.now buffer.now.glyphs }
    /// ```
    ///
    /// - `GlyphsFit`: `crates/rustybuzz_shapers/specs/Hooks.antt`
    ///
    /// </details>
    ///
    /// [`setup_masks`]: crate::Shaper::setup_masks
    #[inline]
    pub fn glyphs_fit(self, plan: &Plan, buffer: &Buffer) -> bool {
        match self {
            Self::Arabic => are_characters(buffer.glyphs()),
            Self::Universal => !joins_letters(&plan.plan_data) || are_characters(buffer.glyphs()),
            Self::Hangul
            | Self::Hebrew
            | Self::Indic
            | Self::Khmer
            | Self::Myanmar
            | Self::MyanmarZawgyi
            | Self::Thai => true,
        }
    }

    /// Whether [`postprocess_glyphs`] takes the plan and the buffer's glyphs: for Arabic, a plan with
    /// its data and glyph numbers of a font.
    ///
    /// <details><summary>Contract</summary>
    ///
    /// # Contract
    ///
    /// ```text
    /// ensures { IsTrue result ↔ PostprocessFits self plan.now buffer.now.glyphs }
    /// ```
    ///
    /// - `PostprocessFits`: `crates/rustybuzz_shapers/specs/Hooks.antt`
    ///
    /// </details>
    ///
    /// [`postprocess_glyphs`]: crate::Shaper::postprocess_glyphs
    #[inline]
    pub fn postprocess_fits(self, plan: &Plan, buffer: &Buffer) -> bool {
        match self {
            Self::Arabic => is_arabic(&plan.plan_data) && are_glyph_numbers(buffer.glyphs()),
            Self::Hangul
            | Self::Hebrew
            | Self::Indic
            | Self::Khmer
            | Self::Myanmar
            | Self::MyanmarZawgyi
            | Self::Thai
            | Self::Universal => true,
        }
    }
}

/// Whether the plan's data are of the kind that the pause reads.
///
/// <details><summary>Contract</summary>
///
/// # Contract
///
/// ```text
/// ensures { IsTrue result ↔ PauseFits pause plan.now }
/// ```
///
/// - `PauseFits`: `crates/rustybuzz_shapers/specs/Pauses.antt`
///
/// </details>
pub fn pause_fits(pause: Pause, plan: &Plan) -> bool {
    match pause {
        Pause::InitialReordering | Pause::FinalReordering => {
            matches!(plan.plan_data, PlanData::Indic(_))
        }
        Pause::ReorderKhmer => matches!(plan.plan_data, PlanData::Khmer(_)),
        Pause::SetupSyllablesUse | Pause::RecordRphf => {
            matches!(plan.plan_data, PlanData::Universal(_))
        }
        Pause::RecordStch => matches!(plan.plan_data, PlanData::Arabic(_)),
        Pause::SetupSyllablesIndic
        | Pause::SetupSyllablesKhmer
        | Pause::SetupSyllablesMyanmar
        | Pause::ReorderMyanmar
        | Pause::ReorderUse
        | Pause::RecordPref
        | Pause::SyllabicClearVar
        | Pause::ClearSubstitutionFlags
        | Pause::ArabicFallbackShape => true,
    }
}

/// Whether each span's kind is at most 15, as the pauses require. It takes one pass over the spans.
///
/// <details><summary>Contract</summary>
///
/// # Contract
///
/// ```text
/// ensures { IsTrue result ↔ All (λ span. span.kind ≤ 15) spans.now }
/// ```
///
/// </details>
#[inline]
pub fn kinds_fit(spans: &[Span]) -> bool {
    spans.iter().all(|span| span.kind <= 15)
}

/// Whether the buffer has no positions, as the pauses and all hooks but [`postprocess_glyphs`]
/// require. It takes constant time.
///
/// <details><summary>Contract</summary>
///
/// # Contract
///
/// ```text
/// ensures { IsTrue result ↔ (buffer.now.positions ≡ []) }
/// ```
///
/// </details>
///
/// [`postprocess_glyphs`]: crate::Shaper::postprocess_glyphs
#[inline]
pub fn lacks_positions(buffer: &Buffer) -> bool {
    buffer.positions_len() == 0
}

/// Whether the buffer has a position for each glyph, as [`postprocess_glyphs`] requires. It takes
/// constant time.
///
/// <details><summary>Contract</summary>
///
/// # Contract
///
/// ```text
/// ensures { IsTrue result ↔ (length buffer.now.positions ≡ length buffer.now.glyphs) }
/// ```
///
/// </details>
///
/// [`postprocess_glyphs`]: crate::Shaper::postprocess_glyphs
#[inline]
pub fn has_positions(buffer: &Buffer) -> bool {
    buffer.positions_len() == buffer.len()
}

// Whether the universal shaper has a plan of Arabic.
#[inline]
fn joins_letters(plan_data: &PlanData) -> bool {
    match plan_data {
        PlanData::Universal(kept) => kept.arabic_plan.is_some(),
        _ => false,
    }
}

// Whether these glyphs are characters.
#[inline]
fn are_characters(glyphs: &[GlyphInfo]) -> bool {
    glyphs
        .iter()
        .all(|glyph| char::from_u32(glyph.glyph_id).is_some())
}

/// Whether these are the data of Arabic.
#[inline]
pub(super) fn is_arabic(plan_data: &PlanData) -> bool {
    matches!(plan_data, PlanData::Arabic(_))
}

/// Whether these glyphs are numbered as a font's are.
#[inline]
pub(super) fn are_glyph_numbers(glyphs: &[GlyphInfo]) -> bool {
    glyphs.iter().all(|glyph| glyph.glyph_id <= 65535)
}
