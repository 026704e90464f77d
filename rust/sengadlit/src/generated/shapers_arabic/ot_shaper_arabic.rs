// Generated from crates/shapers_arabic/src/ot_shaper_arabic.rt by rust/erase; edit the source.

//! The shaper of Arabic and of the scripts that join like it.

use crate::generated::shapers_base::buffer::{Buffer, Script, Tag};
use crate::generated::shapers_base::font::{Font, Tables};
use crate::generated::shapers_base::map::{F_GLOBAL, F_HAS_FALLBACK, F_MANUAL_ZWJ, F_NONE};
use crate::generated::shapers_base::plan::{Pause, Plan, PlanData, Planner, Request, ShaperError};
use crate::support::arrayvec::ArrayVec;

pub mod arabic_action_t;
mod breaks;
mod data;
mod joining;
mod marks;
mod masks;
mod walk;

pub use crate::generated::shapers_base::plan::{ArabicPlan, JoiningType};
pub use data::{create_data, data_create_arabic};
use joining::nearest_in;
pub use marks::{reorder_marks, reorder_marks_in};
use walk::JoiningWalk;

// A feature that holds for the whole text and sees joiners.
const GLOBAL_ZWJ: u32 = F_GLOBAL | F_MANUAL_ZWJ;

// What comes before the joining forms.
const FIRST_REQUESTS: [Request; 5] = [
    Request::Feature(Tag(*b"stch"), F_GLOBAL, 1),
    Request::Pause(Some(Pause::RecordStch)),
    Request::Feature(Tag(*b"ccmp"), GLOBAL_ZWJ, 1),
    Request::Feature(Tag(*b"locl"), GLOBAL_ZWJ, 1),
    Request::Pause(None),
];

// What comes last.
const LAST_REQUESTS: [Request; 3] = [
    Request::Feature(Tag(*b"liga"), GLOBAL_ZWJ, 1),
    Request::Feature(Tag(*b"clig"), GLOBAL_ZWJ, 1),
    Request::Feature(Tag(*b"mset"), GLOBAL_ZWJ, 1),
];

/// Requests the features of Arabic, in the order of its OpenType specification; for the script
/// Arabic itself with the pause of the fallback shaper.
/// The only refusal is [`Memory`], which leaves the planner as it was.
///
/// <details><summary>Contract</summary>
///
/// # Contract
///
/// ```text
/// ensures ok { let has_rclt = (F.font face.now).offers rclt in
///     let list = arabic_list (is_arabic planner.old.script) has_rclt in
///     OnOk result (planner.new ≡ with_requests list planner.old) }
/// ensures refusal { IsOkUnless result Memory }
/// ensures err { OnErr result (planner.new ≡ planner.old) }
/// ```
///
/// - `arabic_list`, `is_arabic`, `rclt`: `crates/shapers_arabic/specs/Requests.antt`
/// - `with_requests`: `crates/shapers_base/specs/Planner.antt`
///
/// </details>
///
/// [`Memory`]: crate::ShaperError::Memory
pub fn collect_features<F: Font>(face: &F, planner: &mut Planner) -> Result<(), ShaperError> {
    let is_arabic = planner.script() == Some(Script(*b"Arab"));
    let has_rclt = planner.has_feature(face, Tag(*b"rclt"));
    let requests = arabic_requests(is_arabic, has_rclt);
    planner.add_requests(requests.as_slice())
}

// The list for the script Arabic or another one, for a font that has `rclt` or has it not.
#[inline]
fn arabic_requests(is_arabic: bool, has_rclt: bool) -> ArrayVec<Request, 26> {
    let fallback = if is_arabic { F_HAS_FALLBACK } else { F_NONE };
    let mut requests = ArrayVec::new();
    requests.try_extend_from_slice(&FIRST_REQUESTS).unwrap();
    requests
        .try_extend_from_slice(&joining_requests(F_MANUAL_ZWJ | fallback))
        .unwrap();
    requests.push(Request::Feature(
        Tag(*b"rlig"),
        GLOBAL_ZWJ | F_HAS_FALLBACK,
        1,
    ));
    if is_arabic {
        requests.push(Request::Pause(Some(Pause::ArabicFallbackShape)));
    }
    requests.push(Request::Feature(Tag(*b"calt"), GLOBAL_ZWJ, 1));
    // (KFGQPC's fonts want the pause, and those with `rclt` none: HarfBuzz's issues 505 and 1573)
    if !has_rclt {
        requests.push(Request::Pause(None));
    }
    requests.try_extend_from_slice(&LAST_REQUESTS).unwrap();
    requests
}

// The joining forms, each followed by a pause; the forms of Syriac alone never have a fallback.
#[inline]
fn joining_requests(flags: u32) -> [Request; 14] {
    [
        Request::Feature(Tag(*b"isol"), flags, 1),
        Request::Pause(None),
        Request::Feature(Tag(*b"fina"), flags, 1),
        Request::Pause(None),
        Request::Feature(Tag(*b"fin2"), F_MANUAL_ZWJ, 1),
        Request::Pause(None),
        Request::Feature(Tag(*b"fin3"), F_MANUAL_ZWJ, 1),
        Request::Pause(None),
        Request::Feature(Tag(*b"medi"), flags, 1),
        Request::Pause(None),
        Request::Feature(Tag(*b"med2"), F_MANUAL_ZWJ, 1),
        Request::Pause(None),
        Request::Feature(Tag(*b"init"), flags, 1),
        Request::Pause(None),
    ]
}

/// Gives each glyph the form that its neighbours require, in its auxiliary byte, the form's mask
/// and the glyph flags of joining; a text that is cut acts as the whole where the halves see their
/// neighbours. It can't refuse and takes no memory.
///
/// # Panics
///
/// Where a glyph is no character.
///
/// <details><summary>Contract</summary>
///
/// # Contract
///
/// ```text
/// requires { AreCharacters buffer.old.glyphs }
/// ensures joined { let table = T.tables tables.now in
///     let masks = arabic_plan.now.mask_array in let breaks = arabic_plan.now.break_flags in
///     buffer.new ≡ buffer_joined breaks masks script table.joining table.general buffer.old }
/// ensures cut { let table = T.tables tables.now in
///     CutsAsHalves script table.joining table.general buffer.old buffer.new }
/// ensures breaks { let table = T.tables tables.now in
///     let masks = arabic_plan.now.mask_array in let breaks = arabic_plan.now.break_flags in
///     let before = buffer.old in let after = buffer.new in
///     BreaksWhereClear breaks masks script table.joining table.general before after }
/// ensures needless { let table = T.tables tables.now in
///     let masks = arabic_plan.now.mask_array in let breaks = arabic_plan.now.break_flags in
///     let before = buffer.old in let after = buffer.new in
///     NoneNeedless breaks masks script table.joining table.general before after }
/// ensures first { let table = T.tables tables.now in
///     let masks = arabic_plan.now.mask_array in let breaks = arabic_plan.now.break_flags in
///     let before = buffer.old in let after = buffer.new in
///     FirstKeepsAsFlagged breaks masks script table.joining table.general before after }
/// ensures flags { OnlyFlagsAdded buffer.old.glyphs buffer.new.glyphs }
/// ```
///
/// - `BreaksWhereClear`, `NoneNeedless`: `crates/shapers_arabic/specs/Breaks.antt`
/// - `FirstKeepsAsFlagged`: `crates/shapers_arabic/specs/FirstPiece.antt`
/// - `AreCharacters`, `CutsAsHalves`, `buffer_joined`: `crates/shapers_arabic/specs/JoinedText.antt`
/// - `OnlyFlagsAdded`: `crates/shapers_clusters/specs/FlagLaw.antt`
///
/// </details>
#[inline]
pub fn setup_masks_inner<T: Tables>(
    arabic_plan: &ArabicPlan,
    script: Option<Script>,
    buffer: &mut Buffer,
    tables: &T,
) {
    let before = nearest_in(buffer.pre_context(), tables);
    let after = nearest_in(buffer.post_context(), tables);
    let flags = buffer.flags();
    let mut walk = JoiningWalk {
        masks: &arabic_plan.mask_array,
        breaks: arabic_plan.break_flags,
        script,
        flags,
        before,
        after,
        tables,
    };
    buffer.walk_outside(&mut walk);
}

/// Gives each glyph its form, the form's mask and the glyph flags of joining, with the script and
/// the data of the plan. It can't refuse and takes no memory.
///
/// <details><summary>Contract</summary>
///
/// # Contract
///
/// ```text
/// requires data { IsArabic plan.now.plan_data }
/// requires characters { AreCharacters buffer.old.glyphs }
/// ensures joined { let table = T.tables tables.now in let masks = masks_of plan.now.plan_data in
///     let breaks = breaks_of plan.now.plan_data in
///     buffer.new ≡ buffer_joined breaks masks plan.now.script table.joining table.general buffer.old }
/// ensures cut { let table = T.tables tables.now in
///     CutsAsHalves plan.now.script table.joining table.general buffer.old buffer.new }
/// ensures breaks { let table = T.tables tables.now in let script = plan.now.script in
///     let masks = masks_of plan.now.plan_data in let breaks = breaks_of plan.now.plan_data in
///     let before = buffer.old in let after = buffer.new in
///     BreaksWhereClear breaks masks script table.joining table.general before after }
/// ensures needless { let table = T.tables tables.now in let script = plan.now.script in
///     let masks = masks_of plan.now.plan_data in let breaks = breaks_of plan.now.plan_data in
///     let before = buffer.old in let after = buffer.new in
///     NoneNeedless breaks masks script table.joining table.general before after }
/// ensures first { let table = T.tables tables.now in let script = plan.now.script in
///     let masks = masks_of plan.now.plan_data in let breaks = breaks_of plan.now.plan_data in
///     let before = buffer.old in let after = buffer.new in
///     FirstKeepsAsFlagged breaks masks script table.joining table.general before after }
/// ensures flags { OnlyFlagsAdded buffer.old.glyphs buffer.new.glyphs }
/// ```
///
/// - `BreaksWhereClear`, `NoneNeedless`: `crates/shapers_arabic/specs/Breaks.antt`
/// - `FirstKeepsAsFlagged`: `crates/shapers_arabic/specs/FirstPiece.antt`
/// - `AreCharacters`, `CutsAsHalves`, `buffer_joined`: `crates/shapers_arabic/specs/JoinedText.antt`
/// - `IsArabic`, `breaks_of`, `masks_of`: `crates/shapers_arabic/specs/PlanData.antt`
/// - `OnlyFlagsAdded`: `crates/shapers_clusters/specs/FlagLaw.antt`
///
/// </details>
#[inline]
pub fn setup_masks<T: Tables>(plan: &Plan, tables: &T, buffer: &mut Buffer) {
    match &plan.plan_data {
        PlanData::Arabic(arabic_plan) => {
            setup_masks_inner(arabic_plan, plan.script, buffer, tables);
        }
        _ => unreachable!("the plan has no data of the Arabic shaper"),
    }
}
