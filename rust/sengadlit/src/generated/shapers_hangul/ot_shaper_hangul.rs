// Generated from crates/shapers_hangul/src/ot_shaper_hangul.rt by rust/erase; edit the source.

//! The shaper of Hangul.

use crate::generated::shapers_base::buffer::{Buffer, GlyphInfo, Tag, change_each_by_in};
use crate::generated::shapers_base::font::Font;
use crate::generated::shapers_base::map::{F_GLOBAL, F_NONE};
use crate::generated::shapers_base::plan::{
    HangulPlan, Plan, PlanData, Planner, Request, ShaperError,
};
use rewriting::{rewrite, rewrite_changes};

mod item;
mod jamo;
mod rewriting;

// The forms of leading consonants, vowels and trailing consonants.
const REQUESTS: [Request; 3] = [
    Request::Feature(Tag(*b"ljmo"), F_NONE, 1),
    Request::Feature(Tag(*b"vjmo"), F_NONE, 1),
    Request::Feature(Tag(*b"tjmo"), F_NONE, 1),
];

// Some fonts put all jamo forms into `calt` as well, so it stays off.
const OVERRIDES: [Request; 1] = [Request::Feature(Tag(*b"calt"), F_GLOBAL, 0)];

/// Requests the forms of jamo.
/// The only refusal is [`Memory`], which leaves the planner as it was.
///
/// <details><summary>Contract</summary>
///
/// # Contract
///
/// ```text
/// ensures ok { OnOk result (planner.new ≡ with_requests hangul_list planner.old) }
/// ensures refusal { IsOkUnless result Memory }
/// ensures err { OnErr result (planner.new ≡ planner.old) }
/// ```
///
/// - `with_requests`: `crates/shapers_base/specs/Planner.antt`
/// - `hangul_list`: `crates/shapers_hangul/specs/Requests.antt`
///
/// </details>
///
/// [`Memory`]: crate::ShaperError::Memory
pub fn collect_features(planner: &mut Planner) -> Result<(), ShaperError> {
    planner.add_requests(&REQUESTS)
}

/// Turns off what fonts mix up with the forms of jamo.
/// The only refusal is [`Memory`], which leaves the planner as it was.
///
/// <details><summary>Contract</summary>
///
/// # Contract
///
/// ```text
/// ensures ok { OnOk result (planner.new ≡ with_requests hangul_overrides planner.old) }
/// ensures refusal { IsOkUnless result Memory }
/// ensures err { OnErr result (planner.new ≡ planner.old) }
/// ```
///
/// - `with_requests`: `crates/shapers_base/specs/Planner.antt`
/// - `hangul_overrides`: `crates/shapers_hangul/specs/Requests.antt`
///
/// </details>
///
/// [`Memory`]: crate::ShaperError::Memory
pub fn override_features(planner: &mut Planner) -> Result<(), ShaperError> {
    planner.add_requests(&OVERRIDES)
}

/// Rewrites a Hangul text before its characters become glyphs, unit by unit: jamo that combine
/// become one syllable character where the font has it, else they are marked for the features of
/// jamo; so are the jamo of a syllable character that the font lacks. A tone moves before the
/// syllable that it follows, unless it has advance 0; without one it gets a dotted circle. What a
/// break would tear apart is flagged, by the plan's `break_flags`. Refuses as a growth to the length
/// of the result does, and never where every character stays as it is. (The Unicode Standard,
/// "Conjoining Jamo Behavior"; OpenType's notes on Hangul.)
///
/// <details><summary>Contract</summary>
///
/// # Contract
///
/// ```text
/// requires { buffer.old.positions ≡ [] }
/// ensures ok { let breaks = plan.now.break_flags in
///     OnOk result (buffer.new ≡ rewritten_by breaks (F.font face.now) buffer.old) }
/// ensures clusters { OnOk result (KeepsClusters (F.font face.now) buffer.old buffer.new) }
/// ensures flags { OnOk result (KeepsGlyphFlags (F.font face.now) buffer.old buffer.new) }
/// ensures spelling { OnOk result (SpellsSame buffer.old buffer.new) }
/// ensures units { OnOk result (SpellsByUnits (F.font face.now) buffer.old buffer.new) }
/// ensures length { let text = (rewritten (F.font face.now) buffer.old).glyphs in
///     RefusesLength buffer.old.max_len (length text) result }
/// ensures err { OnErr result (buffer.new ≡ buffer.old) }
/// ensures kept { AllKept (F.font face.now) buffer.old → IsOk result }
/// ```
///
/// - `RefusesLength`: `crates/shapers_buffer/specs/Refusals.antt`
/// - `rewritten`, `rewritten_by`: `crates/shapers_hangul/specs/Hangul.antt`
/// - `AllKept`, `KeepsClusters`, `KeepsGlyphFlags`, `SpellsByUnits`, `SpellsSame`: `crates/shapers_hangul/specs/HangulLaws.antt`
///
/// </details>
#[inline]
pub fn preprocess_text<F: Font>(
    plan: &Plan,
    face: &F,
    buffer: &mut Buffer,
) -> Result<(), ShaperError> {
    rewrite(plan.break_flags, face, buffer)
}

/// [`preprocess_text`], which returns whether it rewrote the text: just where every character stays as
/// it is, it returns false, and has changed nothing.
///
/// # Errors
///
/// [`TooLong`] where the buffer would be longer than [`max_len`], [`Memory`] where memory is refused;
/// nothing has changed then.
///
/// # Panics
///
/// Where the font does.
///
/// <details><summary>Contract</summary>
///
/// # Contract
///
/// ```text
/// requires { buffer.old.positions ≡ [] }
/// ensures ok { let breaks = plan.now.break_flags in
///     OnOk result (buffer.new ≡ rewritten_by breaks (F.font face.now) buffer.old) }
/// ensures clusters { OnOk result (KeepsClusters (F.font face.now) buffer.old buffer.new) }
/// ensures flags { OnOk result (KeepsGlyphFlags (F.font face.now) buffer.old buffer.new) }
/// ensures spelling { OnOk result (SpellsSame buffer.old buffer.new) }
/// ensures units { OnOk result (SpellsByUnits (F.font face.now) buffer.old buffer.new) }
/// ensures kept { AllKept (F.font face.now) buffer.old → result ≡ Ok false }
/// ensures changes { result ≡ Ok false → AllKept (F.font face.now) buffer.old }
/// ensures unchanged { result ≡ Ok false → buffer.new ≡ buffer.old }
/// ensures length { let text = (rewritten (F.font face.now) buffer.old).glyphs in
///     RefusesLength buffer.old.max_len (length text) result }
/// ensures err { OnErr result (buffer.new ≡ buffer.old) }
/// ```
///
/// - `RefusesLength`: `crates/shapers_buffer/specs/Refusals.antt`
/// - `rewritten`, `rewritten_by`: `crates/shapers_hangul/specs/Hangul.antt`
/// - `AllKept`, `KeepsClusters`, `KeepsGlyphFlags`, `SpellsByUnits`, `SpellsSame`: `crates/shapers_hangul/specs/HangulLaws.antt`
///
/// </details>
///
/// [`Memory`]: crate::ShaperError::Memory
/// [`TooLong`]: crate::ShaperError::TooLong
/// [`max_len`]: crate::Buffer::max_len
/// [`preprocess_text`]: crate::Shaper::preprocess_text
#[inline]
pub fn preprocess_text_changes<F: Font>(
    plan: &Plan,
    face: &F,
    buffer: &mut Buffer,
) -> Result<bool, ShaperError> {
    rewrite_changes(plan.break_flags, face, buffer)
}

/// Keeps the masks of the features of jamo in the plan. None of them touches a glyph flag bit.
///
/// <details><summary>Contract</summary>
///
/// # Contract
///
/// ```text
/// ensures masks { result ≡ Hangul (record { mask_array = jamo_masks plan.now.ot_map }) }
/// ensures off_flags { All (λ mask. mask % 8 ≡ 0) (masks_stored result) }
/// ```
///
/// - `masks_stored`: `crates/shapers_base/specs/Masks.antt`
/// - `jamo_masks`: `crates/shapers_hangul/specs/Masks.antt`
///
/// </details>
pub fn create_data(plan: &Plan) -> PlanData {
    PlanData::Hangul(HangulPlan {
        mask_array: [
            0,
            plan.ot_map.one_mask(Tag(*b"ljmo")),
            plan.ot_map.one_mask(Tag(*b"vjmo")),
            plan.ot_map.one_mask(Tag(*b"tjmo")),
        ],
    })
}

// Gives a glyph, besides its own mask, the one of the feature in its auxiliary byte.
#[inline]
fn add_numbered_mask(masks: &[u32; 4], glyph: &mut GlyphInfo) {
    let feature = usize::from(glyph.auxiliary);
    glyph.mask |= masks.get(feature).copied().unwrap_or(0);
}

/// Gives each of these glyphs, besides its own mask, the one of the feature in its auxiliary byte.
///
/// <details><summary>Contract</summary>
///
/// # Contract
///
/// ```text
/// ensures { glyphs.new ≡ map (with_numbered_mask hangul_plan.now.mask_array) glyphs.old }
/// ```
///
/// - `with_numbered_mask`: `crates/shapers_base/specs/Masks.antt`
///
/// </details>
#[inline]
pub fn setup_masks_in(hangul_plan: &HangulPlan, glyphs: &mut [GlyphInfo]) {
    let masks = &hangul_plan.mask_array;
    change_each_by_in(glyphs, |glyph| add_numbered_mask(masks, glyph));
}

/// Gives each glyph, besides its own mask, the one of the feature in its auxiliary byte: none for
/// 0, then those of leading, vowel and trailing jamo. It takes no memory.
///
/// <details><summary>Contract</summary>
///
/// # Contract
///
/// ```text
/// requires { is_hangul_data plan.now.plan_data ≡ true }
/// ensures masks { buffer.new ≡ with_jamo_masks plan.now.plan_data buffer.old }
/// ensures flags { OnlyFlagsAdded buffer.old.glyphs buffer.new.glyphs }
/// ```
///
/// - `OnlyFlagsAdded`: `crates/shapers_clusters/specs/FlagLaw.antt`
/// - `is_hangul_data`, `with_jamo_masks`: `crates/shapers_hangul/specs/Masks.antt`
///
/// </details>
#[inline]
pub fn setup_masks(plan: &Plan, buffer: &mut Buffer) {
    match &plan.plan_data {
        PlanData::Hangul(data) => {
            let masks = &data.mask_array;
            buffer.change_all_by(|glyph| add_numbered_mask(masks, glyph));
        }
        _ => unreachable!("the plan has no data of the Hangul shaper"),
    }
}
