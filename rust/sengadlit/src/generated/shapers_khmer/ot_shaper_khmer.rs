// Generated from crates/shapers_khmer/src/ot_shaper_khmer.rt by rust/erase; edit the source.

//! The shaper of Khmer.

use crate::generated::shapers_base::buffer::{Buffer, Tag};
use crate::generated::shapers_base::font::Tables;
use crate::generated::shapers_base::map::{F_GLOBAL, F_MANUAL_JOINERS, F_PER_SYLLABLE};
use crate::generated::shapers_base::plan::{
    KhmerPlan, Pause, Plan, PlanData, Planner, Request, ShaperError,
};
use crate::generated::shapers_syllabic::ot_shaper_syllabic;

pub mod khmer_feature;
mod pause;
mod reordering;
pub use pause::reorder_khmer;
pub use reordering::KhmerOrder;

// The basic features run at once, after the reordering: Uniscribe makes no pause between them, as
// KhmerUI.ttf shows of 1789 17BC, 1789 17D2 1789 and 1789 17D2 1789 17BC (HarfBuzz's issue 974). The
// features behind them may join glyphs over the borders of syllables, which are cleared before (its
// issue 3531).
const REQUESTS: [Request; 14] = [
    Request::Pause(Some(Pause::SetupSyllablesKhmer)),
    Request::Pause(Some(Pause::ReorderKhmer)),
    Request::Feature(Tag(*b"locl"), F_GLOBAL | F_PER_SYLLABLE, 1),
    Request::Feature(Tag(*b"ccmp"), F_GLOBAL | F_PER_SYLLABLE, 1),
    Request::Feature(Tag(*b"pref"), F_MANUAL_JOINERS | F_PER_SYLLABLE, 1),
    Request::Feature(Tag(*b"blwf"), F_MANUAL_JOINERS | F_PER_SYLLABLE, 1),
    Request::Feature(Tag(*b"abvf"), F_MANUAL_JOINERS | F_PER_SYLLABLE, 1),
    Request::Feature(Tag(*b"pstf"), F_MANUAL_JOINERS | F_PER_SYLLABLE, 1),
    Request::Feature(Tag(*b"cfar"), F_MANUAL_JOINERS | F_PER_SYLLABLE, 1),
    Request::Pause(Some(Pause::SyllabicClearVar)),
    Request::Feature(Tag(*b"pres"), F_GLOBAL | F_MANUAL_JOINERS, 1),
    Request::Feature(Tag(*b"abvs"), F_GLOBAL | F_MANUAL_JOINERS, 1),
    Request::Feature(Tag(*b"blws"), F_GLOBAL | F_MANUAL_JOINERS, 1),
    Request::Feature(Tag(*b"psts"), F_GLOBAL | F_MANUAL_JOINERS, 1),
];

// The contextual ligatures come on, the standard ones stay off.
const OVERRIDES: [Request; 2] = [
    Request::Feature(Tag(*b"clig"), F_GLOBAL, 1),
    Request::Feature(Tag(*b"liga"), F_GLOBAL, 0),
];

/// Requests the features of Khmer, in the order of its OpenType specification.
/// The only refusal is [`Memory`], which leaves the planner as it was.
///
/// <details><summary>Contract</summary>
///
/// # Contract
///
/// ```text
/// ensures ok { OnOk result (planner.new ≡ with_requests khmer_list planner.old) }
/// ensures refusal { IsOkUnless result Memory }
/// ensures err { OnErr result (planner.new ≡ planner.old) }
/// ```
///
/// - `with_requests`: `crates/shapers_base/specs/Planner.antt`
/// - `khmer_list`: `crates/shapers_khmer/specs/Requests.antt`
///
/// </details>
///
/// [`Memory`]: crate::ShaperError::Memory
pub fn collect_features(planner: &mut Planner) -> Result<(), ShaperError> {
    planner.add_requests(&REQUESTS)
}

/// Requests contextual ligatures, and turns off the others.
/// The only refusal is [`Memory`], which leaves the planner as it was.
///
/// <details><summary>Contract</summary>
///
/// # Contract
///
/// ```text
/// ensures ok { OnOk result (planner.new ≡ with_requests khmer_overrides planner.old) }
/// ensures refusal { IsOkUnless result Memory }
/// ensures err { OnErr result (planner.new ≡ planner.old) }
/// ```
///
/// - `with_requests`: `crates/shapers_base/specs/Planner.antt`
/// - `khmer_overrides`: `crates/shapers_khmer/specs/Requests.antt`
///
/// </details>
///
/// [`Memory`]: crate::ShaperError::Memory
pub fn override_features(planner: &mut Planner) -> Result<(), ShaperError> {
    planner.add_requests(&OVERRIDES)
}

/// What the shaper keeps in the plan: the masks of the basic features, and none for those that hold
/// for the whole text. None of them touches a glyph flag bit.
///
/// <details><summary>Contract</summary>
///
/// # Contract
///
/// ```text
/// ensures masks { result ≡ Khmer (record { mask_array = khmer_masks plan.now.ot_map }) }
/// ensures off_flags { All (λ mask. mask % 8 ≡ 0) (masks_stored result) }
/// ```
///
/// - `masks_stored`: `crates/shapers_base/specs/Masks.antt`
/// - `khmer_masks`: `crates/shapers_khmer/specs/Plan.antt`
///
/// </details>
pub fn create_data(plan: &Plan) -> PlanData {
    let map = &plan.ot_map;
    PlanData::Khmer(KhmerPlan {
        mask_array: [
            map.one_mask(Tag(*b"pref")),
            map.one_mask(Tag(*b"blwf")),
            map.one_mask(Tag(*b"abvf")),
            map.one_mask(Tag(*b"pstf")),
            map.one_mask(Tag(*b"cfar")),
            0,
            0,
            0,
            0,
        ],
    })
}

/// The composition of two characters by the table; a mark composes with nothing behind it, so that
/// a split vowel isn't put together again.
///
/// <details><summary>Contract</summary>
///
/// # Contract
///
/// ```text
/// ensures { result ≡ composed_behind (T.tables tables.now) a b }
/// ```
///
/// - `composed_behind`: `crates/shapers_syllabic/specs/Characters.antt`
///
/// </details>
#[inline]
pub fn compose<T: Tables>(tables: &T, a: char, b: char) -> Option<char> {
    ot_shaper_syllabic::compose(tables, a, b)
}

/// The decomposition of a character: a split vowel into the part that stands before its base and
/// itself, else the table's.
///
/// <details><summary>Contract</summary>
///
/// # Contract
///
/// ```text
/// ensures { result ≡ decomposed_in_khmer (T.tables tables.now) ab }
/// ```
///
/// - `decomposed_in_khmer`: `crates/shapers_khmer/specs/Khmer.antt`
///
/// </details>
#[inline]
pub fn decompose<T: Tables>(tables: &T, ab: char) -> Option<(char, char)> {
    match ab {
        '\u{17BE}' | '\u{17BF}' | '\u{17C0}' | '\u{17C4}' | '\u{17C5}' => Some(('\u{17C1}', ab)),
        _ => tables.decompose(ab),
    }
}

/// Gives each glyph its category by the table; the masks wait for the reordering. It takes no
/// memory.
///
/// <details><summary>Contract</summary>
///
/// # Contract
///
/// ```text
/// ensures { buffer.new ≡
///     record buffer.old { glyphs = map (with_category (T.tables tables.now)) buffer.old.glyphs } }
/// ```
///
/// - `with_category`: `crates/shapers_syllabic/specs/Characters.antt`
///
/// </details>
#[inline]
pub fn setup_masks<T: Tables>(tables: &T, buffer: &mut Buffer) {
    ot_shaper_syllabic::set_categories(tables, buffer);
}
