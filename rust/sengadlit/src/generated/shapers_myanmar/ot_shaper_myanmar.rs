// Generated from crates/shapers_myanmar/src/ot_shaper_myanmar.rt by rust/erase; edit the source.

//! The shaper of Myanmar.

mod moving;
mod positions;
mod reordering;
use crate::generated::shapers_base::buffer::{Buffer, Tag};
use crate::generated::shapers_base::font::{Font, Tables};
use crate::generated::shapers_base::map::{F_GLOBAL, F_MANUAL_ZWJ, F_PER_SYLLABLE};
use crate::generated::shapers_base::plan::ot_category_t::OT_DOTTEDCIRCLE;
use crate::generated::shapers_base::plan::{Pause, Planner, Request, ShaperError};
use crate::generated::shapers_syllabic::ot_shaper_syllabic::{
    ScriptCircles, myanmar_syllable, reorder_pause, set_categories,
};
pub use reordering::MyanmarOrder;

// A basic feature: in the whole text, within syllables, and it sees joiners.
const BASIC: u32 = F_GLOBAL | F_MANUAL_ZWJ | F_PER_SYLLABLE;

// The basic features run one by one after the reordering, the others at once after them.
const REQUESTS: [Request; 17] = [
    Request::Pause(Some(Pause::SetupSyllablesMyanmar)),
    Request::Feature(Tag(*b"locl"), F_GLOBAL | F_PER_SYLLABLE, 1),
    Request::Feature(Tag(*b"ccmp"), F_GLOBAL | F_PER_SYLLABLE, 1),
    Request::Pause(Some(Pause::ReorderMyanmar)),
    Request::Feature(Tag(*b"rphf"), BASIC, 1),
    Request::Pause(None),
    Request::Feature(Tag(*b"pref"), BASIC, 1),
    Request::Pause(None),
    Request::Feature(Tag(*b"blwf"), BASIC, 1),
    Request::Pause(None),
    Request::Feature(Tag(*b"pstf"), BASIC, 1),
    Request::Pause(None),
    Request::Pause(Some(Pause::SyllabicClearVar)),
    Request::Feature(Tag(*b"pres"), F_GLOBAL | F_MANUAL_ZWJ, 1),
    Request::Feature(Tag(*b"abvs"), F_GLOBAL | F_MANUAL_ZWJ, 1),
    Request::Feature(Tag(*b"blws"), F_GLOBAL | F_MANUAL_ZWJ, 1),
    Request::Feature(Tag(*b"psts"), F_GLOBAL | F_MANUAL_ZWJ, 1),
];

/// Requests the features of Myanmar, in the order of its OpenType specification.
/// The only refusal is [`Memory`], which leaves the planner as it was.
///
/// <details><summary>Contract</summary>
///
/// # Contract
///
/// ```text
/// ensures ok { OnOk result (planner.new ≡ with_requests myanmar_list planner.old) }
/// ensures refusal { IsOkUnless result Memory }
/// ensures err { OnErr result (planner.new ≡ planner.old) }
/// ```
///
/// - `with_requests`: `crates/shapers_base/specs/Planner.antt`
/// - `myanmar_list`: `crates/shapers_myanmar/specs/Requests.antt`
///
/// </details>
///
/// [`Memory`]: crate::ShaperError::Memory
pub fn collect_features(planner: &mut Planner) -> Result<(), ShaperError> {
    planner.add_requests(&REQUESTS)
}

/// Gives each glyph the category that the tables have for its character. It takes no memory.
///
/// <details><summary>Contract</summary>
///
/// # Contract
///
/// ```text
/// ensures { buffer.new ≡
///     record buffer.old { glyphs = map (with_category (T.tables tables.now)) buffer.old.glyphs } }
/// ```
///
/// - `with_category`: `crates/shapers_syllabic/specs/Characters.antt`
///
/// </details>
#[inline]
pub fn setup_masks<T: Tables>(tables: &T, buffer: &mut Buffer) {
    set_categories(tables, buffer);
}

// The circles of broken syllables stand in front of them.
const CIRCLES: ScriptCircles = ScriptCircles {
    broken_kind: myanmar_syllable::BROKEN_CLUSTER,
    category: OT_DOTTEDCIRCLE,
    repha: None,
    position: None,
};

/// Gives broken syllables their dotted circles, and then brings each syllable into the order in
/// which it is drawn. (OpenType, Myanmar script development.) Returns whether circles were wanted.
/// Every cluster afterwards is one that the text had. Refuses with [`UnknownSyllable`] where a kind
/// is unknown, with [`TooLong`], and with [`Memory`], but not where no circle is put in.
///
/// <details><summary>Contract</summary>
///
/// # Contract
///
/// ```text
/// requires { buffer.old.positions ≡ [] }
/// ensures answer { let circles = script_circles myanmar_circles (F.font face.now) buffer.old in
///     IfOk result (λ answer. answer ≡ is_some circles) }
/// ensures order { let circles = script_circles myanmar_circles (F.font face.now) buffer.old in
///     OnOk result (PauseReordered circles myanmar_order myanmar_steps buffer.old buffer.new) }
/// ensures linked { let circles = script_circles myanmar_circles (F.font face.now) buffer.old in
///     OnOk result (PauseLinked circles
///     (SyllableReordered myanmar_order myanmar_steps) buffer.old buffer.new) }
/// ensures cut { let circles = script_circles myanmar_circles (F.font face.now) buffer.old in
///     OnOk result (PauseCutsAtBorders circles myanmar_order myanmar_steps buffer.old buffer.new) }
/// ensures laws { let circles = script_circles myanmar_circles (F.font face.now) buffer.old in
///     let opened = record buffer.old { glyphs = circled circles buffer.old.glyphs } in
///     let steps = text_steps myanmar_steps (order_view opened.glyphs) in
///     OnOk result (ReorderedHold carried opened.level steps opened.glyphs buffer.new.glyphs) }
/// ensures clusters { OnOk result (NoNewCluster buffer.old.glyphs buffer.new.glyphs) }
/// ensures refusal { let circles = script_circles myanmar_circles (F.font face.now) buffer.old in
///     Refuses (unknown_refusal NON_MYANMAR_CLUSTER buffer.old.glyphs)
///     buffer.old.max_len (length (circled circles buffer.old.glyphs)) result }
/// ensures err { OnErr result (buffer.new ≡ buffer.old) }
/// ensures without_memory { let font = F.font face.now in
///     let circles = script_circles myanmar_circles font buffer.old in
///     unknown_refusal NON_MYANMAR_CLUSTER buffer.old.glyphs ≡ None →
///     circled circles buffer.old.glyphs ≡ buffer.old.glyphs → IsOk result }
/// ```
///
/// - `order_view`: `crates/shapers_buffer/specs/Glyph.antt`
/// - `Refuses`: `crates/shapers_buffer/specs/Refusals.antt`
/// - `unknown_refusal`: `crates/shapers_buffer/specs/Syllables.antt`
/// - `ReorderedHold`: `crates/shapers_clusters/specs/Laws.antt`
/// - `myanmar_circles`, `myanmar_order`, `myanmar_steps`: `crates/shapers_myanmar/specs/Myanmar.antt`
/// - `NoNewCluster`: `crates/shapers_syllabic/specs/CircleLaws.antt`
/// - `circled`: `crates/shapers_syllabic/specs/Circles.antt`
/// - `PauseLinked`, `PauseReordered`, `SyllableReordered`, `carried`, `script_circles`, `text_steps`: `crates/shapers_syllabic/specs/Reordering.antt`
/// - `PauseCutsAtBorders`: `crates/shapers_syllabic/specs/ReorderingLaws.antt`
///
/// </details>
///
/// [`Memory`]: crate::ShaperError::Memory
/// [`TooLong`]: crate::ShaperError::TooLong
/// [`UnknownSyllable`]: crate::ShaperError::UnknownSyllable
#[inline]
pub fn reorder_myanmar<F: Font>(face: &F, buffer: &mut Buffer) -> Result<bool, ShaperError> {
    let last_kind = Some(myanmar_syllable::NON_MYANMAR_CLUSTER);
    reorder_pause(face, &MyanmarOrder, &CIRCLES, last_kind, buffer)
}
