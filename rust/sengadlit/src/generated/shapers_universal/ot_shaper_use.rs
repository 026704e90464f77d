// Generated from crates/shapers_universal/src/ot_shaper_use.rt by rust/erase; edit the source.

//! The universal shaper.

use crate::generated::shapers_base::buffer::Tag;
use crate::generated::shapers_base::map::{F_GLOBAL, F_MANUAL_ZWJ, F_NONE, F_PER_SYLLABLE};
pub use crate::generated::shapers_base::plan::Category;
use crate::generated::shapers_base::plan::{Pause, Planner, Request, ShaperError};

pub mod category;
mod data;
mod forms;
mod masks;
mod ordering;
mod records;
mod reordering;
mod setup;
mod syllable_walk;

pub use crate::generated::shapers_base::plan::UniversalPlan;
pub use crate::generated::shapers_syllabic::ot_shaper_syllabic::compose;
pub use data::create_data;
pub use masks::{set_categories_in, setup_masks};
pub use ordering::UniversalOrder;
pub use records::{record_pref, record_pref_in, record_rphf, record_rphf_in};
pub use reordering::reorder_use;
pub use setup::{setup_syllables_use, setup_syllables_use_by_bytes};

// A basic feature: in the whole text, within syllables, and it sees joiners.
const BASIC: u32 = F_GLOBAL | F_MANUAL_ZWJ | F_PER_SYLLABLE;

// The basic features run in groups: the reph and the forms before the base are recorded apart.
const REQUESTS: [Request; 30] = [
    Request::Pause(Some(Pause::SetupSyllablesUse)),
    Request::Feature(Tag(*b"locl"), F_GLOBAL | F_PER_SYLLABLE, 1),
    Request::Feature(Tag(*b"ccmp"), F_GLOBAL | F_PER_SYLLABLE, 1),
    Request::Feature(Tag(*b"nukt"), F_GLOBAL | F_PER_SYLLABLE, 1),
    Request::Feature(Tag(*b"akhn"), BASIC, 1),
    Request::Pause(Some(Pause::ClearSubstitutionFlags)),
    Request::Feature(Tag(*b"rphf"), F_MANUAL_ZWJ | F_PER_SYLLABLE, 1),
    Request::Pause(Some(Pause::RecordRphf)),
    Request::Pause(Some(Pause::ClearSubstitutionFlags)),
    Request::Feature(Tag(*b"pref"), BASIC, 1),
    Request::Pause(Some(Pause::RecordPref)),
    Request::Feature(Tag(*b"rkrf"), BASIC, 1),
    Request::Feature(Tag(*b"abvf"), BASIC, 1),
    Request::Feature(Tag(*b"blwf"), BASIC, 1),
    Request::Feature(Tag(*b"half"), BASIC, 1),
    Request::Feature(Tag(*b"pstf"), BASIC, 1),
    Request::Feature(Tag(*b"vatu"), BASIC, 1),
    Request::Feature(Tag(*b"cjct"), BASIC, 1),
    Request::Pause(Some(Pause::ReorderUse)),
    Request::Pause(Some(Pause::SyllabicClearVar)),
    Request::Feature(Tag(*b"isol"), F_NONE, 1),
    Request::Feature(Tag(*b"init"), F_NONE, 1),
    Request::Feature(Tag(*b"medi"), F_NONE, 1),
    Request::Feature(Tag(*b"fina"), F_NONE, 1),
    Request::Pause(None),
    Request::Feature(Tag(*b"abvs"), F_GLOBAL | F_MANUAL_ZWJ, 1),
    Request::Feature(Tag(*b"blws"), F_GLOBAL | F_MANUAL_ZWJ, 1),
    Request::Feature(Tag(*b"haln"), F_GLOBAL | F_MANUAL_ZWJ, 1),
    Request::Feature(Tag(*b"pres"), F_GLOBAL | F_MANUAL_ZWJ, 1),
    Request::Feature(Tag(*b"psts"), F_GLOBAL | F_MANUAL_ZWJ, 1),
];

/// Requests the features of the universal shaper, in the order of its OpenType specification.
/// The only refusal is [`Memory`], which leaves the planner as it was.
///
/// <details><summary>Contract</summary>
///
/// # Contract
///
/// ```text
/// ensures ok { OnOk result (planner.new ≡ with_requests universal_list planner.old) }
/// ensures refusal { IsOkUnless result Memory }
/// ensures err { OnErr result (planner.new ≡ planner.old) }
/// ```
///
/// - `with_requests`: `crates/shapers_base/specs/Planner.antt`
/// - `universal_list`: `crates/shapers_universal/specs/Requests.antt`
///
/// </details>
///
/// [`Memory`]: crate::ShaperError::Memory
pub fn collect_features(planner: &mut Planner) -> Result<(), ShaperError> {
    planner.add_requests(&REQUESTS)
}
