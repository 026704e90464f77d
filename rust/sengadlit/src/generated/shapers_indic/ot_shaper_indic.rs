// Generated from crates/shapers_indic/src/ot_shaper_indic.rt by rust/erase; edit the source.

//! The shaper of the Indic scripts.

use crate::generated::shapers_base::buffer::{Buffer, Tag};
use crate::generated::shapers_base::font::Tables;
use crate::generated::shapers_base::map::{F_GLOBAL, F_MANUAL_JOINERS, F_PER_SYLLABLE};
pub use crate::generated::shapers_base::plan::{
    Category, IndicWouldSubstituteFeature, Position, ot_category_t, ot_position_t,
};
use crate::generated::shapers_base::plan::{Pause, Planner, Request, ShaperError};
use crate::generated::shapers_syllabic::ot_shaper_syllabic;

mod data;
pub mod glyphs;
pub mod indic_feature;

pub use data::{create_data, indic_in, virama_glyph};

// A feature within syllables that sees both joiners: on where a mask says so, or in the whole text.
const MASKED: u32 = F_MANUAL_JOINERS | F_PER_SYLLABLE;

const WHOLE_TEXT: u32 = F_GLOBAL | MASKED;

// The basic features run one by one between the two reorderings, the others at once after them.
const REQUESTS: [Request; 33] = [
    Request::Pause(Some(Pause::SetupSyllablesIndic)),
    Request::Feature(Tag(*b"locl"), F_GLOBAL | F_PER_SYLLABLE, 1),
    Request::Feature(Tag(*b"ccmp"), F_GLOBAL | F_PER_SYLLABLE, 1),
    Request::Pause(Some(Pause::InitialReordering)),
    Request::Feature(Tag(*b"nukt"), WHOLE_TEXT, 1),
    Request::Pause(None),
    Request::Feature(Tag(*b"akhn"), WHOLE_TEXT, 1),
    Request::Pause(None),
    Request::Feature(Tag(*b"rphf"), MASKED, 1),
    Request::Pause(None),
    Request::Feature(Tag(*b"rkrf"), WHOLE_TEXT, 1),
    Request::Pause(None),
    Request::Feature(Tag(*b"pref"), MASKED, 1),
    Request::Pause(None),
    Request::Feature(Tag(*b"blwf"), MASKED, 1),
    Request::Pause(None),
    Request::Feature(Tag(*b"abvf"), MASKED, 1),
    Request::Pause(None),
    Request::Feature(Tag(*b"half"), MASKED, 1),
    Request::Pause(None),
    Request::Feature(Tag(*b"pstf"), MASKED, 1),
    Request::Pause(None),
    Request::Feature(Tag(*b"vatu"), WHOLE_TEXT, 1),
    Request::Pause(None),
    Request::Feature(Tag(*b"cjct"), WHOLE_TEXT, 1),
    Request::Pause(None),
    Request::Pause(Some(Pause::FinalReordering)),
    Request::Feature(Tag(*b"init"), MASKED, 1),
    Request::Feature(Tag(*b"pres"), WHOLE_TEXT, 1),
    Request::Feature(Tag(*b"abvs"), WHOLE_TEXT, 1),
    Request::Feature(Tag(*b"blws"), WHOLE_TEXT, 1),
    Request::Feature(Tag(*b"psts"), WHOLE_TEXT, 1),
    Request::Feature(Tag(*b"haln"), WHOLE_TEXT, 1),
];

// The standard ligatures stay off.
const OVERRIDES: [Request; 2] = [
    Request::Feature(Tag(*b"liga"), F_GLOBAL, 0),
    Request::Pause(Some(Pause::SyllabicClearVar)),
];

/// Requests the features of Indic, in the order of its OpenType specification.
/// The only refusal is [`Memory`], which leaves the planner as it was.
///
/// <details><summary>Contract</summary>
///
/// # Contract
///
/// ```text
/// ensures ok { OnOk result (planner.new ≡ with_requests indic_list planner.old) }
/// ensures refusal { IsOkUnless result Memory }
/// ensures err { OnErr result (planner.new ≡ planner.old) }
/// ```
///
/// - `with_requests`: `crates/shapers_base/specs/Planner.antt`
/// - `indic_list`: `crates/shapers_indic/specs/Requests.antt`
///
/// </details>
///
/// [`Memory`]: crate::ShaperError::Memory
pub fn collect_features(planner: &mut Planner) -> Result<(), ShaperError> {
    planner.add_requests(&REQUESTS)
}

/// Turns off ligatures, and requests that syllables be cleared.
/// The only refusal is [`Memory`], which leaves the planner as it was.
///
/// <details><summary>Contract</summary>
///
/// # Contract
///
/// ```text
/// ensures ok { OnOk result (planner.new ≡ with_requests indic_overrides planner.old) }
/// ensures refusal { IsOkUnless result Memory }
/// ensures err { OnErr result (planner.new ≡ planner.old) }
/// ```
///
/// - `with_requests`: `crates/shapers_base/specs/Planner.antt`
/// - `indic_overrides`: `crates/shapers_indic/specs/Requests.antt`
///
/// </details>
///
/// [`Memory`]: crate::ShaperError::Memory
pub fn override_features(planner: &mut Planner) -> Result<(), ShaperError> {
    planner.add_requests(&OVERRIDES)
}

/// The composition of two characters: Bengali YYA, which Unicode excludes from composition, else
/// the table's. A mark composes with nothing behind it, so that a split vowel isn't put together
/// again.
///
/// <details><summary>Contract</summary>
///
/// # Contract
///
/// ```text
/// ensures { result ≡ composed_in_indic (T.tables tables.now) a b }
/// ```
///
/// - `composed_in_indic`: `crates/shapers_indic/specs/Characters.antt`
///
/// </details>
#[inline]
pub fn compose<T: Tables>(tables: &T, a: char, b: char) -> Option<char> {
    match (a, b) {
        ('\u{09AF}', '\u{09BC}') if !tables.general_category(a).is_mark() => Some('\u{09DF}'),
        _ => ot_shaper_syllabic::compose(tables, a, b),
    }
}

/// The decomposition of a character by the table, but for four letters that stay whole.
///
/// <details><summary>Contract</summary>
///
/// # Contract
///
/// ```text
/// ensures { result ≡ decomposed_in_indic (T.tables tables.now) ab }
/// ```
///
/// - `decomposed_in_indic`: `crates/shapers_indic/specs/Characters.antt`
///
/// </details>
#[inline]
pub fn decompose<T: Tables>(tables: &T, ab: char) -> Option<(char, char)> {
    match ab {
        // Devanagari RRA, Bengali RRA and RHA (HarfBuzz's issue 779), Tamil AU.
        '\u{0931}' | '\u{09DC}' | '\u{09DD}' | '\u{0B94}' => None,
        _ => tables.decompose(ab),
    }
}

/// Gives each glyph its category and its position in the syllable by the table; the masks wait for
/// the reordering. It takes no memory.
///
/// <details><summary>Contract</summary>
///
/// # Contract
///
/// ```text
/// ensures { let changed = map (with_category_and_position (T.tables tables.now))
///     buffer.old.glyphs in
///     buffer.new ≡ record buffer.old { glyphs = changed } }
/// ```
///
/// - `with_category_and_position`: `crates/shapers_syllabic/specs/Characters.antt`
///
/// </details>
#[inline]
pub fn setup_masks<T: Tables>(tables: &T, buffer: &mut Buffer) {
    ot_shaper_syllabic::set_categories_and_positions(tables, buffer);
}
