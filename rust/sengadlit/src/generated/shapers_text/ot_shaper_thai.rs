// Generated from crates/shapers_text/src/ot_shaper_thai.rt by rust/erase; edit the source.

//! Thai and Lao: SARA AM in two, and for fonts whose GSUB table doesn't know Thai its private use
//! forms.

use crate::generated::shapers_base::buffer::{Buffer, Script, ShaperError};
use crate::generated::shapers_base::font::Font;
use crate::generated::shapers_base::map::TableIndex;
use crate::generated::shapers_base::plan::Plan;

mod forms;
mod sara_am;

use forms::do_pua_shaping;
use sara_am::{has_sara_am, rewrite_sara_am};

// The script Thai.
const THAI: Script = Script(*b"Thai");

/// Rewrites a Thai or Lao text before its characters become glyphs: each SARA AM becomes NIKHAHIT,
/// which goes before the above-base marks there, and SARA AA. Then, where the plan's script is Thai
/// and GSUB doesn't have it, marks and bases get their private use forms, as far as the font has
/// them, and are flagged by the plan's `break_flags`.
/// Refuses as a growth does, and takes no memory for a text without SARA AM. (OpenType's notes on
/// Thai and Lao, and the note on Thai OpenType shaping.)
///
/// <details><summary>Contract</summary>
///
/// # Contract
///
/// ```text
/// requires { buffer.old.positions ≡ [] }
/// ensures ok { let new = preprocessed_in_thai plan.now (F.font face.now) buffer.old in
///     OnOk result (buffer.new ≡ new) }
/// ensures clusters { let us = characters buffer.old.glyphs in
///     let cs = clusters buffer.old.glyphs in
///     OnOk result (ClustersInTwo buffer.old.level us cs (clusters buffer.new.glyphs)) }
/// ensures flags { OnOk result (FlagsInTwo buffer.old.glyphs buffer.new.glyphs) }
/// ensures kept { let forms = asks_for_forms plan.now in
///     OnOk result (KeptInTwo forms buffer.old.glyphs buffer.new.glyphs) }
/// ensures length { let wanted = length (glyphs_in_two buffer.old.glyphs) in
///     RefusesLength buffer.old.max_len wanted result }
/// ensures err { OnErr result (buffer.new ≡ buffer.old) }
/// ensures without { let some = list_any (λ g. is_sara_am g.glyph_id) buffer.old.glyphs in
///     some ≡ false → IsOk result }
/// ```
///
/// - `characters`, `clusters`: `crates/shapers_buffer/specs/Glyph.antt`
/// - `RefusesLength`: `crates/shapers_buffer/specs/Refusals.antt`
/// - `glyphs_in_two`, `is_sara_am`: `crates/shapers_text/specs/Thai.antt`
/// - `asks_for_forms`, `preprocessed_in_thai`: `crates/shapers_text/specs/ThaiForms.antt`
/// - `ClustersInTwo`, `FlagsInTwo`, `KeptInTwo`: `crates/shapers_text/specs/ThaiLaws.antt`
///
/// </details>
#[inline]
pub fn preprocess_text<F: Font>(
    plan: &Plan,
    face: &F,
    buffer: &mut Buffer,
) -> Result<(), ShaperError> {
    rewrite_sara_am(buffer)?;
    if wants_forms(plan) {
        do_pua_shaping(plan.break_flags, face, buffer);
    }
    Ok(())
}

/// [`preprocess_text`], which returns whether it rewrote the text: where there is no SARA AM and the
/// plan wants no private use forms, it returns false and has changed nothing.
///
/// # Errors
///
/// [`TooLong`] where the buffer would be longer than [`max_len`], [`Memory`] where memory is refused;
/// nothing has changed then.
///
/// # Panics
///
/// Where the font does.
///
/// <details><summary>Contract</summary>
///
/// # Contract
///
/// ```text
/// requires { buffer.old.positions ≡ [] }
/// ensures ok { let new = preprocessed_in_thai plan.now (F.font face.now) buffer.old in
///     OnOk result (buffer.new ≡ new) }
/// ensures changes { let some = list_any (λ g. is_sara_am g.glyph_id) buffer.old.glyphs in
///     IfOk result (λ changes. changes ≡ (some || asks_for_forms plan.now)) }
/// ensures clusters { let us = characters buffer.old.glyphs in
///     let cs = clusters buffer.old.glyphs in
///     OnOk result (ClustersInTwo buffer.old.level us cs (clusters buffer.new.glyphs)) }
/// ensures flags { OnOk result (FlagsInTwo buffer.old.glyphs buffer.new.glyphs) }
/// ensures kept { let forms = asks_for_forms plan.now in
///     OnOk result (KeptInTwo forms buffer.old.glyphs buffer.new.glyphs) }
/// ensures unchanged { result ≡ Ok false → buffer.new ≡ buffer.old }
/// ensures length { let wanted = length (glyphs_in_two buffer.old.glyphs) in
///     RefusesLength buffer.old.max_len wanted result }
/// ensures err { OnErr result (buffer.new ≡ buffer.old) }
/// ensures without { let some = list_any (λ g. is_sara_am g.glyph_id) buffer.old.glyphs in
///     some ≡ false → IsOk result }
/// ```
///
/// - `characters`, `clusters`: `crates/shapers_buffer/specs/Glyph.antt`
/// - `RefusesLength`: `crates/shapers_buffer/specs/Refusals.antt`
/// - `glyphs_in_two`, `is_sara_am`: `crates/shapers_text/specs/Thai.antt`
/// - `asks_for_forms`, `preprocessed_in_thai`: `crates/shapers_text/specs/ThaiForms.antt`
/// - `ClustersInTwo`, `FlagsInTwo`, `KeptInTwo`: `crates/shapers_text/specs/ThaiLaws.antt`
///
/// </details>
///
/// [`Memory`]: crate::ShaperError::Memory
/// [`TooLong`]: crate::ShaperError::TooLong
/// [`max_len`]: crate::Buffer::max_len
/// [`preprocess_text`]: crate::Shaper::preprocess_text
pub fn preprocess_text_changes<F: Font>(
    plan: &Plan,
    face: &F,
    buffer: &mut Buffer,
) -> Result<bool, ShaperError> {
    if !has_sara_am(buffer) && !wants_forms(plan) {
        return Ok(false);
    }
    preprocess_text(plan, face, buffer)?;
    Ok(true)
}

// Whether the plan wants private use forms.
fn wants_forms(plan: &Plan) -> bool {
    is_thai(plan.script) && !plan.ot_map.found_script(TableIndex::GSUB)
}

// Whether the script is Thai.
fn is_thai(script: Option<Script>) -> bool {
    match script {
        None => false,
        Some(script) => script == THAI,
    }
}
