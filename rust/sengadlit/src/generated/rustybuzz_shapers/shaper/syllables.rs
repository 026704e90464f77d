// Generated from crates/rustybuzz_shapers/src/shaper/syllables.rt by rust/erase; edit the source.

//! The set-up of syllables by pause: of those that its grammar finds, and of those that are written
//! already.

use crate::generated::shapers_base::buffer::Buffer;
use crate::generated::shapers_base::plan::{Pause, Plan};
use crate::generated::shapers_spans::{Indic, Khmer, Myanmar, Universal, find_syllables_in};
use crate::generated::shapers_syllabic::ot_shaper_syllabic::{
    indic_syllable, khmer_syllable, myanmar_syllable, setup_by_bytes,
};
use crate::generated::shapers_universal::ot_shaper_use::setup_syllables_use_by_bytes;

/// Finds the syllables of the buffer's text by the pause's grammar and sets them up, in one pass and
/// without a list of spans. It does what [`run_pause`] does with the spans that the grammar finds, can't
/// refuse and takes no memory. Where the pause isn't one that sets syllables up, it returns false and
/// changes nothing.
///
/// # Panics
///
/// Where the pause is [`SetupSyllablesUse`](crate::Pause::SetupSyllablesUse) and the plan has no data of the universal
/// shaper.
///
/// [`run_pause`]: crate::run_pause
///
/// <details><summary>Contract</summary>
///
/// # Contract
///
/// ```text
/// requires { PauseFits pause plan.now }
/// ensures answer { result ≡ sets_up pause }
/// ensures setup { result ≡ true →
///     (font : Font) → PauseRun pause plan.now font buffer.old buffer.new }
/// ensures others { result ≡ false → buffer.new ≡ buffer.old }
/// ```
///
/// - `PauseRun`, `sets_up`: `crates/rustybuzz_shapers/specs/FoundSyllables.antt`
/// - `PauseFits`: `crates/rustybuzz_shapers/specs/Pauses.antt`
/// - `Font`: `crates/shapers_base/specs/Font.antt`
///
/// </details>
#[inline]
#[must_use]
pub fn setup_syllables_found(pause: Pause, plan: &Plan, buffer: &mut Buffer) -> bool {
    write_syllables(pause, buffer);
    setup_syllables_written(pause, plan, buffer)
}

/// Sets up a text whose glyphs have their syllable bytes already, as a machine of the caller's wrote
/// them. It does what [`run_pause`] does with the spans that these bytes stand for, can't refuse and
/// takes no memory. Where the pause isn't one that sets syllables up, it returns false and changes
/// nothing.
///
/// # Panics
///
/// Where the pause is [`SetupSyllablesUse`](crate::Pause::SetupSyllablesUse) and the plan has no data of the universal
/// shaper.
///
/// [`run_pause`]: crate::run_pause
///
/// <details><summary>Contract</summary>
///
/// # Contract
///
/// ```text
/// requires { PauseFits pause plan.now }
/// ensures answer { result ≡ sets_up pause }
/// ensures setup { buffer.new ≡ setup_written pause plan.now buffer.old }
/// ensures flags { OnlyFlagsAdded buffer.old.glyphs buffer.new.glyphs }
/// ```
///
/// - `sets_up`, `setup_written`: `crates/rustybuzz_shapers/specs/FoundSyllables.antt`
/// - `PauseFits`: `crates/rustybuzz_shapers/specs/Pauses.antt`
/// - `OnlyFlagsAdded`: `crates/shapers_clusters/specs/FlagLaw.antt`
///
/// </details>
#[inline]
#[must_use]
pub fn setup_syllables_written(pause: Pause, plan: &Plan, buffer: &mut Buffer) -> bool {
    match pause {
        Pause::SetupSyllablesIndic => setup_by_bytes(indic_syllable::BROKEN_CLUSTER, buffer),
        Pause::SetupSyllablesKhmer => setup_by_bytes(khmer_syllable::BROKEN_CLUSTER, buffer),
        Pause::SetupSyllablesMyanmar => setup_by_bytes(myanmar_syllable::BROKEN_CLUSTER, buffer),
        Pause::SetupSyllablesUse => setup_syllables_use_by_bytes(plan, buffer),
        _ => return false,
    }
    true
}

// Gives each glyph the byte of its syllable, if the pause has a grammar that finds it.
#[inline]
fn write_syllables(pause: Pause, buffer: &mut Buffer) {
    match pause {
        Pause::SetupSyllablesIndic => find_syllables_in(&Indic, buffer),
        Pause::SetupSyllablesKhmer => find_syllables_in(&Khmer, buffer),
        Pause::SetupSyllablesMyanmar => find_syllables_in(&Myanmar, buffer),
        Pause::SetupSyllablesUse => find_syllables_in(&Universal, buffer),
        _ => {}
    }
}
