// Generated from crates/shapers_arabic/src/ot_shaper_arabic/arabic_action_t.rt by rust/erase; edit the source.

//! The forms that a letter takes, and the two kinds of pieces of a mark that stretches.

/// The isolated form (`isol`).
pub const ISOL: u8 = 0;

/// The final form (`fina`).
pub const FINA: u8 = 1;

/// The second final form, of Alaph in Syriac (`fin2`).
pub const FIN2: u8 = 2;

/// The third final form, of Alaph in Syriac (`fin3`).
pub const FIN3: u8 = 3;

/// The medial form (`medi`).
pub const MEDI: u8 = 4;

/// The second medial form, of Alaph in Syriac (`med2`).
pub const MED2: u8 = 5;

/// The initial form (`init`).
pub const INIT: u8 = 6;

/// No form.
pub const NONE: u8 = 7;

/// A piece of a mark that stretches (`stch`), which is laid once.
pub const STRETCHING_FIXED: u8 = 8;

/// A piece of a mark that stretches, which is laid as often as its word has room for.
pub const STRETCHING_REPEATING: u8 = 9;

/// Whether the action is that of a piece of a mark that stretches.
///
/// <details><summary>Contract</summary>
///
/// # Contract
///
/// ```text
/// ensures { result ≡ (n == STRETCHING_FIXED || n == STRETCHING_REPEATING) }
/// ```
///
/// </details>
#[inline]
pub fn is_stch(n: u8) -> bool {
    matches!(n, STRETCHING_FIXED | STRETCHING_REPEATING)
}
