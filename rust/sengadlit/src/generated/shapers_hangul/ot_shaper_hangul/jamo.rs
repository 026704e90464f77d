// Generated from crates/shapers_hangul/src/ot_shaper_hangul/jamo.rt by rust/erase; edit the source.

//! Jamo, syllable characters and tones, by their numbers.

// Where the leading jamo that combine, their vowels and the syllable characters begin, and the
// place before the trailing jamo.
const L_BASE: u32 = 0x1100;

const V_BASE: u32 = 0x1161;

const T_BASE: u32 = 0x11A7;

const S_BASE: u32 = 0xAC00;

// How many syllable characters there are for one vowel, and for one leading jamo.
const T_COUNT: u32 = 28;

const N_COUNT: u32 = 588;

// A leading jamo.
#[inline]
pub(super) fn is_l(u: u32) -> bool {
    matches!(u, 0x1100..=0x115F | 0xA960..=0xA97C)
}

// A vowel jamo.
#[inline]
pub(super) fn is_v(u: u32) -> bool {
    matches!(u, 0x1160..=0x11A7 | 0xD7B0..=0xD7C6)
}

// A trailing jamo.
#[inline]
pub(super) fn is_t(u: u32) -> bool {
    matches!(u, 0x11A8..=0x11FF | 0xD7CB..=0xD7FB)
}

// A leading jamo that combines.
#[inline]
pub(super) fn is_combining_l(u: u32) -> bool {
    matches!(u, 0x1100..=0x1112)
}

// A vowel jamo that combines.
#[inline]
pub(super) fn is_combining_v(u: u32) -> bool {
    matches!(u, 0x1161..=0x1175)
}

// A trailing jamo that combines.
#[inline]
pub(super) fn is_combining_t(u: u32) -> bool {
    matches!(u, 0x11A8..=0x11C2)
}

// A syllable character.
#[inline]
pub(super) fn is_combined_s(u: u32) -> bool {
    matches!(u, 0xAC00..=0xD7A3)
}

// A syllable character without a trailing jamo.
#[inline]
pub(super) fn is_lv(u: u32) -> bool {
    is_combined_s(u) && (u - S_BASE) % T_COUNT == 0
}

// A tone.
#[inline]
pub(super) fn is_hangul_tone(u: u32) -> bool {
    matches!(u, 0x302E..=0x302F)
}

// A character that what stands before it may take along: a vowel, a trailing jamo or a tone.
#[inline]
pub(super) fn follows(u: u32) -> bool {
    is_v(u) || is_t(u) || is_hangul_tone(u)
}

// The syllable character of a leading and a vowel jamo.
#[inline]
pub(super) fn compose_two(l: u32, v: u32) -> u32 {
    S_BASE + (l - L_BASE) * N_COUNT + (v - V_BASE) * T_COUNT
}

// The syllable character of one without a trailing jamo and of that.
#[inline]
pub(super) fn compose_three(lv: u32, t: u32) -> u32 {
    lv + (t - T_BASE)
}

// The jamo of a syllable character: leading, vowel, and trailing where it has one.
#[inline]
pub(super) fn decompose(s: u32) -> [u32; 3] {
    let index = s - S_BASE;
    [
        L_BASE + index / N_COUNT,
        V_BASE + index % N_COUNT / T_COUNT,
        T_BASE + index % T_COUNT,
    ]
}
