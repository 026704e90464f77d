// Generated from crates/opentype_layout/src/bits.rt by rust/erase; edit the source.

//! Bits in words of 64 bits.

/// Sets the bit at a place.
#[inline]
pub(crate) fn set_bit(words: &mut [u64], k: usize) {
    words[k / 64] |= 1u64 << (k % 64);
}

/// Whether the bit at a place is set; there are none behind the words.
#[inline]
pub(crate) fn is_set(words: &[u64], k: usize) -> bool {
    let at = k / 64;
    at < words.len() && words[at] >> (k % 64) & 1 == 1
}

// The first bit that is set, among the words from one on.
fn first_bit_among(words: &[u64], from: usize, end: usize) -> usize {
    for i in from..end.div_ceil(64) {
        let word = words[i];
        if word != 0 {
            return end.min(i * 64 + word.trailing_zeros() as usize);
        }
    }
    end
}

/// The place of the first bit that is set, from a place on and before an end; the end, if there is
/// none.
#[inline]
pub(crate) fn first_bit(words: &[u64], from: usize, end: usize) -> usize {
    if from == end {
        return end;
    }
    let rest = words[from / 64] >> (from % 64);
    if rest != 0 {
        return end.min(from + rest.trailing_zeros() as usize);
    }
    first_bit_among(words, from / 64 + 1, end)
}
