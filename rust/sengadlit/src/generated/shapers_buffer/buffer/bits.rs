// Generated from crates/shapers_buffer/src/buffer/bits.rt by rust/erase; edit the source.

// Sixteen bits with one of them on or off.
#[inline]
pub(super) fn set_bit(bits: u16, bit: u16, on: bool) -> u16 {
    if on { bits | bit } else { bits & !bit }
}
