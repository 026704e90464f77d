// Generated from crates/opentype_face/src/ranges.rt by rust/erase; edit the source.

//! Searches among records that are in order.

use crate::generated::opentype_face::bytes::{u8_at, u16_at, u24_at, u32_at};

/// Where records of a table have the first number and the last one of a range.
#[derive(Clone, Copy, Debug)]
pub struct Ranges<'a> {
    /// The table of the records.
    pub bytes: &'a [u8],
    /// Where the first numbers begin.
    pub first: u32,
    /// Where the last ones do.
    pub last: u32,
    /// How many bytes there are from one to the next.
    pub size: u32,
    /// How many there are: no more than the table has room for.
    pub count: u32,
}

/// The last number of a range, by its first one and the byte of how many follow it.
#[inline]
fn counted_end(bytes: &[u8], first: usize, last: usize) -> u32 {
    u24_at(bytes, first) + u32::from(u8_at(bytes, last))
}

// (two searches apart, since distances that the code knows make a step half as long)

/// The record that has a number, among so many of two bytes from byte 4 on.
#[inline]
pub(crate) fn find_number(bytes: &[u8], glyph_count: u16, number: u16) -> Option<u32> {
    let (mut low, mut high) = (0, u32::from(glyph_count));
    while low < high {
        let middle = (low + high - 1) / 2;
        let found = u16_at(bytes, 4 + middle as usize * 2);
        if number < found {
            high = middle;
        } else if found < number {
            low = middle + 1;
        } else {
            return Some(middle);
        }
    }
    None
}

/// The record whose range holds a number, among so many of six bytes from byte 4 on.
#[inline]
pub(crate) fn find_range(bytes: &[u8], range_count: u16, number: u16) -> Option<u32> {
    let (mut low, mut high) = (0, u32::from(range_count));
    while low < high {
        let middle = (low + high - 1) / 2;
        let from = middle as usize * 6;
        if number < u16_at(bytes, 4 + from) {
            high = middle;
        } else if u16_at(bytes, 6 + from) < number {
            low = middle + 1;
        } else {
            return Some(middle);
        }
    }
    None
}

impl<'a> Ranges<'a> {
    /// The range that holds a number, where they have 16 bits.
    ///
    /// <details><summary>Contract</summary>
    ///
    /// # Contract
    ///
    /// ```text
    /// ensures { let it = self.now in
    ///     result ≡ ranges_in it.bytes.now it.first it.last it.size it.count number }
    /// ```
    ///
    /// - `ranges_in`: `crates/opentype_face/specs/Glyphs.antt`
    ///
    /// </details>
    #[inline]
    pub fn find(&self, number: u16) -> Option<u32> {
        let (mut low, mut high) = (0, self.count);
        while low < high {
            let middle = low + (high - low - 1) / 2;
            let from = middle as usize * self.size as usize;
            if number < u16_at(self.bytes, self.first as usize + from) {
                high = middle;
            } else if u16_at(self.bytes, self.last as usize + from) < number {
                low = middle + 1;
            } else {
                return Some(middle);
            }
        }
        None
    }

    /// The range that holds a number, where they have 32 bits.
    ///
    /// <details><summary>Contract</summary>
    ///
    /// # Contract
    ///
    /// ```text
    /// ensures { let it = self.now in result ≡ bisect it.count
    ///     (λ i. u32_in it.bytes.now (it.first + i * it.size))
    ///     (λ i. u32_in it.bytes.now (it.last + i * it.size)) number 0 it.count }
    /// ```
    ///
    /// - `u32_in`: `crates/opentype_face/specs/Bytes.antt`
    /// - `bisect`: `crates/opentype_face/specs/Ranges.antt`
    ///
    /// </details>
    #[inline]
    pub fn find_long(&self, number: u32) -> Option<u32> {
        let (mut low, mut high) = (0, self.count);
        while low < high {
            let middle = low + (high - low - 1) / 2;
            let from = middle as usize * self.size as usize;
            if number < u32_at(self.bytes, self.first as usize + from) {
                high = middle;
            } else if u32_at(self.bytes, self.last as usize + from) < number {
                low = middle + 1;
            } else {
                return Some(middle);
            }
        }
        None
    }

    /// The record of a number of 24 bits.
    ///
    /// <details><summary>Contract</summary>
    ///
    /// # Contract
    ///
    /// ```text
    /// ensures { let it = self.now in
    ///     result ≡ record24_in it.bytes.now it.first it.size it.count number }
    /// ```
    ///
    /// - `record24_in`: `crates/opentype_face/specs/Variants.antt`
    ///
    /// </details>
    #[inline]
    pub fn find_24(&self, number: u32) -> Option<u32> {
        let (mut low, mut high) = (0, self.count);
        while low < high {
            let middle = low + (high - low - 1) / 2;
            let from = middle as usize * self.size as usize;
            if number < u24_at(self.bytes, self.first as usize + from) {
                high = middle;
            } else if u24_at(self.bytes, self.first as usize + from) < number {
                low = middle + 1;
            } else {
                return Some(middle);
            }
        }
        None
    }

    /// The range that holds a number of 24 bits, where a byte behind the first one says how many follow it.
    ///
    /// <details><summary>Contract</summary>
    ///
    /// # Contract
    ///
    /// ```text
    /// ensures { let it = self.now in result ≡ bisect it.count
    ///     (λ i. u24_in it.bytes.now (it.first + i * it.size))
    ///     (λ i. u24_in it.bytes.now (it.first + i * it.size)
    ///     + slice_index it.bytes.now (it.last + i * it.size)) number 0 it.count }
    /// ```
    ///
    /// - `u24_in`: `crates/opentype_face/specs/Bytes.antt`
    /// - `bisect`: `crates/opentype_face/specs/Ranges.antt`
    ///
    /// </details>
    #[inline]
    pub fn find_counted(&self, number: u32) -> Option<u32> {
        let (mut low, mut high) = (0, self.count);
        while low < high {
            let middle = low + (high - low - 1) / 2;
            let from = middle as usize * self.size as usize;
            if number < u24_at(self.bytes, self.first as usize + from) {
                high = middle;
            } else if counted_end(
                self.bytes,
                self.first as usize + from,
                self.last as usize + from,
            ) < number
            {
                low = middle + 1;
            } else {
                return Some(middle);
            }
        }
        None
    }
}
