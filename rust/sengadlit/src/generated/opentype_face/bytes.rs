// Generated from crates/opentype_face/src/bytes.rt by rust/erase; edit the source.

//! Numbers in bytes. Behind the end each byte is 0, so that no offset of a font is an error.

/// The byte at a place.
///
/// <details><summary>Contract</summary>
///
/// # Contract
///
/// ```text
/// ensures { result ≡ slice_index bytes.now at }
/// ```
///
/// </details>
#[inline]
pub fn u8_at(bytes: &[u8], at: usize) -> u8 {
    if at < bytes.len() { bytes[at] } else { 0 }
}

/// The number of two bytes at a place.
///
/// <details><summary>Contract</summary>
///
/// # Contract
///
/// ```text
/// ensures { result ≡ u16_in bytes.now at }
/// ```
///
/// - `u16_in`: `crates/opentype_face/specs/Bytes.antt`
///
/// </details>
#[inline]
pub fn u16_at(bytes: &[u8], at: usize) -> u16 {
    let len = bytes.len();
    // (one comparison, since a loop takes the first test out)
    if len >= 2 && at <= len - 2 {
        return 256 * u16::from(bytes[at]) + u16::from(bytes[at + 1]);
    }
    256 * u16::from(u8_at(bytes, at))
}

/// The number of two bytes at a place, with its sign.
///
/// <details><summary>Contract</summary>
///
/// # Contract
///
/// ```text
/// ensures { result ≡ i16_in bytes.now at }
/// ```
///
/// - `i16_in`: `crates/opentype_face/specs/Bytes.antt`
///
/// </details>
#[inline]
pub fn i16_at(bytes: &[u8], at: usize) -> i16 {
    let number = u16_at(bytes, at);
    if number < 32768 {
        number as i16
    } else {
        (i32::from(number) - 65536) as i16
    }
}

/// The number of three bytes at a place.
///
/// <details><summary>Contract</summary>
///
/// # Contract
///
/// ```text
/// ensures value { result ≡ u24_in bytes.now at }
/// ensures bound { result < 2 ^ 24 }
/// ```
///
/// - `u24_in`: `crates/opentype_face/specs/Bytes.antt`
///
/// </details>
#[inline]
pub fn u24_at(bytes: &[u8], at: usize) -> u32 {
    u32_at(bytes, at) / 256
}

/// The number of four bytes at a place.
///
/// <details><summary>Contract</summary>
///
/// # Contract
///
/// ```text
/// ensures { result ≡ u32_in bytes.now at }
/// ```
///
/// - `u32_in`: `crates/opentype_face/specs/Bytes.antt`
///
/// </details>
#[inline]
pub fn u32_at(bytes: &[u8], at: usize) -> u32 {
    let len = bytes.len();
    // (the tests of both numbers fall into this one)
    if len >= 4 && at <= len - 4 {
        return 65536 * u32::from(u16_at(bytes, at)) + u32::from(u16_at(bytes, at + 2));
    }
    if at >= len {
        return 0;
    }
    65536 * u32::from(u16_at(bytes, at)) + u32::from(u16_at(bytes, at + 2))
}

/// The number of four bytes at a place, as an offset.
///
/// <details><summary>Contract</summary>
///
/// # Contract
///
/// ```text
/// ensures { result ≡ u32_in bytes.now at }
/// ```
///
/// - `u32_in`: `crates/opentype_face/specs/Bytes.antt`
///
/// </details>
#[inline]
pub fn offset32(bytes: &[u8], at: usize) -> usize {
    u32_at(bytes, at) as usize
}

/// The number of two bytes at a place, as an offset or a count.
///
/// <details><summary>Contract</summary>
///
/// # Contract
///
/// ```text
/// ensures { result ≡ u16_in bytes.now at }
/// ```
///
/// - `u16_in`: `crates/opentype_face/specs/Bytes.antt`
///
/// </details>
#[inline]
pub fn offset16(bytes: &[u8], at: usize) -> usize {
    usize::from(u16_at(bytes, at))
}

/// The last two bytes of a number.
///
/// <details><summary>Contract</summary>
///
/// # Contract
///
/// ```text
/// ensures { result ≡ n % 65536 }
/// ```
///
/// </details>
#[inline]
pub fn low16(n: u32) -> u16 {
    (n % 65536) as u16
}

/// What begins so many bytes behind the start of a table; at 0 there is nothing.
///
/// <details><summary>Contract</summary>
///
/// # Contract
///
/// ```text
/// ensures { result.now ≡ table_at bytes.now offset }
/// ```
///
/// - `table_at`: `crates/opentype_face/specs/Bytes.antt`
///
/// </details>
#[inline]
pub fn table_at(bytes: &[u8], offset: usize) -> &[u8] {
    if offset == 0 || offset >= bytes.len() {
        return &[];
    }
    &bytes[offset..]
}

/// The lesser of a count that a table names and of what it has room for.
///
/// <details><summary>Contract</summary>
///
/// # Contract
///
/// ```text
/// ensures { result ≡ capped_in count room }
/// ```
///
/// - `capped_in`: `crates/opentype_face/specs/Bytes.antt`
///
/// </details>
#[inline]
pub fn capped(count: u32, room: usize) -> u32 {
    if count as usize <= room {
        count
    } else {
        room as u32
    }
}

/// So many bytes of a table from a place on, as far as it has them.
///
/// <details><summary>Contract</summary>
///
/// # Contract
///
/// ```text
/// ensures { result.now ≡ stretch_bytes bytes.now start len }
/// ```
///
/// - `stretch_bytes`: `crates/opentype_face/specs/Bytes.antt`
///
/// </details>
#[inline]
pub fn stretch(bytes: &[u8], start: usize, len: usize) -> &[u8] {
    if start >= bytes.len() {
        return &[];
    }
    let rest = &bytes[start..];
    if len < rest.len() { &rest[..len] } else { rest }
}
