// Generated from crates/opentype_face/src/directory.rt by rust/erase; edit the source.

//! The faces of a font file, and the tables of a face.

use crate::generated::opentype_face::bytes::{capped, offset32, stretch, table_at, u16_at, u32_at};
use crate::generated::opentype_face::ranges::Ranges;

/// Why bytes aren't a face.
#[derive(Clone, Copy, Debug, PartialEq, Eq, Hash)]
pub enum FaceError {
    /// The file doesn't begin as an OpenType font or a collection does.
    UnknownMagic,
    /// The file has fewer faces.
    IndexOutOfRange,
    /// The table `head` is missing or empty.
    MissingHead,
    /// The table `maxp` is missing or empty.
    MissingMaxp,
}

const COLLECTION: u32 = 0x7474_6366;

fn is_single(magic: u32) -> bool {
    matches!(magic, 0x0001_0000 | 0x4F54_544F | 0x7472_7565 | 0x7479_7031)
}

/// How many faces a file has: 0 where it is no font.
///
/// <details><summary>Contract</summary>
///
/// # Contract
///
/// ```text
/// ensures { result ≡ face_count_in bytes.now }
/// ```
///
/// - `face_count_in`: `crates/opentype_face/specs/Directory.antt`
///
/// </details>
pub fn face_count(bytes: &[u8]) -> u32 {
    let magic = u32_at(bytes, 0);
    if is_single(magic) {
        return 1;
    }
    if magic != COLLECTION {
        return 0;
    }
    match u16_at(bytes, 4) {
        1 | 2 => capped(u32_at(bytes, 8), bytes.len() / 4),
        _ => 0,
    }
}

/// The directory of a face.
///
/// # Errors
/// The bytes are no font, or the file has no face of that index.
///
/// <details><summary>Contract</summary>
///
/// # Contract
///
/// ```text
/// ensures { Gives (λ x. x.now) result (directory_in bytes.now index) }
/// ```
///
/// - `directory_in`: `crates/opentype_face/specs/Directory.antt`
/// - `Gives`: `crates/opentype_face/specs/Views.antt`
///
/// </details>
pub fn directory(bytes: &[u8], index: u32) -> Result<&[u8], FaceError> {
    let magic = u32_at(bytes, 0);
    if is_single(magic) {
        return if index == 0 {
            Ok(bytes)
        } else {
            Err(FaceError::IndexOutOfRange)
        };
    }
    if magic != COLLECTION {
        return Err(FaceError::UnknownMagic);
    }
    if index >= face_count(bytes) {
        return Err(FaceError::IndexOutOfRange);
    }
    Ok(table_at(bytes, offset32(bytes, 12 + index as usize * 4)))
}

/// A table of a face by its tag, as far as the file has it; nothing where there is none. It looks at
/// 17 records at most.
///
/// <details><summary>Contract</summary>
///
/// # Contract
///
/// ```text
/// ensures { result.now ≡ table_in bytes.now directory.now tag }
/// ```
///
/// - `table_in`: `crates/opentype_face/specs/Directory.antt`
///
/// </details>
pub fn table<'a>(bytes: &'a [u8], directory: &[u8], tag: u32) -> &'a [u8] {
    match record(directory, tag) {
        Some(i) => {
            let at = i as usize * 16;
            stretch(
                bytes,
                offset32(directory, 20 + at),
                offset32(directory, 24 + at),
            )
        }
        None => &[],
    }
}

fn record(directory: &[u8], tag: u32) -> Option<u32> {
    let count = capped(u32::from(u16_at(directory, 4)), directory.len() / 16);
    if count < 16 {
        return first_record(directory, tag, count);
    }
    let records = Ranges {
        bytes: directory,
        first: 12,
        last: 12,
        size: 16,
        count,
    };
    records.find_long(tag)
}

/// HarfBuzz looks at each record of a short directory, since some aren't in order.
fn first_record(directory: &[u8], tag: u32, count: u32) -> Option<u32> {
    for i in 0..count {
        if u32_at(directory, 12 + i as usize * 16) == tag {
            return Some(i);
        }
    }
    None
}
