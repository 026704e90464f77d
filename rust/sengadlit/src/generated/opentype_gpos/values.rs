// Generated from crates/opentype_gpos/src/values.rt by rust/erase; edit the source.

//! Values of glyphs and of pairs.

use crate::support::prelude::*;

use crate::generated::opentype_face::bytes::{table_at, u16_at};
use crate::generated::opentype_face::glyph_sets::class;
use crate::generated::opentype_face::ranges::Ranges;
use crate::generated::opentype_layout::pair_tables::{PairHeader, PairTable};
use crate::generated::opentype_layout::position_tables::PositionRef;

/// What a glyph's position gets, in font units.
#[derive(Clone, Copy, Debug, PartialEq, Eq, Hash)]
pub struct Value {
    /// How far to the right it goes.
    pub x_placement: i32,
    /// How far up it goes.
    pub y_placement: i32,
    /// How far the pen moves further to the right.
    pub x_advance: i32,
    /// How far it moves further down.
    pub y_advance: i32,
}

/// A number of two bytes with its sign.
///
/// <details><summary>Contract</summary>
///
/// # Contract
///
/// ```text
/// ensures { result ≡ signed_in bytes.now at }
/// ```
///
/// - `signed_in`: `crates/opentype_gpos/specs/Values.antt`
///
/// </details>
#[inline]
pub fn i16_at(bytes: &[u8], at: usize) -> i32 {
    let n = u16_at(bytes, at);
    if n < 32768 {
        i32::from(n)
    } else {
        i32::from(n) - 65536
    }
}

#[inline]
fn bit(format: u16, bit: u16) -> u16 {
    format / bit % 2
}

// How many bytes the values of a format take, bit by bit.
#[inline(never)]
fn size_by_bits(format: u16) -> u16 {
    let half = bit(format, 1) + bit(format, 2) + bit(format, 4) + bit(format, 8);
    2 * (half + bit(format, 16) + bit(format, 32) + bit(format, 64) + bit(format, 128))
}

/// How many bytes the values of a format take: two for each bit. Those that fonts have are read from
/// a table.
///
/// <details><summary>Contract</summary>
///
/// # Contract
///
/// ```text
/// ensures value { result ≡ size_of format }
/// ensures few { result ≤ 16 }
/// ```
///
/// - `size_of`: `crates/opentype_gpos/specs/Values.antt`
///
/// </details>
#[inline]
pub fn size(format: u16) -> u16 {
    match format {
        0 => 0,
        1 | 2 | 4 | 8 => 2,
        3 | 5 | 6 | 9 | 10 | 12 => 4,
        7 | 11 | 13 | 14 => 6,
        15 => 8,
        _ => size_by_bits(format),
    }
}

#[inline]
fn field(bytes: &[u8], at: usize, format: u16, of: u16) -> i32 {
    if bit(format, of) == 0 {
        0
    } else {
        i16_at(bytes, at)
    }
}

// The value at a place, of this format, bit by bit.
#[inline(never)]
fn value_by_bits(bytes: &[u8], at: usize, format: u16) -> Value {
    let two = at + 2 * usize::from(bit(format, 1));
    let three = two + 2 * usize::from(bit(format, 2));
    let four = three + 2 * usize::from(bit(format, 4));
    Value {
        x_placement: field(bytes, at, format, 1),
        y_placement: field(bytes, two, format, 2),
        x_advance: field(bytes, three, format, 4),
        y_advance: field(bytes, four, format, 8),
    }
}

/// The value at a place, of this format; of the most frequent ones without a look at each bit.
///
/// <details><summary>Contract</summary>
///
/// # Contract
///
/// ```text
/// requires { at < 2 ^ 63 }
/// ensures { result ≡ value_in bytes.now at format }
/// ```
///
/// - `value_in`: `crates/opentype_gpos/specs/Values.antt`
///
/// </details>
#[inline]
pub fn value_at(bytes: &[u8], at: usize, format: u16) -> Value {
    match format {
        0 => Value {
            x_placement: 0,
            y_placement: 0,
            x_advance: 0,
            y_advance: 0,
        },
        4 => Value {
            x_placement: 0,
            y_placement: 0,
            x_advance: i16_at(bytes, at),
            y_advance: 0,
        },
        _ => value_by_bits(bytes, at, format),
    }
}

/// Where a subtable of type 1 has the value of a glyph.
///
/// <details><summary>Contract</summary>
///
/// # Contract
///
/// ```text
/// ensures { result ≡ single_in it.now.bytes.now glyph }
/// ```
///
/// - `single_in`: `crates/opentype_gpos/specs/Values.antt`
///
/// </details>
pub fn single(it: &PositionRef<'_>, glyph: u16) -> Option<usize> {
    let i = it.first_place(glyph)?;
    let bytes = it.bytes;
    match u16_at(bytes, 0) {
        1 => Some(6),
        2 => {
            if i < u32::from(u16_at(bytes, 6)) {
                Some(8 + i as usize * usize::from(size(u16_at(bytes, 4))))
            } else {
                None
            }
        }
        _ => None,
    }
}

// How many bytes the values of a pair take.
#[inline]
fn pair_size(header: &PairHeader) -> u32 {
    u32::from(size(header.first_format)) + u32::from(size(header.second_format))
}

// Where the set of a first glyph has the values of a pair.
fn pair_in_set(header: &PairHeader, bytes: &[u8], offset: u16, second: u16) -> Option<usize> {
    let size = pair_size(header) + 2;
    let set = table_at(bytes, usize::from(offset));
    let pairs = Ranges {
        bytes: set,
        first: 2,
        last: 2,
        size,
        count: u32::from(u16_at(set, 0)),
    };
    match pairs.find(second) {
        Some(k) => Some(usize::from(offset) + 4 + k as usize * size as usize),
        None => None,
    }
}

// Where the values stand of a pair, by its classes.
#[inline]
fn cell(header: &PairHeader, row: u16, column: u16) -> Option<usize> {
    let columns = header.columns;
    if row >= header.rows || column >= columns {
        return None;
    }
    let cell = usize::from(row) * usize::from(columns) + usize::from(column);
    Some(16 + cell * pair_size(header) as usize)
}

// Where the values stand of the classes of a pair.
fn pair_of_classes(header: &PairHeader, bytes: &[u8], first: u16, second: u16) -> Option<usize> {
    let row = class(table_at(bytes, usize::from(u16_at(bytes, 8))), first);
    let column = class(table_at(bytes, usize::from(u16_at(bytes, 10))), second);
    cell(header, row, column)
}

// Where a set has the values of a second glyph, by the set's number.
#[inline]
fn pair_of_set(header: &PairHeader, bytes: &[u8], i: u32, second: u16) -> Option<usize> {
    if i < u32::from(u16_at(bytes, 8)) {
        pair_in_set(header, bytes, u16_at(bytes, 10 + i as usize * 2), second)
    } else {
        None
    }
}

/// Where a subtable of type 2 has the values of a pair, by tables of its glyphs and by the place of the first glyph in
/// its set.
///
/// <details><summary>Contract</summary>
///
/// # Contract
///
/// ```text
/// ensures { result ≡ pair_place table.now first second (Some i) }
/// ```
///
/// - `pair_place`: `crates/opentype_gpos/specs/Values.antt`
///
/// </details>
#[inline]
pub fn pair_in_table(table: &PairTable<'_>, i: u32, first: u16, second: u16) -> Option<usize> {
    let header = table.header();
    match header.format {
        1 => pair_of_set(&header, table.bytes(), i, second),
        2 => cell(
            &header,
            table.first_class(first),
            table.second_class(second),
        ),
        _ => None,
    }
}

/// Where a subtable of type 2 has the values of a pair, by the place of the first glyph in its set.
///
/// <details><summary>Contract</summary>
///
/// # Contract
///
/// ```text
/// ensures { result ≡ pair_place bytes.now first second (Some i) }
/// ```
///
/// - `pair_place`: `crates/opentype_gpos/specs/Values.antt`
///
/// </details>
pub fn pair(bytes: &[u8], i: u32, first: u16, second: u16) -> Option<usize> {
    let header = PairHeader::of(bytes);
    match header.format {
        1 => pair_of_set(&header, bytes, i, second),
        2 => pair_of_classes(&header, bytes, first, second),
        _ => None,
    }
}
