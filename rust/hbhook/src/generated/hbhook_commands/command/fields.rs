// Generated from crates/hbhook_commands/src/command/fields.rt by rust/erase; edit the source.

//! What a field of a line may be: a number, a character, a tag, a word of a list.

use crate::generated::hbhook_commands::expected::Expected;
use crate::generated::hbhook_commands::fault::LineFault;
use core::str::FromStr;
use sengadlit::buffer::GeneralCategory;

/// A number of decimal digits alone, where one was expected.
pub(super) fn decimal<N: FromStr>(field: &str, expected: Expected) -> Result<N, LineFault> {
    if !field.bytes().all(|byte| byte.is_ascii_digit()) {
        return Err(LineFault::Unreadable(expected));
    }
    field.parse().map_err(|_| LineFault::Unreadable(expected))
}

/// A number from 0 to `last`, in decimal digits alone.
pub(super) fn decimal_to(field: &str, last: u8) -> Result<u8, LineFault> {
    let expected = Expected::Number(usize::from(last));
    let number = decimal(field, expected)?;
    if number > last {
        return Err(LineFault::Unreadable(expected));
    }
    Ok(number)
}

/// A decimal number, with a minus where it is negative.
pub(super) fn signed(field: &str) -> Result<i32, LineFault> {
    let digits = field.strip_prefix('-').unwrap_or(field);
    if !digits.bytes().all(|byte| byte.is_ascii_digit()) {
        return Err(LineFault::Unreadable(Expected::Signed));
    }
    field
        .parse()
        .map_err(|_| LineFault::Unreadable(Expected::Signed))
}

/// A number of hexadecimal digits alone.
pub(super) fn hexadecimal(field: &str) -> Result<u32, LineFault> {
    let expected = Expected::Hexadecimal;
    if !field.bytes().all(|byte| byte.is_ascii_hexdigit()) {
        return Err(LineFault::Unreadable(expected));
    }
    u32::from_str_radix(field, 16).map_err(|_| LineFault::Unreadable(expected))
}

/// A character, by its hexadecimal number.
pub(super) fn character(field: &str) -> Result<char, LineFault> {
    char::from_u32(hexadecimal(field)?).ok_or(LineFault::Unreadable(Expected::Character))
}

/// Four ASCII characters, none of them a space.
pub(super) fn four_characters(field: &str) -> Result<[u8; 4], LineFault> {
    match *field.as_bytes() {
        [a, b, c, d]
            if [a, b, c, d]
                .iter()
                .all(|byte| byte.is_ascii() && *byte != b' ') =>
        {
            Ok([a, b, c, d])
        }
        _ => Err(LineFault::Unreadable(Expected::FourCharacters)),
    }
}

/// A general category, by its place in the order of the categories.
pub(super) fn general_category(field: &str) -> Result<GeneralCategory, LineFault> {
    let expected = Expected::Number(29);
    let place: usize = decimal(field, expected)?;
    let category = GeneralCategory::ALL.get(place);
    category.copied().ok_or(LineFault::Unreadable(expected))
}

/// `yes` or `no`.
pub(super) fn yes_or_no(field: &str) -> Result<bool, LineFault> {
    match field {
        "yes" => Ok(true),
        "no" => Ok(false),
        _ => Err(LineFault::Unreadable(Expected::Word("yes, no"))),
    }
}
