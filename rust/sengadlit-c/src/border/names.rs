//! Versions and names, and what Unicode says of a character.
use super::{Out, put};
use crate::layout::Bool;
use crate::status::{ARGUMENT_NAMES, STATUS_NAMES};
use core::ffi::{CStr, c_char, c_uint};
use sengadlit::unicode::modified_combining_class;

const VERSION: &CStr =
    match CStr::from_bytes_with_nul(concat!(env!("CARGO_PKG_VERSION"), "\0").as_bytes()) {
        Ok(version) => version,
        Err(_) => panic!("a version has no zero byte"),
    };

// A number of the version.
const fn number(digits: &str) -> c_uint {
    match c_uint::from_str_radix(digits, 10) {
        Ok(number) => number,
        Err(_) => panic!("a version is three numbers"),
    }
}

const MAJOR: c_uint = number(env!("CARGO_PKG_VERSION_MAJOR"));
const MINOR: c_uint = number(env!("CARGO_PKG_VERSION_MINOR"));
const MICRO: c_uint = number(env!("CARGO_PKG_VERSION_PATCH"));

#[unsafe(no_mangle)]
pub extern "C" fn sengadlit_version(
    major: Out<'_, c_uint>,
    minor: Out<'_, c_uint>,
    micro: Out<'_, c_uint>,
) {
    put(major, MAJOR);
    put(minor, MINOR);
    put(micro, MICRO);
}

#[unsafe(no_mangle)]
pub extern "C" fn sengadlit_version_atleast(major: c_uint, minor: c_uint, micro: c_uint) -> Bool {
    Bool::from((major, minor, micro) <= (MAJOR, MINOR, MICRO))
}

#[unsafe(no_mangle)]
pub extern "C" fn sengadlit_version_string() -> *const c_char {
    VERSION.as_ptr()
}

fn name_of(names: &[&CStr], number: u32) -> *const c_char {
    names
        .get(number as usize)
        .map_or(c"unknown".as_ptr(), |name| name.as_ptr())
}

#[unsafe(no_mangle)]
pub extern "C" fn sengadlit_status_name(status: u32) -> *const c_char {
    name_of(STATUS_NAMES, status)
}

#[unsafe(no_mangle)]
pub extern "C" fn sengadlit_argument_name(argument: u32) -> *const c_char {
    name_of(ARGUMENT_NAMES, argument)
}

#[unsafe(no_mangle)]
pub extern "C" fn sengadlit_modified_combining_class(unicode: u32) -> u8 {
    char::from_u32(unicode).map_or(0, modified_combining_class)
}
