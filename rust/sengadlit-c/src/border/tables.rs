//! The library's own tables, as C has tables.
use super::callbacks::{Tables, TablesFuncs};
use super::plans::UserData;
use crate::layout::Bool;
use core::ptr::null_mut;
use sengadlit::font::Tables as _;
use sengadlit::unicode::UnicodeTables;

/// What the library has for good, and every thread reads.
struct Shared<T>(T);

// SAFETY: nobody writes it, and its pointers are null or to what is shared like it.
unsafe impl<T> Sync for Shared<T> {}

static FUNCS: Shared<TablesFuncs> = Shared(TablesFuncs {
    size: size_of::<TablesFuncs>(),
    joining_type: Some(joining_type),
    general_category: Some(general_category),
    indic_categories: Some(indic_categories),
    use_category: Some(use_category),
    compose: Some(compose),
    decompose: Some(decompose),
});

static TABLES: Shared<Tables> = Shared(Tables {
    funcs: &raw const FUNCS.0,
    user_data: null_mut(),
});

#[unsafe(no_mangle)]
pub extern "C" fn sengadlit_tables_default() -> *const Tables {
    &raw const TABLES.0
}

// What isn't a character is none of Unicode's: U, and unassigned.
unsafe extern "C-unwind" fn joining_type(_: UserData, unicode: u32) -> u8 {
    char::from_u32(unicode).map_or(0, |c| UnicodeTables.joining_type(c).number())
}

unsafe extern "C-unwind" fn general_category(_: UserData, unicode: u32) -> u8 {
    char::from_u32(unicode).map_or(2, |c| UnicodeTables.general_category(c).number())
}

unsafe extern "C-unwind" fn indic_categories(_: UserData, unicode: u32) -> u16 {
    let (category, position) = UnicodeTables.indic_categories(unicode);
    u16::from_le_bytes([category, position])
}

unsafe extern "C-unwind" fn use_category(_: UserData, unicode: u32) -> u8 {
    UnicodeTables.use_category(unicode)
}

// Writes a character where C wants it.
//
// # Safety
//
// The pointer is C's, to room for it.
unsafe fn write(to: *mut u32, character: char) {
    if !to.is_null() {
        // SAFETY: the caller's promise.
        unsafe { to.write(character.into()) };
    }
}

unsafe extern "C-unwind" fn compose(_: UserData, a: u32, b: u32, ab: *mut u32) -> Bool {
    let both = char::from_u32(a).zip(char::from_u32(b));
    let Some(found) = both.and_then(|(a, b)| UnicodeTables.compose(a, b)) else {
        return 0;
    };
    // SAFETY: C's room for a character.
    unsafe { write(ab, found) };
    1
}

unsafe extern "C-unwind" fn decompose(_: UserData, ab: u32, a: *mut u32, b: *mut u32) -> Bool {
    let Some(found) = char::from_u32(ab).and_then(|ab| UnicodeTables.decompose(ab)) else {
        return 0;
    };
    // SAFETY: C's room for two characters.
    unsafe {
        write(a, found.0);
        write(b, found.1);
    }
    1
}
