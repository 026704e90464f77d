//! The functions of a font and of tables, as the traits of `sengadlit`.
use super::plans::UserData;
use super::{Growing, call_back, grown};
use crate::layout::Bool;
use crate::numbers;
use crate::status::{Argument, Error};
use core::ffi::c_uint;
use sengadlit::buffer::{GeneralCategory, Tag};
use sengadlit::font::{Font as AnswersFont, GlyphId, Tables as AnswersTables};
use sengadlit::plan::{Category, JoiningType, Position};
use sengadlit::unicode::UnicodeTables;

/// `sengadlit_font_funcs_t`.
#[repr(C)]
#[derive(Clone, Copy)]
pub struct FontFuncs {
    pub size: usize,
    pub nominal_glyph: Option<unsafe extern "C-unwind" fn(UserData, u32, *mut u32) -> Bool>,
    pub glyph_h_advance: Option<unsafe extern "C-unwind" fn(UserData, u32) -> i32>,
    pub would_substitute: Option<
        unsafe extern "C-unwind" fn(UserData, *const u16, c_uint, *const u32, c_uint, Bool) -> Bool,
    >,
    pub has_feature: Option<unsafe extern "C-unwind" fn(UserData, u32) -> Bool>,
}

// SAFETY: it is C's, its size comes first, and functions may be null.
unsafe impl Growing for FontFuncs {
    const LEAST: usize = size_of::<Self>();
}

/// `sengadlit_font_t`.
#[repr(C)]
pub struct Font {
    pub funcs: *const FontFuncs,
    pub user_data: UserData,
}

/// `sengadlit_tables_funcs_t`.
#[repr(C)]
#[derive(Clone, Copy)]
pub struct TablesFuncs {
    pub size: usize,
    pub joining_type: Option<unsafe extern "C-unwind" fn(UserData, u32) -> u8>,
    pub general_category: Option<unsafe extern "C-unwind" fn(UserData, u32) -> u8>,
    pub indic_categories: Option<unsafe extern "C-unwind" fn(UserData, u32) -> u16>,
    pub use_category: Option<unsafe extern "C-unwind" fn(UserData, u32) -> u8>,
    pub compose: Option<unsafe extern "C-unwind" fn(UserData, u32, u32, *mut u32) -> Bool>,
    pub decompose: Option<unsafe extern "C-unwind" fn(UserData, u32, *mut u32, *mut u32) -> Bool>,
}

// SAFETY: it is C's, its size comes first, and functions may be null.
unsafe impl Growing for TablesFuncs {
    const LEAST: usize = size_of::<Self>();
}

/// `sengadlit_tables_t`.
#[repr(C)]
pub struct Tables {
    pub funcs: *const TablesFuncs,
    pub user_data: UserData,
}

/// `sengadlit_map_funcs_t`.
#[repr(C)]
#[derive(Clone, Copy)]
pub struct MapFuncs {
    pub size: usize,
    pub add_feature: Option<unsafe extern "C-unwind" fn(UserData, u32, u32, u32)>,
    pub add_gsub_pause: Option<unsafe extern "C-unwind" fn(UserData, u32)>,
}

// SAFETY: it is C's, its size comes first, and functions may be null.
unsafe impl Growing for MapFuncs {
    const LEAST: usize = size_of::<Self>();
}

/// `sengadlit_map_t`.
#[repr(C)]
pub struct Map {
    pub funcs: *const MapFuncs,
    pub user_data: UserData,
}

// Which callbacks a call uses, as bits.
pub const FONT_NOMINAL: u8 = 1;
pub const FONT_ADVANCE: u8 = 2;
pub const FONT_WOULD: u8 = 4;
pub const FONT_FEATURE: u8 = 8;
pub const TABLES_JOINING: u8 = 1;
pub const TABLES_GENERAL: u8 = 2;
pub const TABLES_INDIC: u8 = 4;
pub const TABLES_USE: u8 = 8;
pub const TABLES_COMPOSE: u8 = 16;
pub const TABLES_DECOMPOSE: u8 = 32;

/// Functions, among them all that a call uses, with their user data.
#[derive(Clone, Copy)]
pub struct Asked<F> {
    funcs: F,
    user_data: UserData,
}

// The functions of C's struct, or none where it is null; nothing where its size is wrong.
#[inline]
fn functions<F: Growing>(funcs: *const F, none: F) -> Option<F> {
    if funcs.is_null() {
        return Some(none);
    }
    // SAFETY: a struct of C's with its size.
    unsafe { grown(funcs) }
}

pub(super) fn bit(is_there: bool, bit: u8) -> u8 {
    if is_there { bit } else { 0 }
}

impl FontFuncs {
    const NONE: Self = FontFuncs {
        size: size_of::<Self>(),
        nominal_glyph: None,
        glyph_h_advance: None,
        would_substitute: None,
        has_feature: None,
    };

    #[inline]
    fn answered(&self) -> u8 {
        bit(self.nominal_glyph.is_some(), FONT_NOMINAL)
            | bit(self.glyph_h_advance.is_some(), FONT_ADVANCE)
            | bit(self.would_substitute.is_some(), FONT_WOULD)
            | bit(self.has_feature.is_some(), FONT_FEATURE)
    }
}

impl TablesFuncs {
    const NONE: Self = TablesFuncs {
        size: size_of::<Self>(),
        joining_type: None,
        general_category: None,
        indic_categories: None,
        use_category: None,
        compose: None,
        decompose: None,
    };

    #[inline]
    fn answered(&self) -> u8 {
        bit(self.joining_type.is_some(), TABLES_JOINING)
            | bit(self.general_category.is_some(), TABLES_GENERAL)
            | bit(self.indic_categories.is_some(), TABLES_INDIC)
            | bit(self.use_category.is_some(), TABLES_USE)
            | bit(self.compose.is_some(), TABLES_COMPOSE)
            | bit(self.decompose.is_some(), TABLES_DECOMPOSE)
    }
}

impl Asked<FontFuncs> {
    /// Whether all of these functions are there: bits of `FONT_..`.
    #[inline]
    pub fn has(&self, functions: u8) -> bool {
        functions & !self.funcs.answered() == 0
    }

    /// The font, if it has all that is used; where nothing is, it may be null.
    #[inline]
    pub fn font(font: Option<&Font>, asks: u8) -> Result<Self, Error> {
        let funcs = font.map_or(core::ptr::null(), |font| font.funcs);
        let funcs = functions(funcs, FontFuncs::NONE);
        let funcs = funcs.filter(|funcs| asks & !funcs.answered() == 0);
        let funcs = funcs.ok_or_else(|| Error::argument(Argument::Font))?;
        Ok(Asked {
            funcs,
            user_data: font.map_or(core::ptr::null_mut(), |font| font.user_data),
        })
    }
}

/// Tables: Unicode's, or functions with their user data.
#[derive(Clone, Copy)]
pub struct AskedTables {
    // None where the tables are Unicode's.
    asked: Option<Asked<TablesFuncs>>,
}

impl AskedTables {
    /// The tables, if they have all that is used; null ones are Unicode's.
    #[inline]
    pub fn of(tables: Option<&Tables>, asks: u8) -> Result<Self, Error> {
        let Some(tables) = tables else {
            return Ok(AskedTables { asked: None });
        };
        let funcs = functions(tables.funcs, TablesFuncs::NONE);
        let funcs = funcs.filter(|funcs| asks & !funcs.answered() == 0);
        let funcs = funcs.ok_or_else(|| Error::argument(Argument::Tables))?;
        let user_data = tables.user_data;
        Ok(AskedTables {
            asked: Some(Asked { funcs, user_data }),
        })
    }
}

/// How many glyphs a question about lookups is about at most.
pub const QUESTIONED: usize = 3;

// No call below uses a function that is missing (`Asked::font`, `AskedTables::of`).
impl AnswersFont for Asked<FontFuncs> {
    #[inline]
    fn nominal_glyph(&self, c: u32) -> Option<GlyphId> {
        let nominal = self.funcs.nominal_glyph?;
        let mut glyph = 0;
        // SAFETY: a callback of C, with what it is given and room for a glyph.
        let has = call_back(|| unsafe { nominal(self.user_data, c, &mut glyph) });
        let glyph = u16::try_from(glyph).ok()?;
        (has != 0).then_some(GlyphId(glyph))
    }

    #[inline]
    fn glyph_h_advance(&self, glyph: GlyphId) -> i32 {
        let Some(advance) = self.funcs.glyph_h_advance else {
            return 0;
        };
        // SAFETY: a callback of C, with what it is given.
        call_back(|| unsafe { advance(self.user_data, u32::from(glyph.0)) })
    }

    #[inline]
    fn would_apply(&self, lookup: u16, glyphs: &[GlyphId], zero_context: bool) -> bool {
        self.would_apply_any(&[lookup], glyphs, zero_context)
    }

    #[inline]
    fn would_apply_any(&self, lookups: &[u16], glyphs: &[GlyphId], zero_context: bool) -> bool {
        let Some(would) = self.funcs.would_substitute else {
            return false;
        };
        if lookups.is_empty() {
            return false;
        }
        let mut wide = [0; QUESTIONED];
        let wide = &mut wide[..glyphs.len()];
        for (to, glyph) in wide.iter_mut().zip(glyphs) {
            *to = u32::from(glyph.0);
        }
        let (lookups, lookups_length) = (lookups.as_ptr(), lookups.len() as c_uint);
        let (glyphs, glyphs_length) = (wide.as_ptr(), wide.len() as c_uint);
        let (user_data, zero_context) = (self.user_data, Bool::from(zero_context));
        // SAFETY: a callback of C, with what it is given, and arrays of the lengths beside them.
        let does = call_back(|| unsafe {
            would(
                user_data,
                lookups,
                lookups_length,
                glyphs,
                glyphs_length,
                zero_context,
            )
        });
        does != 0
    }

    fn has_feature(&self, tag: Tag) -> bool {
        let Some(has) = self.funcs.has_feature else {
            return false;
        };
        // SAFETY: a callback of C, with what it is given.
        let has = call_back(|| unsafe { has(self.user_data, numbers::tag_number(tag)) });
        has != 0
    }
}

impl AnswersTables for AskedTables {
    #[inline]
    fn joining_type(&self, c: char) -> JoiningType {
        match &self.asked {
            None => UnicodeTables.joining_type(c),
            Some(asked) => asked.joining_type(c),
        }
    }

    #[inline]
    fn general_category(&self, c: char) -> GeneralCategory {
        match &self.asked {
            None => UnicodeTables.general_category(c),
            Some(asked) => asked.general_category(c),
        }
    }

    #[inline]
    fn indic_categories(&self, c: u32) -> (Category, Position) {
        match &self.asked {
            None => UnicodeTables.indic_categories(c),
            Some(asked) => asked.indic_categories(c),
        }
    }

    #[inline]
    fn use_category(&self, c: u32) -> Category {
        match &self.asked {
            None => UnicodeTables.use_category(c),
            Some(asked) => asked.use_category(c),
        }
    }

    fn compose(&self, a: char, b: char) -> Option<char> {
        match &self.asked {
            None => UnicodeTables.compose(a, b),
            Some(asked) => asked.compose(a, b),
        }
    }

    fn decompose(&self, ab: char) -> Option<(char, char)> {
        match &self.asked {
            None => UnicodeTables.decompose(ab),
            Some(asked) => asked.decompose(ab),
        }
    }
}

impl AnswersTables for Asked<TablesFuncs> {
    #[inline]
    fn joining_type(&self, c: char) -> JoiningType {
        let Some(of) = self.funcs.joining_type else {
            return JoiningType::U;
        };
        // SAFETY: a callback of C, with what it is given.
        numbers::joining_type(call_back(|| unsafe { of(self.user_data, u32::from(c)) }))
    }

    #[inline]
    fn general_category(&self, c: char) -> GeneralCategory {
        let Some(of) = self.funcs.general_category else {
            return GeneralCategory::Cn;
        };
        // SAFETY: a callback of C, with what it is given.
        numbers::general_category(call_back(|| unsafe { of(self.user_data, u32::from(c)) }))
    }

    #[inline]
    fn indic_categories(&self, c: u32) -> (Category, Position) {
        let Some(of) = self.funcs.indic_categories else {
            return (0, 0);
        };
        // SAFETY: a callback of C, with what it is given.
        let both = call_back(|| unsafe { of(self.user_data, c) });
        let [category, position] = both.to_le_bytes();
        (category, position)
    }

    #[inline]
    fn use_category(&self, c: u32) -> Category {
        let Some(of) = self.funcs.use_category else {
            return 0;
        };
        // SAFETY: a callback of C, with what it is given.
        call_back(|| unsafe { of(self.user_data, c) })
    }

    fn compose(&self, a: char, b: char) -> Option<char> {
        let compose = self.funcs.compose?;
        let mut ab = 0;
        // SAFETY: a callback of C, with what it is given and room for a character.
        let does = call_back(|| unsafe { compose(self.user_data, a.into(), b.into(), &mut ab) });
        if does == 0 { None } else { char::from_u32(ab) }
    }

    fn decompose(&self, ab: char) -> Option<(char, char)> {
        let decompose = self.funcs.decompose?;
        let (mut a, mut b) = (0, 0);
        // SAFETY: a callback of C, with what it is given and room for two characters.
        let does =
            call_back(|| unsafe { decompose(self.user_data, u32::from(ab), &mut a, &mut b) });
        if does == 0 {
            None
        } else {
            Some((char::from_u32(a)?, char::from_u32(b)?))
        }
    }
}
