//! Plans for whole texts, and the calls that take a text up to the last of a font's lookups.
use super::call_back;
use super::callbacks::{Font, bit};
use super::handle::{Lent, Pointer};
use super::messages;
use super::plans::UserData;
use super::{Growing, Out, array, boxed, grown, guarded, put};
use crate::buffer::Buffer;
use crate::layout::{Bool, Lookup, UserFeature};
use crate::plan::list;
use crate::shaping::{self, LayoutTable, ShapePlan};
use crate::status::{Argument, Error, Status};
use core::cell::{Cell, RefCell};
use core::ffi::c_uint;
use core::ptr::null_mut;
use sengadlit::alloc::Vec as List;
use sengadlit::buffer::{Buffer as Inner, GlyphInfo, GlyphProps, ShaperError};
use sengadlit::font::GlyphId;
use sengadlit::ot_shape::Lookups as AnswersLookups;
use sengadlit::ot_shape_plan::StageLookup;
use sengadlit::ot_shape_position::GlyphClasses;

// ---- Plans ----

/// `sengadlit_table_feature_t`.
#[repr(C)]
#[derive(Clone, Copy)]
pub struct TableFeatureInput {
    pub tag: u32,
    pub lookups_length: c_uint,
    pub lookups: *const u16,
}

/// `sengadlit_layout_table_t`.
#[repr(C)]
#[derive(Clone, Copy)]
pub struct LayoutTableInput {
    pub has_table: Bool,
    pub chosen_script: u32,
    pub found_script: Bool,
    pub features_length: c_uint,
    pub features: *const TableFeatureInput,
    pub anywhere: *const TableFeatureInput,
    pub anywhere_length: c_uint,
    pub required: TableFeatureInput,
}

/// `sengadlit_shape_plan_input_t`.
#[repr(C)]
#[derive(Clone, Copy)]
pub struct ShapePlanInput {
    pub size: usize,
    pub script: u32,
    pub direction: u32,
    pub gsub: LayoutTableInput,
    pub gpos: LayoutTableInput,
    pub user_features: *const UserFeature,
    pub user_features_length: c_uint,
    pub units_per_em: c_uint,
    pub centres_stretch: Bool,
    pub sound_breaks: Bool,
    pub searches_medials: Bool,
    /// What was padding before a field came behind it.
    pub reserved: u32,
    pub new_spec_zero_context: Bool,
}

// SAFETY: it is C's, its size comes first, and zeros and null pointers are valid.
unsafe impl Growing for ShapePlanInput {
    const LEAST: usize = core::mem::offset_of!(Self, new_spec_zero_context);
}

/// A feature of a table, and its lookups.
pub type TableFeature<'a> = (u32, &'a [u16]);

// The lookups of a feature; the place of the feature is told where they are missing.
fn lookups_of(feature: &TableFeatureInput, place: usize) -> Result<&[u16], Error> {
    // SAFETY: an array of C's with its length, which lasts through the call that borrows the feature.
    let lookups = unsafe { array(feature.lookups, feature.lookups_length) };
    lookups.ok_or_else(|| Error::argument_at(Argument::Lookups, place))
}

// The features of an array, whose first has this place in what is told of faults.
fn features_of<'a>(
    first: *const TableFeatureInput,
    length: c_uint,
    place: usize,
) -> Result<List<TableFeature<'a>>, Error> {
    // SAFETY: an array of C's with its length, which lasts through the call.
    let features: Option<&'a [TableFeatureInput]> = unsafe { array(first, length) };
    let features = features.ok_or_else(|| Error::argument(Argument::Features))?;
    for (i, feature) in features.iter().enumerate() {
        lookups_of(feature, place + i)?;
    }
    let with_lookups = |feature: &'a TableFeatureInput| {
        let lookups = lookups_of(feature, place);
        (feature.tag, lookups.unwrap_or_default())
    };
    Ok(list(features, with_lookups).map_err(ShaperError::from)?)
}

// A table, whose first feature has this place.
fn table_of(input: &LayoutTableInput, place: usize) -> Result<LayoutTable<'_>, Error> {
    let behind = place + input.features_length as usize;
    let required = behind + input.anywhere_length as usize;
    Ok(LayoutTable {
        has_table: input.has_table != 0,
        chosen_script: input.chosen_script,
        found_script: input.found_script != 0,
        features: features_of(input.features, input.features_length, place)?,
        anywhere: features_of(input.anywhere, input.anywhere_length, behind)?,
        required: (input.required.tag, lookups_of(&input.required, required)?),
    })
}

// How many features a table tells of: those of its arrays, and the required one.
fn count(input: &LayoutTableInput) -> usize {
    input.features_length as usize + input.anywhere_length as usize + 1
}

fn make(input: &ShapePlanInput) -> Result<Box<ShapePlan>, Error> {
    let gsub = table_of(&input.gsub, 0)?;
    let gpos = table_of(&input.gpos, count(&input.gsub))?;
    // SAFETY: an array of C's with its length.
    let users = unsafe { array(input.user_features, input.user_features_length) };
    let users = users.ok_or_else(|| Error::argument(Argument::Features))?;
    let plan = shaping::make(input, &gsub, &gpos, users)?;
    boxed(plan).ok_or(Error::MEMORY)
}

/// # Safety
///
/// The input is C's, with its size.
#[unsafe(no_mangle)]
pub unsafe extern "C" fn sengadlit_shape_plan_create(
    input: *const ShapePlanInput,
    error: Out<'_, Error>,
) -> *mut ShapePlan {
    // SAFETY: the caller's promise.
    let made = match unsafe { grown(input) }.as_ref() {
        Some(input) => guarded(|| make(input)),
        None => Err(Error::argument(Argument::Input)),
    };
    match made {
        Ok(plan) => Box::into_raw(plan),
        Err(why) => {
            put(error, why);
            null_mut()
        }
    }
}

/// # Safety
///
/// The plan is the caller's, who gives it up, and no call uses it; or it is null.
#[unsafe(no_mangle)]
pub unsafe extern "C" fn sengadlit_shape_plan_destroy(plan: *mut ShapePlan) {
    if !plan.is_null() {
        // SAFETY: it came from `boxed`, and the caller has it no more.
        drop(unsafe { Box::from_raw(plan) });
    }
}

// ---- Lookups ----

type Props = unsafe extern "C-unwind" fn(UserData, *const GlyphInfo) -> u16;
type IsMark = unsafe extern "C-unwind" fn(UserData, *const GlyphInfo) -> Bool;
type Apply = unsafe extern "C-unwind" fn(UserData, *const Lookup, Pointer) -> Bool;
type Origin = unsafe extern "C-unwind" fn(UserData, u32, *mut i32, *mut i32);

/// `sengadlit_lookups_funcs_t`.
#[repr(C)]
#[derive(Clone, Copy)]
pub struct LookupsFuncs {
    pub size: usize,
    pub variation_glyph: Option<unsafe extern "C-unwind" fn(UserData, u32, u32, *mut u32) -> Bool>,
    pub glyph_props: Option<Props>,
    pub substitute: Option<Apply>,
    pub is_mark: Option<IsMark>,
    pub position: Option<Apply>,
    pub finish_positions: Option<unsafe extern "C-unwind" fn(UserData, Pointer)>,
    pub glyph_v_advance: Option<unsafe extern "C-unwind" fn(UserData, u32) -> i32>,
    pub glyph_v_origin: Option<Origin>,
}

// SAFETY: it is C's, its size comes first, and functions may be null.
unsafe impl Growing for LookupsFuncs {
    const LEAST: usize = size_of::<Self>();
}

// Which callbacks a call uses, as bits.
pub const LOOKUPS_SUBSTITUTE: u8 = 1;
pub const LOOKUPS_POSITION: u8 = 2;
pub const LOOKUPS_VERTICAL: u8 = 4;

impl LookupsFuncs {
    fn answered(&self) -> u8 {
        let is_vertical = self.glyph_v_advance.is_some() && self.glyph_v_origin.is_some();
        bit(self.substitute.is_some(), LOOKUPS_SUBSTITUTE)
            | bit(self.position.is_some(), LOOKUPS_POSITION)
            | bit(is_vertical, LOOKUPS_VERTICAL)
    }
}

/// `sengadlit_lookups_t`.
#[repr(C)]
pub struct Lookups {
    pub funcs: *const LookupsFuncs,
    pub user_data: UserData,
}

/// The functions of a font's lookups, with the buffer that they are lent.
pub struct AskedLookups {
    funcs: LookupsFuncs,
    user_data: UserData,
    lent: RefCell<Lent>,
    // What a callback left that is no text of glyphs; it ends the call.
    fault: Cell<Option<Error>>,
}

impl AskedLookups {
    /// The lookups, which must have what the call uses: bits of `LOOKUPS_..`.
    pub fn of(lookups: Option<&Lookups>, asks: u8) -> Result<Self, Error> {
        let missing = || Error::argument(Argument::Lookups);
        let lookups = lookups.ok_or_else(missing)?;
        // SAFETY: a struct of C's with its size.
        let funcs = unsafe { grown(lookups.funcs) }.ok_or_else(missing)?;
        if asks & !funcs.answered() != 0 {
            return Err(missing());
        }
        Ok(AskedLookups {
            funcs,
            user_data: lookups.user_data,
            lent: RefCell::new(Lent::create().ok_or(Error::MEMORY)?),
            fault: Cell::new(None),
        })
    }

    /// How a call with these lookups ended: by the fault of one, if there is one.
    pub fn ended(&self, ended: Result<(), Error>) -> Result<(), Error> {
        self.fault.take().map_or(ended, Err)
    }

    /// The glyph of a character with a variation selector, if the font has one.
    pub fn variation_glyph(&self, character: u32, selector: u32) -> Option<GlyphId> {
        let variation = self.funcs.variation_glyph?;
        let mut glyph = 0;
        let user_data = self.user_data;
        // SAFETY: a callback of C, with what it is given and room for a glyph.
        let has = call_back(|| unsafe { variation(user_data, character, selector, &mut glyph) });
        let glyph = u16::try_from(glyph).ok()?;
        (has != 0).then_some(GlyphId(glyph))
    }

    /// The vertical advance of a glyph.
    pub fn glyph_v_advance(&self, glyph: GlyphId) -> i32 {
        let Some(advance) = self.funcs.glyph_v_advance else {
            return 0;
        };
        // SAFETY: a callback of C, with what it is given.
        call_back(|| unsafe { advance(self.user_data, u32::from(glyph.0)) })
    }

    /// The origin of a glyph for vertical text.
    pub fn glyph_v_origin(&self, glyph: GlyphId) -> (i32, i32) {
        let (mut x, mut y) = (0, 0);
        if let Some(origin) = self.funcs.glyph_v_origin {
            // SAFETY: a callback of C, with what it is given and room for two numbers.
            call_back(|| unsafe { origin(self.user_data, u32::from(glyph.0), &mut x, &mut y) });
        }
        (x, y)
    }

    // Lends a text to a callback, in a buffer that the callback may use as any other. Its glyphs, and positions where there are
    // some, are then the text's, and nothing else of it. Where they are no text of glyphs, that is the fault, and any refusal
    // ends the call.
    fn lend(
        &self,
        text: &mut Inner,
        with_positions: bool,
        callback: impl FnOnce(Pointer) -> Bool,
    ) -> Result<(), ShaperError> {
        let (length, max_length) = (text.len(), text.max_len());
        let mut settled = shaping::settled(text);
        let pointer = {
            let mut lent = self.lent.borrow_mut();
            lent.buffer().lend(text);
            lent.pointer()
        };
        let is_done = call_back(|| callback(pointer));
        let mut lent = self.lent.borrow_mut();
        let taken = lent.buffer().take_back(&mut settled, with_positions);
        *text = settled;
        // (a lookup of GPOS keeps the length)
        let fault = match taken {
            Ok(()) if with_positions && text.len() != length => {
                Some(Error::argument(Argument::Positions))
            }
            taken => taken.err(),
        };
        if fault.is_some() {
            self.fault.set(fault);
            return Err(ShaperError::Memory);
        }
        match is_done {
            0 => Err(ShaperError::Memory),
            _ if text.len() > max_length => Err(ShaperError::TooLong),
            _ => Ok(()),
        }
    }
}

impl AnswersLookups for AskedLookups {
    fn glyph_props(&self, glyph: &GlyphInfo) -> GlyphProps {
        let Some(props) = self.funcs.glyph_props else {
            return GlyphProps::NONE;
        };
        // SAFETY: a callback of C, with what it is given.
        GlyphProps(call_back(|| unsafe { props(self.user_data, glyph) }))
    }

    // C's callbacks tell no bound.
    fn growth(&self, _: &StageLookup) -> usize {
        usize::MAX
    }

    fn substitute(&self, lookup: &StageLookup, buffer: &mut Inner) -> Result<(), ShaperError> {
        let Some(substitute) = self.funcs.substitute else {
            return Ok(());
        };
        let lookup = Lookup::from(*lookup);
        // SAFETY: a callback of C, with what it is given.
        self.lend(buffer, false, |lent| unsafe {
            substitute(self.user_data, &lookup, lent)
        })
    }

    fn position(&self, lookup: &StageLookup, buffer: &mut Inner) -> Result<(), ShaperError> {
        let Some(position) = self.funcs.position else {
            return Ok(());
        };
        let lookup = Lookup::from(*lookup);
        // SAFETY: a callback of C, with what it is given.
        self.lend(buffer, true, |lent| unsafe {
            position(self.user_data, &lookup, lent)
        })
    }

    fn finish_positions(&self, buffer: &mut Inner) {
        let Some(finish) = self.funcs.finish_positions else {
            return;
        };
        let finished = self.lend(buffer, true, |lent| {
            // SAFETY: a callback of C, with what it is given.
            unsafe { finish(self.user_data, lent) };
            1
        });
        if finished.is_err() {
            // (nothing can be refused here: what is left of the call has an empty text, which an internal error leaves)
            self.fault.set(Some(Error::INTERNAL));
            *buffer = shaping::settled(buffer);
            messages::tell(
                &"sengadlit: finish_positions left what is no text of glyphs with positions",
            );
        }
    }
}

impl GlyphClasses for AskedLookups {
    fn is_mark(&self, glyph: &GlyphInfo) -> bool {
        let Some(is_mark) = self.funcs.is_mark else {
            return false;
        };
        // SAFETY: a callback of C, with what it is given.
        call_back(|| unsafe { is_mark(self.user_data, glyph) }) != 0
    }
}

// Takes a text through the steps of a call.
fn on_text(
    plan: Option<&ShapePlan>,
    buffer: Pointer,
    call: impl FnOnce(&ShapePlan, &mut Buffer) -> Result<Status, Error>,
) -> Status {
    buffer.call(
        |status| status,
        |buffer| {
            let plan = plan.ok_or_else(|| Error::argument(Argument::Plan))?;
            guarded(|| call(plan, buffer))
        },
    )
}

#[unsafe(no_mangle)]
pub extern "C" fn sengadlit_substitute_text(
    plan: Option<&ShapePlan>,
    font: Option<&Font>,
    lookups: Option<&Lookups>,
    buffer: Pointer,
) -> Status {
    on_text(plan, buffer, |plan, buffer| {
        shaping::substitute_text(plan, font, lookups, buffer)
    })
}

#[unsafe(no_mangle)]
pub extern "C" fn sengadlit_shape(
    plan: Option<&ShapePlan>,
    font: Option<&Font>,
    lookups: Option<&Lookups>,
    buffer: Pointer,
) -> Status {
    on_text(plan, buffer, |plan, buffer| {
        shaping::shape(plan, font, lookups, buffer)
    })
}
