//! Faces, the plans that are kept of them, and texts that are shaped in one call.
use super::callbacks::{Font, FontFuncs, QUESTIONED};
use super::handle::Pointer;
use super::plans::{Kept, UserData, reference};
use super::{Growing, Out, array, boxed, grown, guarded, put, text};
use crate::encodings::Unit;
use crate::faces::{self, Chosen};
use crate::layout::{Bool, GlyphExtents, UserFeature};
use crate::numbers;
use crate::plan_cache::PlanCache;
use crate::serialize::{self, Format, Room};
use crate::status::{Argument, Error, Status};
use core::ffi::{c_char, c_int, c_uint, c_void};
use core::fmt::Write as _;
use core::mem::MaybeUninit;
use core::ptr::{null, null_mut};
use core::slice;
use core::sync::atomic::Ordering::{AcqRel, Relaxed};
use core::sync::atomic::{AtomicU64, AtomicUsize};
use sengadlit::editing::TextEdit;
use sengadlit::font::{Font as _, GlyphId};
use sengadlit::opentype::{Face as Parsed, FaceError, Feature, SerializeFlags};
use sengadlit::ot_shape_normalize::NormalizeFont as _;
use std::sync::OnceLock;

// ---- Faces ----

/// `sengadlit_face_t`.
pub struct Face {
    references: AtomicUsize,
    /// Its number, which no other face gets.
    pub serial: u64,
    // Over the bytes that are C's until the last reference goes, or over the copy.
    parsed: Parsed<'static>,
    // The same with tables, once C has asked for them.
    prepared: OnceLock<Parsed<'static>>,
    kept: Kept,
    // The bytes, where they aren't C's.
    _copy: Vec<u8>,
    // Of which this is the user data.
    font: OwnFont,
}

impl Face {
    /// The face, with tables if it is prepared.
    pub fn parsed(&self) -> &Parsed<'static> {
        self.prepared.get().unwrap_or(&self.parsed)
    }
}

// The bytes of C's; none where they are null, or more than there can be.
//
// # Safety
//
// If `first` isn't null, so many bytes stand there, and nobody writes them as long as the slice is used.
unsafe fn bytes<'a>(first: *const c_void, length: usize) -> Option<&'a [u8]> {
    if first.is_null() || isize::try_from(length).is_err() {
        return (length == 0).then_some(&[]);
    }
    // SAFETY: the caller's promise.
    Some(unsafe { slice::from_raw_parts(first.cast(), length) })
}

/// # Safety
///
/// The bytes have the length beside them.
#[unsafe(no_mangle)]
pub unsafe extern "C" fn sengadlit_face_count(data: *const c_void, length: usize) -> c_uint {
    // SAFETY: C's bytes with their length.
    unsafe { bytes(data, length) }.map_or(0, Parsed::count)
}

// A copy of the bytes.
fn copied(bytes: &[u8]) -> Result<Vec<u8>, Error> {
    let mut copy = Vec::new();
    copy.try_reserve_exact(bytes.len())
        .map_err(|_| Error::MEMORY)?;
    copy.extend_from_slice(bytes);
    Ok(copy)
}

// A face over bytes of C's, which last until `kept` is destroyed, or where nothing destroys them over a copy.
fn make(data: Option<&'static [u8]>, index: c_uint, kept: Kept) -> Result<Box<Face>, Error> {
    static NEXT: AtomicU64 = AtomicU64::new(0);
    let bytes = data.ok_or_else(|| Error::argument(Argument::Data))?;
    let of_face = |error| {
        Error::argument(match error {
            FaceError::IndexOutOfRange => Argument::Index,
            _ => Argument::Data,
        })
    };
    let mut parsed = Parsed::parse(bytes, index).map_err(of_face)?;
    let mut copy = Vec::new();
    if kept.destroy.is_none() {
        copy = copied(bytes)?;
        // SAFETY: the bytes of the copy stay where they are, and nobody writes them, until the face is dropped with it.
        let own: &'static [u8] = unsafe { slice::from_raw_parts(copy.as_ptr(), copy.len()) };
        parsed = Parsed::parse(own, index).map_err(of_face)?;
    }
    let face = Face {
        references: AtomicUsize::new(1),
        serial: NEXT.fetch_add(1, Relaxed),
        parsed,
        prepared: OnceLock::new(),
        kept,
        _copy: copy,
        font: OwnFont(Font {
            funcs: &raw const FUNCS,
            user_data: null_mut(),
        }),
    };
    let mut face = boxed(face).ok_or(Error::MEMORY)?;
    face.font.0.user_data = (&raw mut *face).cast();
    Ok(face)
}

/// # Safety
///
/// The bytes have the length beside them; unless `destroy` is null, they last and stay as they are until it is called.
#[unsafe(no_mangle)]
pub unsafe extern "C" fn sengadlit_face_create(
    data: *const c_void,
    length: usize,
    index: c_uint,
    user_data: UserData,
    destroy: Option<unsafe extern "C-unwind" fn(UserData)>,
    error: Out<'_, Error>,
) -> *mut Face {
    let kept = Kept { user_data, destroy };
    // SAFETY: C's bytes, which last as long as the face, whose last use is before `kept` is destroyed.
    let data = unsafe { bytes(data, length) };
    match guarded(|| make(data, index, kept)) {
        Ok(face) => Box::into_raw(face),
        Err(why) => {
            put(error, why);
            kept.destroy();
            null_mut()
        }
    }
}

#[unsafe(no_mangle)]
pub extern "C" fn sengadlit_face_reference(face: Option<&Face>) -> *mut Face {
    let Some(face) = face else { return null_mut() };
    reference(&face.references);
    core::ptr::from_ref(face).cast_mut()
}

/// # Safety
///
/// A reference to the face is the caller's, who gives it up, or it is null.
#[unsafe(no_mangle)]
pub unsafe extern "C" fn sengadlit_face_destroy(face: *mut Face) {
    // SAFETY: the face is there as long as somebody has a reference, as the caller has.
    let Some(references) = (unsafe { face.as_ref() }).map(|face| &face.references) else {
        return;
    };
    if references.fetch_sub(1, AcqRel) == 1 {
        // SAFETY: the face came from `boxed`, and nobody has a reference any more.
        let kept = unsafe { Box::from_raw(face) }.kept;
        kept.destroy();
    }
}

#[unsafe(no_mangle)]
pub extern "C" fn sengadlit_face_prepare(face: Option<&Face>) {
    let Some(face) = face else { return };
    let prepared = || {
        face.prepared.get_or_init(|| {
            let mut prepared = face.parsed.clone();
            prepared.prepare();
            prepared
        });
        Ok(())
    };
    // (a panic leaves the face as it was)
    let _: Result<(), Error> = guarded(prepared);
}

#[unsafe(no_mangle)]
pub extern "C" fn sengadlit_face_get_user_data(face: Option<&Face>) -> UserData {
    face.map_or(null_mut(), |face| face.kept.user_data)
}

#[unsafe(no_mangle)]
pub extern "C" fn sengadlit_face_get_units_per_em(face: Option<&Face>) -> c_uint {
    face.map_or(0, |face| face.parsed().units_per_em().into())
}

#[unsafe(no_mangle)]
pub extern "C" fn sengadlit_face_get_glyph_count(face: Option<&Face>) -> c_uint {
    face.map_or(0, |face| face.parsed().glyph_count().into())
}

#[unsafe(no_mangle)]
pub extern "C" fn sengadlit_face_is_variable(face: Option<&Face>) -> Bool {
    face.is_some_and(|face| face.parsed().is_variable()).into()
}

// Writes a glyph where there is one, and says whether.
fn put_glyph(to: Out<'_, u32>, glyph: Option<GlyphId>) -> Bool {
    let Some(glyph) = glyph else { return 0 };
    put(to, glyph.0.into());
    1
}

#[unsafe(no_mangle)]
pub extern "C" fn sengadlit_face_get_nominal_glyph(
    face: Option<&Face>,
    unicode: u32,
    glyph: Out<'_, u32>,
) -> Bool {
    let found = face.and_then(|face| face.parsed().font(None).nominal_glyph(unicode));
    put_glyph(glyph, found)
}

#[unsafe(no_mangle)]
pub extern "C" fn sengadlit_face_get_variation_glyph(
    face: Option<&Face>,
    unicode: u32,
    selector: u32,
    glyph: Out<'_, u32>,
) -> Bool {
    let font = face.map(|face| face.parsed().font(None));
    let found = font.and_then(|font| font.variation_glyph(unicode, selector));
    put_glyph(glyph, found)
}

#[unsafe(no_mangle)]
pub extern "C" fn sengadlit_face_get_glyph_h_advance(face: Option<&Face>, glyph: u32) -> i32 {
    let glyph = u16::try_from(glyph).ok().map(GlyphId);
    face.zip(glyph).map_or(0, |(face, glyph)| {
        face.parsed().font(None).glyph_h_advance(glyph)
    })
}

#[unsafe(no_mangle)]
pub extern "C" fn sengadlit_face_get_glyph_extents(
    face: Option<&Face>,
    glyph: u32,
    extents: Out<'_, GlyphExtents>,
) -> Bool {
    let Some(found) = face.and_then(|face| face.parsed().glyph_extents(glyph)) else {
        return 0;
    };
    put(
        extents,
        GlyphExtents {
            x_bearing: found.x_bearing,
            y_bearing: found.y_bearing,
            width: found.width,
            height: found.height,
        },
    );
    1
}

/// # Safety
///
/// If `name` isn't null, there is room for so many bytes.
#[unsafe(no_mangle)]
pub unsafe extern "C" fn sengadlit_face_get_glyph_name(
    face: Option<&Face>,
    glyph: u32,
    name: *mut c_char,
    size: c_uint,
) -> Bool {
    let Some(found) = face.and_then(|face| face.parsed().glyph_name(glyph)) else {
        return 0;
    };
    if !name.is_null() && size != 0 {
        let length = found.len().min(size as usize - 1);
        // SAFETY: C's room, of which the length and a zero take no more than all.
        unsafe {
            name.cast::<u8>()
                .copy_from_nonoverlapping(found.as_ptr(), length);
            name.add(length).write(0);
        }
    }
    1
}

// ---- The functions of a face, as C has those of a font ----

/// A face's font, which C is given.
pub struct OwnFont(Font);

static FUNCS: FontFuncs = FontFuncs {
    size: size_of::<FontFuncs>(),
    nominal_glyph: Some(nominal_glyph),
    glyph_h_advance: Some(glyph_h_advance),
    would_substitute: Some(would_substitute),
    has_feature: Some(has_feature),
};

#[unsafe(no_mangle)]
pub extern "C" fn sengadlit_face_get_font(face: Option<&Face>) -> *const Font {
    face.map_or(null(), |face| &raw const face.font.0)
}

// The face of a font that C was given.
//
// # Safety
//
// It is the user data of that font, whose face somebody has a reference to.
unsafe fn face_of<'a>(user_data: UserData) -> Option<&'a Face> {
    // SAFETY: the caller's promise.
    unsafe { user_data.cast::<Face>().as_ref() }
}

unsafe extern "C-unwind" fn nominal_glyph(
    user_data: UserData,
    unicode: u32,
    glyph: *mut u32,
) -> Bool {
    // SAFETY: what C was given, and its room for a glyph.
    let (face, glyph) = unsafe {
        (
            face_of(user_data),
            glyph.cast::<MaybeUninit<u32>>().as_mut(),
        )
    };
    sengadlit_face_get_nominal_glyph(face, unicode, glyph)
}

unsafe extern "C-unwind" fn glyph_h_advance(user_data: UserData, glyph: u32) -> i32 {
    // SAFETY: what C was given.
    sengadlit_face_get_glyph_h_advance(unsafe { face_of(user_data) }, glyph)
}

unsafe extern "C-unwind" fn would_substitute(
    user_data: UserData,
    lookups: *const u16,
    lookups_length: c_uint,
    glyphs: *const u32,
    glyphs_length: c_uint,
    zero_context: Bool,
) -> Bool {
    // SAFETY: what C was given, and arrays of C's with their lengths.
    let (face, lookups, wide) = unsafe {
        (
            face_of(user_data),
            array(lookups, lookups_length),
            array(glyphs, glyphs_length),
        )
    };
    let (Some(face), Some(lookups), Some(wide)) = (face, lookups, wide) else {
        return 0;
    };
    let mut glyphs = [GlyphId(0); QUESTIONED];
    let Some(glyphs) = glyphs.get_mut(..wide.len()) else {
        return 0;
    };
    for (to, wide) in glyphs.iter_mut().zip(wide) {
        let Ok(glyph) = u16::try_from(*wide) else {
            return 0;
        };
        *to = GlyphId(glyph);
    }
    let font = face.parsed().font(None);
    font.would_apply_any(lookups, glyphs, zero_context != 0)
        .into()
}

unsafe extern "C-unwind" fn has_feature(user_data: UserData, tag: u32) -> Bool {
    // SAFETY: what C was given.
    let face = unsafe { face_of(user_data) };
    face.is_some_and(|face| face.parsed().font(None).has_feature(numbers::tag(tag)))
        .into()
}

// ---- Plans that are kept ----

#[unsafe(no_mangle)]
pub extern "C" fn sengadlit_plan_cache_create() -> *mut PlanCache {
    boxed(PlanCache::default()).map_or(null_mut(), Box::into_raw)
}

#[unsafe(no_mangle)]
pub extern "C" fn sengadlit_plan_cache_clear(cache: Option<&PlanCache>) {
    if let Some(cache) = cache {
        cache.clear();
    }
}

#[unsafe(no_mangle)]
pub extern "C" fn sengadlit_plan_cache_get_length(cache: Option<&PlanCache>) -> c_uint {
    cache.map_or(0, |cache| cache.len() as c_uint)
}

/// # Safety
///
/// The cache is the caller's, who gives it up, and no call uses it; or it is null.
#[unsafe(no_mangle)]
pub unsafe extern "C" fn sengadlit_plan_cache_destroy(cache: *mut PlanCache) {
    if !cache.is_null() {
        // SAFETY: it came from `boxed`, and the caller has it no more.
        drop(unsafe { Box::from_raw(cache) });
    }
}

// ---- Features as users write them ----

/// # Safety
///
/// The text has the length beside it, or ends with a zero.
#[unsafe(no_mangle)]
pub unsafe extern "C" fn sengadlit_user_feature_from_string(
    string: *const c_char,
    length: c_int,
    feature: Out<'_, UserFeature>,
) -> Bool {
    // SAFETY: a text of C's with its length, or one that ends with a zero.
    let Ok(bytes) = (unsafe { text(string.cast::<u8>(), length) }) else {
        return 0;
    };
    let read = core::str::from_utf8(bytes).ok().map(str::parse::<Feature>);
    let Some(Ok(found)) = read else { return 0 };
    put(feature, found.into());
    1
}

/// # Safety
///
/// If `string` isn't null, there is room for so many bytes.
#[unsafe(no_mangle)]
pub unsafe extern "C" fn sengadlit_user_feature_to_string(
    feature: Option<&UserFeature>,
    string: *mut c_char,
    size: c_uint,
) {
    if string.is_null() {
        return;
    }
    // SAFETY: C's room.
    let mut to = Room::new(unsafe { room(string, size as usize) });
    if let Some(feature) = feature {
        // (room refuses nothing)
        let _ = write!(to, "{}", feature.wanted());
    }
}

// Room of C's for a text, which is all zeros.
//
// # Safety
//
// There is room for so many bytes, which is the library's through the call.
unsafe fn room<'a>(first: *mut c_char, size: usize) -> &'a mut [u8] {
    // SAFETY: the caller's promise; it is written before it is read.
    unsafe {
        first.cast::<u8>().write_bytes(0, size);
        slice::from_raw_parts_mut(first.cast(), size)
    }
}

// ---- Texts ----

/// `sengadlit_shape_options_t`.
#[repr(C)]
#[derive(Clone, Copy)]
pub struct ShapeOptions<'a> {
    pub size: usize,
    pub script: u32,
    pub direction: u32,
    pub language: *const c_char,
    pub features: *const UserFeature,
    pub features_length: c_uint,
    pub sound_breaks: Bool,
    pub skips_medials: Bool,
    pub normalizes_always: Bool,
    pub invisible_glyph: u32,
    pub not_found_glyph: u32,
    pub not_found_selector_glyph: u32,
    pub font: Option<&'a Font>,
    pub cache: Option<&'a PlanCache>,
    pub old_spec_zero_context: Bool,
}

// SAFETY: it is C's, its size comes first, and null pointers and zeros are valid.
unsafe impl Growing for ShapeOptions<'_> {
    const LEAST: usize = core::mem::offset_of!(Self, old_spec_zero_context);
}

impl ShapeOptions<'_> {
    /// What null stands for.
    pub const NONE: Self = ShapeOptions {
        size: size_of::<Self>(),
        script: 0,
        direction: 0,
        language: null(),
        features: null(),
        features_length: 0,
        sound_breaks: 0,
        skips_medials: 0,
        normalizes_always: 0,
        invisible_glyph: 0,
        not_found_glyph: 0,
        not_found_selector_glyph: 0,
        font: None,
        cache: None,
        old_spec_zero_context: 0,
    };
}

// What C chose of a text; null options choose nothing.
//
// # Safety
//
// The options are C's, and last as long as what they choose is used.
unsafe fn chosen<'a>(options: *const ShapeOptions<'a>) -> Result<Chosen<'a>, Error> {
    // SAFETY: a struct of C's with its size.
    let options = match unsafe { grown(options) } {
        Some(options) => options,
        None if options.is_null() => ShapeOptions::NONE,
        None => return Err(Error::argument(Argument::Options)),
    };
    // SAFETY: an array of C's with its length.
    let features = unsafe { array(options.features, options.features_length) };
    // SAFETY: a text of C's that ends with a zero.
    let language = (!options.language.is_null())
        .then(|| unsafe { text(options.language.cast::<u8>(), -1) })
        .transpose()?;
    Chosen::of(
        &options,
        language,
        features.ok_or_else(|| Error::argument(Argument::Features))?,
    )
}

// Shapes a text, which is then the buffer's.
//
// # Safety
//
// The text has the length beside it, or ends with a zero; the options are C's.
unsafe fn shape_text<U: Unit>(
    face: Option<&Face>,
    first: *const U,
    length: c_int,
    options: *const ShapeOptions<'_>,
    buffer: Pointer,
) -> Status {
    buffer.call(
        |status| status,
        |buffer| {
            let face = face.ok_or_else(|| Error::argument(Argument::Face))?;
            // SAFETY: a text of C's with its length, or one that ends with a zero.
            let units = unsafe { text(first, length) }?;
            // SAFETY: C's options, which last through the call.
            let chosen = unsafe { chosen(options) }?;
            guarded(|| faces::shape_text(face, units, &chosen, buffer))?;
            Ok(Status::Done)
        },
    )
}

/// # Safety
///
/// The text has the length beside it, or ends with a zero; the options are C's.
#[unsafe(no_mangle)]
pub unsafe extern "C" fn sengadlit_shape_utf8(
    face: Option<&Face>,
    text: *const c_char,
    text_length: c_int,
    options: *const ShapeOptions<'_>,
    buffer: Pointer,
) -> Status {
    // SAFETY: the caller's promise.
    unsafe { shape_text(face, text.cast::<u8>(), text_length, options, buffer) }
}

/// # Safety
///
/// The text has the length beside it, or ends with a zero; the options are C's.
#[unsafe(no_mangle)]
pub unsafe extern "C" fn sengadlit_shape_utf16(
    face: Option<&Face>,
    text: *const u16,
    text_length: c_int,
    options: *const ShapeOptions<'_>,
    buffer: Pointer,
) -> Status {
    // SAFETY: the caller's promise.
    unsafe { shape_text(face, text, text_length, options, buffer) }
}

/// # Safety
///
/// The text has the length beside it, or ends with a zero; the options are C's.
#[unsafe(no_mangle)]
pub unsafe extern "C" fn sengadlit_shape_utf32(
    face: Option<&Face>,
    text: *const u32,
    text_length: c_int,
    options: *const ShapeOptions<'_>,
    buffer: Pointer,
) -> Status {
    // SAFETY: the caller's promise.
    unsafe { shape_text(face, text, text_length, options, buffer) }
}

/// # Safety
///
/// The options are C's.
#[unsafe(no_mangle)]
pub unsafe extern "C" fn sengadlit_shape_buffer(
    face: Option<&Face>,
    options: *const ShapeOptions<'_>,
    buffer: Pointer,
) -> Status {
    buffer.call(
        |status| status,
        |buffer| {
            let face = face.ok_or_else(|| Error::argument(Argument::Face))?;
            // SAFETY: C's options, which last through the call.
            let chosen = unsafe { chosen(options) }?;
            guarded(|| faces::shape_buffer(face, &chosen, buffer))?;
            Ok(Status::Done)
        },
    )
}

// ---- Edits ----

fn text_edit(start: c_uint, old_end: c_uint, new_end: c_uint) -> TextEdit {
    TextEdit {
        start: start as usize,
        old_end: old_end as usize,
        new_end: new_end as usize,
    }
}

// Shapes again what an edit changes of a text whose glyphs are the buffer's, and tells between which units.
//
// # Safety
//
// The text has the length beside it, or ends with a zero; the options are C's.
unsafe fn reshape_text<U: Unit>(
    face: Option<&Face>,
    first: *const U,
    length: c_int,
    edit: TextEdit,
    options: *const ShapeOptions<'_>,
    buffer: Pointer,
    again: (Out<'_, c_uint>, Out<'_, c_uint>),
) -> Status {
    buffer.call(
        |status| status,
        |buffer| {
            let face = face.ok_or_else(|| Error::argument(Argument::Face))?;
            // SAFETY: a text of C's with its length, or one that ends with a zero.
            let units = unsafe { text(first, length) }?;
            // SAFETY: C's options, which last through the call.
            let chosen = unsafe { chosen(options) }?;
            let found = guarded(|| faces::reshape_text(face, units, edit, &chosen, buffer))?;
            // (no text of C's has more units)
            put(again.0, found.start as c_uint);
            put(again.1, found.end as c_uint);
            Ok(Status::Done)
        },
    )
}

/// # Safety
///
/// The text has the length beside it, or ends with a zero; the options are C's.
#[unsafe(no_mangle)]
pub unsafe extern "C" fn sengadlit_reshape_utf8(
    face: Option<&Face>,
    text: *const c_char,
    text_length: c_int,
    start: c_uint,
    old_end: c_uint,
    new_end: c_uint,
    options: *const ShapeOptions<'_>,
    buffer: Pointer,
    again_start: Out<'_, c_uint>,
    again_end: Out<'_, c_uint>,
) -> Status {
    let edit = text_edit(start, old_end, new_end);
    let again = (again_start, again_end);
    // SAFETY: the caller's promise.
    unsafe {
        reshape_text(
            face,
            text.cast::<u8>(),
            text_length,
            edit,
            options,
            buffer,
            again,
        )
    }
}

/// # Safety
///
/// The text has the length beside it, or ends with a zero; the options are C's.
#[unsafe(no_mangle)]
pub unsafe extern "C" fn sengadlit_reshape_utf16(
    face: Option<&Face>,
    text: *const u16,
    text_length: c_int,
    start: c_uint,
    old_end: c_uint,
    new_end: c_uint,
    options: *const ShapeOptions<'_>,
    buffer: Pointer,
    again_start: Out<'_, c_uint>,
    again_end: Out<'_, c_uint>,
) -> Status {
    let edit = text_edit(start, old_end, new_end);
    let again = (again_start, again_end);
    // SAFETY: the caller's promise.
    unsafe { reshape_text(face, text, text_length, edit, options, buffer, again) }
}

/// # Safety
///
/// The text has the length beside it, or ends with a zero; the options are C's.
#[unsafe(no_mangle)]
pub unsafe extern "C" fn sengadlit_reshape_utf32(
    face: Option<&Face>,
    text: *const u32,
    text_length: c_int,
    start: c_uint,
    old_end: c_uint,
    new_end: c_uint,
    options: *const ShapeOptions<'_>,
    buffer: Pointer,
    again_start: Out<'_, c_uint>,
    again_end: Out<'_, c_uint>,
) -> Status {
    let edit = text_edit(start, old_end, new_end);
    let again = (again_start, again_end);
    // SAFETY: the caller's promise.
    unsafe { reshape_text(face, text, text_length, edit, options, buffer, again) }
}

// ---- In one line ----

/// # Safety
///
/// If `text` isn't null, there is room for so many bytes.
#[unsafe(no_mangle)]
pub unsafe extern "C" fn sengadlit_buffer_serialize(
    buffer: Pointer,
    face: Option<&Face>,
    format: u32,
    flags: u32,
    text: *mut c_char,
    size: usize,
    length: Out<'_, usize>,
) -> Status {
    buffer.call(
        |status| status,
        |buffer| {
            let how = Format::from_number(format).zip(SerializeFlags::from_number(flags));
            let (format, flags) = how.ok_or_else(|| Error::argument(Argument::Options))?;
            let bytes = if text.is_null() || isize::try_from(size).is_err() {
                &mut []
            } else {
                // SAFETY: C's room.
                unsafe { room(text, size) }
            };
            let mut to = Room::new(bytes);
            // (room refuses nothing)
            let _ = serialize::write(&mut to, buffer, face, format, flags);
            put(length, to.length());
            Ok(Status::Done)
        },
    )
}
