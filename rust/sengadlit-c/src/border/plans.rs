//! Shapers, their features, and plans.
use super::callbacks::{Font, Map};
use super::{Growing, Out, array, boxed, call_back, grown, guarded, put, put_grown};
use crate::layout::{Bool, Constants, Data, Feature, Stage};
use crate::plan::{self, Plan};
use crate::status::{Argument, Error, Status};
use crate::{features, numbers};
use core::ffi::{c_uint, c_void};
use core::ptr::null_mut;
use core::sync::atomic::AtomicUsize;
use core::sync::atomic::Ordering::{AcqRel, Relaxed};
use sengadlit::Shaper;
use sengadlit::plan::{Planner, Request};
use std::process::abort;

/// What callbacks are given.
pub type UserData = *mut c_void;

/// # Safety
///
/// The struct is C's, with its size.
#[unsafe(no_mangle)]
pub unsafe extern "C" fn sengadlit_shaper_get_constants(
    shaper: u32,
    constants: *mut Constants,
) -> Status {
    let Some(shaper) = numbers::shaper(shaper) else {
        return Status::Argument;
    };
    let found = Constants {
        size: 0,
        hooks: numbers::hooks(shaper),
        gpos_tag: shaper.gpos_tag().map_or(0, numbers::tag_number),
        normalization_preference: numbers::normalization(shaper.normalization_preference()),
        zero_width_marks: numbers::zero_width_marks(shaper.zero_width_marks()),
        fallback_position: Bool::from(shaper.fallback_position()),
    };
    // SAFETY: the caller's promise.
    done_if(unsafe { put_grown(constants, found) })
}

// How a call ended that writes to a struct of C's, which may be none.
fn done_if(is_written: bool) -> Status {
    if is_written {
        Status::Done
    } else {
        Status::Argument
    }
}

// SAFETY: they are C's, their sizes come first, and all of them are numbers.
unsafe impl Growing for Constants {
    const LEAST: usize = size_of::<Self>();
}
// SAFETY: the same.
unsafe impl Growing for Data {
    const LEAST: usize = size_of::<Self>();
}

#[unsafe(no_mangle)]
pub extern "C" fn sengadlit_shaper_for_script(
    script: u32,
    direction: u32,
    chosen_script: u32,
    shaper: Out<'_, u32>,
) -> Status {
    let (Some(direction), Some(shaper)) = (numbers::direction(direction), shaper) else {
        return Status::Argument;
    };
    let chosen = (chosen_script != 0).then(|| numbers::tag(chosen_script));
    let script = numbers::script(script);
    match script.and_then(|script| Shaper::for_script(script, direction, chosen)) {
        Some(found) => {
            shaper.write(numbers::shaper_number(found));
            Status::Done
        }
        None => Status::Absent,
    }
}

// ---- Features ----

/// Both functions of a map, with what they are given.
struct Told {
    add_feature: unsafe extern "C-unwind" fn(UserData, u32, u32, u32),
    add_gsub_pause: unsafe extern "C-unwind" fn(UserData, u32),
    user_data: UserData,
}

impl Told {
    fn of(map: Option<&Map>) -> Result<Self, Error> {
        let known = map.and_then(|map| {
            // SAFETY: a struct of C's with its size.
            let funcs = unsafe { grown(map.funcs) }?;
            Some(Told {
                add_feature: funcs.add_feature?,
                add_gsub_pause: funcs.add_gsub_pause?,
                user_data: map.user_data,
            })
        });
        known.ok_or_else(|| Error::argument(Argument::Map))
    }

    fn tell(&self, request: &Request) {
        match *request {
            Request::Feature(tag, flags, value) => {
                let tag = numbers::tag_number(tag);
                // SAFETY: a callback of C, with what it is given.
                call_back(|| unsafe { (self.add_feature)(self.user_data, tag, flags, value) });
            }
            Request::Pause(pause) => {
                let pause = numbers::pause_number(pause);
                // SAFETY: a callback of C, with what it is given.
                call_back(|| unsafe { (self.add_gsub_pause)(self.user_data, pause) });
            }
        }
    }
}

// Tells the map what the shaper wants of it.
fn tell(
    map: Option<&Map>,
    error: Out<'_, Error>,
    wanted: impl FnOnce() -> Result<Option<Planner>, Error>,
) -> Status {
    let told = guarded(|| {
        let map = Told::of(map);
        let planner = wanted()?;
        let map = map?;
        let Some(planner) = planner else {
            return Ok(Status::Absent);
        };
        planner
            .requests()
            .iter()
            .for_each(|request| map.tell(request));
        Ok(Status::Done)
    });
    told.unwrap_or_else(|why| {
        put(error, why);
        why.status
    })
}

#[unsafe(no_mangle)]
pub extern "C" fn sengadlit_collect_features(
    shaper: u32,
    script: u32,
    font: Option<&Font>,
    map: Option<&Map>,
    error: Out<'_, Error>,
) -> Status {
    tell(map, error, || features::collect(shaper, script, font))
}

#[unsafe(no_mangle)]
pub extern "C" fn sengadlit_override_features(
    shaper: u32,
    script: u32,
    map: Option<&Map>,
    error: Out<'_, Error>,
) -> Status {
    tell(map, error, || features::collect_overriding(shaper, script))
}

// ---- Plans ----

/// User data that a plan keeps.
#[repr(C)]
#[derive(Clone, Copy)]
pub struct Kept {
    pub user_data: UserData,
    pub destroy: Option<unsafe extern "C-unwind" fn(UserData)>,
}

impl Kept {
    /// Gives the user data back to C.
    pub fn destroy(self) {
        if let Some(destroy) = self.destroy {
            // SAFETY: a callback of C, with what it is given, called once.
            call_back(|| unsafe { destroy(self.user_data) });
        }
    }
}

/// `sengadlit_plan_input_t`.
#[repr(C)]
#[derive(Clone, Copy)]
pub struct PlanInput {
    pub size: usize,
    pub script: u32,
    pub chosen_script: u32,
    pub found_script: Bool,
    pub has_gpos_mark: Bool,
    pub centres_stretch: Bool,
    pub sound_breaks: Bool,
    pub global_mask: u32,
    pub searches_medials: Bool,
    pub features: *const Feature,
    pub features_length: c_uint,
    pub stages: *const Stage,
    pub stages_length: c_uint,
    pub lookups: *const u16,
    pub lookups_length: c_uint,
    pub kept: Kept,
    pub new_spec_zero_context: Bool,
}

// SAFETY: it is C's, its size comes first, and zeros and null pointers are valid.
unsafe impl Growing for PlanInput {
    const LEAST: usize = core::mem::offset_of!(Self, new_spec_zero_context);
}

fn make(shaper: u32, input: &PlanInput) -> Result<Box<Plan>, Error> {
    let shaper = numbers::shaper(shaper).ok_or_else(|| Error::argument(Argument::Shaper))?;
    // SAFETY: an array of C's with its length.
    let features = unsafe { array(input.features, input.features_length) };
    // SAFETY: an array of C's with its length.
    let stages = unsafe { array(input.stages, input.stages_length) };
    // SAFETY: an array of C's with its length.
    let lookups = unsafe { array(input.lookups, input.lookups_length) };
    let plan = plan::make(
        shaper,
        input,
        features.ok_or_else(|| Error::argument(Argument::Features))?,
        stages.ok_or_else(|| Error::argument(Argument::Stages))?,
        lookups.ok_or_else(|| Error::argument(Argument::Lookups))?,
    )?;
    boxed(plan).ok_or(Error::MEMORY)
}

/// # Safety
///
/// The input is C's, with its size.
#[unsafe(no_mangle)]
pub unsafe extern "C" fn sengadlit_plan_create(
    shaper: u32,
    input: *const PlanInput,
    error: Out<'_, Error>,
) -> *mut Plan {
    // SAFETY: the caller's promise.
    let input = unsafe { grown(input) };
    let made = match &input {
        Some(input) => guarded(|| make(shaper, input)),
        None => Err(Error::argument(Argument::Input)),
    };
    match made {
        Ok(plan) => Box::into_raw(plan),
        Err(why) => {
            put(error, why);
            if let Some(input) = input {
                input.kept.destroy();
            }
            null_mut()
        }
    }
}

#[unsafe(no_mangle)]
pub extern "C" fn sengadlit_plan_reference(plan: Option<&Plan>) -> *mut Plan {
    let Some(plan) = plan else { return null_mut() };
    reference(&plan.references);
    core::ptr::from_ref(plan).cast_mut()
}

/// Adds a reference. As many as half of the numbers are lost ones.
pub fn reference(references: &AtomicUsize) {
    if references.fetch_add(1, Relaxed) > usize::MAX / 2 {
        abort();
    }
}

/// # Safety
///
/// A reference to the plan is the caller's, who gives it up, or it is null.
#[unsafe(no_mangle)]
pub unsafe extern "C" fn sengadlit_plan_destroy(plan: *mut Plan) {
    // SAFETY: the plan is there as long as somebody has a reference, as the caller has.
    let Some(references) = (unsafe { plan.as_ref() }).map(|plan| &plan.references) else {
        return;
    };
    if references.fetch_sub(1, AcqRel) == 1 {
        // SAFETY: the plan came from `boxed`, and nobody has a reference any more.
        let kept = unsafe { Box::from_raw(plan) }.kept;
        kept.destroy();
    }
}

#[unsafe(no_mangle)]
pub extern "C" fn sengadlit_plan_get_user_data(plan: Option<&Plan>) -> UserData {
    plan.map_or(null_mut(), |plan| plan.kept.user_data)
}

/// # Safety
///
/// The struct is C's, with its size.
#[unsafe(no_mangle)]
pub unsafe extern "C" fn sengadlit_plan_get_data(plan: Option<&Plan>, data: *mut Data) -> Status {
    let Some(plan) = plan else {
        return Status::Argument;
    };
    // SAFETY: the caller's promise.
    done_if(unsafe { put_grown(data, plan::data(plan)) })
}
