// Generated from crates/shapers_plan/src/ot_shape_plan/collecting.rt by rust/erase; edit the source.

//! What is requested of a font for a text.

use super::UserFeature;
use crate::generated::rustybuzz_shapers::shaper::Shaper;
use crate::generated::shapers_base::buffer::{Direction, Script, ShaperError, Tag};
use crate::generated::shapers_base::font::Font;
use crate::generated::shapers_base::map::{F_GLOBAL, F_HAS_FALLBACK, F_MANUAL_JOINERS, F_NONE};
use crate::generated::shapers_base::plan::{Planner, Request};
use crate::generated::shapers_choice::shaper_for_script;
use crate::generated::shapers_plan::ot_map::{F_GLOBAL_SEARCH, F_RANDOM};
use crate::support::alloc::Global;
use crate::support::arrayvec::ArrayVec;

// Variations of the font stand in a stage of their own.
const FIRST: [Request; 2] = [
    Request::Feature(Tag(*b"rvrn"), F_GLOBAL, 1),
    Request::Pause(None),
];

const LEFT_TO_RIGHT: [Request; 2] = [
    Request::Feature(Tag(*b"ltra"), F_GLOBAL, 1),
    Request::Feature(Tag(*b"ltrm"), F_GLOBAL, 1),
];

// Mirrored forms are turned on by glyph.
const RIGHT_TO_LEFT: [Request; 2] = [
    Request::Feature(Tag(*b"rtla"), F_GLOBAL, 1),
    Request::Feature(Tag(*b"rtlm"), F_NONE, 1),
];

// Fractions are turned on by glyph; the rest of these hold for the whole text.
const BEFORE_SHAPER: [Request; 7] = [
    Request::Feature(Tag(*b"frac"), F_NONE, 1),
    Request::Feature(Tag(*b"numr"), F_NONE, 1),
    Request::Feature(Tag(*b"dnom"), F_NONE, 1),
    Request::Feature(Tag(*b"rand"), F_RANDOM | F_GLOBAL, 255),
    Request::Feature(Tag(*b"trak"), F_HAS_FALLBACK | F_GLOBAL, 1),
    Request::Feature(Tag(*b"Harf"), F_GLOBAL, 1),
    Request::Feature(Tag(*b"HARF"), F_GLOBAL, 1),
];

const BEHIND_SHAPER: [Request; 9] = [
    Request::Feature(Tag(*b"Buzz"), F_GLOBAL, 1),
    Request::Feature(Tag(*b"BUZZ"), F_GLOBAL, 1),
    Request::Feature(Tag(*b"abvm"), F_GLOBAL, 1),
    Request::Feature(Tag(*b"blwm"), F_GLOBAL, 1),
    Request::Feature(Tag(*b"ccmp"), F_GLOBAL, 1),
    Request::Feature(Tag(*b"locl"), F_GLOBAL, 1),
    Request::Feature(Tag(*b"mark"), F_MANUAL_JOINERS | F_GLOBAL, 1),
    Request::Feature(Tag(*b"mkmk"), F_MANUAL_JOINERS | F_GLOBAL, 1),
    Request::Feature(Tag(*b"rlig"), F_GLOBAL, 1),
];

const HORIZONTAL: [Request; 7] = [
    Request::Feature(Tag(*b"calt"), F_GLOBAL, 1),
    Request::Feature(Tag(*b"clig"), F_GLOBAL, 1),
    Request::Feature(Tag(*b"curs"), F_GLOBAL, 1),
    Request::Feature(Tag(*b"dist"), F_GLOBAL, 1),
    Request::Feature(Tag(*b"kern"), F_HAS_FALLBACK | F_GLOBAL, 1),
    Request::Feature(Tag(*b"liga"), F_GLOBAL, 1),
    Request::Feature(Tag(*b"rclt"), F_GLOBAL, 1),
];

// Forms for vertical text may be any script's.
const VERTICAL: [Request; 1] = [Request::Feature(
    Tag(*b"vert"),
    F_GLOBAL_SEARCH | F_GLOBAL,
    1,
)];

/// The shaper of a text, if its script is known and takes one.
pub(super) fn text_shaper(
    script: Option<Script>,
    direction: Direction,
    found: Option<Tag>,
) -> Option<Shaper> {
    shaper_for_script(script?, direction, found)
}

/// All that is requested for a text, in HarfBuzz's order: for every text, by the shaper, for every
/// text again, by the user, and what the shaper has the last word on.
///
/// # Errors
///
/// [`Memory`].
///
/// [`Memory`]: crate::ShaperError::Memory
pub(super) fn collect<F: Font>(
    alloc: Global,
    shaper: Option<Shaper>,
    script: Option<Script>,
    direction: Direction,
    face: &F,
    users: &[UserFeature],
) -> Result<Planner, ShaperError> {
    let mut planner = Planner::new(alloc, script);
    collect_before_shaper(direction, &mut planner)?;
    if let Some(shaper) = shaper {
        shaper.collect_features(face, &mut planner)?;
    }
    collect_behind_shaper(direction, &mut planner)?;
    collect_users(users, &mut planner)?;
    if let Some(shaper) = shaper {
        shaper.override_features(&mut planner)?;
    }
    Ok(planner)
}

fn collect_before_shaper(direction: Direction, planner: &mut Planner) -> Result<(), ShaperError> {
    // (at one go, so that the planner's list grows once)
    let mut requests: ArrayVec<Request, 11> = ArrayVec::new();
    requests.try_extend_from_slice(&FIRST).unwrap();
    match direction {
        Direction::LeftToRight => requests.try_extend_from_slice(&LEFT_TO_RIGHT).unwrap(),
        Direction::RightToLeft => requests.try_extend_from_slice(&RIGHT_TO_LEFT).unwrap(),
        _ => {}
    }
    requests.try_extend_from_slice(&BEFORE_SHAPER).unwrap();
    planner.add_requests(requests.as_slice())
}

fn collect_behind_shaper(direction: Direction, planner: &mut Planner) -> Result<(), ShaperError> {
    planner.add_requests(&BEHIND_SHAPER)?;
    collect_along_lines(direction, planner)?;
    Ok(())
}

fn collect_along_lines(direction: Direction, planner: &mut Planner) -> Result<(), ShaperError> {
    if is_horizontal(direction) {
        planner.add_requests(&HORIZONTAL)?;
    } else {
        planner.add_requests(&VERTICAL)?;
    }
    Ok(())
}

fn is_horizontal(direction: Direction) -> bool {
    matches!(direction, Direction::LeftToRight | Direction::RightToLeft)
}

fn collect_users(users: &[UserFeature], planner: &mut Planner) -> Result<(), ShaperError> {
    for user in users {
        let flags = if is_for_all(user) { F_GLOBAL } else { F_NONE };
        planner.add_feature(user.tag, flags, user.value)?;
    }
    Ok(())
}

/// Whether a feature of the user's holds for the whole text.
pub(super) fn is_for_all(user: &UserFeature) -> bool {
    user.start == 0 && user.end == u32::MAX
}
