//! What a shaper wants of the map.
use crate::border::callbacks::{Asked, FONT_FEATURE, Font};
use crate::numbers;
use crate::status::{Argument, Error};
use sengadlit::alloc::Global;
use sengadlit::plan::Planner;
use sengadlit::shaper::Shaper;

/// The features and pauses that stand before those of every script; none if the shaper has no such list.
pub fn collect(shaper: u32, script: u32, font: Option<&Font>) -> Result<Option<Planner>, Error> {
    let shaper = numbers::shaper(shaper).ok_or_else(|| Error::argument(Argument::Shaper))?;
    let asks = if shaper == Shaper::Arabic {
        FONT_FEATURE
    } else {
        0
    };
    let font = Asked::font(font, asks)?;
    let mut planner = Planner::new(Global, numbers::script(script));
    let done = shaper.collect_features(&font, &mut planner)?;
    Ok(done.map(|()| planner))
}

/// Those that stand behind them.
pub fn collect_overriding(shaper: u32, script: u32) -> Result<Option<Planner>, Error> {
    let shaper = numbers::shaper(shaper).ok_or_else(|| Error::argument(Argument::Shaper))?;
    let mut planner = Planner::new(Global, numbers::script(script));
    let done = shaper.override_features(&mut planner)?;
    Ok(done.map(|()| planner))
}
