// Generated from crates/shapers_pipeline/src/normalizing/hooks.rt by rust/erase; edit the source.

//! What a shaper decides, and what the tables do where it lacks the hook.

use crate::generated::rustybuzz_shapers::shaper::Shaper;
use crate::generated::rustybuzz_shapers::{ot_shaper_arabic, ot_shaper_hebrew};
use crate::generated::shapers_base::buffer::{BufferClusterLevel, GlyphInfo};
use crate::generated::shapers_base::font::Tables;
use crate::generated::shapers_base::plan::Plan;

// The character of a number.
#[inline]
pub(crate) fn character(c: u32) -> Option<char> {
    char::from_u32(c)
}

// What a character decomposes to.
#[inline]
pub(crate) fn decompose<T: Tables>(
    shaper: Option<Shaper>,
    plan: &Plan,
    tables: &T,
    ab: char,
) -> Option<(char, char)> {
    let Some(shaper) = shaper else {
        return tables.decompose(ab);
    };
    match shaper.decompose(plan, tables, ab) {
        Some(parts) => parts,
        None => tables.decompose(ab),
    }
}

// What two characters compose to.
#[inline]
pub(crate) fn compose<T: Tables>(
    shaper: Option<Shaper>,
    plan: &Plan,
    tables: &T,
    a: char,
    b: char,
) -> Option<char> {
    let Some(shaper) = shaper else {
        return tables.compose(a, b);
    };
    match shaper.compose(plan, tables, a, b) {
        Some(whole) => whole,
        None => tables.compose(a, b),
    }
}

// Orders the marks from `start` to `end`.
#[inline]
pub(crate) fn order_marks(
    shaper: Option<Shaper>,
    level: BufferClusterLevel,
    glyphs: &mut [GlyphInfo],
    start: usize,
    end: usize,
) {
    match shaper {
        Some(Shaper::Arabic) => {
            ot_shaper_arabic::reorder_marks_in(level, glyphs, start, end);
        }
        Some(Shaper::Hebrew) => {
            ot_shaper_hebrew::reorder_marks_in(level, glyphs, start, end);
        }
        _ => {}
    }
}
