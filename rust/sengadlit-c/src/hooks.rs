//! The hooks: what each requires of its arguments, tested before the first write, and the call.
use crate::border::callbacks::{
    Asked, AskedTables, FONT_ADVANCE, FONT_NOMINAL, FONT_WOULD, Font, TABLES_COMPOSE,
    TABLES_DECOMPOSE, TABLES_GENERAL, TABLES_INDIC, TABLES_JOINING, TABLES_USE, Tables,
};
use crate::border::glyphs::Takes;
use crate::buffer::Buffer;
use crate::layout::Unaffected;
use crate::numbers;
use crate::plan::Plan;
use crate::status::{Argument, Error, Status};
use sengadlit::buffer::{Buffer as Inner, Span};
use sengadlit::editing;
use sengadlit::ot_shaper_syllabic::{set_categories_and_positions_in, set_categories_in};
use sengadlit::ot_shaper_use;
use sengadlit::plan::{Pause, Preprocess};
use sengadlit::shaper::{Shaper, pause_fits, run_pause as run};
use sengadlit::spans;

/// The greatest kind of a syllable.
const GREATEST_KIND: u8 = 15;

fn done_if(is_there: bool) -> Status {
    if is_there {
        Status::Done
    } else {
        Status::Absent
    }
}

/// `sengadlit_preprocess_text`, and whether the caller runs the vowel constraints.
pub fn preprocess_text(
    plan: &Plan,
    font: Option<&Font>,
    buffer: &mut Buffer,
) -> Result<(Status, bool), Error> {
    let asks = match plan.shaper {
        Shaper::Thai if plan.wants_forms() => FONT_NOMINAL,
        Shaper::Hangul => FONT_NOMINAL | FONT_ADVANCE,
        _ => 0,
    };
    let font = Asked::font(font, asks)?;
    let done = buffer.run(Takes::Numbers, |inner| {
        Ok(plan.shaper.preprocess_text(&plan.inner, &font, inner)?)
    })?;
    Ok((
        done_if(done.is_some()),
        done == Some(Preprocess::CallerRunsVowelConstraints),
    ))
}

/// What two characters compose to, if they do; none where the shaper leaves it to the tables.
pub fn compose(
    plan: &Plan,
    tables: Option<&Tables>,
    a: u32,
    b: u32,
) -> Result<Option<Option<char>>, Error> {
    let asks = match plan.shaper {
        Shaper::Hebrew => TABLES_COMPOSE,
        Shaper::Indic | Shaper::Khmer | Shaper::Universal => TABLES_COMPOSE | TABLES_GENERAL,
        _ => 0,
    };
    let tables = AskedTables::of(tables, asks)?;
    let (a, b) = (character(a)?, character(b)?);
    Ok(plan.shaper.compose(&plan.inner, &tables, a, b))
}

/// The two characters that one decomposes to, if it does; none where the shaper leaves it to the
/// tables.
pub fn decompose(
    plan: &Plan,
    tables: Option<&Tables>,
    ab: u32,
) -> Result<Option<Option<(char, char)>>, Error> {
    let asks = match plan.shaper {
        Shaper::Indic | Shaper::Khmer => TABLES_DECOMPOSE,
        _ => 0,
    };
    let tables = AskedTables::of(tables, asks)?;
    let ab = character(ab)?;
    Ok(plan.shaper.decompose(&plan.inner, &tables, ab))
}

fn character(number: u32) -> Result<char, Error> {
    char::from_u32(number).ok_or_else(|| Error::argument(Argument::GlyphId))
}

/// `sengadlit_reorder_marks`.
pub fn reorder_marks(
    plan: &Plan,
    buffer: &mut Buffer,
    start: usize,
    end: usize,
) -> Result<Status, Error> {
    if start > end || end > buffer.text.len() || !plan.shaper.marks_fit(start, end) {
        return Err(Error::argument(Argument::Range));
    }
    let done = buffer.run(Takes::Numbers, |inner| {
        Ok(plan.shaper.reorder_marks(&plan.inner, inner, start, end))
    })?;
    Ok(done_if(done.is_some()))
}

/// `sengadlit_setup_masks`.
pub fn setup_masks(
    plan: &Plan,
    tables: Option<&Tables>,
    buffer: &mut Buffer,
) -> Result<Status, Error> {
    let joins = plan.joins();
    let joining = if joins {
        TABLES_JOINING | TABLES_GENERAL
    } else {
        0
    };
    let asks = match plan.shaper {
        Shaper::Arabic => joining,
        Shaper::Universal => joining | TABLES_USE,
        Shaper::Indic | Shaper::Khmer | Shaper::Myanmar => TABLES_INDIC,
        _ => 0,
    };
    let tables = AskedTables::of(tables, asks)?;
    if joins {
        buffer.are_characters()?;
    }
    let font = Asked::font(None, 0)?;
    let done = buffer.run(Takes::Numbers, |inner| {
        Ok(set_categories(plan.shaper, joins, tables, inner)
            || plan
                .shaper
                .setup_masks(&plan.inner, &font, &tables, inner)
                .is_some())
    })?;
    Ok(done_if(done))
}

// Sets the categories in their place, if the hook does no more. The crate's call takes the text out of the buffer meanwhile, in
// case that the tables panic, which C's can't.
#[inline]
fn set_categories(shaper: Shaper, joins: bool, tables: AskedTables, text: &mut Inner) -> bool {
    let tables = &tables;
    text.with_glyphs_mut(|glyphs| {
        match shaper {
            Shaper::Indic => set_categories_and_positions_in(tables, glyphs),
            Shaper::Khmer | Shaper::Myanmar => set_categories_in(tables, glyphs),
            Shaper::Universal if !joins => ot_shaper_use::set_categories_in(tables, glyphs),
            _ => return false,
        }
        true
    })
}

/// `sengadlit_run_pause`, and whether dotted circles were wanted.
#[inline]
pub fn run_pause(
    plan: &Plan,
    pause: u32,
    font: Option<&Font>,
    spans: &[Span],
    buffer: &mut Buffer,
) -> Result<bool, Error> {
    let pause = pause_of(plan, pause)?;
    let font = Asked::font(font, asks_of(pause, plan))?;
    if let Some(index) = spans.iter().position(|span| span.kind > GREATEST_KIND) {
        return Err(Error::argument_at(Argument::Spans, index));
    }
    let takes = if pause == Pause::InitialReordering {
        Takes::GlyphNumbers
    } else {
        Takes::Numbers
    };
    buffer.run(takes, |inner| {
        Ok(run(pause, &plan.inner, &font, spans, inner)?)
    })
}

/// `sengadlit_setup_syllables_found`.
#[inline]
pub fn setup_syllables_found(
    plan: &Plan,
    pause: u32,
    buffer: &mut Buffer,
) -> Result<Status, Error> {
    let pause = pause_of(plan, pause)?;
    let done = buffer.run(Takes::Numbers, |inner| {
        Ok(spans::setup_syllables_found(pause, &plan.inner, inner))
    })?;
    Ok(done_if(done))
}

/// `sengadlit_setup_syllables_written`.
#[inline]
pub fn setup_syllables_written(
    plan: &Plan,
    pause: u32,
    buffer: &mut Buffer,
) -> Result<Status, Error> {
    let pause = pause_of(plan, pause)?;
    let done = buffer.run(Takes::Numbers, |inner| {
        Ok(spans::setup_syllables_written(pause, &plan.inner, inner))
    })?;
    Ok(done_if(done))
}

// The pause of this number, if the plan's shaper has it.
#[inline]
fn pause_of(plan: &Plan, number: u32) -> Result<Pause, Error> {
    let fits = |pause: &Pause| has_pause(plan.shaper, *pause) && pause_fits(*pause, &plan.inner);
    let known = numbers::pause(number).filter(fits);
    known.ok_or_else(|| Error::argument(Argument::Pause))
}

// Whether a shaper requests a pause, for a text of some script in some font.
#[inline]
fn has_pause(shaper: Shaper, pause: Pause) -> bool {
    match pause {
        Pause::RecordStch | Pause::ArabicFallbackShape => shaper == Shaper::Arabic,
        Pause::SetupSyllablesIndic | Pause::InitialReordering | Pause::FinalReordering => {
            shaper == Shaper::Indic
        }
        Pause::SetupSyllablesKhmer | Pause::ReorderKhmer => shaper == Shaper::Khmer,
        Pause::SetupSyllablesMyanmar | Pause::ReorderMyanmar => shaper == Shaper::Myanmar,
        Pause::SetupSyllablesUse
        | Pause::ReorderUse
        | Pause::RecordRphf
        | Pause::RecordPref
        | Pause::ClearSubstitutionFlags => shaper == Shaper::Universal,
        Pause::SyllabicClearVar => matches!(
            shaper,
            Shaper::Indic | Shaper::Khmer | Shaper::Myanmar | Shaper::Universal
        ),
    }
}

// Which functions of the font a pause of a plan uses.
fn asks_of(pause: Pause, plan: &Plan) -> u8 {
    match pause {
        Pause::InitialReordering if plan.has_lookups => FONT_NOMINAL | FONT_WOULD,
        Pause::InitialReordering => FONT_NOMINAL,
        Pause::ReorderKhmer
        | Pause::ReorderMyanmar
        | Pause::ReorderUse
        | Pause::FinalReordering => FONT_NOMINAL,
        Pause::SetupSyllablesIndic
        | Pause::SetupSyllablesKhmer
        | Pause::SetupSyllablesMyanmar
        | Pause::SetupSyllablesUse
        | Pause::RecordStch
        | Pause::RecordRphf
        | Pause::RecordPref
        | Pause::SyllabicClearVar
        | Pause::ClearSubstitutionFlags
        | Pause::ArabicFallbackShape => 0,
    }
}

/// `sengadlit_postprocess_glyphs`.
pub fn postprocess_glyphs(
    plan: &Plan,
    font: Option<&Font>,
    buffer: &mut Buffer,
) -> Result<Status, Error> {
    let stretches = plan.shaper == Shaper::Arabic;
    let font = Asked::font(font, if stretches { FONT_ADVANCE } else { 0 })?;
    let takes = if stretches {
        Takes::GlyphNumbers
    } else {
        Takes::Numbers
    };
    let done = buffer.run_positioned(takes, |inner| {
        Ok(plan.shaper.postprocess_glyphs(&plan.inner, &font, inner)?)
    })?;
    Ok(done_if(done.is_some()))
}

/// `sengadlit_affected`.
pub fn affected(
    before: &[Span],
    after: &[Span],
    front: u32,
    back: u32,
) -> Result<Unaffected, Error> {
    let outside = u64::from(front) + u64::from(back);
    if outside > covered(before).min(covered(after)) {
        return Err(Error::argument(Argument::Range));
    }
    let found = editing::affected_spans(before, after, front as usize, back as usize);
    // (these are at most what was given)
    Ok(Unaffected {
        front: found.front as u32,
        back: found.back as u32,
    })
}

// How many glyphs the spans cover.
fn covered(spans: &[Span]) -> u64 {
    let lengths = spans.iter().map(|span| span.len as u64);
    lengths.fold(0, u64::saturating_add)
}

#[cfg(test)]
mod tests {
    use super::has_pause;
    use sengadlit::alloc::Global;
    use sengadlit::buffer::Script;
    use sengadlit::font::FeaturesOnly;
    use sengadlit::plan::{Pause, Planner, Request};
    use sengadlit::shaper::Shaper;

    // Whether a shaper requests a pause for a text of this script.
    fn requests(shaper: Shaper, script: [u8; 4], pause: Pause) -> bool {
        let mut planner = Planner::new(Global, Some(Script(script)));
        let font = FeaturesOnly(|_| false);
        shaper.collect_features(&font, &mut planner).unwrap();
        shaper.override_features(&mut planner).unwrap();
        let mut requests = planner.requests().iter();
        requests.any(|request| *request == Request::Pause(Some(pause)))
    }

    #[test]
    fn a_shaper_has_the_pauses_that_it_requests() {
        for shaper in Shaper::ALL {
            for pause in Pause::ALL {
                let scripts = [*b"Arab", *b"Syrc", *b"Deva", *b"Khmr", *b"Mymr", *b"Sinh"];
                let mut wanted = scripts
                    .iter()
                    .map(|script| requests(shaper, *script, pause));
                assert_eq!(
                    has_pause(shaper, pause),
                    wanted.any(|does| does),
                    "{shaper:?} {pause:?}"
                );
            }
        }
    }
}
