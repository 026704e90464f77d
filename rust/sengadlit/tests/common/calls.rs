//! The hooks and pauses as values, their conditions, and what they return.

use super::numbers::Numbers;
use super::plans::PAUSES;
use sengadlit::buffer::{Buffer, GlyphInfo, ShaperError, Span};
use sengadlit::font::{Font, Tables};
use sengadlit::plan::{Pause, Plan, PlanData, Preprocess};
use sengadlit::shaper::checked::{CallError, checked_run_pause};
use sengadlit::shaper::{Shaper, run_pause};

/// A hook, or a pause, with its arguments.
#[derive(Clone, Copy, Debug, PartialEq, Eq)]
pub enum Call {
    Preprocess,
    Masks,
    Marks(usize, usize),
    Postprocess,
    Compose(char, char),
    Decompose(char),
    Pause(Pause),
}

/// What a call returned, where it didn't refuse.
#[derive(Clone, Copy, Debug, PartialEq, Eq)]
pub enum Returned {
    /// The shaper lacks the hook.
    Absent,
    Done,
    Changed(bool),
    CallerRunsVowelConstraints,
    Character(Option<char>),
    Characters(Option<(char, char)>),
}

/// What a call is made with, but for the buffer.
pub struct Setting<'a, F, T> {
    pub shaper: Shaper,
    pub plan: &'a Plan,
    pub font: &'a F,
    pub tables: &'a T,
    pub spans: &'a [Span],
}

impl Call {
    /// Each hook that takes a buffer, and each pause; marks are the whole of so many glyphs.
    pub fn all(length: usize) -> Vec<Call> {
        let hooks = [
            Call::Preprocess,
            Call::Masks,
            Call::Marks(0, length),
            Call::Postprocess,
            Call::Compose('\u{5D9}', '\u{5B4}'),
            Call::Decompose('\u{931}'),
        ];
        let pauses = PAUSES.into_iter().map(Call::Pause);
        hooks.into_iter().chain(pauses).collect()
    }

    /// A call drawn by lot, for a buffer of so many glyphs.
    pub fn random(numbers: &mut Numbers, length: usize) -> Self {
        let start = numbers.below(length + 1);
        match numbers.below(10) {
            0 => Call::Preprocess,
            1 => Call::Masks,
            2 => Call::Marks(start, start + numbers.below(length - start + 1)),
            3 => Call::Postprocess,
            4 => Call::Compose(random_char(numbers), random_char(numbers)),
            5 => Call::Decompose(random_char(numbers)),
            _ => Call::Pause(numbers.one_of(&PAUSES)),
        }
    }

    /// Makes the call.
    pub fn make<F: Font, T: Tables>(
        self,
        setting: &Setting<F, T>,
        buffer: &mut Buffer,
    ) -> Result<Returned, ShaperError> {
        let &Setting {
            shaper,
            plan,
            font,
            tables,
            spans,
        } = setting;
        Ok(match self {
            Call::Preprocess => preprocessed(shaper.preprocess_text(plan, font, buffer)?),
            Call::Masks => done(shaper.setup_masks(plan, font, tables, buffer)),
            Call::Marks(start, end) => done(shaper.reorder_marks(plan, buffer, start, end)),
            Call::Postprocess => done(shaper.postprocess_glyphs(plan, font, buffer)?),
            Call::Compose(a, b) => composed(shaper.compose(plan, tables, a, b)),
            Call::Decompose(ab) => decomposed(shaper.decompose(plan, tables, ab)),
            Call::Pause(pause) => Returned::Changed(run_pause(pause, plan, font, spans, buffer)?),
        })
    }

    /// Makes the checked call; questions have no conditions.
    pub fn make_checked<F: Font, T: Tables>(
        self,
        setting: &Setting<F, T>,
        buffer: &mut Buffer,
    ) -> Result<Returned, CallError> {
        let &Setting {
            shaper,
            plan,
            font,
            tables,
            spans,
        } = setting;
        Ok(match self {
            Call::Preprocess => preprocessed(shaper.checked_preprocess_text(plan, font, buffer)?),
            Call::Masks => done(shaper.checked_setup_masks(plan, font, tables, buffer)?),
            Call::Marks(start, end) => {
                done(shaper.checked_reorder_marks(plan, buffer, start, end)?)
            }
            Call::Postprocess => done(shaper.checked_postprocess_glyphs(plan, font, buffer)?),
            Call::Pause(pause) => {
                Returned::Changed(checked_run_pause(pause, plan, font, spans, buffer)?)
            }
            Call::Compose(..) | Call::Decompose(_) => self.make(setting, buffer)?,
        })
    }

    /// Whether the call reads and writes a buffer.
    pub fn takes_a_buffer(self) -> bool {
        !matches!(self, Call::Compose(..) | Call::Decompose(_))
    }

    /// Whether the call is made after positioning.
    pub fn wants_positions(self) -> bool {
        self == Call::Postprocess
    }

    /// Whether all that the call requires of its caller holds, but for steady results.
    pub fn fits<F, T>(self, setting: &Setting<F, T>, buffer: &Buffer) -> bool {
        let glyphs = buffer.glyphs();
        let positions_fit = match self.wants_positions() {
            true => buffer.positions_len() == buffer.len(),
            false => buffer.positions_len() == 0 || !self.takes_a_buffer(),
        };
        positions_fit && self.data_fit(setting.shaper, setting.plan) && {
            match self {
                Call::Preprocess => setting.shaper != Shaper::Hangul || are_characters(glyphs),
                Call::Masks => masks_fit(setting.shaper, setting.plan, glyphs),
                Call::Marks(start, end) => {
                    let is_range = start <= end && end <= glyphs.len();
                    is_range && (setting.shaper != Shaper::Arabic || end - start <= 32)
                }
                Call::Postprocess => setting.shaper != Shaper::Arabic || are_numbers(glyphs),
                Call::Pause(pause) => {
                    let kinds_fit = setting.spans.iter().all(|span| span.kind <= 15);
                    kinds_fit && (pause != Pause::InitialReordering || are_numbers(glyphs))
                }
                Call::Compose(..) | Call::Decompose(_) => true,
            }
        }
    }

    /// Whether the plan has the data that the call reads.
    fn data_fit(self, shaper: Shaper, plan: &Plan) -> bool {
        let data = &plan.plan_data;
        match (self, shaper) {
            (Call::Masks | Call::Postprocess, Shaper::Arabic) => {
                matches!(data, PlanData::Arabic(_))
            }
            (Call::Masks, Shaper::Hangul) => matches!(data, PlanData::Hangul(_)),
            (Call::Masks, Shaper::Universal) => matches!(data, PlanData::Universal(_)),
            (Call::Pause(pause), _) => pause_data_fit(pause, data),
            _ => true,
        }
    }
}

fn pause_data_fit(pause: Pause, data: &PlanData) -> bool {
    match pause {
        Pause::InitialReordering | Pause::FinalReordering => matches!(data, PlanData::Indic(_)),
        Pause::ReorderKhmer => matches!(data, PlanData::Khmer(_)),
        Pause::SetupSyllablesUse | Pause::RecordRphf => matches!(data, PlanData::Universal(_)),
        Pause::RecordStch => matches!(data, PlanData::Arabic(_)),
        _ => true,
    }
}

fn masks_fit(shaper: Shaper, plan: &Plan, glyphs: &[GlyphInfo]) -> bool {
    let joins = match &plan.plan_data {
        PlanData::Universal(kept) => kept.arabic_plan.is_some(),
        _ => false,
    };
    match shaper {
        Shaper::Arabic => are_characters(glyphs),
        Shaper::Universal => !joins || are_characters(glyphs),
        Shaper::Hangul => glyphs.iter().all(|glyph| glyph.auxiliary <= 3),
        _ => true,
    }
}

fn are_characters(glyphs: &[GlyphInfo]) -> bool {
    glyphs
        .iter()
        .all(|glyph| char::from_u32(glyph.glyph_id).is_some())
}

fn are_numbers(glyphs: &[GlyphInfo]) -> bool {
    glyphs.iter().all(|glyph| glyph.glyph_id <= 65535)
}

fn preprocessed(returned: Option<Preprocess>) -> Returned {
    match returned {
        Some(Preprocess::Done) => Returned::Done,
        Some(Preprocess::CallerRunsVowelConstraints) => Returned::CallerRunsVowelConstraints,
        None => Returned::Absent,
    }
}

fn done(returned: Option<()>) -> Returned {
    returned.map_or(Returned::Absent, |()| Returned::Done)
}

fn composed(returned: Option<Option<char>>) -> Returned {
    returned.map_or(Returned::Absent, Returned::Character)
}

fn decomposed(returned: Option<Option<(char, char)>>) -> Returned {
    returned.map_or(Returned::Absent, Returned::Characters)
}

fn random_char(numbers: &mut Numbers) -> char {
    let blocks = [
        0x41, 0x5D0, 0x5B0, 0x915, 0x93C, 0x1780, 0x17C0, 0x1100, 0xAC00,
    ];
    let number = match numbers.below(4) {
        0 => numbers.draw() as u32 % 0x11_0000,
        _ => numbers.one_of(&blocks) + numbers.below(32) as u32,
    };
    char::from_u32(number).unwrap_or('\u{FFFD}')
}
