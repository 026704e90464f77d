//! The script shapers: each hook and pause is that of the crate `sengadlit`. What one host has otherwise than another is in
//! `parts`.
//!
//! A glyph of the host has the fields of one of `sengadlit`, at the same places, and so have positions. The host's list is
//! lent to a hook whole: `into_iter().map(..).collect()` keeps it where it is, and at `opt-level` 2 and 3 nothing is left of
//! the pass.

// `hooks` is this module or its shadow.
#![allow(unused_qualifications)]

use alloc::boxed::Box;
use alloc::vec::Vec;
use core::any::Any;
use core::mem;
use core::ops::Range;

use sengadlit::alloc::Global;
use sengadlit::buffer::{GlyphProps, LigProps, UnicodeProps};
use sengadlit::font::FeaturesOnly;
use sengadlit::ot_shaper_syllabic::{clear_syllables_in, set_categories_and_positions_in, set_categories_in};
use sengadlit::plan::{BaseSearch, BreakFlags, NormalizationMode, ZeroContext, ZeroWidthMarks};
use sengadlit::shaper::{pause_may_change, Hook};
use sengadlit::{
    ot_shaper_hangul, ot_shaper_indic, ot_shaper_khmer, ot_shaper_use, run_pause, Buffer, BufferFlags, Direction,
    FeatureMap, GlyphInfo as Glyph, GlyphPosition as Position, Map, Pause, Plan, Planner, Request, Script, Shaper,
    ShaperError, Tag,
};

use super::buffer::*;
use super::ot_layout::TableIndex;
use super::ot_map::*;
use super::ot_shape::*;
use super::ot_shape_normalize::*;
use super::ot_shape_plan::hb_ot_shape_plan_t;
use super::ot_shaper::*;

pub mod parts;
#[cfg(feature = "shadow")]
pub mod shadow;

#[cfg(not(feature = "shadow"))]
use super::ot_shaper_sengadlit as hooks;
use parts::{Codepoint, FontRef, Info, Ucd};
#[cfg(feature = "shadow")]
use shadow as hooks;
#[cfg(feature = "shadow")]
pub use shadow::kept;

// ---- Plan ----

fn script_of(script: Option<super::Script>) -> Option<Script> {
    script.map(|script| Script(parts::tag_of(script.tag()).0))
}

/// What the hooks request; the host's planner keeps it.
pub fn planner(script: Option<super::Script>) -> Planner {
    Planner::new(Global, script_of(script))
}

fn collect_features<const S: usize>(planner: &mut hb_ot_shape_planner_t) {
    let map = &planner.ot_map;
    let font = FeaturesOnly(|tag| map.has_feature(parts::hb_tag(tag)));
    let collected = Shaper::ALL[S].collect_features(&font, &mut planner.wanted);
    collected.expect("memory for a list of features");
    request(planner, 0);
}

fn override_features<const S: usize>(planner: &mut hb_ot_shape_planner_t) {
    let collected = planner.wanted.requests().len();
    let overridden = Shaper::ALL[S].override_features(&mut planner.wanted);
    overridden.expect("memory for a list of features");
    request(planner, collected);
}

/// Makes the requests from this one on.
fn request(planner: &mut hb_ot_shape_planner_t, first: usize) {
    for request in &planner.wanted.requests()[first..] {
        match *request {
            Request::Feature(tag, flags, value) => {
                planner.ot_map.add_feature(parts::hb_tag(tag), flags, value);
            }
            Request::Pause(pause) => planner.ot_map.add_gsub_pause(pause.map(pause_function)),
        }
    }
}

/// Which places are flagged unsafe to break: those of HarfBuzz's code, or with the feature `sound-breaks` those too where a
/// broken text would be shaped otherwise.
const BREAK_FLAGS: BreakFlags = if cfg!(feature = "sound-breaks") { BreakFlags::Sound } else { BreakFlags::AsCode };

fn create_data<const S: usize>(from: &hb_ot_shape_plan_t) -> Box<dyn Any + Send + Sync> {
    const GSUB: TableIndex = TableIndex::GSUB;
    let shaper = Shaper::ALL[S];
    let map = &from.ot_map;
    let (mut features, mut stages, mut lookups) = (Vec::new(), Vec::new(), Vec::new());
    // (the others read no feature, and Indic alone asks whether lookups apply)
    if !matches!(shaper, Shaper::Hebrew | Shaper::Myanmar | Shaper::MyanmarZawgyi | Shaper::Thai) {
        let mapped = map.features_of(GSUB);
        features = mapped.map(|(tag, mask, stage)| FeatureMap::new(parts::tag_of(tag), mask, stage)).collect();
    }
    if shaper == Shaper::Indic {
        stages = (0..map.stages(GSUB).len()).map(|stage| map.stage_lookup_range(GSUB, stage)).collect();
        let end = stages.last().map_or(0, |last: &Range<usize>| last.end);
        lookups = (0..end).map(|place| map.lookup(GSUB, place).index).collect();
    }
    let chosen_script = map.chosen_script(GSUB).map(parts::tag_of);
    let (global_mask, found_script) = (map.get_global_mask(), map.found_script(GSUB));
    let made = Map::new(features.into(), stages.into(), lookups.into(), global_mask, chosen_script, found_script);
    let mut plan = Plan::new(script_of(from.script), made.expect("stages are ranges, and masks touch no glyph flag"));
    plan.has_gpos_mark = from.has_gpos_mark;
    plan.base_search = BaseSearch::AllConsonants;
    plan.zero_context = ZeroContext::NewSpec;
    plan.break_flags = BREAK_FLAGS;
    Box::new(ShaperPlan { shaper: Some(shaper), plan: shaper.with_data(plan) })
}

/// What a plan keeps of this type.
#[cfg(not(feature = "shadow"))]
pub fn kept<T: 'static>(data: &(dyn Any + Send + Sync)) -> Option<&T> {
    data.downcast_ref()
}

/// What a plan keeps: its shaper, and what the hooks read.
pub struct ShaperPlan {
    shaper: Option<Shaper>,
    plan: Plan,
}

fn plan_of(plan: &hb_ot_shape_plan_t) -> &Plan {
    &plan.data::<ShaperPlan>().plan
}

// ---- Glyphs ----

/// A list is lent where it stands if its elements are as long.
const _: () = {
    assert!(size_of::<Info>() == size_of::<Glyph>() && align_of::<Info>() == align_of::<Glyph>());
    assert!(
        size_of::<GlyphPosition>() == size_of::<Position>() && align_of::<GlyphPosition>() == align_of::<Position>()
    );
};

#[inline(always)]
fn glyph_of(info: &Info) -> Glyph {
    Glyph {
        glyph_id: info.glyph_id,
        mask: info.mask,
        cluster: info.cluster,
        glyph_props: GlyphProps(info.glyph_props()),
        lig_props: LigProps(info.lig_props()),
        syllable: info.syllable(),
        unicode_props: UnicodeProps(info.unicode_props()),
        category: info.ot_shaper_var_u8_category(),
        auxiliary: info.ot_shaper_var_u8_auxiliary(),
    }
}

#[inline(always)]
fn info_of(glyph: &Glyph) -> Info {
    let mut info = Info { glyph_id: glyph.glyph_id, mask: glyph.mask, cluster: glyph.cluster, ..Info::default() };
    info.set_glyph_props(glyph.glyph_props.0);
    info.set_lig_props(glyph.lig_props.0);
    info.set_syllable(glyph.syllable);
    info.set_unicode_props(glyph.unicode_props.0);
    info.set_ot_shaper_var_u8_category(glyph.category);
    info.set_ot_shaper_var_u8_auxiliary(glyph.auxiliary);
    info
}

#[inline(always)]
fn glyphs_of(infos: Vec<Info>) -> Vec<Glyph> {
    infos.into_iter().map(|info| glyph_of(&info)).collect()
}

#[inline(always)]
fn infos_of(glyphs: Vec<Glyph>) -> Vec<Info> {
    glyphs.into_iter().map(|glyph| info_of(&glyph)).collect()
}

#[inline(always)]
fn positions_of(positions: Vec<GlyphPosition>) -> Vec<Position> {
    let positions = positions.into_iter();
    positions
        .map(|position| {
            let GlyphPosition { x_advance, y_advance, x_offset, y_offset, var } = position;
            Position { x_advance, y_advance, x_offset, y_offset, var }
        })
        .collect()
}

#[inline(always)]
fn host_positions_of(positions: Vec<Position>) -> Vec<GlyphPosition> {
    let positions = positions.into_iter();
    positions
        .map(|position| {
            let Position { x_advance, y_advance, x_offset, y_offset, var } = position;
            GlyphPosition { x_advance, y_advance, x_offset, y_offset, var }
        })
        .collect()
}

// ---- The text that hooks work on ----

/// The text of the hooks, which has the host's glyphs while a hook works on them. It stays with the host's buffer, and is made
/// when a first hook works.
#[derive(Default)]
pub struct Work {
    text: Option<Box<Buffer>>,
    /// Whether the text has the settings of the host's.
    has_settings: bool,
}

impl Work {
    /// Lets the next hook read the settings of the host's text.
    #[inline]
    pub fn begin(&mut self) {
        self.has_settings = false;
    }

    #[inline]
    fn text(&mut self) -> &mut Buffer {
        self.text.get_or_insert_with(Box::default)
    }
}

const HAS_BROKEN_SYLLABLE: hb_buffer_scratch_flags_t = HB_BUFFER_SCRATCH_FLAG_HAS_BROKEN_SYLLABLE;
const HAS_STCH: hb_buffer_scratch_flags_t = HB_BUFFER_SCRATCH_FLAG_SHAPER0;

/// Gives the text the settings of the host's.
fn set_settings(buffer: &mut hb_buffer_t) {
    let text = buffer.work.text();
    text.set_max_len(buffer.max_len.max(buffer.len));
    text.set_cluster_level(parts::cluster_level(buffer.cluster_level, buffer.script));
    text.set_flags(BufferFlags::from_harfbuzz(parts::flag_bits(buffer.flags)));
    text.set_direction(direction_of(buffer.direction));
    text.set_script(script_of(buffer.script));
    text.set_has_broken_syllable(false);
    text.set_has_stch(false);
    buffer.work.has_settings = true;
}

/// Lends the host's glyphs to the text. Where it refuses, they stay.
#[inline]
fn lend(buffer: &mut hb_buffer_t) -> Result<(), ShaperError> {
    if !buffer.work.has_settings {
        set_settings(buffer);
    }
    buffer.info.truncate(buffer.len);
    let mut glyphs = glyphs_of(mem::take(&mut buffer.info)).into();
    let lent = buffer.work.text().exchange_glyphs(&mut glyphs);
    if lent.is_err() {
        buffer.info = infos_of(glyphs.into());
    }
    lent
}

/// Gives the host its glyphs back.
#[inline]
fn take_back(buffer: &mut hb_buffer_t) {
    let text = buffer.work.text();
    let marks = [(HAS_BROKEN_SYLLABLE, text.has_broken_syllable()), (HAS_STCH, text.has_stch())];
    buffer.info = infos_of(text.take_glyphs().into());
    buffer.len = buffer.info.len();
    // (the two lists are exchanged where lookups write)
    buffer.pos.resize(buffer.len, GlyphPosition::default());
    for (mark, is_set) in marks {
        buffer.scratch_flags |= if is_set { mark } else { 0 };
    }
    parts::note_masks(buffer);
}

/// Calls a hook on the text. Where it refuses, the glyphs stay, and the buffer has failed.
#[inline(always)]
fn on_text<T>(buffer: &mut hb_buffer_t, hook: impl FnOnce(&mut Buffer) -> Result<T, ShaperError>) -> Option<T> {
    let done = lend(buffer).and_then(|()| {
        let done = hook(buffer.work.text());
        take_back(buffer);
        done
    });
    buffer.successful &= done.is_ok();
    done.ok()
}

/// Calls a hook that changes each glyph by itself, and of it no more than what is taken back here.
#[inline(always)]
fn on_glyphs(buffer: &mut hb_buffer_t, hook: impl Fn(&mut [Glyph])) {
    for info in &mut buffer.info[..buffer.len] {
        let mut glyph = [glyph_of(info)];
        hook(&mut glyph);
        let [Glyph { mask, syllable, category, auxiliary, .. }] = glyph;
        info.mask = mask;
        info.set_syllable(syllable);
        info.set_ot_shaper_var_u8_category(category);
        info.set_ot_shaper_var_u8_auxiliary(auxiliary);
        debug_assert!(glyph == [glyph_of(info)]);
    }
}

fn direction_of(direction: super::Direction) -> Direction {
    match direction {
        super::Direction::Invalid => Direction::Invalid,
        super::Direction::LeftToRight => Direction::LeftToRight,
        super::Direction::RightToLeft => Direction::RightToLeft,
        super::Direction::TopToBottom => Direction::TopToBottom,
        super::Direction::BottomToTop => Direction::BottomToTop,
    }
}

// ---- Hooks ----

fn preprocess_text<const S: usize>(plan: &hb_ot_shape_plan_t, font: FontRef, buffer: &mut hb_buffer_t) {
    let shaper = Shaper::ALL[S];
    if matches!(shaper, Shaper::Indic | Shaper::Universal) {
        parts::circle_vowels(buffer);
        return;
    }
    let characters = buffer.info[..buffer.len].iter().map(|info| info.glyph_id);
    if may_rewrite(shaper, plan_of(plan), characters, |c| font.has_glyph(c)) {
        on_text(buffer, |text| shaper.preprocess_text(plan_of(plan), &parts::font(font), text));
    }
}

/// Whether preprocessing may change a text. It leaves Thai without SARA AM where GSUB has the script, and Hangul of
/// syllables that the font has.
fn may_rewrite(
    shaper: Shaper,
    plan: &Plan,
    mut characters: impl Iterator<Item = u32>,
    mut has_glyph: impl FnMut(u32) -> bool,
) -> bool {
    match shaper {
        Shaper::Thai if plan.ot_map.found_script(sengadlit::map::TableIndex::GSUB) => {
            characters.any(|c| matches!(c, 0x0E33 | 0x0EB3))
        }
        Shaper::Hangul => characters.any(|c| match c {
            0x1100..=0x11FF | 0x302E..=0x302F | 0xA960..=0xA97F | 0xD7B0..=0xD7FF => true,
            0xAC00..=0xD7A3 => !has_glyph(c),
            _ => false,
        }),
        _ => true,
    }
}

fn setup_masks<const S: usize>(plan: &hb_ot_shape_plan_t, _: FontRef, buffer: &mut hb_buffer_t) {
    let plan = plan_of(plan);
    match Shaper::ALL[S] {
        Shaper::Indic => on_glyphs(buffer, |glyphs| set_categories_and_positions_in(&Ucd, glyphs)),
        Shaper::Khmer | Shaper::Myanmar => on_glyphs(buffer, |glyphs| set_categories_in(&Ucd, glyphs)),
        Shaper::Universal if !joins(plan) => {
            on_glyphs(buffer, |glyphs| ot_shaper_use::set_categories_in(&Ucd, glyphs));
        }
        shaper => match plan.plan_data.hangul() {
            Some(data) => on_glyphs(buffer, |glyphs| ot_shaper_hangul::setup_masks_in(data, glyphs)),
            None => setup_joining_masks(shaper, plan, buffer),
        },
    }
}

fn joins(plan: &Plan) -> bool {
    plan.plan_data.universal().is_some_and(|data| data.arabic_plan.is_some())
}

fn setup_joining_masks(shaper: Shaper, plan: &Plan, buffer: &mut hb_buffer_t) {
    let [before, after] = buffer.context;
    let [before_len, after_len] = buffer.context_len;
    on_text(buffer, |text| {
        text.set_pre_context(&parts::context(&before[..before_len]));
        text.set_post_context(&parts::context(&after[..after_len]));
        Ok(shaper.setup_masks(plan, &FeaturesOnly(|_: Tag| false), &Ucd, text))
    });
}

fn reorder_marks<const S: usize>(plan: &hb_ot_shape_plan_t, buffer: &mut hb_buffer_t, start: usize, end: usize) {
    if may_reorder(Shaper::ALL[S], &buffer.info[start..end]) {
        on_text(buffer, |text| Ok(Shaper::ALL[S].reorder_marks(plan_of(plan), text, start, end)));
    }
}

/// Whether marks may change places: Arabic's where one modifies a letter, Hebrew's where there are three.
fn may_reorder(shaper: Shaper, marks: &[Info]) -> bool {
    match shaper {
        Shaper::Arabic => marks.iter().any(|info| matches!(parts::combining_class(info), 220 | 230)),
        _ => marks.len() >= 3,
    }
}

fn compose<const S: usize>(context: &hb_ot_shape_normalize_context_t, a: Codepoint, b: Codepoint) -> Option<Codepoint> {
    let (a, b) = (parts::character(a)?, parts::character(b)?);
    let composed = match Shaper::ALL[S] {
        Shaper::Indic => ot_shaper_indic::compose(&Ucd, a, b),
        Shaper::Khmer => ot_shaper_khmer::compose(&Ucd, a, b),
        Shaper::Universal => ot_shaper_use::compose(&Ucd, a, b),
        shaper => shaper.compose(plan_of(context.plan), &Ucd, a, b).flatten(),
    };
    composed.map(parts::codepoint)
}

fn decompose<const S: usize>(_: &hb_ot_shape_normalize_context_t, ab: Codepoint) -> Option<(Codepoint, Codepoint)> {
    let ab = parts::character(ab)?;
    let (a, b) = match Shaper::ALL[S] {
        Shaper::Indic => ot_shaper_indic::decompose(&Ucd, ab)?,
        _ => ot_shaper_khmer::decompose(&Ucd, ab)?,
    };
    Some((parts::codepoint(a), parts::codepoint(b)))
}

fn postprocess_glyphs<const S: usize>(plan: &hb_ot_shape_plan_t, font: FontRef, buffer: &mut hb_buffer_t) {
    if buffer.scratch_flags & HAS_STCH == 0 {
        return; // nothing stretches
    }
    buffer.pos.truncate(buffer.len);
    let mut positions = positions_of(mem::take(&mut buffer.pos)).into();
    on_text(buffer, |text| {
        let are_taken = text.exchange_positions(&mut positions);
        debug_assert!(are_taken);
        let done = Shaper::ALL[S].postprocess_glyphs(plan_of(plan), &parts::font(font), text);
        positions = text.take_positions();
        done
    });
    buffer.pos = host_positions_of(positions.into());
}

// ---- Pauses ----

/// By the number of the pause.
const PAUSES: [pause_func_t; 15] = [
    hooks::pause::<0>,
    hooks::pause::<1>,
    hooks::pause::<2>,
    hooks::pause::<3>,
    hooks::pause::<4>,
    hooks::pause::<5>,
    hooks::pause::<6>,
    hooks::pause::<7>,
    hooks::pause::<8>,
    hooks::pause::<9>,
    hooks::pause::<10>,
    hooks::pause::<11>,
    hooks::pause::<12>,
    hooks::pause::<13>,
    hooks::pause::<14>,
];

fn pause_function(pause: Pause) -> pause_func_t {
    PAUSES[usize::from(pause.number())]
}

fn pause<const P: usize>(plan: &hb_ot_shape_plan_t, font: FontRef, buffer: &mut hb_buffer_t) -> bool {
    let pause = Pause::ALL[P];
    parts::reserve_syllables(pause, buffer);
    let plan = plan_of(plan);
    if !may_change(pause, plan, buffer) || clears_in_place(pause, buffer) {
        return false;
    }
    parts::find_syllables(pause, buffer);
    on_text(buffer, |text| run(pause, plan, font, text)).unwrap_or(false)
}

/// Does what the pause does on the text.
fn run(pause: Pause, plan: &Plan, font: FontRef, text: &mut Buffer) -> Result<bool, ShaperError> {
    if parts::setup(pause, plan, text) {
        return Ok(false);
    }
    run_pause(pause, plan, &parts::font(font), &[], text)
}

/// Whether a pause may change the text, by its contract.
fn may_change(pause: Pause, plan: &Plan, buffer: &hb_buffer_t) -> bool {
    let reads_substitutions = matches!(pause, Pause::RecordRphf | Pause::RecordPref | Pause::ClearSubstitutionFlags);
    pause_may_change(pause, plan) && (!reads_substitutions || any_is_substituted(buffer))
}

fn any_is_substituted(buffer: &hb_buffer_t) -> bool {
    buffer.info[..buffer.len].iter().any(parts::is_substituted)
}

/// Clears a byte or a bit of each glyph, which needs no text.
fn clears_in_place(pause: Pause, buffer: &mut hb_buffer_t) -> bool {
    match pause {
        Pause::SyllabicClearVar => on_glyphs(buffer, clear_syllables_in),
        Pause::ClearSubstitutionFlags => buffer.info[..buffer.len].iter_mut().for_each(parts::clear_substituted),
        _ => return false,
    }
    true
}

// ---- Shapers ----

pub const ARABIC_SHAPER: hb_ot_shaper_t = shaper::<0>();
pub const HANGUL_SHAPER: hb_ot_shaper_t = shaper::<1>();
pub const HEBREW_SHAPER: hb_ot_shaper_t = shaper::<2>();
pub const INDIC_SHAPER: hb_ot_shaper_t = shaper::<3>();
pub const KHMER_SHAPER: hb_ot_shaper_t = shaper::<4>();
pub const MYANMAR_SHAPER: hb_ot_shaper_t = shaper::<5>();
pub const MYANMAR_ZAWGYI_SHAPER: hb_ot_shaper_t = shaper::<6>();
pub const THAI_SHAPER: hb_ot_shaper_t = shaper::<7>();
pub const UNIVERSAL_SHAPER: hb_ot_shaper_t = shaper::<8>();

/// The function of a hook, for a shaper that has it.
macro_rules! hook {
    ($hook:ident, $function:ident) => {
        if Shaper::ALL[S].has_hook(Hook::$hook) {
            Some(hooks::$function::<S>)
        } else {
            None
        }
    };
}

const fn shaper<const S: usize>() -> hb_ot_shaper_t {
    hb_ot_shaper_t {
        collect_features: hook!(CollectFeatures, collect_features),
        override_features: hook!(OverrideFeatures, override_features),
        create_data: Some(hooks::create_data::<S>),
        preprocess_text: hook!(PreprocessText, preprocess_text),
        postprocess_glyphs: hook!(PostprocessGlyphs, postprocess_glyphs),
        normalization_preference: match Shaper::ALL[S].normalization_preference() {
            NormalizationMode::NONE => HB_OT_SHAPE_NORMALIZATION_MODE_NONE,
            NormalizationMode::AUTO => HB_OT_SHAPE_NORMALIZATION_MODE_AUTO,
            NormalizationMode::CD => HB_OT_SHAPE_NORMALIZATION_MODE_COMPOSED_DIACRITICS_NO_SHORT_CIRCUIT,
        },
        decompose: hook!(Decompose, decompose),
        compose: hook!(Compose, compose),
        setup_masks: hook!(SetupMasks, setup_masks),
        gpos_tag: match Shaper::ALL[S].gpos_tag() {
            Some(tag) => Some(parts::hb_tag(tag)),
            None => None,
        },
        reorder_marks: hook!(ReorderMarks, reorder_marks),
        zero_width_marks: match Shaper::ALL[S].zero_width_marks() {
            ZeroWidthMarks::NONE => HB_OT_SHAPE_ZERO_WIDTH_MARKS_NONE,
            ZeroWidthMarks::GDEF_EARLY => HB_OT_SHAPE_ZERO_WIDTH_MARKS_BY_GDEF_EARLY,
            ZeroWidthMarks::GDEF_LATE => HB_OT_SHAPE_ZERO_WIDTH_MARKS_BY_GDEF_LATE,
        },
        fallback_position: Shaper::ALL[S].fallback_position() || parts::places_marks(Shaper::ALL[S]),
    }
}
