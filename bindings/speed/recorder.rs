//! What the speed of hooks is counted with; it stands in place of the shadow. A text is shaped, and what each hook and pause
//! finds is recorded. Each of these calls can then be made by rustybuzz's own function on its own buffer, and by the crate
//! `sengadlit` on its own, each with its own tables of Unicode and both with rustybuzz's font.
//!
//! Callgrind counts within `call_original`, `call_ours`, `find_nothing`, `plan_original` and `plan_ours`.

use alloc::boxed::Box;
use alloc::format;
use alloc::string::{String, ToString};
use alloc::vec::Vec;
use core::any::Any;
use core::hint::black_box;
use core::ops::Range;
use std::cell::RefCell;

use sengadlit::ot_shaper_syllabic::{indic_syllable, khmer_syllable, myanmar_syllable, use_syllable};
use sengadlit::ot_shaper_use::category;
use sengadlit::plan::{ot_category_t, ot_position_t};
use sengadlit::spans::setup_syllables_found;
use sengadlit::unicode::UnicodeTables;
use sengadlit::Tables;

use super::*;
use crate::{Face, UnicodeBuffer};

pub(super) use super::{collect_features, compose, decompose, override_features};

// ---- Recording ----

/// The shapers by number, as `Shaper::ALL` has them.
const NAMES: [&str; 9] =
    ["Arabic", "Hangul", "Hebrew", "Indic", "Khmer", "Myanmar", "Myanmar (Zawgyi)", "Thai", "universal"];

/// rustybuzz's own.
const STOCK: [&hb_ot_shaper_t; 9] = [
    &crate::hb::ot_shaper_arabic::ARABIC_SHAPER,
    &crate::hb::ot_shaper_hangul::HANGUL_SHAPER,
    &crate::hb::ot_shaper_hebrew::HEBREW_SHAPER,
    &crate::hb::ot_shaper_indic::INDIC_SHAPER,
    &crate::hb::ot_shaper_khmer::KHMER_SHAPER,
    &crate::hb::ot_shaper_myanmar::MYANMAR_SHAPER,
    &crate::hb::ot_shaper_myanmar::MYANMAR_ZAWGYI_SHAPER,
    &crate::hb::ot_shaper_thai::THAI_SHAPER,
    &crate::hb::ot_shaper_use::UNIVERSAL_SHAPER,
];

#[derive(Clone, Copy, PartialEq, Eq)]
enum Hook {
    PreprocessText,
    SetupMasks,
    ReorderMarks,
    PostprocessGlyphs,
    Pause(Pause),
}

/// A call of a hook or a pause, with the buffer that it finds. The calls for a text's runs of marks are one.
pub struct Call {
    shaper: usize,
    hook: Hook,
    buffer: hb_buffer_t,
    marks: Vec<Range<usize>>,
}

std::thread_local! {
    static CALLS: RefCell<Vec<Call>> = const { RefCell::new(Vec::new()) };
}

fn note(shaper: usize, hook: Hook, buffer: &mut hb_buffer_t) {
    let mut found = hb_buffer_t::new();
    fill(&mut found, buffer);
    CALLS.with_borrow_mut(|calls| calls.push(Call { shaper, hook, buffer: found, marks: Vec::new() }));
}

/// Calls a hook, behind which the buffer's lists are at least as long as before. rustybuzz's own hooks don't shorten them
/// where a text gets shorter, and its clearing of syllables goes over what stands behind the text, too.
fn in_long_lists<T>(buffer: &mut hb_buffer_t, hook: impl FnOnce(&mut hb_buffer_t) -> T) -> T {
    let longest = buffer.info.len();
    let answer = hook(buffer);
    if buffer.info.len() < longest {
        buffer.info.resize(longest, hb_glyph_info_t::default());
        buffer.pos.resize(longest, GlyphPosition::default());
    }
    answer
}

/// Makes a buffer's text and settings those of another, in the room that it has.
fn fill(buffer: &mut hb_buffer_t, from: &hb_buffer_t) {
    buffer.info.clone_from(&from.info);
    buffer.pos.clone_from(&from.pos);
    buffer.len = from.len;
    buffer.flags = from.flags;
    buffer.cluster_level = from.cluster_level;
    buffer.direction = from.direction;
    buffer.script = from.script;
    buffer.context = from.context;
    buffer.context_len = from.context_len;
    buffer.scratch_flags = from.scratch_flags;
    buffer.have_positions = from.have_positions;
    buffer.max_len = from.max_len;
    buffer.max_ops = from.max_ops;
    buffer.successful = true;
    buffer.serial = 0;
}

/// What is kept with a plan: the number of its shaper, and what the hooks keep.
struct Kept {
    shaper: usize,
    sengadlit: Box<dyn Any + Send + Sync>,
}

pub fn create_data<const S: usize>(plan: &hb_ot_shape_plan_t) -> Box<dyn Any + Send + Sync> {
    Box::new(Kept { shaper: S, sengadlit: super::create_data::<S>(plan) })
}

/// What is kept of this type: rustybuzz's own is found at once, as in rustybuzz.
#[inline]
pub fn kept<T: 'static>(data: &(dyn Any + Send + Sync)) -> Option<&T> {
    data.downcast_ref().or_else(|| data.downcast_ref::<Kept>()?.sengadlit.downcast_ref())
}

pub fn preprocess_text<const S: usize>(plan: &hb_ot_shape_plan_t, font: FontRef, buffer: &mut hb_buffer_t) {
    // (those of Indic and the universal shaper are no hooks of `sengadlit`: they part vowels)
    if matches!(Shaper::ALL[S], Shaper::Thai | Shaper::Hangul) {
        note(S, Hook::PreprocessText, buffer);
    }
    in_long_lists(buffer, |buffer| super::preprocess_text::<S>(plan, font, buffer));
}

pub fn setup_masks<const S: usize>(plan: &hb_ot_shape_plan_t, font: FontRef, buffer: &mut hb_buffer_t) {
    note(S, Hook::SetupMasks, buffer);
    in_long_lists(buffer, |buffer| super::setup_masks::<S>(plan, font, buffer));
}

pub fn postprocess_glyphs<const S: usize>(plan: &hb_ot_shape_plan_t, font: FontRef, buffer: &mut hb_buffer_t) {
    note(S, Hook::PostprocessGlyphs, buffer);
    in_long_lists(buffer, |buffer| super::postprocess_glyphs::<S>(plan, font, buffer));
}

pub fn reorder_marks<const S: usize>(plan: &hb_ot_shape_plan_t, buffer: &mut hb_buffer_t, start: usize, end: usize) {
    let is_first = CALLS.with_borrow(|calls| calls.last().is_none_or(|call| call.hook != Hook::ReorderMarks));
    if is_first {
        note(S, Hook::ReorderMarks, buffer);
    }
    CALLS.with_borrow_mut(|calls| {
        if let Some(call) = calls.last_mut() {
            // (normalization has sorted this run of marks, and none behind it)
            call.buffer.info[start..end].clone_from_slice(&buffer.info[start..end]);
            call.marks.push(start..end);
        }
    });
    in_long_lists(buffer, |buffer| super::reorder_marks::<S>(plan, buffer, start, end));
}

pub fn pause<const P: usize>(plan: &hb_ot_shape_plan_t, font: FontRef, buffer: &mut hb_buffer_t) -> bool {
    let kept = plan.data.as_ref().and_then(|data| data.downcast_ref::<Kept>());
    let shaper = kept.expect("the plan has its data").shaper;
    // (the fallback does nothing in either)
    if Pause::ALL[P] != Pause::ArabicFallbackShape {
        note(shaper, Hook::Pause(Pause::ALL[P]), buffer);
    }
    in_long_lists(buffer, |buffer| super::pause::<P>(plan, font, buffer))
}

// ---- A recorded text ----

/// The calls of a text, and what they are made with.
pub struct Recorded<'f, 'a> {
    face: &'f Face<'a>,
    calls: Vec<Call>,
    stock: hb_ot_shape_plan_t,
    plan: Plan,
}

/// rustybuzz's buffer.
pub struct OriginalBuffer(hb_buffer_t);

impl Default for OriginalBuffer {
    fn default() -> Self {
        OriginalBuffer(hb_buffer_t::new())
    }
}

/// The crate's.
#[derive(Default)]
pub struct OurBuffer(Buffer);

/// Shapes a text, of this script or of the one that it has.
pub fn record<'f, 'a>(face: &'f Face<'a>, text: &str, script: Option<[u8; 4]>) -> Recorded<'f, 'a> {
    let mut buffer = UnicodeBuffer::new();
    buffer.push_str(text);
    if let Some(script) = script {
        buffer
            .set_script(crate::Script::from_iso15924_tag(crate::hb::hb_tag_t::from_bytes(&script)).expect("a script"));
    }
    buffer.guess_segment_properties();
    let plan =
        |buffer: &UnicodeBuffer| hb_ot_shape_plan_t::new(face, buffer.direction(), Some(buffer.script()), None, &[]);
    let (mut stock, hooked) = (plan(&buffer), plan(&buffer));
    CALLS.with_borrow_mut(Vec::clear);
    crate::shape_with_plan(face, &hooked, buffer);
    let calls = CALLS.take();
    let plan = match calls.first() {
        Some(call) => {
            stock.data = STOCK[call.shaper].create_data.map(|create_data| create_data(&stock));
            Lists::of(&stock).plan(Shaper::ALL[call.shaper])
        }
        None => Plan::builder().build().expect("a plan"),
    };
    Recorded { face, calls, stock, plan }
}

impl Call {
    /// The hook's name, with the shaper's where several have it.
    pub fn name(&self) -> String {
        let of = NAMES[self.shaper];
        match self.hook {
            Hook::PreprocessText => format!("preprocess_text, {of}"),
            Hook::SetupMasks => format!("setup_masks, {of}"),
            Hook::ReorderMarks => format!("reorder_marks, {of}"),
            Hook::PostprocessGlyphs => "postprocess_glyphs, Arabic".to_string(),
            Hook::Pause(pause) => match pause {
                Pause::SetupSyllablesIndic
                | Pause::SetupSyllablesKhmer
                | Pause::SetupSyllablesMyanmar
                | Pause::SetupSyllablesUse => format!("setup_syllables, {of}"),
                Pause::InitialReordering => "initial_reordering".to_string(),
                Pause::ReorderKhmer => "reorder_khmer".to_string(),
                Pause::ReorderMyanmar => "reorder_myanmar".to_string(),
                Pause::ReorderUse => "reorder_use".to_string(),
                Pause::FinalReordering => "final_reordering".to_string(),
                Pause::RecordStch => "record_stch".to_string(),
                Pause::RecordRphf => "record_rphf".to_string(),
                Pause::RecordPref => "record_pref".to_string(),
                Pause::SyllabicClearVar => "syllabic_clear_var".to_string(),
                Pause::ClearSubstitutionFlags => "clear_substitution_flags".to_string(),
                Pause::ArabicFallbackShape => "arabic_fallback_shape".to_string(),
            },
        }
    }

    /// How many glyphs it finds.
    pub fn glyphs(&self) -> usize {
        self.buffer.len
    }

    /// Whether both read and write syllables, of the universal shaper, by other numbers of kinds.
    fn has_kinds(&self) -> bool {
        matches!(self.hook, Hook::Pause(Pause::RecordRphf | Pause::RecordPref | Pause::ReorderUse))
    }

    /// The limit of the call: one pass over the glyphs that reads them and tells whether it has anything to change. Not told
    /// of syllables that are found, and of stretches.
    #[inline(never)]
    pub fn find_nothing(&self, buffer: &OurBuffer) -> Option<bool> {
        let glyphs = buffer.0.glyphs();
        let any = |f: fn(&Glyph) -> bool| glyphs.iter().fold(false, |any, glyph| any | f(glyph));
        let in_marks = |f: fn(&Glyph) -> bool| {
            let runs = self.marks.iter().flat_map(|run| &glyphs[run.clone()]);
            runs.fold(false, |any, glyph| any | f(glyph))
        };
        Some(match self.hook {
            Hook::PreprocessText if self.shaper == 1 => any(|glyph| {
                let c = glyph.glyph_id;
                c.wrapping_sub(0x1100) < 0x100 || c & !1 == 0x302E || c.wrapping_sub(0xA960) < 0x20
            }),
            Hook::PreprocessText => any(|glyph| glyph.glyph_id & !0x80 == 0xE33),
            Hook::SetupMasks => match Shaper::ALL[self.shaper] {
                Shaper::Hangul => any(|glyph| glyph.auxiliary != 0),
                Shaper::Indic => {
                    any(|glyph| UnicodeTables.indic_categories(glyph.glyph_id) != (glyph.category, glyph.auxiliary))
                }
                Shaper::Khmer | Shaper::Myanmar => {
                    any(|glyph| UnicodeTables.indic_categories(glyph.glyph_id).0 != glyph.category)
                }
                Shaper::Universal => any(|glyph| UnicodeTables.use_category(glyph.glyph_id) != glyph.category),
                _ => any(|glyph| match char::from_u32(glyph.glyph_id) {
                    Some(c) => {
                        !matches!(UnicodeTables.joining_type(c), sengadlit::JoiningType::U | sengadlit::JoiningType::X)
                    }
                    None => false,
                }),
            },
            Hook::ReorderMarks if self.shaper == 0 => {
                in_marks(|glyph| matches!(glyph.unicode_props.high_byte(), 220 | 230))
            }
            Hook::ReorderMarks => in_marks(|glyph| matches!(glyph.unicode_props.high_byte(), 22 | 23)),
            Hook::Pause(pause) => match pause {
                Pause::InitialReordering => any(|glyph| glyph.syllable & 15 != indic_syllable::NON_INDIC_CLUSTER),
                Pause::ReorderKhmer => any(|glyph| {
                    glyph.syllable & 15 != khmer_syllable::NON_KHMER_CLUSTER
                        && matches!(glyph.category, ot_category_t::OT_Ra | ot_category_t::OT_VPre)
                }),
                Pause::ReorderMyanmar => any(|glyph| {
                    glyph.syllable & 15 != myanmar_syllable::NON_MYANMAR_CLUSTER
                        && matches!(
                            glyph.category,
                            ot_category_t::OT_VPre | ot_category_t::OT_MR | ot_category_t::OT_VBlw
                        )
                }),
                Pause::ReorderUse => {
                    any(|glyph| matches!(glyph.category, category::R | category::VPre | category::VMPre))
                }
                Pause::FinalReordering => any(|glyph| {
                    matches!(glyph.auxiliary, ot_position_t::POS_RA_TO_BECOME_REPH | ot_position_t::POS_PRE_M)
                        || glyph.category == ot_category_t::OT_H
                }),
                Pause::RecordStch => any(|glyph| glyph.glyph_props.is_multiplied()),
                Pause::RecordRphf | Pause::RecordPref | Pause::ClearSubstitutionFlags => {
                    any(|glyph| glyph.glyph_props.is_substituted())
                }
                Pause::SyllabicClearVar => any(|glyph| glyph.syllable != 0),
                _ => return None,
            },
            Hook::PostprocessGlyphs => return None,
        })
    }
}

/// Gives the syllables of the universal shaper rustybuzz's kinds, which are one more, or ours.
fn renumber(buffer: &mut hb_buffer_t, byte: impl Fn(u8) -> u8) {
    for info in &mut buffer.info[..buffer.len] {
        info.set_syllable(byte(info.syllable()));
    }
}

impl<'f, 'a> Recorded<'f, 'a> {
    pub fn calls(&self) -> &[Call] {
        &self.calls
    }

    /// Lets rustybuzz's buffer have what the call finds.
    pub fn fill_original(&self, call: &Call, buffer: &mut OriginalBuffer) {
        fill(&mut buffer.0, &call.buffer);
        if call.has_kinds() {
            renumber(&mut buffer.0, |byte| if byte == use_syllable::NUMERAL_CLUSTER { 0 } else { byte + 1 });
        }
    }

    /// Lets the crate's buffer have what the call finds.
    pub fn fill_ours(&self, call: &Call, buffer: &mut OurBuffer) {
        let (from, text) = (&call.buffer, &mut buffer.0);
        let mut glyphs: Vec<Glyph> = text.take_glyphs().into();
        text.take_positions();
        glyphs.clear();
        glyphs.extend(from.info[..from.len].iter().map(glyph_of));
        text.set_max_len(from.max_len.max(from.len));
        text.set_cluster_level(parts::cluster_level(from.cluster_level, from.script));
        text.set_flags(BufferFlags::from_harfbuzz(parts::flag_bits(from.flags)));
        text.set_direction(direction_of(from.direction));
        text.set_script(script_of(from.script));
        text.set_has_broken_syllable(from.scratch_flags & HAS_BROKEN_SYLLABLE != 0);
        text.set_has_stch(from.scratch_flags & HAS_STCH != 0);
        text.replace_glyphs(glyphs.into()).expect("it isn't too long");
        if call.hook == Hook::PostprocessGlyphs {
            let are_taken = text.set_positions(positions_of(from.pos[..from.len].to_vec()).into());
            assert!(are_taken, "a position for each glyph");
        }
    }

    /// The call by rustybuzz's own function.
    #[inline(never)]
    pub fn call_original(&self, call: &Call, buffer: &mut OriginalBuffer) {
        self.warm_original(call, buffer);
    }

    /// The call by the crate.
    #[inline(never)]
    pub fn call_ours(&self, call: &Call, buffer: &mut OurBuffer) {
        self.warm_ours(call, buffer);
    }

    /// The same, uncounted.
    #[inline(never)]
    pub fn warm_original(&self, call: &Call, OriginalBuffer(buffer): &mut OriginalBuffer) {
        let (plan, shaper) = (&self.stock, STOCK[call.shaper]);
        match call.hook {
            Hook::PreprocessText => shaper.preprocess_text.expect("a hook")(plan, self.face, buffer),
            Hook::SetupMasks => shaper.setup_masks.expect("a hook")(plan, self.face, buffer),
            Hook::PostprocessGlyphs => shaper.postprocess_glyphs.expect("a hook")(plan, self.face, buffer),
            Hook::ReorderMarks => {
                let reorder_marks = shaper.reorder_marks.expect("a hook");
                for run in &call.marks {
                    reorder_marks(plan, buffer, run.start, run.end);
                }
            }
            Hook::Pause(pause) => {
                black_box(parts::STOCK_PAUSES[usize::from(pause.number())](plan, self.face, buffer));
            }
        }
    }

    /// The same, uncounted.
    #[inline(never)]
    pub fn warm_ours(&self, call: &Call, OurBuffer(text): &mut OurBuffer) {
        let (plan, shaper) = (&self.plan, Shaper::ALL[call.shaper]);
        match call.hook {
            Hook::PreprocessText => preprocess_ours(shaper, plan, self.face, text),
            Hook::SetupMasks => masks_ours(shaper, plan, self.face, text),
            Hook::PostprocessGlyphs => postprocess_ours(shaper, plan, self.face, text),
            Hook::ReorderMarks => {
                for run in &call.marks {
                    let _ = shaper.reorder_marks(plan, text, run.start, run.end);
                }
            }
            Hook::Pause(
                pause @ (Pause::SetupSyllablesIndic
                | Pause::SetupSyllablesKhmer
                | Pause::SetupSyllablesMyanmar
                | Pause::SetupSyllablesUse),
            ) => setup_ours(pause, plan, text),
            Hook::Pause(pause) => pause_ours(pause, plan, self.face, text),
        }
    }

    /// How many glyphs both leave otherwise, but for marks of lookups, and the first of them.
    pub fn differences(&self, call: &Call) -> (usize, String) {
        let (mut original, mut ours) = (OriginalBuffer::default(), OurBuffer::default());
        self.fill_original(call, &mut original);
        self.fill_ours(call, &mut ours);
        self.warm_original(call, &mut original);
        self.warm_ours(call, &mut ours);
        if call.has_kinds() || call.hook == Hook::Pause(Pause::SetupSyllablesUse) {
            renumber(&mut original.0, |byte| byte.checked_sub(1).unwrap_or(use_syllable::NUMERAL_CLUSTER));
        }
        let told = |glyph: &Glyph| {
            let bytes = [glyph.syllable, glyph.category, glyph.auxiliary];
            format!("{:x}={} {:x} {bytes:x?}", glyph.glyph_id, glyph.cluster, glyph.mask)
        };
        let left = original.0.info[..original.0.len].iter().map(|info| told(&glyph_of(info)));
        let pairs = left.zip(ours.0.glyphs().iter().map(told));
        let mut differing = pairs.filter(|(a, b)| a != b);
        let first = differing.next();
        let count = original.0.len.abs_diff(ours.0.len()) + usize::from(first.is_some()) + differing.count();
        (count, first.map_or_else(String::new, |(a, b)| format!("{a} here {b}")))
    }

    /// Makes what rustybuzz's shaper keeps with a plan.
    #[inline(never)]
    pub fn plan_original(&self) -> bool {
        let create_data = self.calls.first().and_then(|call| STOCK[call.shaper].create_data);
        black_box(create_data.map(|create_data| create_data(&self.stock))).is_some()
    }

    /// Makes the crate's plan, of the lists that it takes.
    #[inline(never)]
    pub fn plan_ours(&self, lists: &Lists) -> bool {
        let Some(call) = self.calls.first() else { return false };
        black_box(lists.plan(Shaper::ALL[call.shaper]));
        true
    }

    /// The lists that the crate's plan is made of.
    pub fn lists(&self) -> Lists {
        Lists::of(&self.stock)
    }
}

// ---- The crate's hooks, each a function of its own as rustybuzz's are ----

#[inline(never)]
fn preprocess_ours(shaper: Shaper, plan: &Plan, face: &Face, text: &mut Buffer) {
    shaper.preprocess_text(plan, &parts::font(face), text).expect("there is memory");
}

#[inline(never)]
fn masks_ours(shaper: Shaper, plan: &Plan, face: &Face, text: &mut Buffer) {
    let _ = shaper.setup_masks(plan, &parts::font(face), &UnicodeTables, text);
}

#[inline(never)]
fn postprocess_ours(shaper: Shaper, plan: &Plan, face: &Face, text: &mut Buffer) {
    shaper.postprocess_glyphs(plan, &parts::font(face), text).expect("there is memory");
}

#[inline(never)]
fn setup_ours(pause: Pause, plan: &Plan, text: &mut Buffer) {
    assert!(setup_syllables_found(pause, plan, text), "a pause that sets syllables up");
}

#[inline(never)]
fn pause_ours(pause: Pause, plan: &Plan, face: &Face, text: &mut Buffer) {
    black_box(run_pause(pause, plan, &parts::font(face), &[], text).is_ok());
}

/// What the crate's plan is made of.
pub struct Lists {
    script: Option<Script>,
    features: Vec<FeatureMap>,
    stages: Vec<Range<usize>>,
    lookups: Vec<u16>,
    global_mask: u32,
    chosen_script: Option<Tag>,
    found_script: bool,
    has_gpos_mark: bool,
}

impl Lists {
    fn of(from: &hb_ot_shape_plan_t) -> Lists {
        const GSUB: TableIndex = TableIndex::GSUB;
        let map = &from.ot_map;
        let stages: Vec<_> = (0..map.stages(GSUB).len()).map(|stage| map.stage_lookup_range(GSUB, stage)).collect();
        let features = map.features_of(GSUB).map(|(tag, mask, stage)| FeatureMap::new(parts::tag_of(tag), mask, stage));
        Lists {
            script: script_of(from.script),
            features: features.collect(),
            lookups: (0..stages.last().map_or(0, |last| last.end)).map(|at| map.lookup(GSUB, at).index).collect(),
            global_mask: map.get_global_mask(),
            chosen_script: map.chosen_script(GSUB).map(parts::tag_of),
            found_script: map.found_script(GSUB),
            has_gpos_mark: from.has_gpos_mark,
            stages,
        }
    }

    fn plan(&self, shaper: Shaper) -> Plan {
        let made = Plan::builder()
            .script(self.script)
            .features(&self.features)
            .stages(&self.stages)
            .lookups(&self.lookups)
            .global_mask(self.global_mask)
            .chosen_script(self.chosen_script)
            .found_script(self.found_script)
            .has_gpos_mark(self.has_gpos_mark)
            .base_search(BaseSearch::AllConsonants)
            .build_for(shaper);
        made.expect("stages are ranges, and masks touch no glyph flag")
    }
}

/// Bytes that a glyph takes in rustybuzz's buffer and in ours: its own, with its position, and with all lists that a hook
/// may fill.
pub const BYTES: [[usize; 3]; 2] = {
    let (info, glyph) = (size_of::<Info>(), size_of::<Glyph>());
    let (pos, position) = (size_of::<GlyphPosition>(), size_of::<Position>());
    [[info, info + pos, info + pos], [glyph, glyph + position, glyph + position + size_of::<usize>() + glyph]]
};
