//! Both versions of each hook and pause on each call: the host's own runs first, the buffer is put back, the hooks' runs,
//! and every field of each glyph is compared. What the hooks made stays.

use alloc::boxed::Box;
use alloc::collections::BTreeMap;
use alloc::format;
use alloc::string::String;
use alloc::vec::Vec;
use core::any::Any;
use std::sync::{Mutex, PoisonError};

use sengadlit::ot_shaper_syllabic::use_syllable;

use super::*;

pub(super) use super::{collect_features, override_features};

// ---- What was counted ----

/// What differs, each with its bit.
const FIELDS: [&str; 12] = [
    "length",
    "glyph",
    "cluster",
    "mask",
    "flags",
    "syllable",
    "category",
    "auxiliary",
    "lookup-props",
    "unicode-props",
    "position",
    "answer",
];

/// The most differences of which an example is kept.
const EXAMPLES: usize = 200;

/// Calls by shaper, hook and differing fields, and examples.
struct Tally {
    calls: BTreeMap<(&'static str, &'static str, u32), u64>,
    examples: Vec<String>,
}

static TALLY: Mutex<Tally> = Mutex::new(Tally { calls: BTreeMap::new(), examples: Vec::new() });

/// A line `SHAPER HOOK FIELDS CALLS` for each shaper, hook and set of fields that differ, `same` where none does, and an
/// example for some: the text before, and after each hook. Begins anew.
pub fn shadow_report() -> Vec<String> {
    let mut tally = TALLY.lock().unwrap_or_else(PoisonError::into_inner);
    let calls = core::mem::take(&mut tally.calls).into_iter();
    let counted = calls.map(|((shaper, hook, fields), calls)| format!("{shaper} {hook} {} {calls}", names_of(fields)));
    let mut lines: Vec<_> = counted.collect();
    lines.append(&mut tally.examples);
    lines
}

fn names_of(fields: u32) -> String {
    let bits = FIELDS.iter().enumerate();
    let names: Vec<_> = bits.filter(|(bit, _)| fields >> bit & 1 != 0).map(|(_, name)| *name).collect();
    if names.is_empty() {
        "same".into()
    } else {
        names.join("+")
    }
}

fn count(shaper: usize, hook: &'static str, fields: u32, example: impl FnOnce() -> String) {
    let shaper = NAMES[shaper];
    let mut tally = TALLY.lock().unwrap_or_else(PoisonError::into_inner);
    let calls = tally.calls.entry((shaper, hook, fields)).or_default();
    *calls += 1;
    if fields != 0 && *calls <= 3 && tally.examples.len() < EXAMPLES {
        let example = format!("# {shaper} {hook} {}: {}", names_of(fields), example());
        tally.examples.push(example);
    }
}

const NAMES: [&str; 10] =
    ["arabic", "hangul", "hebrew", "indic", "khmer", "myanmar", "myanmar-zawgyi", "thai", "universal", "none"];

/// The host's own shapers.
const STOCK: [&hb_ot_shaper_t; 9] = [
    &crate::hb::ot_shaper_arabic::ARABIC_SHAPER,
    &crate::hb::ot_shaper_hangul::HANGUL_SHAPER,
    &crate::hb::ot_shaper_hebrew::HEBREW_SHAPER,
    &crate::hb::ot_shaper_indic::INDIC_SHAPER,
    &crate::hb::ot_shaper_khmer::KHMER_SHAPER,
    &crate::hb::ot_shaper_myanmar::MYANMAR_SHAPER,
    &crate::hb::ot_shaper_myanmar::MYANMAR_ZAWGYI_SHAPER,
    &crate::hb::ot_shaper_thai::THAI_SHAPER,
    &crate::hb::ot_shaper_use::UNIVERSAL_SHAPER,
];

// ---- A call ----

/// What a hook reads and writes of a buffer.
#[derive(Clone)]
pub(super) struct Snapshot {
    infos: Vec<Info>,
    positions: Vec<GlyphPosition>,
    len: usize,
    successful: bool,
    have_positions: bool,
    scratch_flags: hb_buffer_scratch_flags_t,
    var_bits: u8,
}

impl Snapshot {
    pub(super) fn of(buffer: &hb_buffer_t) -> Self {
        Snapshot {
            infos: buffer.info.clone(),
            positions: buffer.pos.clone(),
            len: buffer.len,
            successful: buffer.successful,
            have_positions: buffer.have_positions,
            scratch_flags: buffer.scratch_flags,
            var_bits: parts::var_bits(buffer),
        }
    }

    pub(super) fn put_back(&self, buffer: &mut hb_buffer_t) {
        buffer.info.clone_from(&self.infos);
        buffer.pos.clone_from(&self.positions);
        buffer.len = self.len;
        buffer.successful = self.successful;
        buffer.have_positions = self.have_positions;
        buffer.scratch_flags = self.scratch_flags;
        parts::set_var_bits(self.var_bits, buffer);
    }

    /// The fields in which two results differ.
    fn compare(&self, other: &Self) -> u32 {
        let infos = self.infos[..self.len].iter().zip(&other.infos[..other.len]);
        let mut fields = infos.map(|(a, b)| compare_infos(a, b)).fold(0, |all, here| all | here);
        if self.have_positions {
            let pairs = self.positions[..self.len].iter().zip(&other.positions[..other.len]);
            let differ = |(a, b): (&GlyphPosition, &GlyphPosition)| fields_of(a) != fields_of(b);
            fields |= u32::from(pairs.into_iter().any(differ)) << 10;
        }
        let marks = HAS_BROKEN_SYLLABLE | HAS_STCH;
        let is_answer = self.successful != other.successful || (self.scratch_flags ^ other.scratch_flags) & marks != 0;
        fields | u32::from(self.len != other.len) | u32::from(is_answer) << 11
    }

    fn show(&self) -> String {
        let shown = self.infos[..self.len].iter().map(|info| {
            let glyph = glyph_of(info);
            let lookups = [glyph.glyph_props.0, glyph.lig_props.0.into(), glyph.syllable.into()];
            let (props, bytes) = (glyph.unicode_props.0, [glyph.category, glyph.auxiliary]);
            format!("{:04x}={},{:x},{lookups:x?},{props:04x},{bytes:x?}", glyph.glyph_id, glyph.cluster, glyph.mask)
        });
        shown.collect::<Vec<_>>().join(" ")
    }
}

fn fields_of(position: &GlyphPosition) -> ([i32; 4], u32) {
    let &GlyphPosition { x_advance, y_advance, x_offset, y_offset, var } = position;
    ([x_advance, y_advance, x_offset, y_offset], var)
}

fn compare_infos(a: &Info, b: &Info) -> u32 {
    let differ = [
        false,
        a.glyph_id != b.glyph_id,
        a.cluster != b.cluster,
        (a.mask ^ b.mask) & !7 != 0,
        (a.mask ^ b.mask) & 7 != 0,
        a.syllable() != b.syllable(),
        a.ot_shaper_var_u8_category() != b.ot_shaper_var_u8_category(),
        a.ot_shaper_var_u8_auxiliary() != b.ot_shaper_var_u8_auxiliary(),
        a.glyph_props() != b.glyph_props() || a.lig_props() != b.lig_props(),
        a.unicode_props() != b.unicode_props(),
    ];
    differ.iter().rev().fold(0, |fields, differs| fields << 1 | u32::from(*differs))
}

/// Runs the host's own hook (`true`), puts the buffer back, runs the hooks' (`false`), and compares.
fn both<A: PartialEq>(
    shaper: usize,
    hook: &'static str,
    buffer: &mut hb_buffer_t,
    mut run: impl FnMut(&mut hb_buffer_t, bool) -> A,
) -> A {
    let before = Snapshot::of(buffer);
    let stock_answer = run(buffer, true);
    let by_stock = Snapshot::of(buffer);
    before.put_back(buffer);
    let answer = run(buffer, false);
    compare(shaper, hook, &[before, by_stock], buffer, [&stock_answer, &answer]);
    answer
}

/// Counts what differs between the buffer as the host's own made it, of these two, and as it is now, and between answers.
pub(super) fn compare<A: PartialEq>(
    shaper: usize,
    hook: &'static str,
    [before, by_stock]: &[Snapshot; 2],
    buffer: &hb_buffer_t,
    answers: [A; 2],
) {
    let by_hooks = Snapshot::of(buffer);
    let fields = by_stock.compare(&by_hooks) | u32::from(answers[0] != answers[1]) << 11;
    count(shaper, hook, fields, || {
        let setting = format!("level {:?} flags {:x}", buffer.cluster_level, buffer.flags.bits());
        format!("{setting}\n  before    {}\n  stock     {}\n  sengadlit {}", before.show(), by_stock.show(), by_hooks.show())
    });
}

// ---- Plans ----

/// What is kept with a plan: the number of its shaper, and what both make.
struct Kept {
    shaper: usize,
    sengadlit: Box<dyn Any + Send + Sync>,
    stock: Option<Box<dyn Any + Send + Sync>>,
}

pub fn create_data<const S: usize>(plan: &hb_ot_shape_plan_t) -> Box<dyn Any + Send + Sync> {
    let stock = STOCK[S].create_data.map(|create_data| create_data(plan));
    Box::new(Kept { shaper: S, sengadlit: super::create_data::<S>(plan), stock })
}

/// What is kept of this type.
pub fn kept<T: 'static>(data: &(dyn Any + Send + Sync)) -> Option<&T> {
    let Some(kept) = data.downcast_ref::<Kept>() else { return data.downcast_ref() };
    let of_stock = || kept.stock.as_ref()?.downcast_ref();
    kept.sengadlit.downcast_ref().or_else(of_stock).or_else(|| data.downcast_ref())
}

// ---- Hooks ----

pub fn preprocess_text<const S: usize>(plan: &hb_ot_shape_plan_t, font: FontRef, buffer: &mut hb_buffer_t) {
    let stock = STOCK[S].preprocess_text.expect("both have the hook");
    both(S, "preprocess_text", buffer, |buffer, is_stock| {
        let run = if is_stock { stock } else { super::preprocess_text::<S> };
        run(plan, font, buffer);
    });
}

pub fn setup_masks<const S: usize>(plan: &hb_ot_shape_plan_t, font: FontRef, buffer: &mut hb_buffer_t) {
    let stock = STOCK[S].setup_masks.expect("both have the hook");
    both(S, "setup_masks", buffer, |buffer, is_stock| {
        let run = if is_stock { stock } else { super::setup_masks::<S> };
        run(plan, font, buffer);
    });
}

pub fn postprocess_glyphs<const S: usize>(plan: &hb_ot_shape_plan_t, font: FontRef, buffer: &mut hb_buffer_t) {
    let stock = STOCK[S].postprocess_glyphs.expect("both have the hook");
    both(S, "postprocess_glyphs", buffer, |buffer, is_stock| {
        let run = if is_stock { stock } else { super::postprocess_glyphs::<S> };
        run(plan, font, buffer);
    });
}

pub fn reorder_marks<const S: usize>(plan: &hb_ot_shape_plan_t, buffer: &mut hb_buffer_t, start: usize, end: usize) {
    let stock = STOCK[S].reorder_marks.expect("both have the hook");
    both(S, "reorder_marks", buffer, |buffer, is_stock| {
        let run = if is_stock { stock } else { super::reorder_marks::<S> };
        run(plan, buffer, start, end);
    });
}

pub fn compose<const S: usize>(
    context: &hb_ot_shape_normalize_context_t,
    a: Codepoint,
    b: Codepoint,
) -> Option<Codepoint> {
    let composed = super::compose::<S>(context, a, b);
    let stock = STOCK[S].compose.and_then(|compose| compose(context, a, b));
    count(S, "compose", u32::from(composed != stock) << 11, || format!("{a:?} {b:?}: {stock:?} {composed:?}"));
    composed
}

pub fn decompose<const S: usize>(
    context: &hb_ot_shape_normalize_context_t,
    ab: Codepoint,
) -> Option<(Codepoint, Codepoint)> {
    let parts = super::decompose::<S>(context, ab);
    let stock = STOCK[S].decompose.and_then(|decompose| decompose(context, ab));
    count(S, "decompose", u32::from(parts != stock) << 11, || format!("{ab:?}: {stock:?} {parts:?}"));
    parts
}

// ---- Pauses ----

/// By the number of the pause.
const PAUSE_NAMES: [&str; 15] = [
    "setup_syllables_indic",
    "setup_syllables_khmer",
    "setup_syllables_myanmar",
    "setup_syllables_use",
    "initial_reordering",
    "reorder_khmer",
    "reorder_myanmar",
    "reorder_use",
    "final_reordering",
    "record_stch",
    "record_rphf",
    "record_pref",
    "syllabic_clear_var",
    "clear_substitution_flags",
    "arabic_fallback_shape",
];

pub fn pause<const P: usize>(plan: &hb_ot_shape_plan_t, font: FontRef, buffer: &mut hb_buffer_t) -> bool {
    let kept = plan.data.as_ref().and_then(|data| data.downcast_ref::<Kept>());
    let shaper = kept.expect("the plan has its data").shaper;
    both(shaper, PAUSE_NAMES[P], buffer, |buffer, is_stock| {
        if !is_stock {
            return super::pause::<P>(plan, font, buffer);
        }
        let has_kinds = matches!(Pause::ALL[P], Pause::RecordRphf | Pause::RecordPref | Pause::ReorderUse);
        if has_kinds {
            renumber(buffer, |byte| if byte == use_syllable::NUMERAL_CLUSTER { 0 } else { byte + 1 });
        }
        let answer = parts::STOCK_PAUSES[P](plan, font, buffer);
        if has_kinds || Pause::ALL[P] == Pause::SetupSyllablesUse {
            renumber(buffer, |byte| byte.checked_sub(1).unwrap_or(use_syllable::NUMERAL_CLUSTER));
        }
        answer
    })
}

/// Gives the syllables of the universal shaper other bytes: those of the host's kinds, or of the hooks'.
fn renumber(buffer: &mut hb_buffer_t, byte: impl Fn(u8) -> u8) {
    for info in &mut buffer.info[..buffer.len] {
        info.set_syllable(byte(info.syllable()));
    }
}
