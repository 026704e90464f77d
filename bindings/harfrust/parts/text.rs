//! A text before its features and lookups. The steps are those of `sengadlit`: it is lent the host's glyphs for all of them, and
//! the host is told what its later steps want to know.

use sengadlit::ot_shape_normalize::{ot_shape_normalize, NormalizeSettings, Rounds};
use sengadlit::ot_shape_prepare::{
    ensure_native_direction, flag_zwnj_graphemes, form_clusters, insert_dotted_circle,
    preprocess_text_vowel_constraints, rotate_chars, set_unicode_properties, CharRotation, BEGINNING_OF_TEXT,
};
use sengadlit::{BufferClusterLevel, Font};

use super::super::*;
use super::{cluster_level, font, grapheme_level, narrow, Numbers};
use crate::hb::ot_shape::OtShapeContext;
use crate::BufferFlags as HostFlags;

/// What a plan without a shaper of its own keeps.
pub fn data_without_shaper(_: &hb_ot_shape_plan_t) -> Box<dyn Any + Send + Sync> {
    let plan = Plan::builder().build().expect("memory for an empty plan");
    Box::new(ShaperPlan { shaper: None, plan })
}

/// Prepares and normalizes the text that is being shaped.
#[cfg(not(feature = "shadow"))]
pub fn prepare(context: &mut OtShapeContext) {
    run_steps(context);
}

/// The same, after the host's own steps, which what they made is compared with.
#[cfg(feature = "shadow")]
pub fn prepare(context: &mut OtShapeContext) {
    let shaper = context.plan.data::<ShaperPlan>().shaper;
    let shaper = shaper.and_then(|shaper| Shaper::ALL.iter().position(|other| *other == shaper));
    let (before, direction) = (shadow::Snapshot::of(context.buffer), context.buffer.direction);
    context.prepare_as_it_is();
    let (by_host, turned) = (shadow::Snapshot::of(context.buffer), context.buffer.direction);
    before.put_back(context.buffer);
    context.buffer.direction = direction;
    context.buffer.work.begin();
    run_steps(context);
    let answers = [turned, context.buffer.direction];
    shadow::compare(shaper.unwrap_or(9), "prepare", &[before, by_host], context.buffer, answers);
}

/// Where a step is refused, the text is what the steps before it made, and the buffer has failed.
fn run_steps(context: &mut OtShapeContext) {
    let steps = Steps::of(context);
    let numbers = Numbers::of(context.font_funcs);
    on_text(context.buffer, |text| steps.run(&numbers, text));
    if context.buffer.work.text().direction() != direction_of(context.buffer.direction) {
        context.buffer.direction = context.buffer.direction.reverse();
    }
    hand_over(&numbers, context.buffer);
}

/// What the steps read of the host's plan and buffer.
struct Steps<'p> {
    made: &'p ShaperPlan,
    may_begin_with_circle: bool,
    rotation: CharRotation,
    settings: NormalizeSettings,
    grapheme_level: BufferClusterLevel,
    level: BufferClusterLevel,
}

impl<'p> Steps<'p> {
    fn of(context: &OtShapeContext<'p, '_>) -> Self {
        let (plan, buffer) = (context.plan, &*context.buffer);
        let (direction, rtlm_mask, has_vert) = (direction_of(context.target_direction), plan.rtlm_mask, plan.has_vert);
        let always = buffer.flags.contains(HostFlags::NORMALIZE_ALWAYS);
        Steps {
            made: plan.data(),
            may_begin_with_circle: buffer.flags.contains(HostFlags::BEGINNING_OF_TEXT) && buffer.context_len[0] == 0,
            rotation: CharRotation { direction, rtlm_mask, has_vert },
            settings: NormalizeSettings {
                rounds: if always { Rounds::Always } else { Rounds::AsCode },
                invisible_glyph: buffer.invisible.and_then(|glyph| narrow(glyph.to_u32())),
                draws_selectors: buffer.not_found_variation_selector.is_some(),
            },
            grapheme_level: grapheme_level(buffer.cluster_level),
            level: cluster_level(buffer.cluster_level, None),
        }
    }

    fn run(&self, numbers: &Numbers, text: &mut Buffer) -> Result<(), ShaperError> {
        let ShaperPlan { shaper, plan } = self.made;
        set_unicode_properties(&Ucd, text);
        if self.may_begin_with_circle {
            text.set_flags(BufferFlags(text.flags().0 | BEGINNING_OF_TEXT.0));
            text.set_pre_context(&[]);
        }
        insert_dotted_circle(&Ucd, numbers, text)?;
        at_level(self.grapheme_level, text, form_clusters);
        at_level(self.level, text, ensure_native_direction);
        match shaper {
            None => {}
            Some(Shaper::Indic) => {
                preprocess_text_vowel_constraints(text)?;
                flag_zwnj_graphemes(plan.break_flags, text);
            }
            Some(Shaper::Universal) => preprocess_text_vowel_constraints(text)?,
            Some(shaper) => {
                let characters = text.glyphs().iter().map(|glyph| glyph.glyph_id);
                if may_rewrite(*shaper, plan, characters, |c| numbers.has_glyph(c)) {
                    shaper.preprocess_text(plan, &font(&mut numbers.host()), text)?;
                }
            }
        }
        rotate_chars(&Ucd, numbers, &self.rotation, text);
        let normalize = |text: &mut Buffer| ot_shape_normalize(*shaper, plan, numbers, &Ucd, &self.settings, text);
        at_level(self.level, text, normalize)
    }
}

/// Does a step at a level, and gives the text the level of the hooks back.
fn at_level<T>(level: BufferClusterLevel, text: &mut Buffer, step: impl FnOnce(&mut Buffer) -> T) -> T {
    let of_hooks = text.cluster_level();
    text.set_cluster_level(level);
    let done = step(text);
    text.set_cluster_level(of_hooks);
    done
}

/// Gives the host the numbers of its glyphs, and notes what it wants to know of them.
fn hand_over(numbers: &Numbers, buffer: &mut hb_buffer_t) {
    let infos = &mut buffer.info[..buffer.len];
    if numbers.has_beyond() || cfg!(target_endian = "big") {
        for info in &mut *infos {
            info.set_normalizer_glyph_index(numbers.whole(info.glyph_id, info.glyph_props()));
        }
    }
    buffer.scratch_flags |= infos.iter().map(noted_of).fold(0, |all, noted| all | noted);
}

/// What the host wants to know of a glyph. Most have neither class nor width, and are always drawn.
#[inline]
fn noted_of(info: &Info) -> hb_buffer_scratch_flags_t {
    if info.glyph_id == 0x2044 {
        HB_BUFFER_SCRATCH_FLAG_HAS_FRACTION_SLASH
    } else if info.unicode_props() & (0xFF00 | UnicodeProps::IGNORABLE.0) == 0 {
        HB_BUFFER_SCRATCH_FLAG_DEFAULT
    } else if info.unicode_props() & UnicodeProps::IGNORABLE.0 != 0 {
        HB_BUFFER_SCRATCH_FLAG_HAS_DEFAULT_IGNORABLES
    } else if info.is_unicode_space() {
        HB_BUFFER_SCRATCH_FLAG_HAS_SPACE_FALLBACK
    } else if info.is_variation_selector() {
        HB_BUFFER_SCRATCH_FLAG_HAS_VARIATION_SELECTOR_FALLBACK
    } else {
        HB_BUFFER_SCRATCH_FLAG_DEFAULT
    }
}
