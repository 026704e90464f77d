//! A text's way from characters to glyphs: plans, and what the calls require.
use crate::border::callbacks::{Asked, FONT_ADVANCE, FONT_NOMINAL, FONT_WOULD, Font, FontFuncs};
use crate::border::glyphs::{MAX_LENGTH, Takes};
use crate::border::shaping::{
    AskedLookups, LOOKUPS_POSITION, LOOKUPS_SUBSTITUTE, LOOKUPS_VERTICAL, Lookups, ShapePlanInput,
    TableFeature,
};
use crate::buffer::{Buffer, Content};
use crate::layout::UserFeature;
use crate::numbers::{self, script, tag};
use crate::plan::{choices, list};
use crate::status::{Argument, Error, Status};
use sengadlit::alloc::{Global, Vec as List};
use sengadlit::buffer::{Buffer as Inner, Direction, ShaperError, Tag};
use sengadlit::font::{FeaturesOnly, Font as AnswersFont, GlyphId};
use sengadlit::map::TableIndex;
use sengadlit::ot_shape::{self, ShapeSettings};
use sengadlit::ot_shape_normalize::{NormalizeFont, NormalizeSettings, Rounds};
use sengadlit::ot_shape_plan::{EnginePlan as Plan, FontFeatures};
use sengadlit::ot_shape_position::{DefaultIgnorables, MetricsFont};
use sengadlit::shaper::Shaper;
use sengadlit::shaper::checked::CallError;
use sengadlit::unicode::UnicodeTables;

/// `sengadlit_shape_plan_t`.
pub struct ShapePlan {
    inner: Plan,
    units_per_em: u16,
}

/// What GSUB or GPOS has for a text.
pub struct LayoutTable<'a> {
    pub has_table: bool,
    pub chosen_script: u32,
    pub found_script: bool,
    pub features: List<TableFeature<'a>>,
    pub anywhere: List<TableFeature<'a>>,
    pub required: TableFeature<'a>,
}

impl LayoutTable<'_> {
    fn has(&self, wanted: Tag) -> bool {
        lookups(&self.features, wanted).is_some()
    }
}

// The lookups of the first feature by this tag.
fn lookups<'a>(features: &List<TableFeature<'a>>, wanted: Tag) -> Option<&'a [u16]> {
    let mut features = features.iter();
    let (_, lookups) = features.find(|feature| tag(feature.0) == wanted)?;
    Some(lookups)
}

struct Layout<'a> {
    gsub: &'a LayoutTable<'a>,
    gpos: &'a LayoutTable<'a>,
}

impl Layout<'_> {
    fn table(&self, table: TableIndex) -> &LayoutTable<'_> {
        match table {
            TableIndex::GSUB => self.gsub,
            TableIndex::GPOS => self.gpos,
        }
    }
}

// A tag, of which 0 is none.
fn some_tag(number: u32) -> Option<Tag> {
    (number != 0).then(|| tag(number))
}

impl FontFeatures for Layout<'_> {
    fn has_table(&self, table: TableIndex) -> bool {
        self.table(table).has_table
    }

    fn chosen_script(&self, table: TableIndex) -> Option<Tag> {
        some_tag(self.table(table).chosen_script)
    }

    fn found_script(&self, table: TableIndex) -> bool {
        self.table(table).found_script
    }

    fn feature_lookups(&self, table: TableIndex, tag: Tag) -> Option<&[u16]> {
        lookups(&self.table(table).features, tag)
    }

    fn any_feature_lookups(&self, table: TableIndex, tag: Tag) -> Option<&[u16]> {
        lookups(&self.table(table).anywhere, tag)
    }

    fn required_feature(&self, table: TableIndex) -> Option<Tag> {
        some_tag(self.table(table).required.0)
    }

    fn required_lookups(&self, table: TableIndex) -> &[u16] {
        self.table(table).required.1
    }
}

// The units of an em where a font has no table that tells, as in HarfBuzz.
const UNITS_PER_EM: u16 = 1000;

/// The plan of a text of this script and direction, in a font with these tables.
pub fn make(
    input: &ShapePlanInput,
    gsub: &LayoutTable<'_>,
    gpos: &LayoutTable<'_>,
    users: &[UserFeature],
) -> Result<ShapePlan, Error> {
    let direction = numbers::direction(input.direction);
    let direction = direction.filter(|known| *known != Direction::Invalid);
    let direction = direction.ok_or_else(|| Error::argument(Argument::Direction))?;
    let units_per_em = u16::try_from(input.units_per_em);
    let units_per_em = units_per_em.map_err(|_| Error::argument(Argument::Input))?;
    let wanted = list(users, UserFeature::wanted).map_err(ShaperError::from)?;
    let font = FeaturesOnly(|tag: Tag| gsub.has(tag) || gpos.has(tag));
    let layout = Layout { gsub, gpos };
    let choices = choices(
        input.centres_stretch,
        input.sound_breaks,
        input.searches_medials,
        input.new_spec_zero_context,
    );
    let (script, users) = (script(input.script), wanted.as_slice());
    let inner = Plan::with_choices(Global, script, direction, &font, &layout, users, choices)?;
    Ok(ShapePlan {
        inner,
        units_per_em: match units_per_em {
            0 => UNITS_PER_EM,
            units => units,
        },
    })
}

/// A font with the functions of lookups that normalization and positions call.
struct ShapedFont<'a> {
    font: Asked<FontFuncs>,
    lookups: &'a AskedLookups,
    units_per_em: u16,
}

impl AnswersFont for ShapedFont<'_> {
    fn nominal_glyph(&self, c: u32) -> Option<GlyphId> {
        self.font.nominal_glyph(c)
    }

    fn glyph_h_advance(&self, glyph: GlyphId) -> i32 {
        self.font.glyph_h_advance(glyph)
    }

    fn would_apply(&self, lookup: u16, glyphs: &[GlyphId], zero_context: bool) -> bool {
        self.font.would_apply(lookup, glyphs, zero_context)
    }

    fn would_apply_any(&self, lookups: &[u16], glyphs: &[GlyphId], zero_context: bool) -> bool {
        self.font.would_apply_any(lookups, glyphs, zero_context)
    }

    fn has_feature(&self, tag: Tag) -> bool {
        self.font.has_feature(tag)
    }
}

impl NormalizeFont for ShapedFont<'_> {
    fn variation_glyph(&self, c: u32, selector: u32) -> Option<GlyphId> {
        self.lookups.variation_glyph(c, selector)
    }
}

impl MetricsFont for ShapedFont<'_> {
    fn units_per_em(&self) -> u16 {
        self.units_per_em
    }

    fn glyph_v_advance(&self, glyph: GlyphId) -> i32 {
        self.lookups.glyph_v_advance(glyph)
    }

    fn glyph_v_origin(&self, glyph: GlyphId) -> (i32, i32) {
        self.lookups.glyph_v_origin(glyph)
    }
}

// Which functions of the font a text of this plan takes.
fn asks_of(plan: &Plan) -> u8 {
    let own = match plan.shaper() {
        Some(Shaper::Hangul) => FONT_ADVANCE,
        Some(Shaper::Indic) if !plan.lookups().is_empty() => FONT_WOULD,
        _ => 0,
    };
    FONT_NOMINAL | own
}

// Which functions of the lookups substitutions of this plan take, and which positions.
fn substituting_asks(plan: &Plan) -> u8 {
    match plan.lookups() {
        [] => 0,
        _ => LOOKUPS_SUBSTITUTE,
    }
}

fn positioning_asks(plan: &Plan, is_vertical: bool) -> u8 {
    let positions = plan.applies_gpos() && !plan.positioning().is_empty();
    let of_gpos = if positions { LOOKUPS_POSITION } else { 0 };
    let of_font = if is_vertical { LOOKUPS_VERTICAL } else { 0 };
    of_gpos | of_font
}

/// An empty buffer with the settings of a text, which stands for it while a callback has its glyphs.
pub fn settled(text: &Inner) -> Inner {
    let mut empty = Inner::new(Global, MAX_LENGTH);
    empty.set_settings(&text.settings());
    empty
}

/// How a text is shaped as HarfBuzz shapes it.
const SETTINGS: ShapeSettings = ShapeSettings {
    normalize: NormalizeSettings {
        rounds: Rounds::AsCode,
        invisible_glyph: None,
        draws_selectors: false,
    },
    ignorables: DefaultIgnorables::Hide,
};

/// `sengadlit_substitute_text`.
pub fn substitute_text(
    plan: &ShapePlan,
    font: Option<&Font>,
    lookups: Option<&Lookups>,
    buffer: &mut Buffer,
) -> Result<Status, Error> {
    let inner = &plan.inner;
    let font = Asked::font(font, asks_of(inner))?;
    let lookups = &AskedLookups::of(lookups, substituting_asks(inner))?;
    let font = plan.shaped_font(font, lookups);
    buffer.are_characters()?;
    buffer.run(Takes::Numbers, |text| {
        let settings = &SETTINGS.normalize;
        let done = ot_shape::substitute_text(inner, settings, &font, &UnicodeTables, lookups, text);
        lookups.ended(done.map_err(of_call))
    })?;
    buffer.set_content(Content::Glyphs);
    Ok(Status::Done)
}

/// `sengadlit_shape`.
pub fn shape(
    plan: &ShapePlan,
    font: Option<&Font>,
    lookups: Option<&Lookups>,
    buffer: &mut Buffer,
) -> Result<Status, Error> {
    let inner = &plan.inner;
    let font = Asked::font(font, asks_of(inner) | FONT_ADVANCE)?;
    let direction = inner.direction();
    let is_vertical = matches!(direction, Direction::TopToBottom | Direction::BottomToTop);
    let asks = substituting_asks(inner) | positioning_asks(inner, is_vertical);
    let lookups = &AskedLookups::of(lookups, asks)?;
    let font = plan.shaped_font(font, lookups);
    buffer.are_characters()?;
    let settings = ShapeSettings {
        ignorables: buffer.ignorables(),
        ..SETTINGS
    };
    buffer.run_to_positions(Takes::Numbers, |text| {
        let done = ot_shape::shape(inner, &settings, &font, &UnicodeTables, lookups, text);
        lookups.ended(done.map_err(of_call))
    })?;
    buffer.set_complete(true);
    Ok(Status::Done)
}

impl ShapePlan {
    fn shaped_font<'a>(&self, font: Asked<FontFuncs>, lookups: &'a AskedLookups) -> ShapedFont<'a> {
        ShapedFont {
            font,
            lookups,
            units_per_em: self.units_per_em,
        }
    }
}

/// The conditions are tested before: the text is of characters, without positions, and its glyphs have numbers of a font.
pub fn of_call(error: CallError) -> Error {
    match error {
        CallError::Refused(refusal) => refusal.into(),
        CallError::Condition(condition) => unreachable!("{condition:?} isn't met"),
    }
}

#[cfg(test)]
mod tests {
    use super::*;
    use crate::border::shaping::{LayoutTableInput, TableFeatureInput};
    use core::ptr::null;
    use sengadlit::plan::{BaseSearch, BreakFlags, StretchStart, ZeroContext};

    fn no_table() -> LayoutTableInput {
        LayoutTableInput {
            has_table: 0,
            chosen_script: 0,
            found_script: 0,
            features_length: 0,
            features: null(),
            anywhere: null(),
            anywhere_length: 0,
            required: TableFeatureInput {
                tag: 0,
                lookups_length: 0,
                lookups: null(),
            },
        }
    }

    type Choices = (StretchStart, BreakFlags, BaseSearch, ZeroContext);

    // The units of an em, and the choices, of the plan for these fields.
    fn made(units_per_em: u32, bits: [i32; 4]) -> (u16, Choices) {
        let [
            centres_stretch,
            sound_breaks,
            searches_medials,
            new_spec_zero_context,
        ] = bits;
        let input = ShapePlanInput {
            size: 0,
            script: u32::from_be_bytes(*b"Deva"),
            direction: 4,
            gsub: no_table(),
            gpos: no_table(),
            user_features: null(),
            user_features_length: 0,
            units_per_em,
            centres_stretch,
            sound_breaks,
            searches_medials,
            reserved: 0,
            new_spec_zero_context,
        };
        let empty = || LayoutTable {
            has_table: false,
            chosen_script: 0,
            found_script: false,
            features: List::new(Global),
            anywhere: List::new(Global),
            required: (0, &[]),
        };
        let plan = make(&input, &empty(), &empty(), &[]).ok().unwrap();
        let kept = plan.inner.plan();
        let choices = (
            kept.stretch_start,
            kept.break_flags,
            kept.base_search,
            kept.zero_context,
        );
        (plan.units_per_em, choices)
    }

    #[test]
    fn each_choice_of_the_input_is_the_plans() {
        use BaseSearch::{AllConsonants, WithoutMedials};
        use BreakFlags::Sound;
        use StretchStart::{AsCode, Centred};
        use ZeroContext::{NewSpec, OldSpec};
        let code = BreakFlags::AsCode;
        let none = (AsCode, code, WithoutMedials, OldSpec);
        let rows = [
            (0, [0, 0, 0, 0], (1000, none)),
            (1, [1, 0, 0, 0], (1, (Centred, code, none.2, OldSpec))),
            (2048, [0, 1, 0, 0], (2048, (AsCode, Sound, none.2, OldSpec))),
            (
                65535,
                [0, 0, 1, 0],
                (65535, (AsCode, code, AllConsonants, OldSpec)),
            ),
            (1, [0, 0, 0, 1], (1, (AsCode, code, none.2, NewSpec))),
        ];
        for (units, bits, wanted) in rows {
            assert_eq!(made(units, bits), wanted);
        }
    }
}
