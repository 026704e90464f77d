//! The steps of a text in a font file: what comes before its lookups, each lookup and each pause that
//! changes the text, and what is left.

use super::glyph::Names;
use super::told::told;
use super::{Choices, MOST_IN_ALL, MOST_SHOWN, Step, Steps, wanted_of};
use crate::drawing::{Legend, draw_glyphs};
use sengadlit::buffer::BufferFlags;
use sengadlit::opentype::{ShapeStep, try_shape_in_steps};
use sengadlit::shaper::checked::CallError;
use sengadlit::{
    Buffer, BufferClusterLevel, Direction, Face, GlyphInfo, GlyphPosition, Script, ShapePlan,
    Shaper, UnicodeBuffer,
};
use std::cell::RefCell;

/// The glyph flags among the bits of a mask: what a mask's other bits are, the plan alone knows.
const GLYPH_FLAGS: u32 = 7;

/// The glyphs of a text behind a step, in the order that they stand in.
struct Snapshot {
    name: String,
    glyphs: Vec<GlyphInfo>,
    positions: Vec<GlyphPosition>,
    is_rtl: bool,
}

impl Snapshot {
    fn of(name: String, buffer: &Buffer, is_rtl: bool) -> Self {
        Snapshot {
            name,
            glyphs: buffer.glyphs().iter().map(shown).collect(),
            positions: buffer.positions().to_vec(),
            is_rtl,
        }
    }

    // Whether the buffer has other glyphs or positions.
    fn differs(&self, buffer: &Buffer) -> bool {
        !buffer
            .glyphs()
            .iter()
            .map(shown)
            .eq(self.glyphs.iter().copied())
            || buffer.positions() != self.positions
    }
}

// What is shown of a glyph.
fn shown(glyph: &GlyphInfo) -> GlyphInfo {
    GlyphInfo {
        mask: glyph.mask & GLYPH_FLAGS,
        ..*glyph
    }
}

/// The texts behind the steps so far.
#[derive(Default)]
struct Told {
    snapshots: RefCell<Vec<Snapshot>>,
    is_rtl: bool,
}

impl Told {
    // Takes in a step, if it left another text than the one before.
    fn add(&self, step: ShapeStep, buffer: &Buffer) {
        let mut snapshots = self.snapshots.borrow_mut();
        let last = snapshots.last();
        let shown: usize = snapshots.iter().map(|it| it.glyphs.len()).sum();
        if shown + buffer.len() > MOST_IN_ALL || last.is_some_and(|last| !last.differs(buffer)) {
            return;
        }
        let has_positions = last.is_some_and(|last| !last.positions.is_empty());
        let name = match step {
            ShapeStep::SubstitutionStarts(_) if last.is_none() => "before lookups".into(),
            ShapeStep::SubstitutionStarts(_) => "the shaper between lookups".into(),
            ShapeStep::SubstitutionEnds(lookup) => format!("lookup {lookup} of GSUB"),
            ShapeStep::PositioningStarts(_) if has_positions => "the shaper between lookups".into(),
            ShapeStep::PositioningStarts(_) => "advances".into(),
            ShapeStep::PositioningEnds(lookup) => format!("lookup {lookup} of GPOS"),
        };
        snapshots.push(Snapshot::of(name, buffer, self.is_rtl));
    }
}

impl Steps {
    /// The steps of a text in a font: the text before the font's lookups, behind each lookup and each
    /// pause of the shaper that changes it, and what is shaped in the end. Where the font has no
    /// lookups there is the end alone. More than [`MOST_SHOWN`] characters are cut off.
    ///
    /// # Errors
    ///
    /// Memory is refused, or the text gets too long.
    pub fn in_font(text: &str, choices: &Choices, face: &Face<'_>) -> Result<Self, CallError> {
        let text: String = text.chars().take(MOST_SHOWN).collect();
        let buffer = buffer_of(&text, choices);
        let (script, direction) = (buffer.script(), buffer.direction());
        let wanted = wanted_of(choices);
        let plan = ShapePlan::builder()
            .script(script)
            .direction(direction)
            .break_flags(wanted.shape.break_flags)
            .rounds(wanted.rounds)
            .build(face)?;
        let is_rtl = direction == Direction::RightToLeft;
        let told = Told {
            is_rtl,
            ..Told::default()
        };
        let end = try_shape_in_steps(face, &plan, buffer, &|step, buffer| told.add(step, buffer));
        let mut snapshots = told.snapshots.into_inner();
        let end = end.map_err(|refused| refused.error)?;
        snapshots.push(Snapshot {
            name: "shape".into(),
            glyphs: end.glyph_infos().iter().map(shown).collect(),
            positions: end.glyph_positions().to_vec(),
            is_rtl: false,
        });
        let mut legend = Legend::default();
        let shaper = plan.shaper();
        let steps = steps_of(&snapshots, face, shaper, &mut legend);
        Ok(Steps {
            steps,
            legend: legend.to_string(),
            script: script.map(|script| script.0),
            ended: None,
            text,
        })
    }
}

// The text with what is chosen: clusters are places.
fn buffer_of(text: &str, choices: &Choices) -> UnicodeBuffer {
    let mut buffer = UnicodeBuffer::new();
    for (cluster, character) in (0..).zip(text.chars()) {
        buffer.add(character, cluster);
    }
    if let Some(script) = choices.script {
        buffer.set_script(Script(script));
    }
    if let Some(is_rtl) = choices.is_rtl {
        let chosen = [Direction::LeftToRight, Direction::RightToLeft];
        buffer.set_direction(chosen[usize::from(is_rtl)]);
    }
    buffer.set_cluster_level(match choices.level {
        0 => BufferClusterLevel::MonotoneGraphemes,
        1 => BufferClusterLevel::MonotoneCharacters,
        _ => BufferClusterLevel::Characters,
    });
    buffer.set_flags(BufferFlags::from_harfbuzz(choices.flags));
    buffer.guess_segment_properties();
    buffer
}

fn steps_of(
    snapshots: &[Snapshot],
    face: &Face<'_>,
    shaper: Option<Shaper>,
    legend: &mut Legend,
) -> Vec<Step> {
    let befores = [None].into_iter().chain(snapshots.iter().map(Some));
    let steps = snapshots.iter().zip(befores).map(|(it, before)| Step {
        heads: vec![it.name.clone()],
        answers: vec![],
        told: before.map_or_else(
            || format!("{} glyphs.", it.glyphs.len()),
            |before| told(&before.glyphs, &it.glyphs, &[]),
        ),
        drawn: draw_glyphs(legend, face, shaper, &it.glyphs, &it.positions, it.is_rtl),
        printed: printed(&it.glyphs, &it.positions),
        subject: None,
        glyphs: it.glyphs.clone(),
        names: it.glyphs.iter().map(|_| Names::default()).collect(),
        origins: vec![],
    });
    steps.collect()
}

// A line for each glyph, as the program prints a buffer.
fn printed(glyphs: &[GlyphInfo], positions: &[GlyphPosition]) -> String {
    let positions = positions.iter().map(Some).chain(std::iter::repeat(None));
    let lines = glyphs.iter().zip(positions).map(|(glyph, position)| {
        let position = position.map_or_else(String::new, |it| {
            format!(" {} {}", it.x_advance, it.x_offset)
        });
        format!(
            "{:04x} {} {:08x} {:02x} {} {} {}{position}\n",
            glyph.glyph_id,
            glyph.cluster,
            glyph.mask,
            glyph.syllable,
            glyph.category,
            glyph.auxiliary,
            glyph.unicode_props.high_byte()
        )
    });
    lines.collect()
}
