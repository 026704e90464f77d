//! A text of one script, shaped: its clusters in the order of the text, and any part of it shaped
//! again alone.

use sengadlit::alloc::Global;
use sengadlit::buffer::glyph_flag;
use sengadlit::editing::caret_stops;
use sengadlit::opentype::ShapePlanBuilder;
use sengadlit::ot_shape_normalize::Rounds;
use sengadlit::ot_shape_prepare::set_unicode_properties;
use sengadlit::unicode::UnicodeTables;
use sengadlit::{
    Buffer, BufferFlags, Direction, Face, GlyphInfo, GlyphPosition, ShapePlan, UnicodeBuffer,
    try_shape_with_plan,
};
use std::error::Error;
use std::ops::Range;

/// Glyphs that have been shaped together, from left to right, each with its position.
pub type Glyphs = Vec<(GlyphInfo, GlyphPosition)>;

/// The glyphs of a stretch of the text that no caret and no line goes through.
#[derive(Clone, Debug)]
pub struct Cluster {
    /// Bytes of the text.
    pub text: Range<usize>,
    pub glyphs: Glyphs,
    /// Whether both sides are shaped again, if a line is broken before it.
    pub is_unsafe_to_break: bool,
    /// Whether nothing that was shaped apart may be put before it, or behind it.
    pub is_unsafe_to_concat: bool,
    /// Whether it was, for a line.
    pub is_shaped_again: bool,
}

impl Cluster {
    /// How far it moves the pen.
    pub fn advance(&self) -> i32 {
        self.glyphs
            .iter()
            .map(|(_, position)| position.x_advance)
            .sum()
    }
}

/// A face and a plan, which shape texts of a script. All rounds of normalization run, so that a letter
/// becomes the same in a part of a text as in the whole.
pub struct Shaping<'f> {
    pub face: &'f Face<'f>,
    plan: ShapePlan,
    flags: BufferFlags,
}

impl<'f> Shaping<'f> {
    /// # Errors
    ///
    /// Memory is refused.
    pub fn new(face: &'f Face<'f>, plan: ShapePlanBuilder<'_>) -> Result<Self, Box<dyn Error>> {
        let plan = plan.rounds(Rounds::Always).build(face)?;
        Ok(Shaping {
            face,
            plan,
            flags: BufferFlags::default(),
        })
    }

    /// The same with the flags `unsafe to concat`.
    #[must_use]
    pub fn flagging_concat(self) -> Self {
        Shaping {
            flags: BufferFlags::PRODUCE_UNSAFE_TO_CONCAT,
            ..self
        }
    }

    pub fn flags_concat(&self) -> bool {
        self.flags.contains(BufferFlags::PRODUCE_UNSAFE_TO_CONCAT)
    }

    pub fn direction(&self) -> Direction {
        self.plan.direction()
    }

    /// The clusters of a part of a text, shaped alone, in the order of the text.
    ///
    /// # Errors
    ///
    /// Those of [`try_shape_with_plan`].
    pub fn clusters(&self, text: &str, part: Range<usize>) -> Result<Vec<Cluster>, Box<dyn Error>> {
        let mut buffer = UnicodeBuffer::new();
        buffer.set_flags(self.flags);
        buffer.try_push_str(&text[part.clone()])?;
        let shaped = try_shape_with_plan(self.face, &self.plan, buffer);
        let glyphs = shaped.map_err(|refused| refused.error)?;
        // a caret stops where each cluster begins that no later glyph goes behind
        let mut stops = sengadlit::alloc::Vec::new(Global);
        caret_stops(glyphs.glyph_infos(), self.direction(), &mut stops)?;
        let place = |stop: &u32| part.start + *stop as usize;
        let ends = stops.iter().skip(1).map(place).chain([part.end]);
        let mut clusters: Vec<Cluster> = stops
            .iter()
            .zip(ends)
            .map(|(start, end)| Cluster {
                text: place(start)..end,
                glyphs: vec![],
                is_unsafe_to_break: false,
                is_unsafe_to_concat: false,
                is_shaped_again: false,
            })
            .collect();
        let infos = glyphs.glyph_infos().iter();
        for (glyph, position) in infos.zip(glyphs.glyph_positions()) {
            let cluster = &mut clusters[stops.partition_point(|stop| *stop <= glyph.cluster) - 1];
            cluster.glyphs.push((*glyph, *position));
            cluster.is_unsafe_to_break |= glyph.mask & glyph_flag::UNSAFE_TO_BREAK != 0;
            cluster.is_unsafe_to_concat |= glyph.mask & glyph_flag::UNSAFE_TO_CONCAT != 0;
        }
        Ok(clusters)
    }

    /// Clusters in the order in which they are drawn, from left to right.
    pub fn visual<'c>(&self, clusters: &'c [Cluster]) -> Vec<&'c Cluster> {
        match self.direction() {
            Direction::RightToLeft => clusters.iter().rev().collect(),
            _ => clusters.iter().collect(),
        }
    }
}

/// Where the graphemes of a text begin, by its bytes.
///
/// # Errors
///
/// The text is too long for a buffer, or memory is refused.
pub fn graphemes(text: &str) -> Result<Vec<usize>, Box<dyn Error>> {
    let mut buffer = Buffer::default();
    buffer.push_str(text)?;
    set_unicode_properties(&UnicodeTables, &mut buffer);
    let begins = buffer
        .iter()
        .filter(|glyph| !glyph.unicode_props.is_continuation());
    Ok(begins.map(|glyph| glyph.cluster as usize).collect())
}
