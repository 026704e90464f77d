//! Whether glyphs and their flags are what they promise (HarfBuzz's `hb_buffer_t::verify`): clusters rise
//! or fall, and the text shaped in parts, which are cut where flags allow it, is the text shaped at once.

use crate::run::LineShaper;
use crate::text::Text;
use sengadlit::buffer::glyph_flag::{UNSAFE_TO_BREAK, UNSAFE_TO_CONCAT};
use sengadlit::{BufferFlags, Direction, GlyphBuffer, GlyphInfo, GlyphPosition};
use std::ops::Range;

/// The characters around a part that are its context.
const CONTEXT: usize = 5;

/// Verifies what became of a text. Says on standard error what isn't as promised.
pub fn verify(
    shaper: &mut LineShaper<'_>,
    text: &Text<'_>,
    glyphs: &GlyphBuffer,
) -> Result<(), String> {
    if text.settings.cluster_level > 1 || glyphs.is_empty() {
        // (clusters have no order)
        return Ok(());
    }
    let whole = Whole::of(shaper, text, glyphs)?;
    let mut is_verified = true;
    let mut note = |is_so: bool, what: &str| {
        if !is_so {
            eprintln!("sengadlit-shape: buffer verify error: {what}");
            is_verified = false;
        }
    };
    note(whole.is_monotone(), "clusters are not monotone.");
    note(whole.can_be_broken(shaper)?, "unsafe-to-break test failed.");
    if text.flags.contains(BufferFlags::PRODUCE_UNSAFE_TO_CONCAT) {
        note(
            whole.can_be_concatenated(shaper)?,
            "unsafe-to-concat test failed.",
        );
    }
    if is_verified {
        Ok(())
    } else {
        Err("Shaping failed.".into())
    }
}

/// A text with its glyphs in the order of its characters.
struct Whole<'a> {
    text: &'a Text<'a>,
    script: Option<sengadlit::Script>,
    direction: Direction,
    glyphs: Vec<Glyph>,
}

type Glyph = (GlyphInfo, GlyphPosition);

/// Glyphs in the order of the characters.
fn in_order(glyphs: &GlyphBuffer) -> Vec<Glyph> {
    let infos = glyphs.glyph_infos().iter().copied();
    let mut list: Vec<Glyph> = infos
        .zip(glyphs.glyph_positions().iter().copied())
        .collect();
    if is_backward(glyphs.direction()) {
        list.reverse();
    }
    list
}

fn is_backward(direction: Direction) -> bool {
    matches!(direction, Direction::RightToLeft | Direction::BottomToTop)
}

impl<'a> Whole<'a> {
    fn of(
        shaper: &mut LineShaper<'_>,
        text: &'a Text<'a>,
        glyphs: &GlyphBuffer,
    ) -> Result<Self, String> {
        let script = shaper.filled(text)?.script();
        Ok(Whole {
            text,
            script,
            direction: glyphs.direction(),
            glyphs: in_order(glyphs),
        })
    }

    fn is_monotone(&self) -> bool {
        self.glyphs.is_sorted_by_key(|(info, _)| info.cluster)
    }

    /// The parts of the text that begin where a cluster's glyphs lack a flag.
    fn parts(&self, flag: u32) -> Vec<Range<usize>> {
        let mut starts = vec![0];
        for pair in self.glyphs.windows(2) {
            let (before, at) = (pair[0].0, pair[1].0);
            if before.cluster != at.cluster && at.mask & flag == 0 {
                starts.push(self.start_of(at.cluster));
            }
        }
        let ends = starts
            .iter()
            .copied()
            .skip(1)
            .chain([self.text.characters.len()]);
        let parts = starts.iter().zip(ends).map(|(start, end)| *start..end);
        parts.filter(|part| !part.is_empty()).collect()
    }

    /// The first character whose cluster is this one or a later one.
    fn start_of(&self, cluster: u32) -> usize {
        let characters = &self.text.characters;
        characters.partition_point(|(_, of_character)| *of_character < cluster)
    }

    /// A text of parts of this one, in which nothing stands before its first part and behind its last one
    /// but what stands there.
    fn text_of(&self, parts: &[Range<usize>]) -> Text<'a> {
        let all = &self.text.characters;
        let (start, end) = match parts {
            [first, .., last] => (first.start, last.end),
            [part] => (part.start, part.end),
            [] => (0, 0),
        };
        let near = &all[start.saturating_sub(CONTEXT)..start];
        let before = near.iter().map(|(character, _)| character);
        let after = all[end..].iter().map(|(character, _)| character);
        Text {
            settings: self.text.settings,
            characters: parts
                .iter()
                .flat_map(|part| &all[part.clone()])
                .copied()
                .collect(),
            before: self.text.before.chars().chain(before.copied()).collect(),
            after: after
                .take(CONTEXT)
                .copied()
                .chain(self.text.after.chars())
                .collect(),
            flags: self.flags_of(start, end),
            script: self.script,
            direction: Some(self.direction),
        }
    }

    /// The flags of a text from one place to another: it begins and ends a paragraph if the whole does, and
    /// it is the first or the last part.
    fn flags_of(&self, start: usize, end: usize) -> BufferFlags {
        let mut lost = 0;
        if start > 0 {
            lost |= BufferFlags::BEGINNING_OF_TEXT.0;
        }
        if end < self.text.characters.len() {
            lost |= BufferFlags::END_OF_TEXT.0;
        }
        BufferFlags(self.text.flags.0 & !lost)
    }

    /// Whether the parts between safe breaks, each shaped alone, make the whole.
    fn can_be_broken(&self, shaper: &mut LineShaper<'_>) -> Result<bool, String> {
        let mut glyphs = vec![];
        for part in self.parts(UNSAFE_TO_BREAK) {
            let shaped = shaper.shape_part(&self.text_of(&[part]))?;
            glyphs.extend(in_order(&shaped));
        }
        Ok(self.is_made_of(&glyphs))
    }

    /// Whether every other part between places that are safe to concatenate, all shaped as one text, and
    /// those between them as another, make the whole.
    fn can_be_concatenated(&self, shaper: &mut LineShaper<'_>) -> Result<bool, String> {
        let parts = self.parts(UNSAFE_TO_CONCAT);
        let mut glyphs = vec![];
        for first in [0, 1] {
            let every_other: Vec<_> = parts.iter().skip(first).step_by(2).cloned().collect();
            let shaped = shaper.shape_part(&self.text_of(&every_other))?;
            glyphs.extend(in_order(&shaped));
        }
        glyphs.sort_by_key(|(info, _)| info.cluster);
        Ok(self.is_made_of(&glyphs))
    }

    /// Whether these are the glyphs of the whole, flags apart.
    fn is_made_of(&self, glyphs: &[Glyph]) -> bool {
        let seen = |(info, at): &Glyph| {
            let place = (at.x_advance, at.y_advance, at.x_offset, at.y_offset);
            (info.glyph_id, info.cluster, place)
        };
        self.glyphs.iter().map(seen).eq(glyphs.iter().map(seen))
    }
}
