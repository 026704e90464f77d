//! Where the glyphs that a hook left stood before it.

use crate::generated::hbhook_commands::LineFault;
use crate::generated::hbhook_lines::Session;
use sengadlit::alloc::AllocError;
use sengadlit::{Buffer, BufferClusterLevel, GlyphInfo, ShaperError};
use std::mem;

/// What stood in the buffer before a hook, and the place there of each glyph that the hook left.
#[derive(Default)]
pub(crate) struct Origins {
    /// The glyphs before the hook.
    pub(crate) before: Vec<GlyphInfo>,
    /// The place of each glyph; none where it isn't known.
    pub(crate) places: Vec<usize>,
}

/// The glyphs before a hook, and what it made of them where each had its place for its cluster.
pub(crate) struct Traced {
    before: Vec<GlyphInfo>,
    pub(crate) after: Buffer,
}

impl Traced {
    /// The glyphs of a buffer, and a copy of it in which each glyph has its place for its cluster.
    pub(crate) fn labelled(buffer: &Buffer) -> Result<Self, AllocError> {
        Ok(Traced {
            before: buffer.glyphs().to_vec(),
            after: labelled(buffer)?,
        })
    }

    /// Carries out the line of a hook on a copy of the buffer in which each glyph has its place for
    /// its cluster. At the level of characters clusters only move: so what is left of them tells
    /// where each glyph came from. The session stays as it was. Of what ends the line only `Memory`
    /// ends this; the rest ends the line again when it is carried out itself.
    pub(crate) fn new(session: &mut Session, line: &[u8]) -> Result<Self, AllocError> {
        let mut traced = Traced::labelled(&session.buffer)?;
        mem::swap(&mut session.buffer, &mut traced.after);
        let carried_out = session.carry_out(line);
        drop(session.take_answers());
        mem::swap(&mut session.buffer, &mut traced.after);
        match carried_out {
            Err(LineFault::Refused(ShaperError::Memory)) => Err(AllocError),
            Ok(()) | Err(_) => Ok(traced),
        }
    }

    /// The places of the glyphs that the hook left, if these are the glyphs that were traced.
    pub(crate) fn origins(self, left: &[GlyphInfo]) -> Origins {
        let traced = self.after.glyphs();
        let number = |glyph: &GlyphInfo| glyph.glyph_id;
        let place = |glyph: &GlyphInfo| glyph.cluster as usize;
        let are_left = traced.iter().map(number).eq(left.iter().map(number));
        let places = traced.iter().filter(|_| are_left).map(place);
        Origins {
            places: places.collect(),
            before: self.before,
        }
    }
}

// A copy of the buffer in which each glyph has its place for its cluster.
fn labelled(buffer: &Buffer) -> Result<Buffer, AllocError> {
    let mut labelled = buffer.copy().map_err(|_| AllocError)?;
    labelled.set_cluster_level(BufferClusterLevel::Characters);
    labelled.with_glyphs_mut(|glyphs| {
        for (glyph, place) in glyphs.iter_mut().zip(0..) {
            glyph.cluster = place;
        }
    });
    Ok(labelled)
}
