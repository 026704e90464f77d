//! Glyphs as hb-shape prints them (HarfBuzz's `hb_buffer_serialize_glyphs`).

use super::Face;
use crate::buffer::{GlyphInfo, GlyphPosition, glyph_flag};
use core::fmt;
use core::ops::{BitOr, BitOrAssign};

/// What [`GlyphBuffer::serialize`](super::GlyphBuffer::serialize) prints.
#[derive(Clone, Copy, Debug, Default, PartialEq, Eq, Hash)]
pub struct SerializeFlags(u8);

impl SerializeFlags {
    /// No clusters.
    pub const NO_CLUSTERS: Self = SerializeFlags(1);
    /// No positions.
    pub const NO_POSITIONS: Self = SerializeFlags(2);
    /// Numbers in place of the names of glyphs.
    pub const NO_GLYPH_NAMES: Self = SerializeFlags(4);
    /// The box around each glyph that has one.
    pub const GLYPH_EXTENTS: Self = SerializeFlags(8);
    /// The glyph flags, where there are any.
    pub const GLYPH_FLAGS: Self = SerializeFlags(0x10);
    /// No advances: each offset is from the start of the text.
    pub const NO_ADVANCES: Self = SerializeFlags(0x20);

    /// The flags of HarfBuzz's numbers; `None` where another bit is set.
    pub fn from_number(number: u32) -> Option<Self> {
        let flags = u8::try_from(number).ok().filter(|flags| flags & !0x3F == 0);
        flags.map(SerializeFlags)
    }

    /// Whether all of these are set.
    pub fn contains(self, flags: Self) -> bool {
        self.0 & flags.0 == flags.0
    }
}

impl BitOr for SerializeFlags {
    type Output = Self;

    fn bitor(self, other: Self) -> Self {
        SerializeFlags(self.0 | other.0)
    }
}

impl BitOrAssign for SerializeFlags {
    fn bitor_assign(&mut self, other: Self) {
        *self = *self | other;
    }
}

/// The bits of a mask that are glyph flags.
const FLAGS: u32 =
    glyph_flag::UNSAFE_TO_BREAK | glyph_flag::UNSAFE_TO_CONCAT | glyph_flag::SAFE_TO_INSERT_TATWEEL;

/// Glyphs with their positions, printed in the format `text`, or in the alternate form (`{:#}`) in the
/// format `json`.
pub(super) struct Serialized<'a> {
    pub infos: &'a [GlyphInfo],
    pub positions: &'a [GlyphPosition],
    pub face: Option<&'a Face<'a>>,
    pub flags: SerializeFlags,
}

impl fmt::Display for Serialized<'_> {
    fn fmt(&self, f: &mut fmt::Formatter<'_>) -> fmt::Result {
        let mut pen = (0, 0);
        f.write_str("[")?;
        for (place, info) in self.infos.iter().enumerate() {
            let position = self.positions.get(place).map(|position| at(pen, position));
            let json = f.alternate();
            let between = if json { "," } else { "|" };
            f.write_str(if place > 0 { between } else { "" })?;
            let glyph = Glyph {
                info,
                position: position.filter(|_| !self.has(SerializeFlags::NO_POSITIONS)),
                shown: self,
            };
            if json {
                glyph.write_json(f)?;
            } else {
                glyph.write_text(f)?;
            }
            if self.has(SerializeFlags::NO_ADVANCES) {
                pen = position.map_or(pen, |position| behind(pen, &position));
            }
        }
        f.write_str("]")
    }
}

impl Serialized<'_> {
    fn has(&self, flag: SerializeFlags) -> bool {
        self.flags.contains(flag)
    }
}

/// A position whose offset is from where the pen began.
fn at(pen: (i32, i32), position: &GlyphPosition) -> GlyphPosition {
    GlyphPosition {
        x_offset: pen.0.wrapping_add(position.x_offset),
        y_offset: pen.1.wrapping_add(position.y_offset),
        ..*position
    }
}

/// Where the pen is behind a glyph.
fn behind(pen: (i32, i32), position: &GlyphPosition) -> (i32, i32) {
    (
        pen.0.wrapping_add(position.x_advance),
        pen.1.wrapping_add(position.y_advance),
    )
}

/// A glyph that is printed.
struct Glyph<'a> {
    info: &'a GlyphInfo,
    position: Option<GlyphPosition>,
    shown: &'a Serialized<'a>,
}

impl Glyph<'_> {
    /// Writes `name=cluster@x,y+advance#flags<box>`, of which what is 0 or not asked for is left out.
    fn write_text(&self, f: &mut fmt::Formatter<'_>) -> fmt::Result {
        self.write_name(f, "", |name, f| f.write_str(name))?;
        if !self.shown.has(SerializeFlags::NO_CLUSTERS) {
            write!(f, "={}", self.info.cluster)?;
        }
        if let Some(position) = &self.position {
            self.write_position(f, position)?;
        }
        if let Some(flags) = self.flags() {
            write!(f, "#{flags:X}")?;
        }
        match self.extents() {
            Some([x, y, width, height]) => write!(f, "<{x},{y},{width},{height}>"),
            None => Ok(()),
        }
    }

    fn write_position(&self, f: &mut fmt::Formatter<'_>, at: &GlyphPosition) -> fmt::Result {
        if (at.x_offset, at.y_offset) != (0, 0) {
            write!(f, "@{},{}", at.x_offset, at.y_offset)?;
        }
        if self.shown.has(SerializeFlags::NO_ADVANCES) {
            return Ok(());
        }
        write!(f, "+{}", at.x_advance)?;
        match at.y_advance {
            0 => Ok(()),
            y_advance => write!(f, ",{y_advance}"),
        }
    }

    /// Writes the glyph as an object with HarfBuzz's keys.
    fn write_json(&self, f: &mut fmt::Formatter<'_>) -> fmt::Result {
        f.write_str("{\"g\":")?;
        self.write_name(f, "\"", write_escaped)?;
        if !self.shown.has(SerializeFlags::NO_CLUSTERS) {
            write!(f, ",\"cl\":{}", self.info.cluster)?;
        }
        if let Some(at) = &self.position {
            write!(f, ",\"dx\":{},\"dy\":{}", at.x_offset, at.y_offset)?;
            if !self.shown.has(SerializeFlags::NO_ADVANCES) {
                write!(f, ",\"ax\":{},\"ay\":{}", at.x_advance, at.y_advance)?;
            }
        }
        if let Some(flags) = self.flags() {
            write!(f, ",\"fl\":{flags}")?;
        }
        if let Some([x, y, width, height]) = self.extents() {
            write!(f, ",\"xb\":{x},\"yb\":{y},\"w\":{width},\"h\":{height}")?;
        }
        f.write_str("}")
    }

    /// Writes the glyph's number, or in these quotation marks its name: a glyph without one is called
    /// `gid` and its number.
    fn write_name(
        &self,
        f: &mut fmt::Formatter<'_>,
        quote: &str,
        write_quoted: fn(&str, &mut fmt::Formatter<'_>) -> fmt::Result,
    ) -> fmt::Result {
        let number = self.info.glyph_id;
        if self.shown.has(SerializeFlags::NO_GLYPH_NAMES) {
            return write!(f, "{number}");
        }
        f.write_str(quote)?;
        match self.shown.face.and_then(|face| face.glyph_name(number)) {
            Some(name) => write_quoted(name, f)?,
            None => write!(f, "gid{number}")?,
        }
        f.write_str(quote)
    }

    /// The glyph flags, if they are asked for and there are any.
    fn flags(&self) -> Option<u32> {
        let flags = self.info.mask & FLAGS;
        (self.shown.has(SerializeFlags::GLYPH_FLAGS) && flags != 0).then_some(flags)
    }

    /// The box around the glyph, if it is asked for and the glyph has one.
    fn extents(&self) -> Option<[i32; 4]> {
        if !self.shown.has(SerializeFlags::GLYPH_EXTENTS) {
            return None;
        }
        let extents = self.shown.face?.glyph_extents(self.info.glyph_id)?;
        Some([
            extents.x_bearing,
            extents.y_bearing,
            extents.width,
            extents.height,
        ])
    }
}

/// Writes a name within quotation marks, whose own have a backslash before them.
fn write_escaped(name: &str, f: &mut fmt::Formatter<'_>) -> fmt::Result {
    for character in name.chars() {
        if matches!(character, '"' | '\\') {
            f.write_str("\\")?;
        }
        write!(f, "{character}")?;
    }
    Ok(())
}

#[cfg(test)]
mod tests {
    use super::*;
    use std::format;

    // hb-shape's --no-advances: a glyph is where the pen would be, downwards too.
    #[test]
    fn without_advances_the_pen_is_told() {
        let infos = [0, 1, 2].map(|cluster| GlyphInfo {
            glyph_id: 7,
            cluster,
            ..GlyphInfo::DEFAULT
        });
        let positions = [(0, -1000, -250, -880), (20, -500, 0, 0), (0, 0, 1, 2)].map(
            |(x_advance, y_advance, x_offset, y_offset)| GlyphPosition {
                x_advance,
                y_advance,
                x_offset,
                y_offset,
                var: 0,
            },
        );
        let flags = SerializeFlags::NO_GLYPH_NAMES | SerializeFlags::NO_ADVANCES;
        let printed = Serialized {
            infos: &infos,
            positions: &positions,
            face: None,
            flags,
        };
        assert_eq!(
            format!("{printed}"),
            "[7=0@-250,-880|7=1@0,-1000|7=2@21,-1498]"
        );
    }
}
