//! Small texts of a drawing.

use super::escaped::Escaped;
use std::fmt::{self, Formatter};

/// How a text looks.
#[derive(Clone, Copy, Debug, PartialEq, Eq, Hash)]
pub(super) enum Style {
    /// A character in its box.
    Now,
    /// A glyph where it stood before a hook.
    Old,
    /// A number in place of a character.
    Id,
    /// The number of a character.
    Number,
    Category,
    Auxiliary,
    /// A feature that the mask turns on.
    Mask,
    /// What stands outside a box.
    Small,
    /// A glyph flag.
    Flag,
}

impl Style {
    // The class that the page styles.
    fn class(self) -> &'static str {
        match self {
            Style::Now => "now",
            Style::Old => "old",
            Style::Id => "id",
            Style::Number => "number",
            Style::Category => "category",
            Style::Auxiliary => "auxiliary",
            Style::Mask => "mask",
            Style::Small => "small",
            Style::Flag => "flag-name",
        }
    }

    // How wide a character is at most, about, in tenths of a pixel: 0 for a text that is never
    // squeezed.
    fn character_width(self) -> usize {
        match self {
            Style::Now | Style::Old => 0,
            Style::Id => 92,
            Style::Number | Style::Category => 68,
            Style::Flag => 62,
            Style::Auxiliary | Style::Mask | Style::Small => 56,
        }
    }
}

/// A place for a text: its middle, its baseline, the room that there is for it, and how it looks.
#[derive(Clone, Copy)]
pub(super) struct Place {
    pub x: usize,
    pub y: usize,
    pub room: usize,
    pub style: Style,
}

impl Place {
    /// Draws a text there, squeezed where there is too little room.
    pub(super) fn draw(self, page: &mut Formatter<'_>, text: &str) -> fmt::Result {
        let Place { x, y, room, style } = self;
        write!(
            page,
            "<text class=\"{}\" x=\"{x}\" y=\"{y}\"",
            style.class()
        )?;
        if text.chars().count() * style.character_width() / 10 > room {
            write!(
                page,
                " textLength=\"{room}\" lengthAdjust=\"spacingAndGlyphs\""
            )?;
        }
        writeln!(page, ">{}</text>", Escaped(text))
    }
}
