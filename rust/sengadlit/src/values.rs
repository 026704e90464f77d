//! What tags, scripts and glyph numbers have as plain values: their bytes or number, and a text.

use crate::buffer::{Script, Tag};
use crate::font::GlyphId;
use core::fmt;

macro_rules! impl_value {
    ($($name:ident: $inner:ty;)*) => {
        $(
            impl From<$inner> for $name {
                #[inline]
                fn from(inner: $inner) -> Self {
                    $name(inner)
                }
            }

            impl From<$name> for $inner {
                #[inline]
                fn from(value: $name) -> Self {
                    value.0
                }
            }
        )*
    };
}

impl_value! {
    Tag: [u8; 4];
    Script: [u8; 4];
    GlyphId: u16;
}

impl From<GlyphId> for u32 {
    #[inline]
    fn from(glyph: GlyphId) -> Self {
        glyph.0.into()
    }
}

impl fmt::Display for Tag {
    fn fmt(&self, f: &mut fmt::Formatter<'_>) -> fmt::Result {
        self.0.escape_ascii().fmt(f)
    }
}

impl fmt::Display for Script {
    fn fmt(&self, f: &mut fmt::Formatter<'_>) -> fmt::Result {
        self.0.escape_ascii().fmt(f)
    }
}

impl fmt::Display for GlyphId {
    fn fmt(&self, f: &mut fmt::Formatter<'_>) -> fmt::Result {
        self.0.fmt(f)
    }
}

#[cfg(test)]
mod tests {
    use super::*;
    use std::collections::{BTreeSet, HashSet};
    use std::string::ToString;

    #[test]
    fn values_are_ordered_by_what_is_in_them() {
        let tags = [*b"rphf", *b"blwf", *b"rphf"].map(Tag::from);
        assert!(
            BTreeSet::from(tags)
                .into_iter()
                .eq([*b"blwf", *b"rphf"].map(Tag))
        );
        assert_eq!(HashSet::from(tags).len(), 2);
        assert!(Script(*b"Deva") < Script(*b"Thai"));
        assert!(GlyphId(9) < GlyphId(10));
    }

    #[test]
    fn values_are_made_of_what_is_in_them_and_back() {
        assert_eq!(<[u8; 4]>::from(Tag::from(*b"rlig")), *b"rlig");
        assert_eq!(<[u8; 4]>::from(Script::from(*b"Thai")), *b"Thai");
        assert_eq!(u16::from(GlyphId::from(7)), 7);
        assert_eq!(u32::from(GlyphId(0xFFFF)), 0xFFFF);
    }

    #[test]
    fn values_are_shown_as_they_are_written() {
        assert_eq!(Tag(*b"rphf").to_string(), "rphf");
        assert_eq!(Script(*b"Thai").to_string(), "Thai");
        assert_eq!(Tag([b'a', 0, 1, 255]).to_string(), "a\\x00\\x01\\xff");
        assert_eq!(GlyphId(7).to_string(), "7");
    }
}
