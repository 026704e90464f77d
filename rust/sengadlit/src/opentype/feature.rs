//! Features as users write them.

use crate::buffer::Tag;
use crate::ot_shape_plan::UserFeature;
use core::fmt;
use core::ops::{Bound, RangeBounds};
use core::str::FromStr;

/// A feature that the user requests, with the clusters that it holds for.
///
/// It is read and printed as hb-shape does: `kern`, `-liga`, `kern=0`, `aalt[3:5]=2`.
pub type Feature = UserFeature;

/// The end of a feature that holds up to the end of the text.
const END: u32 = u32::MAX;

impl UserFeature {
    /// A feature with a value, for the clusters of a range.
    pub fn new(tag: Tag, value: u32, clusters: impl RangeBounds<usize>) -> Self {
        let number = |place: usize| u32::try_from(place).unwrap_or(END);
        let start = match clusters.start_bound() {
            Bound::Included(start) => number(*start),
            Bound::Excluded(before) => number(*before).saturating_add(1),
            Bound::Unbounded => 0,
        };
        let end = match clusters.end_bound() {
            Bound::Included(last) => number(*last).saturating_add(1),
            Bound::Excluded(end) => number(*end),
            Bound::Unbounded => END,
        };
        UserFeature {
            tag,
            value,
            start,
            end,
        }
    }
}

/// A text that is no feature.
#[derive(Clone, Copy, Debug, PartialEq, Eq)]
pub struct FeatureError;

impl fmt::Display for FeatureError {
    fn fmt(&self, f: &mut fmt::Formatter<'_>) -> fmt::Result {
        f.write_str("a feature is written as kern, -liga, kern=0 or aalt[3:5]=2")
    }
}

impl core::error::Error for FeatureError {}

/// Reads a feature in HarfBuzz's syntax (`hb_feature_from_string`), which includes that of CSS.
impl FromStr for UserFeature {
    type Err = FeatureError;

    fn from_str(text: &str) -> Result<Self, FeatureError> {
        let mut rest = Rest(text.trim_start());
        let sign = rest.take(['+', '-']);
        let tag = rest.tag().ok_or(FeatureError)?;
        let (start, end) = rest.clusters().ok_or(FeatureError)?;
        let has_equal_sign = rest.take(['=']).is_some();
        let value = rest.value();
        if has_equal_sign && value.is_none() || !rest.0.trim().is_empty() {
            return Err(FeatureError);
        }
        let value = value.unwrap_or(u32::from(sign != Some('-')));
        Ok(UserFeature {
            tag,
            value,
            start,
            end,
        })
    }
}

/// What is left of a feature's text. Each part may have white space before it.
struct Rest<'a>(&'a str);

impl Rest<'_> {
    /// Takes one of these characters, if it comes next.
    fn take<const N: usize>(&mut self, characters: [char; N]) -> Option<char> {
        let rest = self.0.trim_start();
        let first = rest
            .chars()
            .next()
            .filter(|first| characters.contains(first))?;
        self.0 = &rest[first.len_utf8()..];
        Some(first)
    }

    /// Takes the characters that pass a test.
    fn take_while(&mut self, test: impl Fn(char) -> bool) -> &str {
        let rest = self.0.trim_start();
        let (taken, behind) = rest.split_at(rest.find(|c| !test(c)).unwrap_or(rest.len()));
        self.0 = behind;
        taken
    }

    /// Takes a tag of one to four letters, digits or low lines; in quotation marks it has four.
    fn tag(&mut self) -> Option<Tag> {
        let quote = self.take(['\'', '"']);
        let name = self
            .take_while(|c| c.is_ascii_alphanumeric() || c == '_')
            .as_bytes();
        let least = if quote.is_some() { 4 } else { 1 };
        if !(least..=4).contains(&name.len()) {
            return None;
        }
        let mut tag = *b"    ";
        tag[..name.len()].copy_from_slice(name);
        if let Some(quote) = quote {
            // (the closing mark follows at once)
            self.0 = self.0.strip_prefix(quote)?;
        }
        Some(Tag(tag))
    }

    /// Takes the clusters in brackets: `[3:5]`, `[3:]`, `[:5]`, or `[3]` for one.
    fn clusters(&mut self) -> Option<(u32, u32)> {
        if self.take(['[']).is_none() {
            return Some((0, END));
        }
        let start = self.number();
        let end = if self.take([':', ';']).is_some() {
            self.number().unwrap_or(END)
        } else {
            start.map_or(END, |start| start.saturating_add(1))
        };
        self.take([']'])?;
        Some((start.unwrap_or(0), end))
    }

    fn number(&mut self) -> Option<u32> {
        let before = self.0;
        let number = self.take_while(|c| c.is_ascii_digit()).parse().ok();
        if number.is_none() {
            self.0 = before;
        }
        number
    }

    /// Takes a number, or `on` or `off`.
    fn value(&mut self) -> Option<u32> {
        if let Some(number) = self.number() {
            return Some(number);
        }
        let before = self.0;
        let word = self.take_while(|c| c.is_ascii_alphabetic());
        let value = match word {
            word if word.eq_ignore_ascii_case("on") => Some(1),
            word if word.eq_ignore_ascii_case("off") => Some(0),
            _ => None,
        };
        if value.is_none() {
            self.0 = before;
        }
        value
    }
}

/// Prints a feature as hb-shape reads it (`hb_feature_to_string`).
impl fmt::Display for UserFeature {
    fn fmt(&self, f: &mut fmt::Formatter<'_>) -> fmt::Result {
        if self.value == 0 {
            f.write_str("-")?;
        }
        let name = self.tag.0.trim_ascii_end();
        for byte in name {
            write!(f, "{}", char::from(*byte))?;
        }
        if (self.start, self.end) != (0, END) {
            f.write_str("[")?;
            if self.start != 0 {
                write!(f, "{}", self.start)?;
            }
            if self.end != self.start.saturating_add(1) {
                f.write_str(":")?;
                if self.end != END {
                    write!(f, "{}", self.end)?;
                }
            }
            f.write_str("]")?;
        }
        if self.value > 1 {
            write!(f, "={}", self.value)?;
        }
        Ok(())
    }
}

#[cfg(test)]
mod tests {
    use super::*;
    use rust_alloc::string::ToString;

    fn feature(tag: [u8; 4], value: u32, start: u32, end: u32) -> UserFeature {
        UserFeature {
            tag: Tag(tag),
            value,
            start,
            end,
        }
    }

    // A range may leave its first cluster out, and have its last; what doesn't fit 32 bits is the end.
    #[test]
    fn clusters_are_any_range() {
        let clusters = |start, end| {
            let feature = UserFeature::new(Tag(*b"kern"), 1, (start, end));
            (feature.start, feature.end)
        };
        let (open, most) = (Bound::Unbounded, usize::MAX);
        assert_eq!(clusters(Bound::Included(2), Bound::Included(4)), (2, 5));
        assert_eq!(clusters(Bound::Excluded(2), Bound::Excluded(5)), (3, 5));
        assert_eq!(clusters(open, open), (0, END));
        assert_eq!(
            clusters(Bound::Excluded(most), Bound::Included(most)),
            (END, END)
        );
    }

    // (the table of HarfBuzz's documentation of hb_feature_from_string)
    #[test]
    fn harfbuzz_syntax() {
        for (text, expected) in [
            ("kern", feature(*b"kern", 1, 0, END)),
            ("+kern", feature(*b"kern", 1, 0, END)),
            ("-kern", feature(*b"kern", 0, 0, END)),
            ("kern=0", feature(*b"kern", 0, 0, END)),
            ("kern=1", feature(*b"kern", 1, 0, END)),
            ("aalt=2", feature(*b"aalt", 2, 0, END)),
            ("kern[]", feature(*b"kern", 1, 0, END)),
            ("kern[:]", feature(*b"kern", 1, 0, END)),
            ("kern[5:]", feature(*b"kern", 1, 5, END)),
            ("kern[:5]", feature(*b"kern", 1, 0, 5)),
            ("kern[3:5]", feature(*b"kern", 1, 3, 5)),
            ("kern[3]", feature(*b"kern", 1, 3, 4)),
            ("aalt[3:5]=2", feature(*b"aalt", 2, 3, 5)),
            ("\"kern\" on", feature(*b"kern", 1, 0, END)),
            ("'kern' off", feature(*b"kern", 0, 0, END)),
            ("  -liga  ", feature(*b"liga", 0, 0, END)),
            ("ss1", feature(*b"ss1 ", 1, 0, END)),
        ] {
            assert_eq!(text.parse(), Ok(expected), "{text}");
        }
    }

    #[test]
    fn what_is_no_feature() {
        for text in [
            "", "-", "kernx", "kern=", "kern=x", "kern[3", "'ss1'", "'kern", "kern 1 2",
        ] {
            assert_eq!(text.parse::<UserFeature>(), Err(FeatureError), "{text}");
        }
    }

    #[test]
    fn printed_as_it_is_read() {
        for text in [
            "kern",
            "-liga",
            "aalt=2",
            "aalt[3:5]=2",
            "kern[3]",
            "kern[5:]",
            "kern[:5]",
            "ss1",
        ] {
            assert_eq!(
                text.parse::<UserFeature>()
                    .map(|f| f.to_string())
                    .as_deref(),
                Ok(text)
            );
        }
    }

    #[test]
    fn ranges_of_clusters() {
        let range = |clusters: UserFeature| (clusters.start, clusters.end);
        let tag = Tag(*b"kern");
        assert_eq!(range(UserFeature::new(tag, 1, ..)), (0, END));
        assert_eq!(range(UserFeature::new(tag, 1, 2..5)), (2, 5));
        assert_eq!(range(UserFeature::new(tag, 1, 2..=5)), (2, 6));
        assert_eq!(range(UserFeature::new(tag, 1, ..usize::MAX)), (0, END));
    }
}
