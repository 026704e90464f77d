//! Text as HTML has it.

use std::fmt::{self, Write as _};

/// A text as a page has it: an entity for each character that HTML gives a meaning, and U+FFFD for a
/// control character, which HTML may not have.
pub(super) struct Escaped<'a>(pub(super) &'a str);

impl fmt::Display for Escaped<'_> {
    fn fmt(&self, page: &mut fmt::Formatter<'_>) -> fmt::Result {
        for character in self.0.chars() {
            match character {
                '&' => page.write_str("&amp;")?,
                '<' => page.write_str("&lt;")?,
                '>' => page.write_str("&gt;")?,
                '"' => page.write_str("&quot;")?,
                '\'' => page.write_str("&#39;")?,
                character if character.is_control() => page.write_char('\u{FFFD}')?,
                character => page.write_char(character)?,
            }
        }
        Ok(())
    }
}

#[cfg(test)]
mod tests {
    use super::*;

    // (HTML's syntax of character references, and its list of control characters)
    #[test]
    fn what_html_reads_is_an_entity() {
        let text = "<script>&\"it's\"</script>";
        let page = "&lt;script&gt;&amp;&quot;it&#39;s&quot;&lt;/script&gt;";
        assert_eq!(Escaped(text).to_string(), page);
        assert_eq!(
            Escaped("\0\u{1F} \u{7F}\u{9F}\u{A0}").to_string(),
            "\u{FFFD}\u{FFFD} \u{FFFD}\u{FFFD}\u{A0}"
        );
        assert_eq!(Escaped("\u{25CC}\u{17D2}").to_string(), "\u{25CC}\u{17D2}");
    }

    #[test]
    fn no_character_opens_a_tag_or_ends_an_attribute() {
        for character in (0..=u32::from(char::MAX)).filter_map(char::from_u32) {
            let escaped = Escaped(character.encode_utf8(&mut [0; 4])).to_string();
            assert!(!escaped.contains(['<', '>', '"', '\'']), "{character:?}");
            assert!(!escaped.contains(char::is_control), "{character:?}");
            assert!(
                !escaped.starts_with('&') || escaped.ends_with(';'),
                "{character:?}"
            );
        }
    }
}
