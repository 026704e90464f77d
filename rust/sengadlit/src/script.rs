//! Scripts by their codes in ISO 15924, the script of a character, and the direction of a script.

mod names;
#[cfg(feature = "opentype")]
mod ranges;

pub use names::*;

#[cfg(feature = "opentype")]
use crate::buffer::{Buffer, Direction, Script};
#[cfg(feature = "opentype")]
use crate::ot_shape_prepare::ensure_native_direction;

#[cfg(feature = "opentype")]
impl Script {
    /// The script of a character, by Unicode's Scripts.txt; `None` for characters of many scripts, as
    /// digits and spaces are, and for marks that have the script of the character before them.
    pub fn of_char(character: char) -> Option<Script> {
        let number = u32::from(character);
        let place = ranges::RANGES
            .partition_point(|(first, ..)| *first <= number)
            .checked_sub(1)?;
        let (_, last, code) = ranges::RANGES[place];
        (number <= last).then_some(Script(code))
    }

    /// The direction in which the script is written in lines; left to right for a script that is written
    /// either way. (HarfBuzz's `hb_script_get_horizontal_direction`.)
    pub fn direction(self) -> Direction {
        // (a text that runs against its script's direction is turned, and tells which that is)
        let mut text = Buffer::default();
        text.set_script(Some(self));
        text.set_direction(Direction::LeftToRight);
        ensure_native_direction(&mut text);
        text.direction()
    }
}

#[cfg(test)]
mod tests {
    use super::*;
    #[cfg(not(feature = "opentype"))]
    use crate::buffer::Direction;
    use crate::shaper::Shaper;

    // A code that is mistyped is that of no script with a shaper, or of another's.
    #[test]
    fn scripts_have_their_shapers() {
        let shapers = [
            (Shaper::Arabic, &[ARABIC, SYRIAC][..]),
            (Shaper::Hangul, &[HANGUL]),
            (Shaper::Hebrew, &[HEBREW]),
            (
                Shaper::Indic,
                &[
                    BENGALI, DEVANAGARI, GUJARATI, GURMUKHI, KANNADA, MALAYALAM, ORIYA, TAMIL,
                    TELUGU,
                ],
            ),
            (Shaper::Khmer, &[KHMER]),
            (Shaper::Myanmar, &[MYANMAR]),
            (Shaper::Thai, &[THAI, LAO]),
            (Shaper::Universal, &[BALINESE, MONGOLIAN, SINHALA, TIBETAN]),
        ];
        for (shaper, scripts) in shapers {
            for (place, script) in scripts.iter().enumerate() {
                let chosen = Shaper::for_script(*script, Direction::LeftToRight, None);
                assert_eq!(chosen, Some(shaper), "{script}");
                assert!(!scripts[..place].contains(script), "{script}");
            }
        }
    }

    #[cfg(feature = "opentype")]
    #[test]
    fn characters_have_their_scripts() {
        for (character, script) in [
            ('A', Some(LATIN)),
            ('Z', Some(LATIN)),
            ('[', None),
            ('1', None),
            ('\u{0301}', None),
            ('\u{0627}', Some(ARABIC)),
            ('\u{05D0}', Some(HEBREW)),
            ('\u{17D2}', Some(KHMER)),
            ('\u{AC00}', Some(HANGUL)),
            ('\u{1F3FB}', None),
            ('\u{1E900}', Some(ADLAM)),
            ('\u{323AF}', Some(HAN)),
            ('\0', None),
            (char::MAX, None),
        ] {
            assert_eq!(Script::of_char(character), script, "{character:?}");
        }
    }

    // (the list of HarfBuzz's hb_script_get_horizontal_direction)
    #[cfg(feature = "opentype")]
    #[test]
    fn scripts_have_their_directions() {
        let from_right = [
            ADLAM,
            ARABIC,
            AVESTAN,
            CHORASMIAN,
            CYPRIOT,
            ELYMAIC,
            GARAY,
            HANIFI_ROHINGYA,
            HATRAN,
            HEBREW,
            IMPERIAL_ARAMAIC,
            INSCRIPTIONAL_PAHLAVI,
            INSCRIPTIONAL_PARTHIAN,
            KHAROSHTHI,
            LYDIAN,
            MANDAIC,
            MANICHAEAN,
            MENDE_KIKAKUI,
            MEROITIC_CURSIVE,
            MEROITIC_HIEROGLYPHS,
            NABATAEAN,
            NKO,
            OLD_NORTH_ARABIAN,
            OLD_SOGDIAN,
            OLD_SOUTH_ARABIAN,
            OLD_TURKIC,
            OLD_UYGHUR,
            PALMYRENE,
            PHOENICIAN,
            PSALTER_PAHLAVI,
            SAMARITAN,
            SIDETIC,
            SOGDIAN,
            SYRIAC,
            THAANA,
            YEZIDI,
        ];
        for (name, script) in ALL {
            let direction = if from_right.contains(&script) {
                Direction::RightToLeft
            } else {
                Direction::LeftToRight
            };
            assert_eq!(script.direction(), direction, "{name}");
        }
    }
}
