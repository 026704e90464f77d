//! The shapers, one method per hook, and what runs between two stages of lookups. The module
//! [`checked`] has the calls that test their conditions.

pub mod checked;

pub use crate::generated::rustybuzz_shapers::shaper::{
    ARABIC_SHAPER, HANGUL_SHAPER, HEBREW_SHAPER, Hook, INDIC_SHAPER, KHMER_SHAPER, MYANMAR_SHAPER,
    MYANMAR_ZAWGYI_SHAPER, Shaper, THAI_SHAPER, UNIVERSAL_SHAPER, has_positions, kinds_fit,
    lacks_positions, pause_fits, pause_may_change, run_pause,
};
pub use crate::plan::{NormalizationMode, Pause, PlanData, Preprocess, ZeroWidthMarks};

use crate::buffer::{Direction, Script, Tag};
use crate::generated::shapers_choice::shaper_for_script;

impl Shaper {
    /// The shaper for a text, as HarfBuzz chooses it: by its script, its direction, and the script by
    /// which its features were found in the font's GSUB, if any was. `None` stands for a text that no
    /// shaper has hooks for.
    ///
    /// | script | shaper, unless |
    /// |---|---|
    /// | Arabic | Arabic; none in vertical text |
    /// | Syriac | Arabic; none in vertical text, or if DFLT was chosen |
    /// | Thai, Lao; Hangul; Hebrew; Khmer; Zawgyi (Qaag) | its own |
    /// | Myanmar | Myanmar; none if DFLT, latn or mymr was chosen |
    /// | Bengali, Devanagari, Gujarati, Gurmukhi, Kannada, Malayalam, Oriya, Tamil, Telugu | Indic; none if DFLT or latn was chosen, Universal if the tag ends in 3 |
    /// | the 88 of the universal shaping engine | Universal; none if DFLT or latn was chosen |
    ///
    /// ```
    /// use sengadlit::{Direction, Shaper, Tag, script};
    ///
    /// let shaper = |tag: &[u8; 4]| {
    ///     Shaper::for_script(script::DEVANAGARI, Direction::LeftToRight, Some(Tag(*tag)))
    /// };
    /// assert_eq!(shaper(b"dev2"), Some(Shaper::Indic));
    /// assert_eq!(shaper(b"dev3"), Some(Shaper::Universal));
    /// assert_eq!(shaper(b"DFLT"), None);
    /// ```
    pub fn for_script(script: Script, direction: Direction, chosen: Option<Tag>) -> Option<Shaper> {
        shaper_for_script(script, direction, chosen)
    }

    /// All shapers, in the order of their declaration.
    pub const ALL: [Shaper; 9] = [
        Shaper::Arabic,
        Shaper::Hangul,
        Shaper::Hebrew,
        Shaper::Indic,
        Shaper::Khmer,
        Shaper::Myanmar,
        Shaper::MyanmarZawgyi,
        Shaper::Thai,
        Shaper::Universal,
    ];
}

#[cfg(test)]
mod tests {
    use super::{Hook, Shaper};
    use crate::buffer::{Direction, Script, Tag};

    #[test]
    fn each_shaper_is_chosen_for_its_script() {
        let codes = [
            b"Arab", b"Hang", b"Hebr", b"Beng", b"Khmr", b"Mymr", b"Qaag", b"Laoo", b"Java",
        ];
        let chosen =
            codes.map(|code| Shaper::for_script(Script(*code), Direction::LeftToRight, None));
        assert_eq!(chosen, Shaper::ALL.map(Some));
    }

    // As HarfBuzz's `hb_ot_shaper_categorize` chooses by direction and by the script of the font.
    #[test]
    fn a_shaper_is_chosen_by_direction_and_the_fonts_script_too() {
        let chosen = |code: &[u8; 4], direction, font: &[u8; 4]| {
            Shaper::for_script(Script(*code), direction, Some(Tag(*font)))
        };
        let (left, down) = (Direction::LeftToRight, Direction::TopToBottom);
        let right = Direction::RightToLeft;
        assert_eq!(chosen(b"Arab", right, b"arab"), Some(Shaper::Arabic));
        assert_eq!(chosen(b"Arab", down, b"arab"), None);
        assert_eq!(chosen(b"Beng", left, b"bng2"), Some(Shaper::Indic));
        assert_eq!(chosen(b"Beng", left, b"bng3"), Some(Shaper::Universal));
        assert_eq!(chosen(b"Beng", left, b"DFLT"), None);
        assert_eq!(chosen(b"Mymr", left, b"mym2"), Some(Shaper::Myanmar));
        assert_eq!(chosen(b"Mymr", left, b"mymr"), None);
    }

    // The table of hooks in the documentation says what `has_hook` does.
    #[test]
    fn the_table_of_hooks_is_true() {
        let source = include_str!("generated/rustybuzz_shapers/shaper.rs");
        let rows: std::vec::Vec<_> = source
            .lines()
            .filter_map(|line| line.strip_prefix("/// | [`"))
            .collect();
        let hooks = [
            Hook::CollectFeatures,
            Hook::OverrideFeatures,
            Hook::CreateData,
            Hook::PreprocessText,
            Hook::Decompose,
            Hook::Compose,
            Hook::ReorderMarks,
            Hook::SetupMasks,
            Hook::PostprocessGlyphs,
        ];
        assert_eq!(rows.len(), hooks.len());
        for (row, hook) in rows.iter().zip(hooks) {
            let cells: std::vec::Vec<_> = row.split(" | ").skip(1).collect();
            let has = Shaper::ALL.map(|shaper| if shaper.has_hook(hook) { "yes" } else { "-" });
            assert_eq!(cells.join(" "), has.join(" ") + " |", "{row}");
        }
    }

    #[test]
    fn all_shapers_are_listed_once_in_order() {
        let places = Shaper::ALL.map(|shaper| shaper as usize);
        assert_eq!(places, [0, 1, 2, 3, 4, 5, 6, 7, 8]);
    }
}
