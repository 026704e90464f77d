//! The header's numbers, as the types of `sengadlit` and back.
use sengadlit::buffer::{BufferClusterLevel, BufferFlags, Direction, GeneralCategory, Script, Tag};
use sengadlit::plan::{JoiningType, Pause};
use sengadlit::shaper::{Hook, NormalizationMode, Shaper, ZeroWidthMarks};

/// `SENGADLIT_PAUSE_NONE`.
pub const NO_PAUSE: u32 = 0xFF;

/// The shaper of `sengadlit_shaper_t`.
pub fn shaper(number: u32) -> Option<Shaper> {
    Shaper::ALL.get(number as usize).copied()
}

/// Its number.
pub fn shaper_number(shaper: Shaper) -> u32 {
    Shaper::ALL
        .iter()
        .position(|s| *s == shaper)
        .map_or(u32::MAX, |number| number as u32)
}

/// The pause of `sengadlit_pause_t`.
#[inline]
pub fn pause(number: u32) -> Option<Pause> {
    Pause::from_number(u8::try_from(number).ok()?)
}

/// Its number; `NO_PAUSE` for none.
pub fn pause_number(pause: Option<Pause>) -> u32 {
    pause.map_or(NO_PAUSE, |pause| u32::from(pause.number()))
}

/// The direction of `sengadlit_direction_t`.
pub fn direction(number: u32) -> Option<Direction> {
    Direction::from_number(u8::try_from(number).ok()?)
}

/// The flags of `SENGADLIT_BUFFER_FLAG_..`, which are HarfBuzz's: the low four are read where whole texts are shaped, and stand one
/// bit higher in the crate.
pub fn buffer_flags(bits: u32) -> BufferFlags {
    BufferFlags(BufferFlags::from_harfbuzz(bits).0 | (bits & 0x0F) << 1)
}

/// `SENGADLIT_BUFFER_CLUSTER_LEVEL_GRAPHEMES`, which is the level of characters where graphemes aren't merged before.
pub const LEVEL_GRAPHEMES: u32 = 3;

/// The level of `sengadlit_buffer_cluster_level_t`.
pub fn cluster_level(number: u32) -> Option<BufferClusterLevel> {
    match number {
        LEVEL_GRAPHEMES => Some(BufferClusterLevel::Characters),
        number => BufferClusterLevel::from_number(u8::try_from(number).ok()?),
    }
}

/// The joining type of `SENGADLIT_JOINING_..`; U for any other number.
#[inline]
pub fn joining_type(number: u8) -> JoiningType {
    JoiningType::from_number(number).unwrap_or(JoiningType::U)
}

/// The general category of `SENGADLIT_UNICODE_GENERAL_CATEGORY_..`; unassigned for any other number.
#[inline]
pub fn general_category(number: u8) -> GeneralCategory {
    GeneralCategory::from_number(number).unwrap_or(GeneralCategory::Cn)
}

/// `sengadlit_normalization_mode_t`, which is HarfBuzz's.
pub fn normalization(mode: NormalizationMode) -> u32 {
    match mode {
        NormalizationMode::NONE => 0,
        NormalizationMode::CD => 3,
        NormalizationMode::AUTO => 4,
    }
}

/// `sengadlit_zero_width_marks_t`.
pub fn zero_width_marks(when: ZeroWidthMarks) -> u32 {
    match when {
        ZeroWidthMarks::NONE => 0,
        ZeroWidthMarks::GDEF_EARLY => 1,
        ZeroWidthMarks::GDEF_LATE => 2,
    }
}

/// A tag of four bytes.
pub fn tag(number: u32) -> Tag {
    Tag(number.to_be_bytes())
}

/// Its number.
pub fn tag_number(tag: Tag) -> u32 {
    u32::from_be_bytes(tag.0)
}

/// A script; 0 is none.
pub fn script(number: u32) -> Option<Script> {
    (number != 0).then(|| Script(number.to_be_bytes()))
}

/// The hooks of `SENGADLIT_HOOK_..` that a shaper has.
pub fn hooks(shaper: Shaper) -> u32 {
    const HOOKS: [(Hook, u32); 9] = [
        (Hook::CollectFeatures, 0x01),
        (Hook::OverrideFeatures, 0x02),
        (Hook::CreateData, 0x04),
        (Hook::PreprocessText, 0x08),
        (Hook::PostprocessGlyphs, 0x10),
        (Hook::Decompose, 0x20),
        (Hook::Compose, 0x40),
        (Hook::SetupMasks, 0x80),
        (Hook::ReorderMarks, 0x100),
    ];
    let there = HOOKS.iter().filter(|(hook, _)| shaper.has_hook(*hook));
    there.fold(0, |bits, (_, bit)| bits | bit)
}

#[cfg(test)]
mod tests {
    use super::{general_category, joining_type};
    use sengadlit::buffer::GeneralCategory;
    use sengadlit::categories::{indic, khmer, myanmar, position, universal};
    use sengadlit::plan::JoiningType;

    // The numbers of HarfBuzz's hb_unicode_general_category_t and arabic_joining_t (7 is T, 8 X).
    #[test]
    fn other_numbers_of_tables_stand_for_what_is_unassigned() {
        assert_eq!(joining_type(7), JoiningType::T);
        for number in [6, 9, 255] {
            assert_eq!(joining_type(number), JoiningType::U, "{number}");
        }
        assert_eq!(general_category(29), GeneralCategory::Zs);
        for number in [30, 255] {
            assert_eq!(general_category(number), GeneralCategory::Cn, "{number}");
        }
    }

    macro_rules! numbers {
        ($module:ident: $($name:ident)*) => {
            [$((stringify!($name), $module::$name)),*]
        };
    }

    /// The header's enumerators with this prefix are these numbers.
    fn are_in_header<const N: usize>(prefix: &str, mut numbers: [(&str, u8); N]) {
        let header = include_str!("../include/sengadlit.h");
        let lines = header
            .lines()
            .filter_map(|line| line.trim().strip_prefix(prefix));
        let number = |line: &'static str| -> Option<(&str, u8)> {
            let (name, number) = line.split_once(" = ")?;
            let digits = number.split([',', ' ']).next()?;
            Some((name, digits.parse().ok()?))
        };
        numbers.sort_by_key(|(_, number)| *number);
        let found: Vec<_> = lines.filter_map(number).collect();
        let wanted: Vec<_> = numbers
            .iter()
            .map(|(name, number)| (name.to_uppercase(), *number))
            .collect();
        assert!(
            wanted
                .iter()
                .map(|(name, number)| (name.as_str(), *number))
                .eq(found),
            "{prefix}"
        );
    }

    #[test]
    fn categories_are_the_crates() {
        are_in_header(
            "SENGADLIT_INDIC_CATEGORY_",
            numbers!(indic: X C V N H ZWNJ ZWJ M SM A PLACEHOLDER
            DOTTEDCIRCLE RS MPst Repha Ra CM Symbol CS SMPst),
        );
        are_in_header(
            "SENGADLIT_KHMER_CATEGORY_",
            numbers!(khmer: X C V H ZWNJ ZWJ PLACEHOLDER DOTTEDCIRCLE Ra
            VAbv VBlw VPre VPst Robatic Xgroup Ygroup),
        );
        are_in_header(
            "SENGADLIT_MYANMAR_CATEGORY_",
            numbers!(myanmar: X C IV DB H ZWNJ ZWJ SM A GB DOTTEDCIRCLE Ra
            CS VAbv VBlw VPre VPst As MH MR MW MY PT VS ML SMPst),
        );
        are_in_header(
            "SENGADLIT_USE_CATEGORY_",
            numbers!(universal: O B N GB CGJ SUB H HN ZWNJ WJ R VPre VMPre FAbv
            FBlw FPst MAbv MBlw MPst MPre CMAbv CMBlw VAbv VBlw VPst VMAbv VMBlw VMPst SMAbv SMBlw CS IS FMAbv FMBlw
            FMPst Sk G J SB SE HVM HM HR RK),
        );
    }

    #[test]
    fn positions_are_the_crates() {
        are_in_header(
            "SENGADLIT_INDIC_POSITION_",
            numbers!(position: START RA_TO_BECOME_REPH PRE_M PRE_C BASE_C
            AFTER_MAIN ABOVE_C BEFORE_SUB BELOW_C AFTER_SUB BEFORE_POST POST_C AFTER_POST SMVD END),
        );
    }
}
