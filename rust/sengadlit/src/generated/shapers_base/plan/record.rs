// Generated from crates/shapers_base/src/plan/record.rt by rust/erase; edit the source.

/// How the text is normalized before the font's mapping.
#[derive(Clone, Copy, Debug, PartialEq, Eq, Hash)]
pub enum NormalizationMode {
    /// Not at all.
    NONE,
    /// As the font's tables suggest.
    AUTO,
    /// Diacritics are composed, and no text is passed over because the font has all its characters.
    CD,
}

/// When the advance of a mark becomes zero.
#[derive(Clone, Copy, Debug, PartialEq, Eq, Hash)]
pub enum ZeroWidthMarks {
    /// Never.
    NONE,
    /// Before positioning, by the classes of GDEF.
    GDEF_EARLY,
    /// After positioning, by the classes of GDEF.
    GDEF_LATE,
}
