// Generated from crates/shapers_syllabic/src/ot_shaper_syllabic/kinds.rt by rust/erase; edit the source.

//! The kinds of syllables, as the grammars of the scripts distinguish them.

/// The kinds of Indic syllables.
pub mod indic_syllable {
    /// On a consonant.
    pub const CONSONANT_SYLLABLE: u8 = 0;

    /// On an independent vowel.
    pub const VOWEL_SYLLABLE: u8 = 1;

    /// On a placeholder or a dotted circle.
    pub const STANDALONE_CLUSTER: u8 = 2;

    /// On a symbol.
    pub const SYMBOL_CLUSTER: u8 = 3;

    /// Signs without a base.
    pub const BROKEN_CLUSTER: u8 = 4;

    /// Any other glyph, by itself.
    pub const NON_INDIC_CLUSTER: u8 = 5;
}

/// The kinds of Khmer syllables.
pub mod khmer_syllable {
    /// On a consonant, an independent vowel or a placeholder.
    pub const CONSONANT_SYLLABLE: u8 = 0;

    /// Signs without a base.
    pub const BROKEN_CLUSTER: u8 = 1;

    /// Any other glyph, by itself.
    pub const NON_KHMER_CLUSTER: u8 = 2;
}

/// The kinds of Myanmar syllables.
pub mod myanmar_syllable {
    /// On a consonant, an independent vowel or a placeholder.
    pub const CONSONANT_SYLLABLE: u8 = 0;

    /// A punctuation mark with its sign.
    pub const PUNCTUATION_CLUSTER: u8 = 1;

    /// Signs without a base.
    pub const BROKEN_CLUSTER: u8 = 2;

    /// Any other glyph, by itself.
    pub const NON_MYANMAR_CLUSTER: u8 = 3;
}

/// The kinds of syllables of the universal shaper; the numbers are this crate's own.
pub mod use_syllable {
    /// Ends in a virama.
    pub const VIRAMA_TERMINATED_CLUSTER: u8 = 0;

    /// Ends in a sakot, the stacker of Tai Tham.
    pub const SAKOT_TERMINATED_CLUSTER: u8 = 1;

    /// On a base, with its marks.
    pub const STANDARD_CLUSTER: u8 = 2;

    /// Numbers, with a number joiner at the end.
    pub const NUMBER_JOINER_TERMINATED_CLUSTER: u8 = 3;

    /// Numbers, with number joiners between them.
    pub const NUMERAL_CLUSTER: u8 = 4;

    /// On a symbol.
    pub const SYMBOL_CLUSTER: u8 = 5;

    /// Hieroglyphs, with the controls that join them.
    pub const HIEROGLYPH_CLUSTER: u8 = 6;

    /// Signs without a base.
    pub const BROKEN_CLUSTER: u8 = 7;

    /// Any other glyph, by itself.
    pub const NON_CLUSTER: u8 = 8;
}
