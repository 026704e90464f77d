// Generated from crates/shapers_base/src/plan/pause.rt by rust/erase; edit the source.

/// What a shaper does between two stages of substitution.
#[repr(u8)]
#[derive(Clone, Copy, Debug, PartialEq, Eq, Hash, PartialOrd, Ord)]
pub enum Pause {
    /// Writes the spans of Indic syllables into the glyphs.
    SetupSyllablesIndic,
    /// Writes the spans of Khmer syllables into the glyphs.
    SetupSyllablesKhmer,
    /// Writes the spans of Myanmar syllables into the glyphs.
    SetupSyllablesMyanmar,
    /// Writes the spans of universal syllables into the glyphs.
    SetupSyllablesUse,
    /// The first reordering of Indic.
    InitialReordering,
    /// The reordering of Khmer.
    ReorderKhmer,
    /// The reordering of Myanmar.
    ReorderMyanmar,
    /// The reordering of the universal shaper.
    ReorderUse,
    /// The second reordering of Indic.
    FinalReordering,
    /// Records the pieces of marks that stretch.
    RecordStch,
    /// Records which glyphs form a reph.
    RecordRphf,
    /// Records which glyphs take a form before the base.
    RecordPref,
    /// Clears every syllable byte.
    SyllabicClearVar,
    /// Clears the marks of substituted glyphs.
    ClearSubstitutionFlags,
    /// Nothing: there is no fallback shaper for Arabic.
    ArabicFallbackShape,
}

impl Pause {
    /// Every pause, in order.
    pub const ALL: [Self; 15] = [
        Self::SetupSyllablesIndic,
        Self::SetupSyllablesKhmer,
        Self::SetupSyllablesMyanmar,
        Self::SetupSyllablesUse,
        Self::InitialReordering,
        Self::ReorderKhmer,
        Self::ReorderMyanmar,
        Self::ReorderUse,
        Self::FinalReordering,
        Self::RecordStch,
        Self::RecordRphf,
        Self::RecordPref,
        Self::SyllabicClearVar,
        Self::ClearSubstitutionFlags,
        Self::ArabicFallbackShape,
    ];

    /// The pause of this number, its place in `ALL`.
    ///
    /// <details><summary>Contract</summary>
    ///
    /// # Contract
    ///
    /// ```text
    /// ensures { result ≡ slice_get pauses number }
    /// ```
    ///
    /// - `pauses`: `crates/shapers_base/specs/Numbers.antt`
    ///
    /// </details>
    #[inline]
    pub fn from_number(number: u8) -> Option<Self> {
        Self::ALL.as_slice().get(number as usize).copied()
    }

    /// The number of the pause, its place in `ALL`.
    ///
    /// <details><summary>Contract</summary>
    ///
    /// # Contract
    ///
    /// ```text
    /// ensures { slice_get pauses result ≡ Some self }
    /// ```
    ///
    /// - `pauses`: `crates/shapers_base/specs/Numbers.antt`
    ///
    /// </details>
    #[inline]
    pub fn number(self) -> u8 {
        self as u8
    }
}
