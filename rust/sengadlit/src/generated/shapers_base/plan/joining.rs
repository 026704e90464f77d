// Generated from crates/shapers_base/src/plan/joining.rt by rust/erase; edit the source.

/// How a character joins its neighbours, as the Unicode Character Database has it, with the two
/// groups that Syriac treats on their own. The numbers are those of the joining tables.
#[derive(Clone, Copy, Debug, PartialEq, Eq, PartialOrd, Hash, Ord)]
pub enum JoiningType {
    /// Joins nothing.
    U = 0,
    /// Joins the next letter alone.
    L = 1,
    /// Joins the letter before alone.
    R = 2,
    /// Joins on both sides.
    D = 3,
    /// The letters of the shape of Alaph.
    GroupAlaph = 4,
    /// The letters of the shape of Dalath and Rish.
    GroupDalathRish = 5,
    /// Transparent: the letters on both sides join over it.
    T = 7,
    /// T or U, by the general category.
    X = 8,
}

impl JoiningType {
    /// Every joining type, in the order of their numbers.
    pub const ALL: [Self; 8] = [
        Self::U,
        Self::L,
        Self::R,
        Self::D,
        Self::GroupAlaph,
        Self::GroupDalathRish,
        Self::T,
        Self::X,
    ];

    /// The joining type of this number of the joining tables: 0 to 5, 7 or 8.
    ///
    /// <details><summary>Contract</summary>
    ///
    /// # Contract
    ///
    /// ```text
    /// ensures { result ≡ find (λ t. joining_number t == number) joining_types }
    /// ```
    ///
    /// - `joining_number`, `joining_types`: `crates/shapers_base/specs/Numbers.antt`
    ///
    /// </details>
    #[inline]
    pub fn from_number(number: u8) -> Option<Self> {
        match number {
            0 => Some(Self::U),
            1 => Some(Self::L),
            2 => Some(Self::R),
            3 => Some(Self::D),
            4 => Some(Self::GroupAlaph),
            5 => Some(Self::GroupDalathRish),
            7 => Some(Self::T),
            8 => Some(Self::X),
            _ => None,
        }
    }

    /// The number of the joining type in the joining tables.
    ///
    /// <details><summary>Contract</summary>
    ///
    /// # Contract
    ///
    /// ```text
    /// ensures { result ≡ joining_number self }
    /// ```
    ///
    /// - `joining_number`: `crates/shapers_base/specs/Numbers.antt`
    ///
    /// </details>
    #[inline]
    pub fn number(self) -> u8 {
        self as u8
    }
}
