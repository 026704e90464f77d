// Generated from crates/shapers_buffer/src/buffer/category.rt by rust/erase; edit the source.

/// The general categories of the Unicode Character Database, in their order: one byte, from 0 to 29,
/// as HarfBuzz numbers them.
#[repr(u8)]
#[derive(Clone, Copy, Debug, PartialEq, Eq, Hash)]
pub enum GeneralCategory {
    /// Control.
    Cc,
    /// Format.
    Cf,
    /// Unassigned.
    Cn,
    /// Private use.
    Co,
    /// Surrogate.
    Cs,
    /// Lowercase letter.
    Ll,
    /// Modifier letter.
    Lm,
    /// Other letter.
    Lo,
    /// Titlecase letter.
    Lt,
    /// Uppercase letter.
    Lu,
    /// Spacing mark.
    Mc,
    /// Enclosing mark.
    Me,
    /// Nonspacing mark.
    Mn,
    /// Decimal number.
    Nd,
    /// Letter number.
    Nl,
    /// Other number.
    No,
    /// Connector punctuation.
    Pc,
    /// Dash punctuation.
    Pd,
    /// Close punctuation.
    Pe,
    /// Final punctuation.
    Pf,
    /// Initial punctuation.
    Pi,
    /// Other punctuation.
    Po,
    /// Open punctuation.
    Ps,
    /// Currency symbol.
    Sc,
    /// Modifier symbol.
    Sk,
    /// Math symbol.
    Sm,
    /// Other symbol.
    So,
    /// Line separator.
    Zl,
    /// Paragraph separator.
    Zp,
    /// Space separator.
    Zs,
}

impl GeneralCategory {
    /// Every category, in order.
    pub const ALL: [Self; 30] = [
        Self::Cc,
        Self::Cf,
        Self::Cn,
        Self::Co,
        Self::Cs,
        Self::Ll,
        Self::Lm,
        Self::Lo,
        Self::Lt,
        Self::Lu,
        Self::Mc,
        Self::Me,
        Self::Mn,
        Self::Nd,
        Self::Nl,
        Self::No,
        Self::Pc,
        Self::Pd,
        Self::Pe,
        Self::Pf,
        Self::Pi,
        Self::Po,
        Self::Ps,
        Self::Sc,
        Self::Sk,
        Self::Sm,
        Self::So,
        Self::Zl,
        Self::Zp,
        Self::Zs,
    ];

    /// The category of this number, its place in `ALL`.
    ///
    /// <details><summary>Contract</summary>
    ///
    /// # Contract
    ///
    /// ```text
    /// ensures { result ≡ slice_get categories number }
    /// ```
    ///
    /// - `categories`: `crates/shapers_buffer/specs/Category.antt`
    ///
    /// </details>
    #[inline]
    pub fn from_number(number: u8) -> Option<Self> {
        if number < 30 {
            Some(Self::from_number_or_unassigned(number))
        } else {
            None
        }
    }

    /// The category of this number, its place in `ALL`; Cn where none has it.
    // (Without an `Option` between, the compiler sees a number where the category is compared.)
    ///
    /// <details><summary>Contract</summary>
    ///
    /// # Contract
    ///
    /// ```text
    /// ensures { result ≡ slice_index_or categories number Cn }
    /// ```
    ///
    /// - `categories`: `crates/shapers_buffer/specs/Category.antt`
    ///
    /// </details>
    #[inline]
    pub fn from_number_or_unassigned(number: u8) -> Self {
        match number {
            0 => Self::Cc,
            1 => Self::Cf,
            2 => Self::Cn,
            3 => Self::Co,
            4 => Self::Cs,
            5 => Self::Ll,
            6 => Self::Lm,
            7 => Self::Lo,
            8 => Self::Lt,
            9 => Self::Lu,
            10 => Self::Mc,
            11 => Self::Me,
            12 => Self::Mn,
            13 => Self::Nd,
            14 => Self::Nl,
            15 => Self::No,
            16 => Self::Pc,
            17 => Self::Pd,
            18 => Self::Pe,
            19 => Self::Pf,
            20 => Self::Pi,
            21 => Self::Po,
            22 => Self::Ps,
            23 => Self::Sc,
            24 => Self::Sk,
            25 => Self::Sm,
            26 => Self::So,
            27 => Self::Zl,
            28 => Self::Zp,
            29 => Self::Zs,
            _ => Self::Cn,
        }
    }

    /// The number of the category, its place in `ALL`.
    ///
    /// <details><summary>Contract</summary>
    ///
    /// # Contract
    ///
    /// ```text
    /// ensures number { result ≡ category_number self }
    /// ensures place { slice_get categories result ≡ Some self }
    /// ```
    ///
    /// - `categories`, `category_number`: `crates/shapers_buffer/specs/Category.antt`
    ///
    /// </details>
    #[inline]
    pub fn number(self) -> u8 {
        self as u8
    }

    /// Whether a character of this category is a mark: spacing, enclosing or nonspacing.
    ///
    /// <details><summary>Contract</summary>
    ///
    /// # Contract
    ///
    /// ```text
    /// ensures { result ≡ is_mark self }
    /// ```
    ///
    /// - `is_mark`: `crates/shapers_buffer/specs/Category.antt`
    ///
    /// </details>
    #[inline]
    pub fn is_mark(self) -> bool {
        matches!(self, Self::Mc | Self::Me | Self::Mn)
    }

    /// Whether a character of this category has a combining class: any but Cf and Zs, of which that
    /// byte says which joiner or which kind of space it is.
    ///
    /// <details><summary>Contract</summary>
    ///
    /// # Contract
    ///
    /// ```text
    /// ensures { result ≡ has_class self }
    /// ```
    ///
    /// - `has_class`: `crates/shapers_buffer/specs/Category.antt`
    ///
    /// </details>
    #[inline]
    pub fn has_class(self) -> bool {
        !matches!(self, Self::Cf | Self::Zs)
    }
}
