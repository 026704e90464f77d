// Generated from crates/shapers_buffer/src/buffer/level.rt by rust/erase; edit the source.

/// How glyphs of one grapheme or word share clusters.
#[repr(u8)]
#[derive(Clone, Copy, Debug, PartialEq, Eq, Hash, PartialOrd, Ord)]
pub enum BufferClusterLevel {
    /// Graphemes stay together, and clusters merge.
    MonotoneGraphemes,
    /// Clusters merge, but a mark that leans on nothing keeps its own.
    MonotoneCharacters,
    /// Clusters never merge.
    Characters,
}

impl BufferClusterLevel {
    /// Every level, in order.
    pub const ALL: [Self; 3] = [
        Self::MonotoneGraphemes,
        Self::MonotoneCharacters,
        Self::Characters,
    ];

    /// The level of this number, its place in `ALL`, as HarfBuzz numbers them.
    ///
    /// <details><summary>Contract</summary>
    ///
    /// # Contract
    ///
    /// ```text
    /// ensures { result ≡ slice_get levels number }
    /// ```
    ///
    /// - `levels`: `crates/shapers_buffer/specs/Numbers.antt`
    ///
    /// </details>
    #[inline]
    pub fn from_number(number: u8) -> Option<Self> {
        Self::ALL.as_slice().get(number as usize).copied()
    }

    /// The number of the level, its place in `ALL`.
    ///
    /// <details><summary>Contract</summary>
    ///
    /// # Contract
    ///
    /// ```text
    /// ensures { slice_get levels result ≡ Some self }
    /// ```
    ///
    /// - `levels`: `crates/shapers_buffer/specs/Numbers.antt`
    ///
    /// </details>
    #[inline]
    pub fn number(self) -> u8 {
        self as u8
    }
}

/// The direction of the text. The numbers are HarfBuzz's.
#[derive(Clone, Copy, Debug, PartialEq, Eq, Hash)]
pub enum Direction {
    /// Not set.
    Invalid = 0,
    /// From left to right, as Thai.
    LeftToRight = 4,
    /// From right to left, as Arabic.
    RightToLeft = 5,
    /// From top to bottom, as Mongolian.
    TopToBottom = 6,
    /// From bottom to top.
    BottomToTop = 7,
}

impl Direction {
    /// Every direction, in order.
    pub const ALL: [Self; 5] = [
        Self::Invalid,
        Self::LeftToRight,
        Self::RightToLeft,
        Self::TopToBottom,
        Self::BottomToTop,
    ];

    /// The direction of this number of HarfBuzz's: 0, or 4 to 7.
    ///
    /// <details><summary>Contract</summary>
    ///
    /// # Contract
    ///
    /// ```text
    /// ensures { result ≡ find (λ d. direction_number d == number) directions }
    /// ```
    ///
    /// - `direction_number`, `directions`: `crates/shapers_buffer/specs/Numbers.antt`
    ///
    /// </details>
    #[inline]
    pub fn from_number(number: u8) -> Option<Self> {
        match number {
            0 => Some(Self::Invalid),
            4 => Some(Self::LeftToRight),
            5 => Some(Self::RightToLeft),
            6 => Some(Self::TopToBottom),
            7 => Some(Self::BottomToTop),
            _ => None,
        }
    }

    /// HarfBuzz's number of the direction.
    ///
    /// <details><summary>Contract</summary>
    ///
    /// # Contract
    ///
    /// ```text
    /// ensures { result ≡ direction_number self }
    /// ```
    ///
    /// - `direction_number`: `crates/shapers_buffer/specs/Numbers.antt`
    ///
    /// </details>
    #[inline]
    pub fn number(self) -> u8 {
        self as u8
    }
}
