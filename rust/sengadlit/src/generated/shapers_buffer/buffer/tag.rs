// Generated from crates/shapers_buffer/src/buffer/tag.rt by rust/erase; edit the source.

/// A tag of the OpenType registry: four bytes.
#[repr(transparent)]
#[derive(Clone, Copy, Debug, PartialEq, Eq, Hash, PartialOrd, Ord)]
pub struct Tag(pub [u8; 4]);

impl Tag {
    /// The tag of four bytes, as `*b"rlig"` (OpenType, tags).
    ///
    /// <details><summary>Contract</summary>
    ///
    /// # Contract
    ///
    /// ```text
    /// ensures { result.0 ≡ bytes }
    /// ```
    ///
    /// </details>
    #[inline]
    pub fn from_bytes(bytes: [u8; 4]) -> Self {
        Tag(bytes)
    }

    /// Its four bytes.
    ///
    /// <details><summary>Contract</summary>
    ///
    /// # Contract
    ///
    /// ```text
    /// ensures { result ≡ self.0 }
    /// ```
    ///
    /// </details>
    #[inline]
    pub fn to_bytes(self) -> [u8; 4] {
        self.0
    }
}

/// A script, by its ISO 15924 code: four bytes, as `Thai`.
#[repr(transparent)]
#[derive(Clone, Copy, Debug, PartialEq, Eq, Hash, PartialOrd, Ord)]
pub struct Script(pub [u8; 4]);

impl Script {
    /// The script whose ISO 15924 code has these bytes.
    ///
    /// <details><summary>Contract</summary>
    ///
    /// # Contract
    ///
    /// ```text
    /// ensures { result.0 ≡ bytes }
    /// ```
    ///
    /// </details>
    #[inline]
    pub fn from_bytes(bytes: [u8; 4]) -> Self {
        Script(bytes)
    }

    /// The four bytes of its code.
    ///
    /// <details><summary>Contract</summary>
    ///
    /// # Contract
    ///
    /// ```text
    /// ensures { result ≡ self.0 }
    /// ```
    ///
    /// </details>
    #[inline]
    pub fn to_bytes(self) -> [u8; 4] {
        self.0
    }
}
