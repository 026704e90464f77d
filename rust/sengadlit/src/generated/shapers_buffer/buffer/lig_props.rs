// Generated from crates/shapers_buffer/src/buffer/lig_props.rt by rust/erase; edit the source.

/// The ligature that the glyph is or belongs to (HarfBuzz's `lig_props`): its number in the high
/// three bits, below it whether the glyph is the ligature itself, and in the low four bits a
/// component.
#[repr(transparent)]
#[derive(Clone, Copy, PartialEq, Eq, Hash)]
pub struct LigProps(pub u8);

impl LigProps {
    /// No ligature.
    pub const NONE: Self = LigProps(0);

    /// The component that a mark is attached to, or which part of several the glyph is, 0 to 15: 0
    /// for a ligature itself.
    ///
    /// <details><summary>Contract</summary>
    ///
    /// # Contract
    ///
    /// ```text
    /// ensures { result ≡ component self }
    /// ```
    ///
    /// - `component`: `crates/shapers_buffer/specs/Properties.antt`
    ///
    /// </details>
    #[inline]
    pub fn component(self) -> u8 {
        if self.0 / 16 % 2 == 1 { 0 } else { self.0 % 16 }
    }

    /// Sets the component, of which the low four bits count; the glyph isn't a ligature itself then.
    ///
    /// <details><summary>Contract</summary>
    ///
    /// # Contract
    ///
    /// ```text
    /// ensures { self.new ≡ with_component component self.old }
    /// ```
    ///
    /// - `component`, `with_component`: `crates/shapers_buffer/specs/Properties.antt`
    ///
    /// </details>
    #[inline]
    pub fn set_component(&mut self, component: u8) {
        self.0 = self.0 / 32 * 32 + component % 16;
    }
}
