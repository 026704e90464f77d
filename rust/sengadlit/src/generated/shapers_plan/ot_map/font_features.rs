// Generated from crates/shapers_plan/src/ot_map/font_features.rt by rust/erase; edit the source.

use crate::generated::shapers_base::buffer::Tag;
use crate::generated::shapers_base::map::TableIndex;

/// The features of a font's GSUB and GPOS, in the script and language that the caller chose for the
/// text. They are functions: the same question has the same result.
pub trait FontFeatures {
    /// Whether the font has the table.
    ///
    /// <details><summary>Contract</summary>
    ///
    /// # Contract
    ///
    /// ```text
    /// ensures { result ≡ (tables self.now).there table }
    /// ```
    ///
    /// </details>
    fn has_table(&self, table: TableIndex) -> bool;

    /// The tag of the chosen script, or none where the table has no script to choose.
    ///
    /// <details><summary>Contract</summary>
    ///
    /// # Contract
    ///
    /// ```text
    /// ensures { result ≡ (tables self.now).chosen table }
    /// ```
    ///
    /// </details>
    fn chosen_script(&self, table: TableIndex) -> Option<Tag>;

    /// Whether the chosen script is one that the text's script has a tag for, and no default.
    ///
    /// <details><summary>Contract</summary>
    ///
    /// # Contract
    ///
    /// ```text
    /// ensures { result ≡ (tables self.now).found table }
    /// ```
    ///
    /// </details>
    fn found_script(&self, table: TableIndex) -> bool;

    /// The lookups of a feature, by their numbers in the table; none where the chosen script lacks
    /// the feature.
    ///
    /// <details><summary>Contract</summary>
    ///
    /// # Contract
    ///
    /// ```text
    /// ensures { option_map (λ list. list.now) result ≡ (tables self.now).lookups table tag }
    /// ```
    ///
    /// </details>
    fn feature_lookups(&self, table: TableIndex, tag: Tag) -> Option<&[u16]>;

    /// The lookups of a feature by this tag in any script of the table.
    ///
    /// <details><summary>Contract</summary>
    ///
    /// # Contract
    ///
    /// ```text
    /// ensures { option_map (λ list. list.now) result ≡ (tables self.now).anywhere table tag }
    /// ```
    ///
    /// </details>
    fn any_feature_lookups(&self, table: TableIndex, tag: Tag) -> Option<&[u16]>;

    /// The tag of the feature that the chosen script requires, whatever is requested.
    ///
    /// <details><summary>Contract</summary>
    ///
    /// # Contract
    ///
    /// ```text
    /// ensures { result ≡ (tables self.now).required table }
    /// ```
    ///
    /// </details>
    fn required_feature(&self, table: TableIndex) -> Option<Tag>;

    /// The lookups of that feature; empty where there is none.
    ///
    /// <details><summary>Contract</summary>
    ///
    /// # Contract
    ///
    /// ```text
    /// ensures { result.now ≡ (tables self.now).required_lookups table }
    /// ```
    ///
    /// </details>
    fn required_lookups(&self, table: TableIndex) -> &[u16];
}
