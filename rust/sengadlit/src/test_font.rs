//! A font's features, as tests of plans want them.

use crate::Tag;
use crate::map::TableIndex;
use crate::ot_shape_plan::FontFeatures;

/// A font with these tables, which finds this script in each, and no feature that is required.
pub struct TestFont {
    pub tables: &'static [TableIndex],
    pub script: Tag,
    /// The lookups of a table's feature, or none where the font lacks it.
    pub lookups: fn(TableIndex, Tag) -> Option<&'static [u16]>,
}

impl FontFeatures for TestFont {
    fn has_table(&self, table: TableIndex) -> bool {
        self.tables.contains(&table)
    }

    fn chosen_script(&self, _: TableIndex) -> Option<Tag> {
        Some(self.script)
    }

    fn found_script(&self, _: TableIndex) -> bool {
        true
    }

    fn feature_lookups(&self, table: TableIndex, tag: Tag) -> Option<&[u16]> {
        (self.lookups)(table, tag)
    }

    fn any_feature_lookups(&self, _: TableIndex, _: Tag) -> Option<&[u16]> {
        None
    }

    fn required_feature(&self, _: TableIndex) -> Option<Tag> {
        None
    }

    fn required_lookups(&self, _: TableIndex) -> &[u16] {
        &[]
    }
}
