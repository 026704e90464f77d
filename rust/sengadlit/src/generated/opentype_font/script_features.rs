// Generated from crates/opentype_font/src/script_features.rt by rust/erase; edit the source.

//! What a plan reads of a font: its features in the script and the language of a text.

use crate::support::prelude::*;

use crate::generated::opentype_face::bytes::{offset16, table_at, u16_at, u32_at};
use crate::generated::opentype_font::text_tags::{TextTags, number_of};
use crate::generated::opentype_layout::features::{
    Chosen, choose_script, feature_by, feature_tag, find_feature, language_system, lookup_count,
    nth_lookup, required_feature, script_table, substitutions,
};
use crate::generated::shapers_base::buffer::{ShaperError, Tag};
use crate::generated::shapers_base::map::TableIndex;
use crate::generated::shapers_plan::ot_map::FontFeatures;
use crate::support::alloc::Global;
use crate::support::arrayvec::ArrayVec;

/// How many lookups of a feature are read at most, which is more than any font has: what a spoilt
/// font lists costs little memory.
const MOST_LOOKUPS: u16 = 4096;

/// How many features of a script are read at most.
const MOST_FEATURES: u16 = 1024;

/// The tag of vertical forms.
const VERT: u32 = 0x7665_7274;

/// So many lookups of a feature take no memory; few features have more.
const FEW_LOOKUPS: usize = 8;

// The numbers of the lookups that a feature applies.
#[derive(Debug)]
enum ListedLookups {
    Few(ArrayVec<u16, FEW_LOOKUPS>),
    Many(Vec<u16>),
}

impl ListedLookups {
    #[inline]
    fn as_slice(&self) -> &[u16] {
        match self {
            ListedLookups::Few(lookups) => lookups.as_slice(),
            ListedLookups::Many(lookups) => lookups.as_slice(),
        }
    }
}

// A feature, with its lookups.
#[derive(Debug)]
struct ListedFeature {
    tag: Tag,
    lookups: ListedLookups,
}

// The tag of a number of four bytes.
#[inline]
fn tag_by(number: u32) -> Tag {
    Tag([
        (number / 0x100_0000) as u8,
        (number / 0x1_0000 % 256) as u8,
        (number / 256 % 256) as u8,
        (number % 256) as u8,
    ])
}

// The language system of a script for a text.
#[inline]
fn system_for<'a>(table: &'a [u8], tags: &TextTags, chosen: &Chosen) -> &'a [u8] {
    language_system(
        script_table(table, chosen.script),
        tags.languages.as_slice(),
    )
}

/// Whether GSUB or GPOS has a feature by this tag for a text with these tags.
///
/// <details><summary>Contract</summary>
///
/// # Contract
///
/// ```text
/// ensures { result ≡ has_feature_in table.now (tags_of tags.now) tag }
/// ```
///
/// - `has_feature_in`: `crates/opentype_font/specs/ScriptFeatures.antt`
/// - `tags_of`: `crates/opentype_font/specs/TextTags.antt`
///
/// </details>
pub fn has_feature(table: &[u8], tags: &TextTags, tag: Tag) -> bool {
    match choose_script(table, tags.scripts.as_slice()) {
        Some(chosen) => {
            let system = system_for(table, tags, &chosen);
            find_feature(table, system, number_of(tag)).is_some()
        }
        None => false,
    }
}

// The number of the feature of vertical forms, in any script of the table.
// (the list is found once, since a table without the feature is read to its end)
fn find_vertical(table: &[u8]) -> Option<u16> {
    let list = table_at(table, offset16(table, 6));
    for i in 0..u16_at(list, 0) {
        if u32_at(list, 2 + usize::from(i) * 6) == VERT {
            return Some(i);
        }
    }
    None
}

// The lookups of a feature's table that has few.
fn few_lookups(feature: &[u8], count: u16) -> ArrayVec<u16, FEW_LOOKUPS> {
    let mut lookups = ArrayVec::new();
    for i in 0..count {
        lookups.push(nth_lookup(feature, i));
    }
    lookups
}

// So many lookups of a feature's table.
fn many_lookups(feature: &[u8], count: u16, alloc: Global) -> Result<Vec<u16>, ShaperError> {
    let mut lookups = Vec::with_capacity(alloc, usize::from(count))?;
    for i in 0..count {
        lookups
            .push(nth_lookup(feature, i))
            .map_err(|_| ShaperError::Memory)?;
    }
    Ok(lookups)
}

// The lookups of a feature's table.
#[inline]
fn lookups_of(feature: &[u8], alloc: Global) -> Result<ListedLookups, ShaperError> {
    let count = lookup_count(feature).min(MOST_LOOKUPS);
    if usize::from(count) <= FEW_LOOKUPS {
        return Ok(ListedLookups::Few(few_lookups(feature, count)));
    }
    Ok(ListedLookups::Many(many_lookups(feature, count, alloc)?))
}

// A feature by its number in the table, whose variations were read.
fn feature_at(
    table: &[u8],
    substitutions: &[u8],
    index: u16,
    alloc: Global,
) -> Result<ListedFeature, ShaperError> {
    let tag = tag_by(feature_tag(table, index));
    let lookups = lookups_of(feature_by(table, substitutions, index), alloc)?;
    Ok(ListedFeature { tag, lookups })
}

// A feature by its number, if there is one.
fn feature_if(
    table: &[u8],
    substitutions: &[u8],
    index: Option<u16>,
    alloc: Global,
) -> Result<Option<ListedFeature>, ShaperError> {
    match index {
        Some(index) => Ok(Some(feature_at(table, substitutions, index, alloc)?)),
        None => Ok(None),
    }
}

// The features of a language system, in its order.
fn features_of(
    table: &[u8],
    substitutions: &[u8],
    system: &[u8],
    alloc: Global,
) -> Result<Vec<ListedFeature>, ShaperError> {
    let count = u16_at(system, 4).min(MOST_FEATURES);
    let mut features = Vec::with_capacity(alloc, usize::from(count))?;
    for i in 0..count {
        let index = u16_at(system, 6 + usize::from(i) * 2);
        let feature = feature_at(table, substitutions, index, alloc)?;
        features.push(feature).map_err(|_| ShaperError::Memory)?;
    }
    Ok(features)
}

// The lookups of a feature, if it has this tag.
#[inline]
fn lookups_if(feature: &ListedFeature, tag: Tag) -> Option<&[u16]> {
    if feature.tag == tag {
        Some(feature.lookups.as_slice())
    } else {
        None
    }
}

// The lookups of the first of these features that has this tag.
fn lookups_by(features: &[ListedFeature], tag: Tag) -> Option<&[u16]> {
    for i in 0..features.len() {
        let found = lookups_if(&features[i], tag);
        if found.is_some() {
            return found;
        }
    }
    None
}

/// What GSUB or GPOS has for the script and the language of a text.
#[derive(Debug)]
struct TableFeatures {
    is_there: bool,
    script: Option<Tag>,
    is_found: bool,
    features: Vec<ListedFeature>,
    required: Option<ListedFeature>,
    // vertical forms, of any script
    vertical: Option<ListedFeature>,
}

impl TableFeatures {
    // Reads what a table has for a text.
    fn new(table: &[u8], tags: &TextTags, alloc: Global) -> Result<Self, ShaperError> {
        let is_there = !table.is_empty();
        let varied = substitutions(table);
        let vertical = feature_if(table, varied, find_vertical(table), alloc)?;
        match choose_script(table, tags.scripts.as_slice()) {
            Some(chosen) => {
                let system = system_for(table, tags, &chosen);
                Ok(TableFeatures {
                    is_there,
                    script: Some(tag_by(chosen.tag)),
                    is_found: chosen.is_found,
                    features: features_of(table, varied, system, alloc)?,
                    required: feature_if(table, varied, required_feature(system), alloc)?,
                    vertical,
                })
            }
            None => Ok(TableFeatures {
                is_there,
                script: None,
                is_found: false,
                features: Vec::new(alloc),
                required: None,
                vertical,
            }),
        }
    }
}

/// The features of a font's GSUB and GPOS in the script and the language of a text. (OpenType, common
/// table formats.)
#[derive(Debug)]
pub struct ScriptFeatures {
    gsub: TableFeatures,
    gpos: TableFeatures,
}

impl ScriptFeatures {
    /// Reads the features that the two tables, which are empty where the font lacks them, have for a
    /// text with these tags.
    ///
    /// # Errors
    ///
    /// [`Memory`].
    ///
    /// <details><summary>Contract</summary>
    ///
    /// # Contract
    ///
    /// ```text
    /// ensures gsub { IfOk result (λ it. features_view it.gsub ≡ table_view gsub.now (tags_of tags.now)) }
    /// ensures gpos { IfOk result (λ it. features_view it.gpos ≡ table_view gpos.now (tags_of tags.now)) }
    /// ensures refusal { IsOkUnless result Memory }
    /// ```
    ///
    /// - `features_view`, `table_view`: `crates/opentype_font/specs/ScriptFeatures.antt`
    /// - `tags_of`: `crates/opentype_font/specs/TextTags.antt`
    ///
    /// </details>
    ///
    /// [`Memory`]: crate::ShaperError::Memory
    pub fn new(
        gsub: &[u8],
        gpos: &[u8],
        tags: &TextTags,
        alloc: Global,
    ) -> Result<Self, ShaperError> {
        let gsub = TableFeatures::new(gsub, tags, alloc)?;
        let gpos = TableFeatures::new(gpos, tags, alloc)?;
        Ok(ScriptFeatures { gsub, gpos })
    }

    #[inline]
    fn of(&self, table: TableIndex) -> &TableFeatures {
        match table {
            TableIndex::GSUB => &self.gsub,
            TableIndex::GPOS => &self.gpos,
        }
    }
}

impl FontFeatures for ScriptFeatures {
    #[inline]
    fn has_table(&self, table: TableIndex) -> bool {
        self.of(table).is_there
    }

    #[inline]
    fn chosen_script(&self, table: TableIndex) -> Option<Tag> {
        self.of(table).script
    }

    #[inline]
    fn found_script(&self, table: TableIndex) -> bool {
        self.of(table).is_found
    }

    fn feature_lookups(&self, table: TableIndex, tag: Tag) -> Option<&[u16]> {
        lookups_by(self.of(table).features.as_slice(), tag)
    }

    fn any_feature_lookups(&self, table: TableIndex, tag: Tag) -> Option<&[u16]> {
        match &self.of(table).vertical {
            Some(feature) => lookups_if(feature, tag),
            None => None,
        }
    }

    fn required_feature(&self, table: TableIndex) -> Option<Tag> {
        match &self.of(table).required {
            Some(feature) => Some(feature.tag),
            None => None,
        }
    }

    fn required_lookups(&self, table: TableIndex) -> &[u16] {
        match &self.of(table).required {
            Some(feature) => feature.lookups.as_slice(),
            None => &[],
        }
    }
}
