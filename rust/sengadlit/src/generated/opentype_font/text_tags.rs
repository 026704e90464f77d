// Generated from crates/opentype_font/src/text_tags.rt by rust/erase; edit the source.

//! The tags by which a font's tables are asked for a text: those of its script and of its language.

use crate::generated::opentype_layout::features::script_tags;
use crate::generated::shapers_base::buffer::{Script, Tag};

/// At most three tags, the best first.
#[derive(Clone, Copy, Debug)]
pub struct TagList {
    tags: [u32; 3],
    count: usize,
}

impl TagList {
    /// The first three of these tags.
    ///
    /// <details><summary>Contract</summary>
    ///
    /// # Contract
    ///
    /// ```text
    /// ensures { tags_in result ≡ take 3 tags.now }
    /// ```
    ///
    /// - `tags_in`: `crates/opentype_font/specs/TextTags.antt`
    ///
    /// </details>
    pub fn new(tags: &[u32]) -> Self {
        TagList {
            tags: [tag_at(tags, 0), tag_at(tags, 1), tag_at(tags, 2)],
            count: tags.len().min(3),
        }
    }

    /// The tags.
    ///
    /// <details><summary>Contract</summary>
    ///
    /// # Contract
    ///
    /// ```text
    /// ensures { result.now ≡ tags_in self.now }
    /// ```
    ///
    /// - `tags_in`: `crates/opentype_font/specs/TextTags.antt`
    ///
    /// </details>
    pub fn as_slice(&self) -> &[u32] {
        &self.tags[..self.count.min(3)]
    }
}

// The tag at a place; 0 where there is none.
#[inline]
fn tag_at(tags: &[u32], place: usize) -> u32 {
    if place < tags.len() { tags[place] } else { 0 }
}

/// The tags of a text's script and of its language.
#[derive(Clone, Copy, Debug)]
pub struct TextTags {
    /// Those of the script.
    pub scripts: TagList,
    /// Those of the language.
    pub languages: TagList,
}

// The number of a tag's four bytes.
#[inline]
pub(crate) fn number_of(tag: Tag) -> u32 {
    let bytes = tag.to_bytes();
    u32::from(bytes[0]) * 0x100_0000
        + u32::from(bytes[1]) * 0x1_0000
        + u32::from(bytes[2]) * 256
        + u32::from(bytes[3])
}

/// The tags of a script, the newest first; none where there is no script.
///
/// <details><summary>Contract</summary>
///
/// # Contract
///
/// ```text
/// ensures { tags_in result ≡ tags_of_script script }
/// ```
///
/// - `tags_in`, `tags_of_script`: `crates/opentype_font/specs/TextTags.antt`
///
/// </details>
pub fn tags_of_script(script: Option<Script>) -> TagList {
    let number = match script {
        Some(script) => number_of(Tag(script.to_bytes())),
        None => 0,
    };
    TagList::new(script_tags(number).as_slice())
}
