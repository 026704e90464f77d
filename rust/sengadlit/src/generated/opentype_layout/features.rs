// Generated from crates/opentype_layout/src/features.rt by rust/erase; edit the source.

//! Scripts, language systems and features of GSUB or GPOS, over the bytes of the table. Tags are
//! the numbers of their four letters.

use crate::generated::opentype_face::bytes::{table_at, u16_at, u32_at};
use crate::generated::opentype_face::ranges::Ranges;
use crate::support::arrayvec::ArrayVec;

/// How many records of feature variations are read at most, which is more than any font has.
const MOST_VARIATIONS: u32 = 512;

/// How many conditions of a record are read at most; fonts have one for an axis.
const MOST_CONDITIONS: u16 = 256;

/// How many substitutions of a record are read at most.
const MOST_SUBSTITUTIONS: u16 = 1024;

/// The script that is chosen for a text.
#[derive(Clone, Copy, Debug)]
pub struct Chosen {
    /// Its number in the table.
    pub script: u32,
    /// Its tag.
    pub tag: u32,
    /// Whether it is the text's own script, and no default.
    pub is_found: bool,
}

// An offset of four bytes.
#[inline]
fn offset32(bytes: &[u8], at: usize) -> usize {
    u32_at(bytes, at) as usize
}

// The number of the record with a tag.
fn tagged(bytes: &[u8], first: u32, count: u16, tag: u32) -> Option<u32> {
    let records = Ranges {
        bytes,
        first,
        last: first,
        size: 6,
        count: u32::from(count),
    };
    records.find_long(tag)
}

fn scripts(table: &[u8]) -> &[u8] {
    table_at(table, usize::from(u16_at(table, 4)))
}

// The script of a tag.
fn choose(table: &[u8], tag: u32, is_found: bool) -> Option<Chosen> {
    let list = scripts(table);
    let script = tagged(list, 2, u16_at(list, 0), tag)?;
    Some(Chosen {
        script,
        tag,
        is_found,
    })
}

#[inline]
fn tag_at(tags: &[u32], i: usize) -> u32 {
    if i < tags.len() { tags[i] } else { 0 }
}

fn choose_by(table: &[u8], tags: &[u32], is_found: bool, i: usize) -> Option<Chosen> {
    choose(table, tag_at(tags, i), is_found)
}

// The first of these tags that the table has a script for.
fn first_script(table: &[u8], tags: &[u32], is_found: bool) -> Option<Chosen> {
    for i in 0..tags.len() {
        let chosen = choose_by(table, tags, is_found, i);
        if chosen.is_some() {
            return chosen;
        }
    }
    None
}

/// The script of a table for a text by its tags, and where it has none of them by `DFLT`, `dflt` or
/// `latn`.
///
/// <details><summary>Contract</summary>
///
/// # Contract
///
/// ```text
/// ensures { result ≡ chosen_script_in table.now tags.now }
/// ```
///
/// - `chosen_script_in`: `crates/opentype_layout/specs/Features.antt`
///
/// </details>
pub fn choose_script(table: &[u8], tags: &[u32]) -> Option<Chosen> {
    let chosen = first_script(table, tags, true);
    if chosen.is_some() {
        return chosen;
    }
    first_script(table, &[0x4446_4C54, 0x6466_6C74, 0x6C61_746E], false)
}

/// A script's table, by its number.
///
/// <details><summary>Contract</summary>
///
/// # Contract
///
/// ```text
/// ensures { result.now ≡ script_table_in table.now i }
/// ```
///
/// - `script_table_in`: `crates/opentype_layout/specs/Features.antt`
///
/// </details>
pub fn script_table(table: &[u8], i: u32) -> &[u8] {
    let list = scripts(table);
    table_at(list, usize::from(u16_at(list, 6 + i as usize * 6)))
}

fn new_tag(script: u32) -> u32 {
    match script {
        0x4265_6E67 => 0x626E_6732,
        0x4465_7661 => 0x6465_7632,
        0x4775_6A72 => 0x676A_7232,
        0x4775_7275 => 0x6775_7232,
        0x4B6E_6461 => 0x6B6E_6432,
        0x4D6C_796D => 0x6D6C_6D32,
        0x4F72_7961 => 0x6F72_7932,
        0x5461_6D6C => 0x746D_6C32,
        0x5465_6C75 => 0x7465_6C32,
        0x4D79_6D72 => 0x6D79_6D32,
        _ => 0,
    }
}

fn old_tag(script: u32) -> u32 {
    match script {
        0 => 0,
        0x5A6D_7468 => 0x6D61_7468,
        0x4869_7261 => 0x6B61_6E61,
        0x4C61_6F6F => 0x6C61_6F20,
        0x5969_6969 => 0x7969_2020,
        0x4E6B_6F6F => 0x6E6B_6F20,
        0x5661_6969 => 0x7661_6920,
        _ => script | 0x2000_0000,
    }
}

fn third_tag(new: u32) -> u32 {
    if new == 0 {
        return 0;
    }
    if new == 0x6D79_6D32 { 0 } else { new | 0x33 }
}

// Puts a tag behind others; 0 is none.
fn push_tag(tags: &mut ArrayVec<u32, 3>, tag: u32) {
    if tag == 0 {
        return;
    }
    tags.push(tag);
}

/// The tags of a script by its ISO 15924 code, the newest first: for `Deva` these are `dev3`,
/// `dev2` and `deva`.
///
/// <details><summary>Contract</summary>
///
/// # Contract
///
/// ```text
/// ensures { result.items ≡ script_tags_in script }
/// ```
///
/// - `script_tags_in`: `crates/opentype_layout/specs/Features.antt`
///
/// </details>
pub fn script_tags(script: u32) -> ArrayVec<u32, 3> {
    let mut tags = ArrayVec::new();
    let new = new_tag(script);
    push_tag(&mut tags, third_tag(new));
    push_tag(&mut tags, new);
    push_tag(&mut tags, old_tag(script));
    tags
}

fn find_language(script: &[u8], tag: u32) -> Option<u32> {
    tagged(script, 4, u16_at(script, 2), tag)
}

// The first of these tags that a script has a language system for.
fn first_language(script: &[u8], tags: &[u32]) -> Option<u32> {
    for i in 0..tags.len() {
        let found = find_language(script, tag_at(tags, i));
        if found.is_some() {
            return found;
        }
    }
    None
}

fn system_at(script: &[u8], number: Option<u32>) -> &[u8] {
    match number {
        Some(i) => table_at(script, usize::from(u16_at(script, 8 + i as usize * 6))),
        None => table_at(script, usize::from(u16_at(script, 0))),
    }
}

/// The language system of the first of these tags that a script has, or of `dflt`, or else its
/// default one.
///
/// <details><summary>Contract</summary>
///
/// # Contract
///
/// ```text
/// ensures { result.now ≡ system_in script.now tags.now }
/// ```
///
/// - `system_in`: `crates/opentype_layout/specs/Features.antt`
///
/// </details>
pub fn language_system<'a>(script: &'a [u8], tags: &[u32]) -> &'a [u8] {
    let found = first_language(script, tags);
    if found.is_some() {
        return system_at(script, found);
    }
    system_at(script, find_language(script, 0x6466_6C74))
}

fn features(table: &[u8]) -> &[u8] {
    table_at(table, usize::from(u16_at(table, 6)))
}

fn feature_count(table: &[u8]) -> u16 {
    u16_at(features(table), 0)
}

/// The tag of a feature, by its number; 0 where there is none.
///
/// <details><summary>Contract</summary>
///
/// # Contract
///
/// ```text
/// ensures { result ≡ feature_tag_in table.now index }
/// ```
///
/// - `feature_tag_in`: `crates/opentype_layout/specs/Features.antt`
///
/// </details>
pub fn feature_tag(table: &[u8], index: u16) -> u32 {
    let list = features(table);
    if index >= u16_at(list, 0) {
        return 0;
    }
    u32_at(list, 2 + usize::from(index) * 6)
}

/// The number of the feature that a language system requires.
///
/// <details><summary>Contract</summary>
///
/// # Contract
///
/// ```text
/// ensures { result ≡ required_in system.now }
/// ```
///
/// - `required_in`: `crates/opentype_layout/specs/Features.antt`
///
/// </details>
pub fn required_feature(system: &[u8]) -> Option<u16> {
    if system.len() == 0 {
        return None;
    }
    let index = u16_at(system, 2);
    if index == 0xFFFF { None } else { Some(index) }
}

fn feature_if_tagged(table: &[u8], system: &[u8], tag: u32, i: u16) -> Option<u16> {
    let index = u16_at(system, 6 + usize::from(i) * 2);
    if feature_tag(table, index) == tag {
        Some(index)
    } else {
        None
    }
}

/// The number of a language system's feature by its tag.
///
/// <details><summary>Contract</summary>
///
/// # Contract
///
/// ```text
/// ensures { result ≡ feature_in table.now system.now tag }
/// ```
///
/// - `feature_in`: `crates/opentype_layout/specs/Features.antt`
///
/// </details>
pub fn find_feature(table: &[u8], system: &[u8], tag: u32) -> Option<u16> {
    for i in 0..u16_at(system, 4) {
        let found = feature_if_tagged(table, system, tag, i);
        if found.is_some() {
            return found;
        }
    }
    None
}

fn any_if_tagged(table: &[u8], tag: u32, i: u16) -> Option<u16> {
    if feature_tag(table, i) == tag {
        Some(i)
    } else {
        None
    }
}

/// The number of a feature by its tag, in any script of the table.
///
/// <details><summary>Contract</summary>
///
/// # Contract
///
/// ```text
/// ensures { result ≡ any_feature_in table.now tag }
/// ```
///
/// - `any_feature_in`: `crates/opentype_layout/specs/Features.antt`
///
/// </details>
pub fn find_any_feature(table: &[u8], tag: u32) -> Option<u16> {
    for i in 0..feature_count(table) {
        let found = any_if_tagged(table, tag, i);
        if found.is_some() {
            return found;
        }
    }
    None
}

// Whether a condition holds where all coordinates are 0.
fn holds(condition: &[u8]) -> bool {
    match u16_at(condition, 0) {
        1 => {
            let (from, to) = (u16_at(condition, 4), u16_at(condition, 6));
            (from == 0 || from >= 0x8000) && to < 0x8000
        }
        2 => {
            let value = u16_at(condition, 2);
            value != 0 && value < 0x8000
        }
        _ => false,
    }
}

fn failing(set: &[u8], i: u16) -> Option<u16> {
    if holds(table_at(set, offset32(set, 2 + usize::from(i) * 4))) {
        None
    } else {
        Some(i)
    }
}

fn first_failing(set: &[u8]) -> Option<u16> {
    for i in 0..u16_at(set, 0).min(MOST_CONDITIONS) {
        let found = failing(set, i);
        if found.is_some() {
            return found;
        }
    }
    None
}

// Whether all conditions of a set hold. At most 256 are read.
fn all_hold(set: &[u8]) -> bool {
    first_failing(set).is_none()
}

fn variations(table: &[u8]) -> &[u8] {
    if u32_at(table, 0) < 0x0001_0001 {
        return &[];
    }
    table_at(table, offset32(table, 10))
}

fn holding(variations: &[u8], i: u32) -> Option<u32> {
    if all_hold(table_at(
        variations,
        offset32(variations, 8 + i as usize * 8),
    )) {
        Some(i)
    } else {
        None
    }
}

// The first variation whose conditions hold, of 512 at most.
fn find_variation(variations: &[u8]) -> Option<u32> {
    for i in 0..u32_at(variations, 4).min(MOST_VARIATIONS) {
        let found = holding(variations, i);
        if found.is_some() {
            return found;
        }
    }
    None
}

/// What stands for features at the default instance of a variable font: a table for `feature_by`.
/// At most 131,072 conditions are tested.
///
/// <details><summary>Contract</summary>
///
/// # Contract
///
/// ```text
/// ensures { result.now ≡ substitutions_in table.now }
/// ```
///
/// - `substitutions_in`: `crates/opentype_layout/specs/Features.antt`
///
/// </details>
pub fn substitutions(table: &[u8]) -> &[u8] {
    let variations = variations(table);
    match find_variation(variations) {
        Some(i) => table_at(variations, offset32(variations, 12 + i as usize * 8)),
        None => &[],
    }
}

fn substitute_if(substitutions: &[u8], index: u16, i: u16) -> Option<u16> {
    if u16_at(substitutions, 6 + usize::from(i) * 6) == index {
        Some(i)
    } else {
        None
    }
}

// The number of what stands for a feature, among 1024 at most.
fn find_substitute(substitutions: &[u8], index: u16) -> Option<u16> {
    for i in 0..u16_at(substitutions, 4).min(MOST_SUBSTITUTIONS) {
        let found = substitute_if(substitutions, index, i);
        if found.is_some() {
            return found;
        }
    }
    None
}

fn plain_feature(table: &[u8], index: u16) -> &[u8] {
    let list = features(table);
    if index >= u16_at(list, 0) {
        return &[];
    }
    table_at(list, usize::from(u16_at(list, 6 + usize::from(index) * 6)))
}

/// A feature's table by its number, or what stands for it among these substitutions.
///
/// <details><summary>Contract</summary>
///
/// # Contract
///
/// ```text
/// ensures { result.now ≡ feature_or table.now index substitutions.now
///     (substitute_in substitutions.now index) }
/// ```
///
/// - `feature_or`, `substitute_in`: `crates/opentype_layout/specs/Features.antt`
///
/// </details>
pub fn feature_by<'a>(table: &'a [u8], substitutions: &'a [u8], index: u16) -> &'a [u8] {
    match find_substitute(substitutions, index) {
        Some(i) => {
            let at = offset32(substitutions, 8 + usize::from(i) * 6);
            table_at(substitutions, at)
        }
        None => plain_feature(table, index),
    }
}

/// A feature's table by its number, at the default instance of a variable font.
///
/// <details><summary>Contract</summary>
///
/// # Contract
///
/// ```text
/// ensures { result.now ≡ feature_table_in table.now index }
/// ```
///
/// - `feature_table_in`: `crates/opentype_layout/specs/Features.antt`
///
/// </details>
pub fn feature_table(table: &[u8], index: u16) -> &[u8] {
    feature_by(table, substitutions(table), index)
}

/// How many lookups a feature has, by its table.
///
/// <details><summary>Contract</summary>
///
/// # Contract
///
/// ```text
/// ensures { result ≡ lookup_count_in feature.now }
/// ```
///
/// - `lookup_count_in`: `crates/opentype_layout/specs/Features.antt`
///
/// </details>
#[inline]
pub fn lookup_count(feature: &[u8]) -> u16 {
    u16_at(feature, 2)
}

/// The number of one of a feature's lookups.
///
/// <details><summary>Contract</summary>
///
/// # Contract
///
/// ```text
/// ensures { result ≡ nth_lookup_in feature.now i }
/// ```
///
/// - `nth_lookup_in`: `crates/opentype_layout/specs/Features.antt`
///
/// </details>
#[inline]
pub fn nth_lookup(feature: &[u8], i: u16) -> u16 {
    u16_at(feature, 4 + usize::from(i) * 2)
}
