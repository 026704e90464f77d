// Generated from crates/shapers_buffer/src/buffer/settings.rt by rust/erase; edit the source.

//! All settings of a buffer at once.

use super::{Buffer, BufferClusterLevel, BufferFlags, CONTEXT_LENGTH, Direction, Script, context};
use crate::support::arrayvec::ArrayVec;

/// What a text brings along beside its glyphs: how it is to be shaped, the text on both sides, and
/// the marks that one hook leaves for a later one.
#[derive(Clone, Copy, Debug, PartialEq, Eq, Hash)]
pub struct BufferSettings<'a> {
    /// The direction of the text.
    pub direction: Direction,
    /// The script, where it is known.
    pub script: Option<Script>,
    /// How clusters merge.
    pub cluster_level: BufferClusterLevel,
    /// What the caller wants of the shapers.
    pub flags: BufferFlags,
    /// The text before, nearest character first; the buffer keeps the five nearest.
    pub pre_context: &'a [char],
    /// The text after, nearest character first; the buffer keeps the five nearest.
    pub post_context: &'a [char],
    /// Whether some span was of the broken kind.
    pub has_broken_syllable: bool,
    /// Whether some glyph is a piece of a stretched mark.
    pub has_stch: bool,
    /// The greatest length that the buffer may have.
    pub max_len: usize,
}

impl<'a> BufferSettings<'a> {
    /// The settings of a new buffer of this greatest length.
    ///
    /// <details><summary>Contract</summary>
    ///
    /// # Contract
    ///
    /// ```text
    /// ensures { with_settings result (new_buffer max_len) ≡ new_buffer max_len }
    /// ```
    ///
    /// - `new_buffer`: `crates/shapers_buffer/specs/Buffer.antt`
    /// - `with_settings`: `crates/shapers_buffer/specs/Settings.antt`
    ///
    /// </details>
    #[inline]
    pub fn new(max_len: usize) -> Self {
        BufferSettings {
            direction: Direction::LeftToRight,
            script: None,
            cluster_level: BufferClusterLevel::MonotoneGraphemes,
            flags: BufferFlags(0),
            pre_context: &[],
            post_context: &[],
            has_broken_syllable: false,
            has_stch: false,
            max_len,
        }
    }
}

/// The five nearest of these code points, which are nearest first, as characters of a context. A
/// number that is no character reads as U+FFFD.
///
/// <details><summary>Contract</summary>
///
/// # Contract
///
/// ```text
/// ensures { result.items ≡ take 5 (map character_of numbers.now) }
/// ```
///
/// - `character_of`: `crates/shapers_buffer/specs/Settings.antt`
///
/// </details>
#[inline]
pub fn context_characters(numbers: &[u32]) -> ArrayVec<char, CONTEXT_LENGTH> {
    let nearest = &numbers[..numbers.len().min(CONTEXT_LENGTH)];
    let mut characters = ArrayVec::new();
    for number in nearest {
        characters.push(character(*number));
    }
    characters
}

// The character of this code point, or U+FFFD where it is none.
#[inline]
fn character(number: u32) -> char {
    char::from_u32(number).unwrap_or(char::REPLACEMENT_CHARACTER)
}

impl Buffer {
    /// All settings of the buffer.
    ///
    /// <details><summary>Contract</summary>
    ///
    /// # Contract
    ///
    /// ```text
    /// ensures same { with_settings result self.now ≡ self.now }
    /// ensures at_most_five { length result.pre_context.now ≤ 5 }
    /// ensures at_most_five_after { length result.post_context.now ≤ 5 }
    /// ```
    ///
    /// - `with_settings`: `crates/shapers_buffer/specs/Settings.antt`
    ///
    /// </details>
    #[inline]
    pub fn settings(&self) -> BufferSettings<'_> {
        BufferSettings {
            direction: self.direction,
            script: self.script,
            cluster_level: self.cluster_level,
            flags: self.flags,
            pre_context: self.pre_context.as_slice(),
            post_context: self.post_context.as_slice(),
            has_broken_syllable: self.has_broken_syllable,
            has_stch: self.has_stch,
            max_len: self.max_len,
        }
    }

    /// Sets all settings; the greatest length is at least the buffer's length.
    ///
    /// <details><summary>Contract</summary>
    ///
    /// # Contract
    ///
    /// ```text
    /// requires { length self.old.glyphs ≤ settings.now.max_len }
    /// ensures { self.new ≡ with_settings settings.now self.old }
    /// ```
    ///
    /// - `with_settings`: `crates/shapers_buffer/specs/Settings.antt`
    ///
    /// </details>
    #[inline]
    pub(crate) fn set_settings_within(&mut self, settings: &BufferSettings) {
        self.direction = settings.direction;
        self.script = settings.script;
        self.cluster_level = settings.cluster_level;
        self.flags = settings.flags;
        self.pre_context = context(settings.pre_context);
        self.post_context = context(settings.post_context);
        self.has_broken_syllable = settings.has_broken_syllable;
        self.has_stch = settings.has_stch;
        self.max_len = settings.max_len;
    }
}
