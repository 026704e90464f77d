//! What the arguments set.

use sengadlit::opentype::Replacements;
use sengadlit::ot_shape_normalize::Rounds;
use sengadlit::plan::BreakFlags;
use sengadlit::{BufferFlags, Direction, Feature, Language, Script, SerializeFlags};
use std::path::PathBuf;

/// What the arguments set; what isn't set is as in hb-shape.
#[derive(Debug, Default)]
pub struct Settings {
    pub font_file: Option<PathBuf>,
    pub face_index: u32,
    /// How many units an em has across and up; those of the font if it isn't set.
    pub font_size: Option<(i32, i32)>,
    pub text: TextSettings,
    pub direction: Option<Direction>,
    pub script: Option<Script>,
    pub language: Option<Language>,
    pub flags: BufferFlags,
    pub replacements: Replacements,
    pub has_utf8_clusters: bool,
    pub cluster_level: u8,
    pub verifies: bool,
    pub iterations: Iterations,
    pub break_flags: BreakFlags,
    pub rounds: Rounds,
    pub features: Vec<Feature>,
    pub output: OutputSettings,
    pub svg: Option<PathBuf>,
}

impl Settings {
    /// Whether so many texts may be shaped that tables of the font pay: the lines of a file, or one text again and again.
    pub fn has_many_texts(&self) -> bool {
        let has_lines = self.text.text.is_none() && !self.text.is_single_paragraph;
        has_lines || self.iterations.0 > 100
    }
}

/// Where the text comes from.
#[derive(Debug, Default)]
pub struct TextSettings {
    pub text: Option<Vec<u8>>,
    /// Whether the text was given by numbers: then there is no other way to give one more.
    pub is_by_numbers: bool,
    pub file: Option<PathBuf>,
    pub is_single_paragraph: bool,
    pub before: Option<Vec<u8>>,
    pub after: Option<Vec<u8>>,
}

/// How often each line is shaped.
#[derive(Clone, Copy, Debug)]
pub struct Iterations(pub u32);

impl Default for Iterations {
    fn default() -> Self {
        Iterations(1)
    }
}

/// Where the output goes, and what is printed of a line.
#[derive(Debug, Default)]
pub struct OutputSettings {
    pub file: Option<PathBuf>,
    pub format: Option<String>,
    pub shows_text: bool,
    pub shows_unicode: bool,
    pub shows_line_numbers: bool,
    pub flags: SerializeFlags,
    pub traces: bool,
}

impl OutputSettings {
    /// Whether a line's own text or characters are shown.
    pub fn shows_characters(&self) -> bool {
        self.shows_text || self.shows_unicode
    }
}
