//! `edits FONT WORDS COUNT [OPTION..]`: random edits of lines of real words, each shaped again by
//! [`GlyphBuffer::reshape`] and compared with the whole line shaped anew: glyphs, clusters, positions and
//! flags. WORDS has a word a line. Lines are edited twenty times, one edit after the other on the glyphs
//! that the one before left, so that a flag that came out wrong is found, too.
//!
//! The last line counts what was compared, which share of clusters was shaped again, and what differs.
//! Apart are counted those that differ though the flags of the text, shaped whole, allow breaks on both sides of the
//! stretch: there the flags don't hold, as where HarfBuzz takes two ligatures for one since their numbers are equal.
//!
//! - `--concat`: with `unsafe to concat`;
//! - `--as-code`: with HarfBuzz's rounds of normalization;
//! - `--once`: the first stretch is taken, not widened;
//! - `--level=1`: characters, not graphemes, are clusters.
#![forbid(unsafe_code)]

use sengadlit::buffer::glyph_flag;
use sengadlit::editing::{TextEdit, reshape};
use sengadlit::ot_shape_normalize::Rounds;
use sengadlit::{
    BufferClusterLevel, BufferFlags, Face, GlyphBuffer, GlyphPosition, Script, ShapePlan,
    UnicodeBuffer, shape_with_plan,
};
use sengadlit_tests::numbers::Numbers;
use std::error::Error;
use std::ops::Range;
use std::process::ExitCode;

/// How many edits a line gets.
const EDITS: usize = 20;

/// How many words a line has.
const WORDS: usize = 12;

/// How many characters an edit puts in or removes at most.
const MOST: usize = 4;

/// How many edits of each kind that come out otherwise are printed.
const MOST_TOLD: usize = 3;

/// Besides the words' characters: spaces, joiners, a combining grapheme joiner, a line feed and digits.
const OTHERS: [char; 8] = [
    ' ', ' ', '\u{200C}', '\u{200D}', '\u{34F}', '\n', '1', '\u{2044}',
];

fn main() -> ExitCode {
    let words: Vec<String> = std::env::args().skip(1).collect();
    match run(&words) {
        Ok(true) => ExitCode::SUCCESS,
        Ok(false) => ExitCode::FAILURE,
        Err(error) => {
            eprintln!("edits: {error}");
            ExitCode::from(2)
        }
    }
}

fn run(words: &[String]) -> Result<bool, Box<dyn Error>> {
    let (options, words): (Vec<_>, Vec<_>) = words.iter().partition(|word| word.starts_with("--"));
    let [font, list, count] = words[..] else {
        return Err(
            "usage: edits FONT WORDS COUNT [--concat] [--as-code] [--once] [--level=1]".into(),
        );
    };
    let has = |option: &str| options.iter().any(|other| *other == option);
    let data = std::fs::read(font)?;
    let mut face = Face::parse(&data, 0)?;
    face.prepare();
    let list = std::fs::read_to_string(list)?;
    let list: Vec<&str> = list.lines().filter(|word| !word.is_empty()).collect();
    let script = list
        .iter()
        .find_map(|word| word.chars().find_map(Script::of_char));
    let script = script.ok_or("no word has a letter")?;
    let rounds = if has("--as-code") {
        Rounds::AsCode
    } else {
        Rounds::Always
    };
    let plan = ShapePlan::builder()
        .script(script)
        .direction(script.direction())
        .rounds(rounds)
        .build(&face)?;
    let mut edits = Edits {
        face: &face,
        plan: &plan,
        words: &list,
        numbers: Numbers::new(1),
        concat: has("--concat"),
        once: has("--once"),
        level: match has("--level=1") {
            true => BufferClusterLevel::MonotoneCharacters,
            false => BufferClusterLevel::MonotoneGraphemes,
        },
        compared: 0,
        differ: 0,
        misflagged: 0,
        clusters: 0,
        again: 0,
        most: 0,
    };
    let count: usize = count.parse()?;
    while edits.compared < count {
        edits.edit_line();
    }
    println!(
        "{} edits compared, {:.1} of {:.1} clusters shaped again, at most {}, {} differ, {} more by flags",
        edits.compared,
        edits.again as f64 / edits.compared as f64,
        edits.clusters as f64 / edits.compared as f64,
        edits.most,
        edits.differ,
        edits.misflagged,
    );
    Ok(edits.differ == 0)
}

struct Edits<'a> {
    face: &'a Face<'a>,
    plan: &'a ShapePlan,
    words: &'a [&'a str],
    numbers: Numbers,
    concat: bool,
    once: bool,
    level: BufferClusterLevel,
    compared: usize,
    differ: usize,
    misflagged: usize,
    clusters: usize,
    again: usize,
    most: usize,
}

impl Edits<'_> {
    fn edit_line(&mut self) {
        let words: Vec<&str> = (0..WORDS)
            .map(|_| self.numbers.one_of(self.words))
            .collect();
        let mut text = words.join(" ");
        let mut glyphs = self.shape(&text);
        for _ in 0..EDITS {
            let before = text.clone();
            let edit = self.edit(&mut text);
            let whole = self.shape(&text);
            let again = self.reshape(&mut glyphs, &text, edit);
            self.compared += 1;
            self.clusters += clusters(&whole, 0..text.len());
            let count = clusters(&whole, again.clone());
            self.again += count;
            self.most = self.most.max(count);
            if !shown(&glyphs).eq(shown(&whole)) {
                if self.is_clear_at(&whole, &text, again.start)
                    && self.is_clear_at(&whole, &text, again.end)
                {
                    self.misflagged += 1;
                    if self.misflagged <= MOST_TOLD {
                        self.tell("by flags: ", &before, &text, edit);
                    }
                } else {
                    self.differ += 1;
                    if self.differ <= MOST_TOLD {
                        self.tell("", &before, &text, edit);
                    }
                }
                glyphs = whole;
            }
        }
    }

    // Whether the flags allow a break of a text at an offset, where a cluster begins or the text ends.
    fn is_clear_at(&self, whole: &GlyphBuffer, text: &str, offset: usize) -> bool {
        let flags = match self.concat {
            true => glyph_flag::UNSAFE_TO_BREAK | glyph_flag::UNSAFE_TO_CONCAT,
            false => glyph_flag::UNSAFE_TO_BREAK,
        };
        let glyphs = whole.glyph_infos().iter();
        let mut cluster = glyphs
            .filter(|glyph| glyph.cluster as usize == offset)
            .peekable();
        let is_border = cluster.peek().is_some() || offset == 0 || offset == text.len();
        is_border && cluster.all(|glyph| glyph.mask & flags == 0)
    }

    // Shapes again what an edit changes, and returns which bytes these are.
    fn reshape(&self, glyphs: &mut GlyphBuffer, text: &str, edit: TextEdit) -> Range<usize> {
        if self.once {
            return self.reshape_once(glyphs, text, edit);
        }
        let again = glyphs.reshape(self.face, self.plan, text, edit);
        again.expect("memory isn't refused")
    }

    // Prints what is left of an edit that comes out otherwise, once each character is removed without
    // which it still does.
    fn tell(&self, kind: &str, before: &str, after: &str, edit: TextEdit) {
        let characters = |text: &str| text.chars().collect::<Vec<char>>();
        let mut parts = [
            characters(&before[..edit.start]),
            characters(&before[edit.start..edit.old_end]),
            characters(&after[edit.start..edit.new_end]),
            characters(&after[edit.new_end..]),
        ];
        let mut is_least = false;
        while !is_least {
            is_least = true;
            for part in 0..parts.len() {
                for place in (0..parts[part].len()).rev() {
                    let mut fewer = parts.clone();
                    fewer[part].remove(place);
                    if self.differs(&fewer).is_some() {
                        parts = fewer;
                        is_least = false;
                    }
                }
            }
        }
        let told = self
            .differs(&parts)
            .unwrap_or("only after other edits".into());
        let [front, removed, added, back] = parts.map(|part| {
            let codes: Vec<String> = part
                .iter()
                .map(|c| format!("{:04X}", u32::from(*c)))
                .collect();
            codes.join(" ")
        });
        println!("{kind}{front} [{removed} -> {added}] {back}: {told}");
    }

    // How what comes out of an edit differs from the text shaped anew.
    fn differs(&self, [front, removed, added, back]: &[Vec<char>; 4]) -> Option<String> {
        let text = |middle: &[char]| {
            [front, middle, back]
                .iter()
                .copied()
                .flatten()
                .collect::<String>()
        };
        let bytes = |part: &[char]| part.iter().map(|c| c.len_utf8()).sum::<usize>();
        let edit = TextEdit {
            start: bytes(front),
            old_end: bytes(front) + bytes(removed),
            new_end: bytes(front) + bytes(added),
        };
        let after = text(added);
        let (mut glyphs, whole) = (self.shape(&text(removed)), self.shape(&after));
        let again = self.reshape(&mut glyphs, &after, edit);
        let (spliced, whole): (Vec<Shown>, Vec<Shown>) =
            (shown(&glyphs).collect(), shown(&whole).collect());
        let count = spliced.len().max(whole.len());
        let at = (0..count).find(|at| spliced.get(*at) != whole.get(*at))?;
        Some(format!(
            "{again:?} again, glyph {at} is {:?} and not {:?}",
            spliced.get(at),
            whole.get(at)
        ))
    }

    // The stretch that the old glyphs tell, whatever comes out at its ends.
    fn reshape_once(&self, glyphs: &mut GlyphBuffer, text: &str, edit: TextEdit) -> Range<usize> {
        let stretch = reshape(text, edit, glyphs.run());
        let mut buffer = self.buffer();
        buffer.set_pre_context(&text[..stretch.text.start]);
        buffer.set_post_context(&text[stretch.text.end..]);
        buffer.push_str(&text[stretch.text.clone()]);
        let piece = shape_with_plan(self.face, self.plan, buffer);
        let spliced = glyphs.splice(&stretch, edit, &piece);
        spliced.expect("memory isn't refused");
        stretch.text
    }

    // Edits a text: up to four characters give way to up to four others.
    fn edit(&mut self, text: &mut String) -> TextEdit {
        let places: Vec<usize> = text
            .char_indices()
            .map(|(at, _)| at)
            .chain([text.len()])
            .collect();
        let first = self.numbers.below(places.len());
        let removed = self.numbers.below(MOST + 1).min(places.len() - 1 - first);
        let (start, old_end) = (places[first], places[first + removed]);
        let added = self.characters(usize::from(removed == 0));
        text.replace_range(start..old_end, &added);
        let new_end = start + added.len();
        TextEdit {
            start,
            old_end,
            new_end,
        }
    }

    // Characters of a word from one of its places on, or of several words and others; at least so many.
    fn characters(&mut self, least: usize) -> String {
        let count = least + self.numbers.below(MOST + 1 - least);
        if self.numbers.once_in(3) {
            return (0..count).map(|_| self.character()).collect();
        }
        let word: Vec<char> = self.numbers.one_of(self.words).chars().collect();
        let place = self.numbers.below(word.len());
        word[place..]
            .iter()
            .chain([&' ', &word[0], &word[0], &' '])
            .take(count)
            .collect()
    }

    fn character(&mut self) -> char {
        if self.numbers.once_in(4) {
            return self.numbers.one_of(&OTHERS);
        }
        let word: Vec<char> = self.numbers.one_of(self.words).chars().collect();
        self.numbers.one_of(&word)
    }

    fn buffer(&self) -> UnicodeBuffer {
        let mut buffer = UnicodeBuffer::new();
        buffer.set_cluster_level(self.level);
        if self.concat {
            buffer.set_flags(BufferFlags::PRODUCE_UNSAFE_TO_CONCAT);
        }
        buffer
    }

    fn shape(&self, text: &str) -> GlyphBuffer {
        let mut buffer = self.buffer();
        buffer.push_str(text);
        shape_with_plan(self.face, self.plan, buffer)
    }
}

/// How many clusters the text has between these offsets.
fn clusters(glyphs: &GlyphBuffer, text: Range<usize>) -> usize {
    let runs = glyphs.glyph_infos().chunk_by(|a, b| a.cluster == b.cluster);
    runs.filter(|run| text.contains(&(run[0].cluster as usize)))
        .count()
}

type Shown = (u32, u32, u32, GlyphPosition);

/// What is compared of each glyph: number, cluster, flags and position.
fn shown(glyphs: &GlyphBuffer) -> impl Iterator<Item = Shown> + '_ {
    let infos = glyphs.glyph_infos().iter();
    infos
        .zip(glyphs.glyph_positions())
        .map(|(glyph, position)| (glyph.glyph_id, glyph.cluster, glyph.mask & 7, *position))
}
