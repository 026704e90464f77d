// Generated from crates/hbhook_lines/src/session.rt by rust/erase; edit the source.

//! Carries out the lines.

use crate::support::prelude::*;

mod hooks;

use crate::generated::hbhook_commands::{
    Command, Expected, Feature, GlyphField, LineFault, LineFont, Setting, Settings, Side,
    print_buffer, read_line,
};
use crate::support::alloc::{AllocError, Global};
use core::mem;
use sengadlit::buffer::{Buffer, GlyphInfo, GlyphPosition, UnicodeProps};
use sengadlit::font::Tables;
use sengadlit::shaper::Shaper;
use sengadlit::spans::{Indic, Khmer, Myanmar, Universal, spans_into};

// The greatest length of a buffer before a line sets it.
const MAX_LEN: usize = 1_000_000;

// The shapers that cut a text into syllables.
const SYLLABLES: Expected =
    Expected::Condition("a line `set shaper` with indic, khmer, myanmar or universal before it");

// Each character has its own cluster.
const TEXT_LENGTH: Expected = Expected::Condition("no more characters than clusters of 32 bits");

/// What the lines so far have set, and the buffer that they made.
pub struct Session {
    settings: Settings,
    /// The buffer.
    pub buffer: Buffer,
    answers: String,
}

impl Session {
    /// Nothing set, and an empty buffer.
    ///
    /// <details><summary>Contract</summary>
    ///
    /// # Contract
    ///
    /// ```text
    /// ensures empty { result.buffer.glyphs ≡ [] }
    /// ensures max_len { result.buffer.max_len ≡ 1000000 }
    /// ```
    ///
    /// </details>
    pub fn new(alloc: Global) -> Self {
        Session {
            settings: Settings::new(alloc),
            buffer: Buffer::new(alloc, MAX_LEN),
            answers: String::new(alloc),
        }
    }

    /// Reads a line, which is text, and carries it out.
    pub fn carry_out(&mut self, line: &[u8]) -> Result<(), LineFault> {
        let command = read_line(self.buffer.alloc(), line)?;
        self.carry_out_command(command)
    }

    /// The shaper, once a line has set one.
    pub fn shaper(&self) -> Option<Shaper> {
        self.settings.shaper
    }

    /// The features that lines have named, each once.
    pub fn features(&self) -> &[Feature] {
        self.settings.features()
    }

    /// The font of the lines.
    pub fn font(&self) -> &LineFont {
        &self.settings.font
    }

    /// What the hooks have returned since the last call of this, one line each.
    pub fn take_answers(&mut self) -> String {
        mem::replace(&mut self.answers, String::new(self.buffer.alloc()))
    }

    // Carries out the command of a line.
    fn carry_out_command(&mut self, command: Command) -> Result<(), LineFault> {
        let settings = &mut self.settings;
        match command {
            Command::Font(character, glyph, advance) => {
                settings.font.add_glyph(character, glyph, advance)?;
            }
            Command::Applies(lookup, glyphs) => settings.font.add_applied(lookup, glyphs)?,
            Command::Table(character, entry) => settings.tables.set_entry(character, entry)?,
            Command::Pair(pair) => settings.tables.add_pair(pair)?,
            Command::Mask(tag, mask) => settings.set_mask(tag, mask)?,
            Command::Stage(tag, lookups) => settings.set_lookups(tag, lookups)?,
            Command::Set(setting) => self.set(setting)?,
            Command::Text(characters) => self.set_text(&characters)?,
            Command::Context(Side::Before, characters) => self.buffer.set_pre_context(&characters),
            Command::Context(Side::After, characters) => self.buffer.set_post_context(&characters),
            Command::At(place, field) => self.set_field(place, field)?,
            Command::Span(span) => settings.add_span(span)?,
            Command::FindSpans => self.find_spans()?,
            Command::Run(call) => self.run(call)?,
        }
        Ok(())
    }

    /// What the run prints: the results of its hooks, then the glyphs.
    pub(crate) fn printed(self) -> Result<String, AllocError> {
        let mut text = self.answers;
        print_buffer(&mut text, &self.buffer)?;
        Ok(text)
    }

    // Sets one thing.
    fn set(&mut self, setting: Setting) -> Result<(), LineFault> {
        match setting {
            Setting::Shaper(shaper) => self.settings.shaper = Some(shaper),
            Setting::Script(script) => {
                self.settings.script = Some(script);
                self.buffer.set_script(Some(script));
            }
            Setting::Chosen(script) => self.settings.chosen = Some(script),
            Setting::Found(found) => self.settings.found = found,
            Setting::GposMark(gpos_mark) => self.settings.gpos_mark = gpos_mark,
            Setting::Stretch(stretch_start) => self.settings.stretch_start = stretch_start,
            Setting::Breaks(break_flags) => self.settings.break_flags = break_flags,
            Setting::Base(base_search) => self.settings.base_search = base_search,
            Setting::Tables(others) => self.settings.tables.others = others,
            Setting::Direction(direction) => self.buffer.set_direction(direction),
            Setting::Level(level) => self.buffer.set_cluster_level(level),
            Setting::Flags(flags) => self.buffer.set_flags(flags),
            Setting::MaxLen(max_len) => self.set_max_len(max_len)?,
            Setting::Global(mask) => self.settings.global_mask = mask,
            Setting::Positions(true) => self.add_positions()?,
            Setting::Positions(false) => self.remove_positions(),
        }
        Ok(())
    }

    // Sets the greatest length, which is at least the length now.
    fn set_max_len(&mut self, max_len: usize) -> Result<(), LineFault> {
        if max_len < self.buffer.len() {
            return Err(LineFault::Unreadable(Expected::Condition(
                "at least the length of the buffer",
            )));
        }
        self.buffer.set_max_len(max_len);
        Ok(())
    }

    // Gives each glyph a position with its advance in the font.
    fn add_positions(&mut self) -> Result<(), AllocError> {
        let alloc = self.buffer.alloc();
        let positions = self.buffer.glyphs().iter().map(|glyph| GlyphPosition {
            x_advance: self.settings.font.advance(glyph.glyph_id),
            ..GlyphPosition::ZERO
        });
        let positions = positions.collect_in(alloc)?;
        // (one for each glyph, so the buffer takes them)
        let _ = self.buffer.set_positions(positions);
        Ok(())
    }

    // Takes the positions away.
    fn remove_positions(&mut self) {
        // (every buffer takes an empty list)
        let _ = self.buffer.set_positions(Vec::new(self.buffer.alloc()));
    }

    // Puts a text into the buffer: a glyph for each character.
    fn set_text(&mut self, characters: &[char]) -> Result<(), LineFault> {
        self.settings.spans.clear();
        self.buffer.truncate(0);
        self.buffer.set_has_broken_syllable(false);
        self.buffer.set_has_stch(false);
        for (i, character) in characters.iter().enumerate() {
            self.buffer.push(GlyphInfo {
                glyph_id: u32::from(*character),
                cluster: u32::try_from(i).map_err(|_| LineFault::Unreadable(TEXT_LENGTH))?,
                unicode_props: UnicodeProps::new(
                    self.settings.tables.general_category(*character),
                    0,
                ),
                ..GlyphInfo::DEFAULT
            })?;
        }
        Ok(())
    }

    // Takes the spans that the shaper's grammar finds in the buffer, in place of all others.
    fn find_spans(&mut self) -> Result<(), LineFault> {
        let (glyphs, spans) = (self.buffer.glyphs(), &mut self.settings.spans);
        match self
            .settings
            .shaper
            .ok_or(LineFault::Unreadable(SYLLABLES))?
        {
            Shaper::Indic => spans_into(&Indic, glyphs, spans)?,
            Shaper::Khmer => spans_into(&Khmer, glyphs, spans)?,
            Shaper::Myanmar => spans_into(&Myanmar, glyphs, spans)?,
            Shaper::Universal => spans_into(&Universal, glyphs, spans)?,
            Shaper::Arabic
            | Shaper::Hangul
            | Shaper::Hebrew
            | Shaper::Thai
            | Shaper::MyanmarZawgyi => return Err(LineFault::Unreadable(SYLLABLES)),
        }
        Ok(())
    }

    // Sets a field of the glyph at a place, or its advance.
    fn set_field(&mut self, place: usize, field: GlyphField) -> Result<(), LineFault> {
        if place >= self.buffer.len() {
            return Err(LineFault::Unreadable(Expected::Condition(
                "a place below the length of the buffer",
            )));
        }
        if let GlyphField::Advance(advance) = field {
            return self.set_advance(place, advance);
        }
        let mut glyph = self.buffer.get(place);
        field.write(&mut glyph);
        self.buffer.set(place, glyph);
        Ok(())
    }

    // Sets the advance at a place of a buffer with positions.
    fn set_advance(&mut self, place: usize, advance: i32) -> Result<(), LineFault> {
        if place >= self.buffer.positions_len() {
            return Err(LineFault::Unreadable(Expected::Condition(
                "positions: a line `set positions yes` after the text",
            )));
        }
        let mut position = self.buffer.position(place);
        position.x_advance = advance;
        self.buffer.set_position(place, position);
        Ok(())
    }
}
