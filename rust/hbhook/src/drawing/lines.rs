//! The walk over the lines: which rows the page has.

use super::fault::{DrawFault, Ended, MOST_GLYPHS};
use super::numbers::Numbers;
use super::origins::{Origins, Traced};
use super::page::{Answers, FOOT, Fault as FaultNote, HEAD, Head, Line, Text, shortened};
use super::{Legend, draw_row};
use crate::generated::hbhook_commands::{Fault, LineKind, kind_of_line, read_input, report};
use crate::generated::hbhook_lines::Session;
use crate::source::Source;
use sengadlit::GlyphInfo;
use sengadlit::alloc::Global;
use std::io::{Read, Write};

/// Carries out the lines of an input or a file and writes a page that shows the buffer before and after each
/// hook. A refusal or a fault ends the run: the page then shows it below all that came before it,
/// and the message goes to `faults`. A line that leaves more than 10,000 glyphs is refused as too
/// long, with how many fit on a line of its own. Returns the status to end with: 0, 1 for a
/// refusal, and 2 for a rejected line, and without a message for a reader or a writer that fails.
pub fn draw_lines(source: Source, input: impl Read, output: impl Write, faults: impl Write) -> u8 {
    match draw(source, input, output) {
        Ok(None) => 0,
        Ok(Some(ended)) => ended.report(faults),
        Err(fault) => report(faults, fault),
    }
}

// Draws the lines, and returns what ended the page.
fn draw(source: Source, input: impl Read, mut output: impl Write) -> Result<Option<Ended>, Fault> {
    let bytes = read_input(Global, input)?;
    let mut drawing = Drawing::new();
    let ended = drawing.draw_each(source.lines(&bytes));
    let written = output.write_all(drawing.finished().as_bytes());
    written
        .and_then(|()| output.flush())
        .map_err(|_| Fault::Broken)?;
    Ok(ended)
}

// A page in the making.
struct Drawing {
    session: Session,
    numbers: Numbers,
    page: String,
    legend: Legend,
    // The lines that wrote to the buffer since the last row, and the text that they set.
    written: Vec<Line>,
    text: String,
}

impl Drawing {
    // A page without a row.
    fn new() -> Self {
        Drawing {
            session: Session::new(Global),
            numbers: Numbers::default(),
            page: HEAD.into(),
            legend: Legend::default(),
            written: Vec::new(),
            text: String::new(),
        }
    }

    // Draws the lines in order, up to the first fault, which it returns.
    fn draw_each<'a>(&mut self, lines: impl Iterator<Item = (usize, &'a [u8])>) -> Option<Ended> {
        for (number, line) in lines {
            if let Err(fault) = self.draw(number, line) {
                self.draw_written();
                let told = FaultNote(Line::new(number, line), fault);
                self.page += &told.to_string();
                return Some(Ended { fault, number });
            }
        }
        None
    }

    // Carries out a line, and draws what it did, if it is one of a hook. What other lines write to
    // the buffer is drawn before the next hook, or the next text.
    fn draw(&mut self, number: usize, line: &[u8]) -> Result<(), DrawFault> {
        match kind_of_line(Global, line)? {
            LineKind::Setting => {
                self.session.carry_out(line)?;
                self.numbers.add_line(line);
            }
            LineKind::Glyphs => self.write(number, line)?,
            LineKind::Text => {
                self.draw_written();
                self.write(number, line)?;
                let glyphs = self.session.buffer.glyphs();
                glyphs
                    .iter()
                    .for_each(|glyph| self.numbers.add_character(glyph.glyph_id));
                self.text = text_of(glyphs);
            }
            LineKind::Run => {
                self.draw_written();
                self.draw_hook(number, line)?;
            }
        }
        Ok(())
    }

    // The page, whole.
    fn finished(mut self) -> String {
        self.draw_written();
        self.page + &self.legend.to_string() + FOOT
    }

    // Carries out a line that writes to the buffer, and keeps it for the head of the next row.
    fn write(&mut self, number: usize, line: &[u8]) -> Result<(), DrawFault> {
        self.carry_out(line)?;
        self.written.push(Line::new(number, line));
        Ok(())
    }

    // Carries out a line that leaves as many glyphs as a row may have.
    fn carry_out(&mut self, line: &[u8]) -> Result<(), DrawFault> {
        self.session.carry_out(line)?;
        match self.session.buffer.len() {
            count if count > MOST_GLYPHS => Err(DrawFault::TooMany(count)),
            _ => Ok(()),
        }
    }

    // Draws the buffer as lines have written it, if some did since the last row.
    fn draw_written(&mut self) {
        if self.written.is_empty() {
            return;
        }
        self.page += &Head(&self.written).to_string();
        if !self.text.is_empty() {
            self.page += &Text::new(&self.text, &self.session.buffer).to_string();
        }
        self.written.clear();
        self.text.clear();
        self.draw_row(&Origins::default());
    }

    // Carries out the line of a hook, and draws what the hook returned and left.
    fn draw_hook(&mut self, number: usize, line: &[u8]) -> Result<(), DrawFault> {
        let traced = Traced::new(&mut self.session, line)?;
        self.carry_out(line)?;
        let origins = traced.origins(self.session.buffer.glyphs());
        let answers = self.session.take_answers();
        self.page += &Head(&[Line::new(number, line)]).to_string();
        self.page += &Answers(&answers).to_string();
        self.draw_row(&origins);
        Ok(())
    }

    fn draw_row(&mut self, origins: &Origins) {
        self.page += &draw_row(&mut self.legend, &self.session, &self.numbers, origins);
    }
}

// The characters of a text, as the buffer has them.
fn text_of(glyphs: &[GlyphInfo]) -> String {
    let characters = glyphs
        .iter()
        .filter_map(|glyph| char::from_u32(glyph.glyph_id));
    shortened(&characters.collect::<String>())
}
