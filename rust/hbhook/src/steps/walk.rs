//! The walk over lines and calls, which draws what each step left.

use super::calls::Call;
use super::glyph::Names;
use super::subjects::{Subject, subject_of};
use super::told::told;
use super::{MOST_IN_ALL, MOST_SHOWN, ShaperError, Step, Steps};
use crate::drawing::{Legend, Numbers, Origins, Traced, draw_row, row_of};
use crate::explained::explain_end;
use crate::generated::hbhook_commands::{Fault, LineFault, LineKind, kind_of_line, print_buffer};
use crate::generated::hbhook_lines::Session;
use crate::source::Source;
use crate::support::string::String as Page;
use crate::way::Way;
use sengadlit::alloc::Global;
use sengadlit::{Buffer, GlyphInfo, GlyphProps};
use std::mem;

/// The steps so far, and the session that they are made in.
pub(crate) struct Walk {
    session: Session,
    numbers: Numbers,
    legend: Legend,
    steps: Vec<Step>,
    // How many glyphs the steps have together.
    glyphs: usize,
    // The lines that wrote to the buffer since the last step.
    written: Vec<String>,
    // Whether the last step left numbers of glyphs where the marks of lookups stand.
    has_numbers: bool,
}

impl Walk {
    /// No step.
    pub(crate) fn new() -> Self {
        Walk {
            session: Session::new(Global),
            numbers: Numbers::default(),
            legend: Legend::default(),
            steps: Vec::new(),
            glyphs: 0,
            written: Vec::new(),
            has_numbers: false,
        }
    }

    /// Carries out all of these lines, up to the first that ends them; returns why.
    pub(super) fn carry_out_all(&mut self, lines: &str) -> Result<(), String> {
        for (i, line) in lines.split_terminator('\n').enumerate() {
            let done = self.carry_out_line(line);
            done.map_err(|fault| match fault {
                Stop::Line(fault) => {
                    let status = Fault::on_line(fault, i + 1).status();
                    let told = explain_end(Source::Input, lines.as_bytes(), status, false);
                    told.unwrap_or_else(|| format!("line {}: {}", i + 1, reason(fault)))
                }
                Stop::TooMany(_) | Stop::TooManySteps => {
                    format!("line {}: {}", i + 1, fault.told())
                }
            })?;
        }
        self.show_written().map_err(|fault| fault.told())
    }

    /// Carries out a line.
    pub(crate) fn carry_out(&mut self, line: &str) -> Result<(), String> {
        let done = self.carry_out_line(line);
        done.map_err(|fault| format!("{line}: {}", fault.told()))
    }

    /// Takes a step of the pipeline.
    pub(super) fn call(&mut self, call: Call, way: &Way) -> Result<(), String> {
        let name = call.name();
        let subject = call.subject(self.session.shaper());
        let run = |buffer: &mut Buffer| call.run(way, buffer);
        self.take_step(&name, subject, call.leaves_numbers(), run)
            .map_err(|fault| format!("{name}: {}", fault.told()))
    }

    /// Takes a step that is no line, by its name and where bindings/page/definitions.md defines it.
    pub(crate) fn step(
        &mut self,
        name: &str,
        subject: Option<Subject>,
        run: impl Fn(&mut Buffer) -> Result<(), ShaperError>,
    ) -> Result<(), String> {
        self.take_step(name, subject, false, run)
            .map_err(|fault| format!("{name}: {}", fault.told()))
    }

    /// The steps, and why there are no more.
    pub(crate) fn finished(self, script: Option<[u8; 4]>, ended: Option<String>) -> Steps {
        Steps {
            steps: self.steps,
            legend: self.legend.to_string(),
            script,
            ended,
            text: String::new(),
        }
    }

    fn carry_out_line(&mut self, line: &str) -> Result<(), Stop> {
        match kind_of_line(Global, line.as_bytes())? {
            LineKind::Setting => {
                self.session.carry_out(line.as_bytes())?;
                self.numbers.add_line(line.as_bytes());
                Ok(())
            }
            LineKind::Glyphs => self.write(line),
            LineKind::Text => {
                self.show_written()?;
                self.write(line)?;
                for glyph in self.session.buffer.glyphs() {
                    self.numbers.add_character(glyph.glyph_id);
                }
                Ok(())
            }
            LineKind::Run => {
                self.show_written()?;
                self.run_hook(line)
            }
        }
    }

    // Carries out a line that writes to the buffer, which the next step shows.
    fn write(&mut self, line: &str) -> Result<(), Stop> {
        self.session.carry_out(line.as_bytes())?;
        self.check_length()?;
        self.written.push(line.into());
        Ok(())
    }

    // Shows what lines have written, if some did since the last step.
    fn show_written(&mut self) -> Result<(), Stop> {
        if self.written.is_empty() {
            return Ok(());
        }
        let heads = mem::take(&mut self.written);
        let origins = Origins::default();
        self.show(heads, &origins, None)
    }

    // Carries out the line of a hook.
    fn run_hook(&mut self, line: &str) -> Result<(), Stop> {
        let traced = Traced::new(&mut self.session, line.as_bytes())?;
        self.session.carry_out(line.as_bytes())?;
        self.check_length()?;
        let origins = traced.origins(self.session.buffer.glyphs());
        let shaper = self.session.shaper();
        let subject = shaper.and_then(|shaper| subject_of(line, shaper));
        self.show(vec![line.into()], &origins, subject)
    }

    // Takes a step, and takes it once more on labelled glyphs, which tells where each came from.
    fn take_step(
        &mut self,
        name: &str,
        subject: Option<Subject>,
        leaves_numbers: bool,
        run: impl Fn(&mut Buffer) -> Result<(), ShaperError>,
    ) -> Result<(), Stop> {
        self.show_written()?;
        let mut traced = Traced::labelled(&self.session.buffer)?;
        let _ = run(&mut traced.after);
        run(&mut self.session.buffer).map_err(LineFault::Refused)?;
        self.check_length()?;
        let mut origins = traced.origins(self.session.buffer.glyphs());
        if self.has_numbers {
            clear_numbers(&mut origins.before);
        }
        self.has_numbers = leaves_numbers;
        for glyph in self.session.buffer.glyphs() {
            self.numbers.add_character(glyph.glyph_id);
        }
        self.show(vec![name.into()], &origins, subject)
    }

    fn check_length(&self) -> Result<(), Stop> {
        match self.session.buffer.len() {
            count if count > MOST_SHOWN => Err(Stop::TooMany(count)),
            count if self.glyphs + count > MOST_IN_ALL => Err(Stop::TooManySteps),
            _ => Ok(()),
        }
    }

    // Adds a step: what the buffer has now. Numbers of glyphs, which would be taken for marks, aren't
    // shown.
    fn show(
        &mut self,
        heads: Vec<String>,
        origins: &Origins,
        subject: Option<Subject>,
    ) -> Result<(), Stop> {
        if !self.has_numbers {
            return self.show_buffer(heads, origins, subject);
        }
        let mut shown = self.session.buffer.copy().map_err(LineFault::Refused)?;
        shown.with_glyphs_mut(clear_numbers);
        let kept = mem::replace(&mut self.session.buffer, shown);
        let done = self.show_buffer(heads, origins, subject);
        self.session.buffer = kept;
        done
    }

    fn show_buffer(
        &mut self,
        heads: Vec<String>,
        origins: &Origins,
        subject: Option<Subject>,
    ) -> Result<(), Stop> {
        let answers = self.session.take_answers();
        let mut printed = Page::new(Global);
        let (session, numbers) = (&self.session, &self.numbers);
        let drawn = draw_row(&mut self.legend, session, numbers, origins);
        print_buffer(&mut printed, &session.buffer)?;
        let row = row_of(session, numbers, origins);
        let told = if origins.before.is_empty() {
            format!("{} glyphs.", row.glyphs.len())
        } else {
            told(row.before, row.glyphs, row.origins)
        };
        self.glyphs += row.glyphs.len();
        self.steps.push(Step {
            heads,
            answers: answers.lines().map(String::from).collect(),
            told,
            drawn,
            printed: printed.as_str().into(),
            subject,
            glyphs: row.glyphs.to_vec(),
            names: row
                .glyphs
                .iter()
                .map(|glyph| Names::of(&row, glyph))
                .collect(),
            origins: row.origins.to_vec(),
        });
        Ok(())
    }
}

// Takes numbers of glyphs from where the marks of lookups stand.
fn clear_numbers(glyphs: &mut [GlyphInfo]) {
    for glyph in glyphs {
        glyph.glyph_props = GlyphProps::NONE;
    }
}

// What ends the steps.
enum Stop {
    Line(LineFault),
    TooMany(usize),
    TooManySteps,
}

impl<T: Into<LineFault>> From<T> for Stop {
    fn from(fault: T) -> Self {
        Stop::Line(fault.into())
    }
}

impl Stop {
    fn told(&self) -> String {
        match self {
            Stop::Line(fault) => reason(*fault),
            Stop::TooMany(count) => {
                format!("{count} glyphs; no more than {MOST_SHOWN} are drawn")
            }
            Stop::TooManySteps => format!("the steps have more than {MOST_IN_ALL} glyphs together"),
        }
    }
}

fn reason(fault: LineFault) -> String {
    match fault {
        LineFault::Unreadable(expected) => format!("expected {expected}"),
        LineFault::Refused(refusal) => format!("refused: {refusal}"),
    }
}
