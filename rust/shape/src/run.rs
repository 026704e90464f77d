//! The lines, one after another.

use crate::fault::Fault;
use crate::font;
use crate::input::Lines;
use crate::output::Output;
use crate::settings::{OutputSettings, Settings};
use crate::svg::Picture;
use crate::text::Text;
use crate::verify;
use sengadlit::opentype::{ShapeStep, printed, try_shape_in_steps};
use sengadlit::{
    Buffer, Face, GlyphBuffer, PlanCache, ShapePlan, UnicodeBuffer, try_shape_with_plan,
};
use std::mem;
use std::path::Path;

/// Shapes and prints each line.
pub fn run(settings: &Settings) -> Result<(), Fault> {
    let path = settings.font_file.as_deref().unwrap_or(Path::new("-"));
    let bytes = font::read(path)?;
    let face = font::parse(&bytes, settings, path)?;
    let mut lines = Lines::open(&settings.text)?;
    let mut output = Output::open(settings)?;
    let picture = settings.svg.as_deref();
    let picture = picture.map(|path| Picture::open(path, &face, settings.font_size));
    let mut picture = picture.transpose()?;
    let mut shaper = LineShaper::new(settings, &face);
    let (mut line, mut has_failed) = (vec![], false);
    while lines.next(&mut line)? {
        output.begin_line();
        match shaper.shape_line(&line, &mut output)? {
            Ok(glyphs) => {
                output.write_glyphs(&face, &glyphs)?;
                if let Some(picture) = &mut picture {
                    picture.add_line(&face, &glyphs);
                }
                shaper.take_back(glyphs);
            }
            Err(message) => {
                output.write_error(&message)?;
                has_failed = true;
            }
        }
    }
    output.finish()?;
    picture.map_or(Ok(()), Picture::finish)?;
    if has_failed {
        Err(Fault::Shaping)
    } else {
        Ok(())
    }
}

/// What lines are shaped with: plans, and the buffer of the line before.
pub struct LineShaper<'a> {
    settings: &'a Settings,
    face: &'a Face<'a>,
    plans: PlanCache,
    buffer: UnicodeBuffer,
}

impl<'a> LineShaper<'a> {
    fn new(settings: &'a Settings, face: &'a Face<'a>) -> Self {
        let choices = ShapePlan::builder()
            .break_flags(settings.break_flags)
            .rounds(settings.rounds);
        LineShaper {
            settings,
            face,
            plans: PlanCache::with_choices(choices),
            buffer: UnicodeBuffer::new(),
        }
    }

    /// Takes the buffer of glyphs that are printed.
    fn take_back(&mut self, glyphs: GlyphBuffer) {
        self.buffer = glyphs.clear();
    }

    /// Shapes a line as often as the settings say, and prints its text. Returns its glyphs, or why there
    /// are none.
    fn shape_line(
        &mut self,
        line: &[u8],
        output: &mut Output<'_>,
    ) -> Result<Result<GlyphBuffer, String>, Fault> {
        let text = Text::of_line(line, self.settings);
        let prefix = output.line_prefix();
        for _ in 1..self.settings.iterations.0 {
            match self.shape(&text, &prefix) {
                Ok(glyphs) => self.take_back(glyphs),
                Err(message) => return Ok(Err(message)),
            }
        }
        if self.settings.output.shows_characters() {
            match self.filled(&text) {
                Ok(buffer) => output.write_text(line, &buffer)?,
                Err(message) => return Ok(Err(message)),
            }
        }
        Ok(self.shape(&text, &prefix))
    }

    /// Shapes a text, and verifies the glyphs if it is asked for.
    fn shape(&mut self, text: &Text<'_>, prefix: &str) -> Result<GlyphBuffer, String> {
        let buffer = self.filled(text)?;
        let trace = Trace {
            settings: &self.settings.output,
            face: self.face,
            prefix,
        };
        let glyphs = self.shape_buffer(buffer, Some(&trace))?;
        if self.settings.verifies {
            verify::verify(self, text, &glyphs)?;
        }
        Ok(glyphs)
    }

    /// Shapes a part of a text, without a trace.
    pub fn shape_part(&mut self, text: &Text<'_>) -> Result<GlyphBuffer, String> {
        let buffer = self.filled(text)?;
        self.shape_buffer(buffer, None)
    }

    /// The buffer with a text.
    pub fn filled(&mut self, text: &Text<'_>) -> Result<UnicodeBuffer, String> {
        let mut buffer = mem::take(&mut self.buffer);
        buffer.clear();
        let filled = text.fill(&mut buffer);
        filled.map_err(|refusal| format!("the text was refused: {refusal}"))?;
        Ok(buffer)
    }

    fn shape_buffer(
        &mut self,
        buffer: UnicodeBuffer,
        trace: Option<&Trace<'_>>,
    ) -> Result<GlyphBuffer, String> {
        let (face, features) = (self.face, &self.settings.features);
        let plan = self.plans.plan(
            face,
            buffer.direction(),
            buffer.script(),
            buffer.language(),
            features,
        );
        let plan = plan.map_err(|error| error.to_string())?;
        let shaped = match trace.filter(|trace| trace.settings.traces) {
            Some(trace) => {
                let told = |step, glyphs: &Buffer| trace.tell(step, glyphs);
                try_shape_in_steps(face, plan, buffer, &told)
            }
            None => try_shape_with_plan(face, plan, buffer),
        };
        shaped.map_err(|refused| refused.to_string())
    }
}

/// What is told of the lookups of a line, on standard error.
struct Trace<'a> {
    settings: &'a OutputSettings,
    face: &'a Face<'a>,
    prefix: &'a str,
}

impl Trace<'_> {
    fn tell(&self, step: ShapeStep, glyphs: &Buffer) {
        let (what, lookup) = match step {
            ShapeStep::SubstitutionStarts(lookup) => ("start GSUB lookup", lookup),
            ShapeStep::SubstitutionEnds(lookup) => ("end GSUB lookup", lookup),
            ShapeStep::PositioningStarts(lookup) => ("start GPOS lookup", lookup),
            ShapeStep::PositioningEnds(lookup) => ("end GPOS lookup", lookup),
        };
        let flags = self.settings.flags;
        let shown = printed(Some(self.face), glyphs.glyphs(), glyphs.positions(), flags);
        eprintln!("{}trace: {what} {lookup}\tbuffer: {shown}", self.prefix);
    }
}
