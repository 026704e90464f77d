//! `wrap FONT EMS TEXT`: breaks a paragraph of one script into lines of at most so many ems. It is
//! shaped once, and at the ends of lines again only where a flag says so; a line of output tells
//! how many of a line's clusters were, and whether the line is as if it had been shaped alone.
//!
//! ```text
//! --anywhere        breaks between any two clusters, not only behind spaces
//! --sound           by flags that are sound where letters join, too (`BreakFlags::Sound`)
//! --concat          new pieces meet the old clusters only where none is unsafe to concat
//! --svg FILE        draws the lines
//! --script CODE, --direction ltr|rtl   instead of those of the first letter
//! ```

use sengadlit::plan::BreakFlags;
use sengadlit::{Direction, Face, GlyphInfo, GlyphPosition, ShapePlan};
use sengadlit_examples::arguments::Arguments;
use sengadlit_examples::paragraph::{Breaks, Line, wrap};
use sengadlit_examples::run::{Cluster, Shaping};
use sengadlit_examples::svg::{BLACK, Drawing, RED};
use std::error::Error;
use std::fs;

fn main() -> Result<(), Box<dyn Error>> {
    let arguments = Arguments::read(&["--svg", "--script", "--direction"])?;
    let [path, ems, text] = &arguments.rest[..] else {
        return Err("wrap FONT EMS TEXT".into());
    };
    let (script, direction) = arguments.script(text)?;
    let data = fs::read(path)?;
    let face = Face::parse(&data, 0)?;
    let mut plan = ShapePlan::builder().script(script).direction(direction);
    if arguments.has("--sound") {
        plan = plan.break_flags(BreakFlags::Sound);
    }
    let mut shaping = Shaping::new(&face, plan)?;
    if arguments.has("--concat") {
        shaping = shaping.flagging_concat();
    }
    let width = (ems.parse::<f32>()? * f32::from(face.units_per_em())) as i32;
    let breaks = if arguments.has("--anywhere") {
        Breaks::Anywhere
    } else {
        Breaks::Words
    };
    let lines = wrap(&shaping, text, width, breaks)?;
    for line in &lines {
        let verdict = if is_as_alone(&shaping, text, line)? {
            "as alone"
        } else {
            "NOT as alone"
        };
        let again = line
            .clusters
            .iter()
            .filter(|cluster| cluster.is_shaped_again)
            .count();
        let all = line.clusters.len();
        println!(
            "{again} of {all} clusters shaped again, {verdict}: {}",
            &text[line.text.clone()]
        );
    }
    if let Some(path) = arguments.option("--svg") {
        fs::write(path, draw(&shaping, &lines, width))?;
    }
    Ok(())
}

fn is_as_alone(shaping: &Shaping<'_>, text: &str, line: &Line) -> Result<bool, Box<dyn Error>> {
    let alone = shaping.clusters(text, line.text.clone())?;
    let of = |(glyph, position): &(GlyphInfo, GlyphPosition)| (glyph.glyph_id, *position);
    let glyphs = |clusters: &[Cluster]| -> Vec<_> {
        clusters
            .iter()
            .flat_map(|cluster| cluster.glyphs.iter().map(of))
            .collect()
    };
    Ok(glyphs(&line.clusters) == glyphs(&alone))
}

// Lines from right to left end at the right edge. What was shaped again is red.
fn draw(shaping: &Shaping<'_>, lines: &[Line], width: i32) -> String {
    let mut drawing = Drawing::new(shaping.face);
    for line in lines {
        let mut pen = match shaping.direction() {
            // (the spaces at its end are on the left)
            Direction::RightToLeft => {
                width - line.clusters.iter().map(Cluster::advance).sum::<i32>()
            }
            _ => 0,
        };
        for run in shaping
            .visual(&line.clusters)
            .chunk_by(|a, b| a.is_shaped_again == b.is_shaped_again)
        {
            let glyphs: Vec<_> = run
                .iter()
                .flat_map(|cluster| cluster.glyphs.clone())
                .collect();
            let colour = if run[0].is_shaped_again { RED } else { BLACK };
            pen = drawing.glyphs(&glyphs, pen, colour);
        }
        drawing.end_line();
    }
    drawing.finish()
}
