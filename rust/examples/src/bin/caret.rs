//! `caret FONT TEXT`: where a caret stands as it moves through a text of one script, from its start
//! to its end: the place in the text, by bytes, and how far from the left edge, in units of the
//! font. It stops between clusters; and within one whose graphemes are drawn as one glyph, a
//! ligature, by GDEF's carets or else at equal distances.
//!
//! ```text
//! --svg FILE        draws the text with a stroke for each place
//! --script CODE, --direction ltr|rtl   instead of those of the first letter
//! ```

use sengadlit::{Direction, Face, ShapePlan};
use sengadlit_examples::arguments::Arguments;
use sengadlit_examples::carets::ligature_carets;
use sengadlit_examples::run::{Cluster, Shaping, graphemes};
use sengadlit_examples::svg::{BLACK, Drawing};
use std::error::Error;
use std::fs;

fn main() -> Result<(), Box<dyn Error>> {
    let arguments = Arguments::read(&["--svg", "--script", "--direction"])?;
    let [path, text] = &arguments.rest[..] else {
        return Err("caret FONT TEXT".into());
    };
    let (script, direction) = arguments.script(text)?;
    let data = fs::read(path)?;
    let face = Face::parse(&data, 0)?;
    let shaping = Shaping::new(
        &face,
        ShapePlan::builder().script(script).direction(direction),
    )?;
    let clusters = join_narrow(shaping.clusters(text, 0..text.len())?, direction);
    let places = places(&shaping, &data, text, &clusters)?;
    for (byte, x) in &places {
        println!("{byte} {x}");
    }
    if let Some(path) = arguments.option("--svg") {
        let mut drawing = Drawing::new(&face);
        for (_, x) in &places {
            drawing.caret(*x);
        }
        let clusters = shaping.visual(&clusters);
        let glyphs: Vec<_> = clusters
            .iter()
            .flat_map(|cluster| cluster.glyphs.clone())
            .collect();
        drawing.glyphs(&glyphs, 0, BLACK);
        drawing.end_line();
        fs::write(path, drawing.finish())?;
    }
    Ok(())
}

// A cluster without a width, such as the second glyph of a ligature of two, is one with that before
// it.
fn join_narrow(clusters: Vec<Cluster>, direction: Direction) -> Vec<Cluster> {
    let mut joined: Vec<Cluster> = vec![];
    for cluster in clusters {
        match joined.last_mut() {
            Some(last) if cluster.advance() == 0 => {
                last.text.end = cluster.text.end;
                let from_right = direction == Direction::RightToLeft;
                let at = if from_right { 0 } else { last.glyphs.len() };
                last.glyphs.splice(at..at, cluster.glyphs);
            }
            _ => joined.push(cluster),
        }
    }
    joined
}

fn places(
    shaping: &Shaping<'_>,
    data: &[u8],
    text: &str,
    clusters: &[Cluster],
) -> Result<Vec<(usize, i32)>, Box<dyn Error>> {
    let width: i32 = clusters.iter().map(Cluster::advance).sum();
    let from_left = |x: i32| match shaping.direction() {
        Direction::RightToLeft => width - x,
        _ => x,
    };
    let starts = graphemes(text)?;
    let (mut places, mut x) = (vec![(0, from_left(0))], 0);
    for cluster in clusters {
        for (byte, inside) in inside(shaping.direction(), data, cluster, &starts) {
            places.push((byte, from_left(x + inside)));
        }
        x += cluster.advance();
        places.push((cluster.text.end, from_left(x)));
    }
    Ok(places)
}

// The places within a cluster, each with its distance from where the cluster begins.
fn inside(
    direction: Direction,
    data: &[u8],
    cluster: &Cluster,
    starts: &[usize],
) -> Vec<(usize, i32)> {
    let is_inside = |start: &&usize| cluster.text.start < **start && **start < cluster.text.end;
    let starts: Vec<usize> = starts.iter().filter(is_inside).copied().collect();
    let mut moving = cluster
        .glyphs
        .iter()
        .filter(|(_, position)| position.x_advance != 0);
    let (Some((ligature, _)), None) = (moving.next(), moving.next()) else {
        return vec![];
    };
    let (width, parts) = (cluster.advance(), starts.len() as i32 + 1);
    let carets = ligature_carets(data, ligature.glyph_id);
    let caret = |part: usize| match (carets.get(part), direction) {
        // GDEF counts from the left
        (Some(_), Direction::RightToLeft) => width - carets[starts.len() - 1 - part],
        (Some(caret), _) => *caret,
        (None, _) => width * (part as i32 + 1) / parts,
    };
    let places = 0..starts.len();
    let places = places.map(|part| (starts[part], caret(part)));
    if carets.len() == starts.len() || carets.is_empty() {
        places.collect()
    } else {
        vec![]
    }
}
