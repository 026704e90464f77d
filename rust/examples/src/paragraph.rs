//! A paragraph broken into lines. It is shaped once; where a line is broken at a cluster that is
//! flagged unsafe, the text from the break to the next cluster without the flag, on both sides, is
//! shaped again, and no more. With flags for `unsafe to concat` the new piece and the old clusters meet
//! only where both are without it.

use crate::run::{Cluster, Shaping};
use std::error::Error;
use std::ops::Range;

/// A line: its part of the text, and its clusters in the order of the text.
#[derive(Debug)]
pub struct Line {
    pub text: Range<usize>,
    pub clusters: Vec<Cluster>,
}

impl Line {
    /// How wide it is without the spaces at its end.
    pub fn width(&self, text: &str) -> i32 {
        let is_space = |cluster: &&Cluster| text[cluster.text.clone()].chars().all(|c| c == ' ');
        let spaces = self.clusters.iter().rev().take_while(is_space).count();
        self.clusters[..self.clusters.len() - spaces]
            .iter()
            .map(Cluster::advance)
            .sum()
    }
}

/// Where a line may end.
#[derive(Clone, Copy, PartialEq, Eq)]
pub enum Breaks {
    /// Behind spaces, and in a word that is wider than a line between any two clusters.
    Words,
    /// Between any two clusters.
    Anywhere,
}

/// Breaks a paragraph into lines of at most this width, in units of the font; a single cluster may
/// be wider.
///
/// # Errors
///
/// Those of shaping.
pub fn wrap(
    shaping: &Shaping<'_>,
    text: &str,
    width: i32,
    breaks: Breaks,
) -> Result<Vec<Line>, Box<dyn Error>> {
    let clusters = shaping.clusters(text, 0..text.len())?;
    let (mut lines, mut start) = (vec![], 0);
    while start < clusters.len() {
        let (line, end) = longest_line(shaping, text, &clusters, start, width, breaks)?;
        lines.push(line);
        start = end;
    }
    Ok(lines)
}

// The longest line that fits, from a cluster on, and the cluster that the next one begins with.
fn longest_line(
    shaping: &Shaping<'_>,
    text: &str,
    clusters: &[Cluster],
    start: usize,
    width: i32,
    breaks: Breaks,
) -> Result<(Line, usize), Box<dyn Error>> {
    let is_behind_space =
        |end: &usize| *end == clusters.len() || text[..clusters[*end].text.start].ends_with(' ');
    let all = start + 1..=clusters.len();
    let words: Vec<usize> = all.clone().filter(is_behind_space).collect();
    let mut ends = if breaks == Breaks::Anywhere {
        all.collect()
    } else {
        words
    };
    if ends
        .first()
        .is_some_and(|end| !may_fit(&clusters[start..*end], text, width))
    {
        ends = (start + 1..=ends[0]).collect();
    }
    // by the glyphs of the whole paragraph at first, and then by the line's own
    let count = ends.partition_point(|end| may_fit(&clusters[start..*end], text, width));
    for end in ends[..count.max(1)].iter().rev() {
        let line = line_of(shaping, text, clusters, start..*end)?;
        if line.width(text) <= width || *end == ends[0] {
            return Ok((line, *end));
        }
    }
    unreachable!("the shortest line is taken, however wide it is")
}

fn may_fit(clusters: &[Cluster], text: &str, width: i32) -> bool {
    let last = clusters
        .last()
        .map_or("", |cluster| &text[cluster.text.clone()]);
    let trailing = clusters
        .last()
        .filter(|_| last == " ")
        .map_or(0, Cluster::advance);
    clusters.iter().map(Cluster::advance).sum::<i32>() - trailing <= width
}

// The line of these clusters of the paragraph, its ends shaped again where a flag says so.
fn line_of(
    shaping: &Shaping<'_>,
    text: &str,
    clusters: &[Cluster],
    line: Range<usize>,
) -> Result<Line, Box<dyn Error>> {
    let (start, end) = (
        byte(text, clusters, line.start),
        byte(text, clusters, line.end),
    );
    let paragraph = Paragraph {
        shaping,
        text,
        clusters,
    };
    let (kept_from, front) = paragraph.front(&line)?;
    let (kept_to, back) = paragraph.back(&line)?;
    let clusters = if kept_from <= kept_to {
        let kept = clusters[kept_from..kept_to].iter().cloned();
        front.into_iter().chain(kept).chain(back).collect()
    } else {
        paragraph.shape_again(line)?
    };
    Ok(Line {
        text: start..end,
        clusters,
    })
}

// Where a cluster of a text begins.
fn byte(text: &str, clusters: &[Cluster], at: usize) -> usize {
    let cluster = clusters.get(at);
    cluster.map_or(text.len(), |cluster| cluster.text.start)
}

struct Paragraph<'a> {
    shaping: &'a Shaping<'a>,
    text: &'a str,
    clusters: &'a [Cluster],
}

impl Paragraph<'_> {
    // The piece that opens a line, and from where on the paragraph's clusters are the line's: from the first
    // that no flag ties to what stands before it, in the paragraph or behind the piece.
    fn front(&self, line: &Range<usize>) -> Result<(usize, Vec<Cluster>), Box<dyn Error>> {
        if self.is_safe_to_break(line.start) {
            return Ok((line.start, vec![]));
        }
        for from in (line.start + 1..=line.end).filter(|at| self.may_join(*at)) {
            let piece = self.shape_again(line.start..from)?;
            if from == line.end || self.ends_clear(piece.last()) {
                return Ok((from, piece));
            }
        }
        Ok((line.end + 1, vec![]))
    }

    // The piece that ends a line, and up to where the paragraph's clusters are the line's.
    fn back(&self, line: &Range<usize>) -> Result<(usize, Vec<Cluster>), Box<dyn Error>> {
        if self.is_safe_to_break(line.end) {
            return Ok((line.end, vec![]));
        }
        for to in (line.start..line.end).rev().filter(|at| self.may_join(*at)) {
            let piece = self.shape_again(to..line.end)?;
            if to == line.start || self.ends_clear(piece.first()) {
                return Ok((to, piece));
            }
        }
        Ok((line.start, self.shape_again(line.clone())?))
    }

    fn is_safe_to_break(&self, at: usize) -> bool {
        let cluster = self.clusters.get(at);
        cluster.is_none_or(|cluster| !cluster.is_unsafe_to_break)
    }

    // Whether a piece may meet the paragraph's clusters before this one.
    fn may_join(&self, at: usize) -> bool {
        let cluster = self.clusters.get(at);
        let is_tied = |cluster: &Cluster| cluster.is_unsafe_to_break || cluster.is_unsafe_to_concat;
        cluster.is_none_or(|cluster| !is_tied(cluster))
    }

    // Whether the cluster of a piece that meets the paragraph's is clear, where flags tell.
    fn ends_clear(&self, cluster: Option<&Cluster>) -> bool {
        !self.shaping.flags_concat() || cluster.is_none_or(|cluster| !cluster.is_unsafe_to_concat)
    }

    fn shape_again(&self, part: Range<usize>) -> Result<Vec<Cluster>, Box<dyn Error>> {
        let at = |at| byte(self.text, self.clusters, at);
        let mut clusters = self
            .shaping
            .clusters(self.text, at(part.start)..at(part.end))?;
        for cluster in &mut clusters {
            cluster.is_shaped_again = true;
        }
        Ok(clusters)
    }
}
