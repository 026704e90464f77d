// Generated from crates/shapers_text/src/ot_shaper_thai/sara_am.rt by rust/erase; edit the source.

//! SARA AM in two: NIKHAHIT, which goes before the above-base marks, and SARA AA.

use crate::generated::shapers_base::buffer::{
    Buffer, BufferClusterLevel, ClusterRange, GeneralCategory, GlyphInfo, GlyphWalk, ShaperError,
    merge_range_in, write_range_in,
};

// SARA AM, of Thai and of Lao.
fn is_sara_am(u: u32) -> bool {
    matches!(u, 0x0E33 | 0x0EB3)
}

// An above-base mark of Thai, or of Lao, which stands 0x80 higher.
fn is_above_base_mark(u: u32) -> bool {
    // consonants and tone marks first, which most glyphs before a SARA AM are
    match u & !0x80 {
        ..0x0E31 => false,
        0x0E47..=0x0E4E => true,
        thai => matches!(thai, 0x0E31 | 0x0E34..=0x0E37 | 0x0E3B),
    }
}

// The NIKHAHIT of a SARA AM: a mark that its cluster's first glyph carries on.
fn nikhahit_from_sara_am(am: GlyphInfo) -> GlyphInfo {
    let mut nikhahit = am;
    nikhahit.glyph_id += 0x0E4D - 0x0E33;
    nikhahit
        .unicode_props
        .set_general_category(GeneralCategory::Mn);
    nikhahit.unicode_props.set_continuation(true);
    nikhahit
}

// The SARA AA of a SARA AM.
fn sara_aa_from_sara_am(am: GlyphInfo) -> GlyphInfo {
    let mut sara_aa = am;
    sara_aa.glyph_id -= 1;
    sara_aa
}

// How many SARA AM the text has.
fn count_sara_am(buffer: &Buffer) -> usize {
    buffer
        .glyphs()
        .iter()
        .filter(|glyph| is_sara_am(glyph.glyph_id))
        .count()
}

/// Whether the text has a SARA AM.
#[inline]
pub(super) fn has_sara_am(buffer: &Buffer) -> bool {
    buffer
        .glyphs()
        .iter()
        .any(|glyph| is_sara_am(glyph.glyph_id))
}

// How many above-base marks stand right before `place`.
fn count_marks_before(glyphs: &[GlyphInfo], place: usize) -> usize {
    glyphs[..place]
        .iter()
        .rev()
        .take_while(|glyph| is_above_base_mark(glyph.glyph_id))
        .count()
}

// How many glyphs stand before the first SARA AM.
fn count_before_sara_am(glyphs: &[GlyphInfo]) -> usize {
    glyphs
        .iter()
        .take_while(|glyph| !is_sara_am(glyph.glyph_id))
        .count()
}

// How many glyphs stand behind the last SARA AM.
fn count_behind_sara_am(glyphs: &[GlyphInfo]) -> usize {
    glyphs
        .iter()
        .rev()
        .take_while(|glyph| !is_sara_am(glyph.glyph_id))
        .count()
}

// Merges what a SARA AM at `place` merges, its marks or, without any, the glyph before it, in the
// glyphs with a range in its cluster. Returns the range that is to be written then.
fn merge_sara_am(
    level: BufferClusterLevel,
    glyphs: &mut [GlyphInfo],
    pending: ClusterRange,
    place: usize,
) -> ClusterRange {
    let above = count_marks_before(glyphs, place);
    if above > 0 {
        return merge_range_in(level, glyphs, pending, place - above, place + 1);
    }
    match level {
        BufferClusterLevel::MonotoneGraphemes if place > 0 => {
            merge_range_in(level, glyphs, pending, place - 1, place + 1)
        }
        BufferClusterLevel::MonotoneGraphemes
        | BufferClusterLevel::MonotoneCharacters
        | BufferClusterLevel::Characters => pending,
    }
}

// Where the first SARA AM of a text stands, which has so many of them, and the last right before
// `end`. The only one is the last.
fn find_first(text: &[GlyphInfo], count: usize, end: usize) -> usize {
    if count == 1 {
        end - 1
    } else {
        count_before_sara_am(&text[..end])
    }
}

// Merges what each SARA AM of the first `len` glyphs merges, from the left. There is none before
// the place `first`.
fn merge_all_sara_am(
    level: BufferClusterLevel,
    glyphs: &mut [GlyphInfo],
    first: usize,
    len: usize,
) {
    let mut pending = ClusterRange::NONE;
    for i in first..len {
        if is_sara_am(glyphs[i].glyph_id) {
            pending = merge_sara_am(level, glyphs, pending, i);
        }
    }
    write_range_in(glyphs, pending);
}

// What is still to be written: what the text before `end` becomes, over the places before `place`.
struct Unwritten {
    end: usize,
    place: usize,
}

impl Unwritten {
    // Writes what the last glyph becomes; if it is a SARA AM, with its marks.
    fn write_last(&mut self, glyphs: &mut [GlyphInfo]) {
        self.end -= 1;
        self.place -= 1;
        if is_sara_am(glyphs[self.end].glyph_id) {
            let am = glyphs[self.end];
            glyphs[self.place] = sara_aa_from_sara_am(am);
            self.write_nikhahit(glyphs, nikhahit_from_sara_am(am));
        } else {
            glyphs[self.place] = glyphs[self.end];
        }
    }

    // Writes the marks that end the text, and a NIKHAHIT before them.
    fn write_nikhahit(&mut self, glyphs: &mut [GlyphInfo], nikhahit: GlyphInfo) {
        let above = count_marks_before(glyphs, self.end);
        for _ in 0..above {
            self.end -= 1;
            self.place -= 1;
            glyphs[self.place] = glyphs[self.end];
        }
        self.place -= 1;
        glyphs[self.place] = nikhahit;
    }
}

// Writes the first `len` glyphs with each SARA AM in two over a slice that has just the room for
// it.
fn write_in_two(glyphs: &mut [GlyphInfo], len: usize) {
    let mut unwritten = Unwritten {
        end: len,
        place: glyphs.len(),
    };
    while unwritten.end < unwritten.place {
        unwritten.write_last(glyphs);
    }
}

// Merges each SARA AM of a text with its marks, and writes it in two: the text is the first `len` of
// these glyphs, and the others are the room that it grows into. What stands behind the last SARA AM
// moves as a whole.
#[inline]
fn rewrite_in_room(level: BufferClusterLevel, glyphs: &mut [GlyphInfo], len: usize) {
    let end = len - count_behind_sara_am(&glyphs[..len]);
    let count = glyphs.len() - len;
    let first = find_first(&glyphs[..len], count, end);
    merge_all_sara_am(level, glyphs, first, end);
    let place = end + count;
    glyphs.copy_within(end..len, place);
    write_in_two(&mut glyphs[..place], end);
}

/// Puts each SARA AM in two: NIKHAHIT, before the above-base marks that stand before it, and SARA
/// AA.
/// A SARA AM merges with its marks or, at level [`MonotoneGraphemes`], with the glyph before it.
/// Refuses as a growth does. (OpenType's Thai and Lao notes; rustybuzz's comment on the rule.)
///
/// <details><summary>Contract</summary>
///
/// # Contract
///
/// ```text
/// requires { buffer.old.positions ≡ [] }
/// ensures ok { let gs = buffer.old.glyphs in
///     let stretches = sara_am_stretches buffer.old.level (characters gs) in
///     let merged = merge_all buffer.old.level stretches gs in
///     OnOk result (buffer.new ≡ record buffer.old { glyphs = glyphs_in_two merged }) }
/// ensures length { let wanted = length (glyphs_in_two buffer.old.glyphs) in
///     RefusesLength buffer.old.max_len wanted result }
/// ensures err { OnErr result (buffer.new ≡ buffer.old) }
/// ensures without { let some = list_any (λ g. is_sara_am g.glyph_id) buffer.old.glyphs in
///     some ≡ false → IsOk result }
/// ```
///
/// - `merge_all`: `crates/shapers_buffer/specs/Clusters.antt`
/// - `characters`: `crates/shapers_buffer/specs/Glyph.antt`
/// - `RefusesLength`: `crates/shapers_buffer/specs/Refusals.antt`
/// - `glyphs_in_two`, `is_sara_am`, `sara_am_stretches`: `crates/shapers_text/specs/Thai.antt`
///
/// </details>
///
/// [`MonotoneGraphemes`]: crate::BufferClusterLevel::MonotoneGraphemes
pub fn rewrite_sara_am(buffer: &mut Buffer) -> Result<(), ShaperError> {
    let count = count_sara_am(buffer);
    if count == 0 {
        return Ok(());
    }
    rewrite_counted(buffer, count)
}

// Puts each SARA AM in two in a text that has so many of them. A call of its own, so that a text
// without any doesn't pay for its frame.
#[inline(never)]
fn rewrite_counted(buffer: &mut Buffer, count: usize) -> Result<(), ShaperError> {
    let len = buffer.len();
    buffer.grow(count)?;
    let level = buffer.cluster_level();
    buffer.with_glyphs_mut(|glyphs| rewrite_in_room(level, glyphs, len));
    Ok(())
}
