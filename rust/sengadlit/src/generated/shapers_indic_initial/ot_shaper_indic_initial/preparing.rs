// Generated from crates/shapers_indic_initial/src/ot_shaper_indic_initial/preparing.rt by rust/erase; edit the source.

//! What comes before the order of a syllable: its positions, and the moves of single glyphs.
//! (OpenType, development of Indic scripts: "Reorder characters".)

use super::base::{Base, find_base};
use super::halant::{halant_move, joiner_comes_first};
use super::moved::MovedSyllable;
use super::positions::{attach_marks, own, set_positions_by_base};
use super::rules::Rules;
use crate::generated::shapers_base::buffer::{
    Buffer, GlyphInfo, GlyphWalk, Placement, Script, SyllableReading,
};
use crate::generated::shapers_base::font::Font;
use crate::generated::shapers_base::plan::ot_category_t::{OT_C, OT_M, OT_MPst, OT_SM};
use crate::generated::shapers_base::plan::ot_position_t::POS_BASE_C;

/// Prepares the syllable from `start` to `end` for its order, and returns its first moves, which
/// aren't written yet. Kannada's opening Ra, H, ZWJ becomes Ra, ZWJ, H; the glyphs get their
/// positions; and by the older specification the H after the base goes behind the last consonant. It
/// takes no memory.
#[inline]
pub(super) fn prepare_for_order<F: Font>(
    rules: &Rules<F>,
    buffer: &mut Buffer,
    start: usize,
    end: usize,
) -> MovedSyllable {
    if is_consonant_with_sign(&buffer.glyphs()[start..end]) {
        return MovedSyllable {
            first: Placement::Stays,
            second: Placement::Stays,
            start,
            end,
        };
    }
    let script = buffer.script();
    let first = put_joiner_first(script, buffer, start, end);
    let second = set_positions(rules, first, buffer, start, end);
    MovedSyllable {
        first,
        second,
        start,
        end,
    }
}

// Whether a syllable is one consonant at the base and a vowel sign or a modifier. Many are: nothing in
// them moves, and their positions are those that they have.
#[inline]
fn is_consonant_with_sign(syllable: &[GlyphInfo]) -> bool {
    match syllable {
        [first, second] => {
            first.category == OT_C
                && first.auxiliary == POS_BASE_C
                && !first.glyph_props.is_ligated()
                && matches!(second.category, OT_M | OT_MPst | OT_SM)
        }
        _ => false,
    }
}

// Sets the positions of a syllable behind its first move, and returns the second. Nearly always the
// first moves nothing: rustc then has a copy of the code that knows it.
#[inline]
fn set_positions<F: Font>(
    rules: &Rules<F>,
    first: Placement,
    buffer: &mut Buffer,
    start: usize,
    end: usize,
) -> Placement {
    match first {
        Placement::Stays => set_positions_behind(rules, Placement::Stays, buffer, start, end),
        _ => set_positions_of_moved(rules, first, buffer, start, end),
    }
}

// Sets them where the first move moves something: in Kannada's opening Ra, H, ZWJ alone.
#[cold]
#[inline(never)]
fn set_positions_of_moved<F: Font>(
    rules: &Rules<F>,
    first: Placement,
    buffer: &mut Buffer,
    start: usize,
    end: usize,
) -> Placement {
    set_positions_behind(rules, first, buffer, start, end)
}

// Sets these positions part by part.
#[inline(always)]
fn set_positions_behind<F: Font>(
    rules: &Rules<F>,
    first: Placement,
    buffer: &mut Buffer,
    start: usize,
    end: usize,
) -> Placement {
    let script = buffer.script();
    let opened = MovedSyllable {
        first,
        second: Placement::Stays,
        start,
        end,
    };
    let mut positions = PositionsByBase {
        rules,
        base: Base::NONE,
    };
    buffer.walk_arranged(
        &opened.moves_then(Placement::Stays),
        start,
        end,
        &mut positions,
    );
    let base = positions.base.place;
    let second = place_halant(rules.plan.is_old_spec, script, &opened, buffer, base);
    let moved = MovedSyllable {
        first,
        second,
        start,
        end,
    };
    let mut marks = PositionsOfMarks { base };
    buffer.walk_arranged(&moved.moves_then(Placement::Stays), start, end, &mut marks);
    second
}

// Merges an H and the ZWJ behind it, where Kannada has them change places, and returns that move.
#[inline]
fn put_joiner_first(
    script: Option<Script>,
    buffer: &mut Buffer,
    start: usize,
    end: usize,
) -> Placement {
    if joiner_comes_first(script, &buffer.glyphs()[start..end]) {
        buffer.merge_clusters(start + 1, start + 3);
        return to_end(start + 1, start + 3);
    }
    Placement::Stays
}

// The move of the H after the base, by the older specification.
#[inline(always)]
fn place_halant(
    is_old_spec: bool,
    script: Option<Script>,
    opened: &MovedSyllable,
    buffer: &mut Buffer,
    base: usize,
) -> Placement {
    if !is_old_spec {
        return Placement::Stays;
    }
    let mut search = HalantSearch {
        script,
        base,
        places: None,
    };
    let moves = opened.moves_then(Placement::Stays);
    buffer.read_arranged(&moves, opened.start, opened.end, &mut search);
    match search.places {
        None => Placement::Stays,
        Some((halant, last)) => to_end(opened.start + halant, opened.start + last + 1),
    }
}

// The glyph at place `from` behind all others up to `end`.
#[inline]
fn to_end(from: usize, end: usize) -> Placement {
    Placement::Forward {
        to: from,
        from: from + 1,
        count: end - from - 1,
    }
}

// A look for the H after a base, and the glyph behind which it goes.
struct HalantSearch {
    script: Option<Script>,
    base: usize,
    places: Option<(usize, usize)>,
}

impl SyllableReading for HalantSearch {
    #[inline]
    fn read(&mut self, syllable: &[GlyphInfo]) {
        self.places = halant_move(self.script, syllable, self.base);
    }
}

// A walk that finds the base of a syllable and gives the glyphs their positions by it.
struct PositionsByBase<'a, F: Font> {
    rules: &'a Rules<'a, F>,
    base: Base,
}

impl<'a, F: Font> GlyphWalk for PositionsByBase<'a, F> {
    #[inline(always)]
    fn walk(&mut self, glyphs: &mut [GlyphInfo]) {
        self.base = find_base(self.rules, glyphs);
        set_positions_by_base(glyphs, self.base);
    }
}

// A walk that gives the other glyphs of a syllable with this base their positions by what they go
// with.
struct PositionsOfMarks {
    base: usize,
}

impl GlyphWalk for PositionsOfMarks {
    #[inline(always)]
    fn walk(&mut self, glyphs: &mut [GlyphInfo]) {
        set_positions_of_marks(glyphs, self.base);
    }
}

// Sets the positions of a syllable with this base by what its glyphs go with.
#[inline]
fn set_positions_of_marks(syllable: &mut [GlyphInfo], base: usize) {
    attach_marks(syllable);
    own(syllable, base);
}
