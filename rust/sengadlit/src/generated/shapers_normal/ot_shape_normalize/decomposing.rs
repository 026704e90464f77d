// Generated from crates/shapers_normal/src/ot_shape_normalize/decomposing.rt by rust/erase; edit the source.

//! The first round: characters come apart, as far as the font has the parts, and get their glyphs.

use crate::support::prelude::*;

use super::context::NormalizeContext;
use super::properties::set_character;
use super::sorting::is_mark;
use super::variants::{
    has_selector, is_kept, is_selector, join_variants, room_behind_forms, with_number, write_forms,
};
use crate::generated::shapers_base::buffer::{
    Buffer, BufferClusterLevel, GeneralCategory, GlyphChange, GlyphInfo, GlyphProps,
    GlyphRewriting, ShaperError,
};
use crate::generated::shapers_base::font::GlyphId;
use crate::generated::shapers_base::plan::NormalizationMode;
use crate::support::arrayvec::ArrayVec;

/// How many steps a character comes apart in at most: Unicode's longest canonical decomposition
/// takes three.
pub const MAX_STEPS: usize = 8;

// A base, and what came off in so many steps.
const MAX_PARTS: usize = 9;

// How the characters of a cluster come apart: in as few steps as the font has a base for, if it
// lacks the character, or in as many.
#[derive(Clone, Copy)]
enum Way {
    Short,
    Whole,
}

type Parts = ArrayVec<u32, MAX_PARTS>;

/// Takes the characters of a text apart, as far as the font has the parts, and writes the number of
/// each character's glyph to `glyph_props`. A character alone that the font has stays, unless the
/// shaper wants letters and marks apart; one with marks comes apart, unless the shaper wants no
/// normalization. Parts keep the cluster of what they came from. A cluster with a variation
/// selector stays; the font's glyph for a character and a selector stands for both. Refuses by the
/// number of glyphs, and then nothing has changed. A text of which nothing comes apart takes no
/// memory.
///
/// # Errors
///
/// [`TooLong`] where the text taken apart is longer than the buffer may be, and [`Memory`]; nothing has changed then.
///
/// # Panics
///
/// Where the context does. May panic, or leave an unspecified text, where the buffer has positions.
///
/// <details><summary>Contract</summary>
///
/// # Contract
///
/// ```text
/// requires { buffer.old.positions ≡ [] }
/// ensures ok { let context = C.context context.now in
///     let text = first_round context buffer.old.level buffer.old.glyphs in
///     OnOk result (buffer.new ≡ record buffer.old { glyphs = text }) }
/// ensures length { let context = C.context context.now in
///     let text = first_round context buffer.old.level buffer.old.glyphs in
///     RefusesLength buffer.old.max_len (length text) result }
/// ensures memory { is_whole (C.context context.now) buffer.old.glyphs ≡ true → IsOk result }
/// ensures in_place { let context = C.context context.now in
///     stays_together context buffer.old.glyphs ≡ true → IsOk result }
/// ensures err { OnErr result (buffer.new ≡ buffer.old) }
/// ```
///
/// - `RefusesLength`: `crates/shapers_buffer/specs/Refusals.antt`
/// - `first_round`, `is_whole`, `stays_together`: `crates/shapers_normal/specs/Decomposition.antt`
///
/// </details>
///
/// [`Memory`]: crate::ShaperError::Memory
/// [`TooLong`]: crate::ShaperError::TooLong
pub fn decompose<C: NormalizeContext>(context: &C, buffer: &mut Buffer) -> Result<(), ShaperError> {
    if is_whole(context, buffer.glyphs()) {
        // (a context that panics leaves the empty buffer, and no text with some of its numbers)
        buffer.change_outside(&Numbering { context });
        return Ok(());
    }
    if stays_together(context, buffer.glyphs()) {
        buffer.change_outside(&Mapping { context });
        return Ok(());
    }
    let len = measure(context, buffer.glyphs(), buffer.max_len())?;
    let level = buffer.cluster_level();
    buffer.rewrite(len, &Decomposing { context, level })
}

// Whether a text gets its glyphs and nothing else: no glyph is a mark, the font has each character,
// and the shaper leaves letters whole.
#[inline]
fn is_whole<C: NormalizeContext>(context: &C, glyphs: &[GlyphInfo]) -> bool {
    is_short_alone(context.normalization_preference()) && all_stay_alone(context, glyphs)
}

// Whether each of these glyphs is no mark, and the font has its character.
#[inline]
fn all_stay_alone<C: NormalizeContext>(context: &C, glyphs: &[GlyphInfo]) -> bool {
    glyphs.iter().all(|glyph| stays_alone(context, glyph))
}

// Whether a glyph is no mark, and the font has its character.
#[inline]
fn stays_alone<C: NormalizeContext>(context: &C, glyph: &GlyphInfo) -> bool {
    !is_mark(glyph) && context.has_glyph(glyph.glyph_id)
}

// Gives each character its glyph.
struct Numbering<'a, C: NormalizeContext> {
    context: &'a C,
}

impl<'a, C: NormalizeContext> GlyphChange for Numbering<'a, C> {
    #[inline]
    fn change(&self, glyph: &mut GlyphInfo) {
        *glyph = with_number(self.context, *glyph);
    }
}

// Whether nothing comes apart: no glyph is a selector, and each character stays. Most shapers want all
// characters one way, whatever their clusters.
#[inline]
fn stays_together<C: NormalizeContext>(context: &C, glyphs: &[GlyphInfo]) -> bool {
    match context.normalization_preference() {
        NormalizationMode::NONE => all_stay(context, Way::Short, glyphs),
        NormalizationMode::AUTO => !has_selector(glyphs) && each_cluster_stays(context, glyphs),
        NormalizationMode::CD => all_stay(context, Way::Whole, glyphs),
    }
}

// Whether each cluster's characters stay.
fn each_cluster_stays<C: NormalizeContext>(context: &C, glyphs: &[GlyphInfo]) -> bool {
    let mut start = 0;
    while start < glyphs.len() {
        let end = start + cluster_len(rest_from(glyphs, start));
        if !cluster_stays(context, &glyphs[start..end]) {
            return false;
        }
        start = end;
    }
    true
}

// Whether each character of a cluster stays.
#[inline]
fn cluster_stays<C: NormalizeContext>(context: &C, cluster: &[GlyphInfo]) -> bool {
    let way = way_of(context, cluster);
    cluster
        .iter()
        .all(|glyph| stays(context, way, glyph.glyph_id))
}

// Whether each of these characters is no selector and stays, one way or the other.
#[inline]
fn all_stay<C: NormalizeContext>(context: &C, way: Way, glyphs: &[GlyphInfo]) -> bool {
    glyphs
        .iter()
        .all(|glyph| stays_unselected(context, way, glyph))
}

// Whether a glyph is no selector, and its character stays, one way or the other.
#[inline]
fn stays_unselected<C: NormalizeContext>(context: &C, way: Way, glyph: &GlyphInfo) -> bool {
    !is_selector(glyph) && stays(context, way, glyph.glyph_id)
}

// Whether a character stays, one way or the other: most do, and then no list is made of its parts.
#[inline]
fn stays<C: NormalizeContext>(context: &C, way: Way, c: u32) -> bool {
    match way {
        Way::Short => context.has_glyph(c) || come_apart(context, true, c, MAX_STEPS).is_empty(),
        Way::Whole => {
            context.decompose(c).is_none() || come_apart(context, false, c, MAX_STEPS).is_empty()
        }
    }
}

// Gives each character that stays its glyph.
struct Mapping<'a, C: NormalizeContext> {
    context: &'a C,
}

impl<'a, C: NormalizeContext> GlyphChange for Mapping<'a, C> {
    #[inline]
    fn change(&self, glyph: &mut GlyphInfo) {
        map_in_place(self.context, glyph);
    }
}

// Gives a character that stays its glyph. (The rest of it isn't moved.)
#[inline]
fn map_in_place<C: NormalizeContext>(context: &C, glyph: &mut GlyphInfo) {
    match context.nominal_glyph(glyph.glyph_id) {
        Some(own) => glyph.glyph_props = GlyphProps(own.0),
        None => *glyph = without_glyph(context, *glyph),
    }
}

// Takes a text apart.
struct Decomposing<'a, C: NormalizeContext> {
    context: &'a C,
    level: BufferClusterLevel,
}

impl<'a, C: NormalizeContext> GlyphRewriting for Decomposing<'a, C> {
    #[inline]
    fn rewrite(&self, glyphs: &mut [GlyphInfo], to: &mut Vec<GlyphInfo>) {
        join_variants(self.context, self.level, glyphs);
        write_text(self.context, glyphs, to);
    }
}

// How long the text will be. Refuses where that passes the limit, and for nothing else.
fn measure<C: NormalizeContext>(
    context: &C,
    glyphs: &[GlyphInfo],
    limit: usize,
) -> Result<usize, ShaperError> {
    let mut room = limit;
    let mut start = 0;
    while start < glyphs.len() {
        let end = start + cluster_len(rest_from(glyphs, start));
        match room_behind(context, &glyphs[start..end], room) {
            Some(left) => room = left,
            None => return Err(ShaperError::TooLong),
        }
        start = end;
    }
    Ok(limit - room)
}

// How much of the room is left behind what a cluster becomes, if there is enough.
#[inline]
fn room_behind<C: NormalizeContext>(
    context: &C,
    cluster: &[GlyphInfo],
    room: usize,
) -> Option<usize> {
    if is_kept(cluster) {
        return room_behind_forms(context, cluster, room);
    }
    room_behind_parts(context, way_of(context, cluster), cluster, room)
}

// How much of the room is left behind what the glyphs become, if there is enough.
#[inline]
fn room_behind_parts<C: NormalizeContext>(
    context: &C,
    way: Way,
    glyphs: &[GlyphInfo],
    room: usize,
) -> Option<usize> {
    let mut left = room;
    for glyph in glyphs {
        let len = len_of(context, way, glyph);
        if left < len {
            return None;
        }
        left -= len;
    }
    Some(left)
}

// How many glyphs a glyph becomes.
#[inline]
fn len_of<C: NormalizeContext>(context: &C, way: Way, glyph: &GlyphInfo) -> usize {
    image(context, way, glyph.glyph_id).len().max(1)
}

// Adds what the text becomes.
fn write_text<C: NormalizeContext>(context: &C, glyphs: &[GlyphInfo], to: &mut Vec<GlyphInfo>) {
    let mut start = 0;
    while start < glyphs.len() {
        let end = start + cluster_len(rest_from(glyphs, start));
        write_cluster(context, &glyphs[start..end], to);
        start = end;
    }
}

// Adds what a cluster becomes.
#[inline]
fn write_cluster<C: NormalizeContext>(context: &C, cluster: &[GlyphInfo], to: &mut Vec<GlyphInfo>) {
    if is_kept(cluster) {
        write_forms(context, cluster, to);
    } else {
        write_each(context, way_of(context, cluster), cluster, to);
    }
}

// Adds what each of these glyphs becomes.
#[inline]
fn write_each<C: NormalizeContext>(
    context: &C,
    way: Way,
    glyphs: &[GlyphInfo],
    to: &mut Vec<GlyphInfo>,
) {
    for glyph in glyphs {
        write(context, way, *glyph, to);
    }
}

// Adds what a glyph becomes.
#[inline]
fn write<C: NormalizeContext>(context: &C, way: Way, glyph: GlyphInfo, to: &mut Vec<GlyphInfo>) {
    let parts = image(context, way, glyph.glyph_id);
    if parts.is_empty() {
        push_within(to, mapped(context, glyph));
    } else {
        write_parts(context, glyph, parts.as_slice(), to);
    }
}

// Adds a glyph once for each of these characters, as that character.
#[inline]
fn write_parts<C: NormalizeContext>(
    context: &C,
    glyph: GlyphInfo,
    parts: &[u32],
    to: &mut Vec<GlyphInfo>,
) {
    for c in parts {
        let mut part = glyph;
        set_character(context, &mut part, *c, number_of(context, *c));
        push_within(to, part);
    }
}

// Adds a glyph to a list that has room for it.
#[inline]
pub(super) fn push_within(list: &mut Vec<GlyphInfo>, glyph: GlyphInfo) {
    list.push(glyph).unwrap();
}

// The text from a place on.
#[inline]
pub(super) fn rest_from(glyphs: &[GlyphInfo], place: usize) -> &[GlyphInfo] {
    &glyphs[place..]
}

// How long the cluster is that begins the text: a glyph and the marks behind it.
#[inline]
fn cluster_len(glyphs: &[GlyphInfo]) -> usize {
    1 + count_marks(&glyphs[1..])
}

// How many marks begin the list.
#[inline]
fn count_marks(glyphs: &[GlyphInfo]) -> usize {
    glyphs.iter().take_while(|glyph| is_mark(glyph)).count()
}

// How the characters of a cluster come apart.
#[inline]
fn way_of<C: NormalizeContext>(context: &C, cluster: &[GlyphInfo]) -> Way {
    if cluster.len() == 1 {
        way_alone(context.normalization_preference())
    } else {
        way_with_marks(context.normalization_preference())
    }
}

// How a character comes apart that no mark follows.
#[inline]
fn way_alone(mode: NormalizationMode) -> Way {
    if is_short_alone(mode) {
        Way::Short
    } else {
        Way::Whole
    }
}

// Whether a shaper leaves a character whole that no mark follows.
#[inline]
pub(super) fn is_short_alone(mode: NormalizationMode) -> bool {
    match mode {
        NormalizationMode::NONE | NormalizationMode::AUTO => true,
        NormalizationMode::CD => false,
    }
}

// How a character and its marks come apart.
#[inline]
fn way_with_marks(mode: NormalizationMode) -> Way {
    match mode {
        NormalizationMode::NONE => Way::Short,
        NormalizationMode::AUTO | NormalizationMode::CD => Way::Whole,
    }
}

// What a character becomes, none where it stays.
#[inline]
fn image<C: NormalizeContext>(context: &C, way: Way, c: u32) -> Parts {
    match way {
        Way::Short => {
            if context.has_glyph(c) {
                ArrayVec::new()
            } else {
                come_apart(context, true, c, MAX_STEPS)
            }
        }
        Way::Whole => come_apart_if(context, c),
    }
}

// What a character comes apart into in as many steps as it may. Most characters don't: the question
// is put before the call.
#[inline]
fn come_apart_if<C: NormalizeContext>(context: &C, c: u32) -> Parts {
    if context.decompose(c).is_none() {
        return ArrayVec::new();
    }
    come_apart(context, false, c, MAX_STEPS)
}

// What a character comes apart into in so many steps, none where the font lacks each base. The font
// must have what comes off, and the base that is left may come apart further: the short way only if
// the font lacks it.
fn come_apart<C: NormalizeContext>(context: &C, short: bool, c: u32, steps: usize) -> Parts {
    if steps == 0 {
        return ArrayVec::new();
    }
    let Some((base, off)) = context.decompose(c) else {
        return ArrayVec::new();
    };
    if !comes_off(context, off) {
        return ArrayVec::new();
    }
    let has_base = context.has_glyph(base);
    let further = if is_enough(short, has_base) {
        ArrayVec::new()
    } else {
        come_apart(context, short, base, steps - 1)
    };
    then_come_off(or_base(further, has_base, base), off)
}

// Whether the font lets a part come off: it has it, or there is none.
#[inline]
fn comes_off<C: NormalizeContext>(context: &C, off: u32) -> bool {
    off == 0 || context.has_glyph(off)
}

// Whether a base needs to come no further apart.
#[inline]
fn is_enough(short: bool, has_base: bool) -> bool {
    short && has_base
}

// An image, or else the base alone, if the font has it.
#[inline]
fn or_base(image: Parts, has_base: bool, base: u32) -> Parts {
    let mut image = image;
    if image.is_empty() && has_base {
        image.push(base);
    }
    image
}

// An image, if there is one, and what came off behind it.
#[inline]
fn then_come_off(image: Parts, off: u32) -> Parts {
    let mut image = image;
    if !image.is_empty() && off != 0 {
        image.push(off);
    }
    image
}

// The number of a character's glyph, 0 where the font has none.
#[inline]
fn number_of<C: NormalizeContext>(context: &C, c: u32) -> u16 {
    match context.nominal_glyph(c) {
        Some(glyph) => glyph.0,
        None => 0,
    }
}

// A character that stays, with its glyph.
#[inline]
fn mapped<C: NormalizeContext>(context: &C, glyph: GlyphInfo) -> GlyphInfo {
    match context.nominal_glyph(glyph.glyph_id) {
        Some(own) => GlyphInfo {
            glyph_props: GlyphProps(own.0),
            ..glyph
        },
        None => without_glyph(context, glyph),
    }
}

// A character that the font lacks and that stays: a space as another one, the hyphen that doesn't
// break as the one that does, and else the missing glyph. (Of no other character but spaces there
// is another one that only breaks differently.)
#[cold]
fn without_glyph<C: NormalizeContext>(context: &C, glyph: GlyphInfo) -> GlyphInfo {
    if let Some((kind, space)) = drawn_space(context, &glyph) {
        let mut unicode_props = glyph.unicode_props;
        unicode_props.set_high_byte(kind);
        return GlyphInfo {
            glyph_props: GlyphProps(space.0),
            unicode_props,
            ..glyph
        };
    }
    let number = if glyph.glyph_id == 0x2011 {
        number_of(context, 0x2010)
    } else {
        0
    };
    GlyphInfo {
        glyph_props: GlyphProps(number),
        ..glyph
    }
}

// The width that a space stands for, and the glyph that is drawn for it.
fn drawn_space<C: NormalizeContext>(context: &C, glyph: &GlyphInfo) -> Option<(u8, GlyphId)> {
    if !is_space_separator(glyph.unicode_props.general_category()) {
        return None;
    }
    let kind = space_kind(glyph.glyph_id)?;
    let drawn = match context.nominal_glyph(0x20) {
        Some(space) => space,
        None => context.invisible_glyph()?,
    };
    Some((kind, drawn))
}

// Whether a category is that of spaces.
fn is_space_separator(category: GeneralCategory) -> bool {
    matches!(category, GeneralCategory::Zs)
}

// The width that a space stands for, by HarfBuzz's number.
fn space_kind(c: u32) -> Option<u8> {
    SPACES
        .iter()
        .find(|space| space.0 == c)
        .map(|space| space.1)
}

/// The spaces that stand for another width of space: 1 to 6 and 16 a part of an em, 17 four
/// eighteenths of it, 18 a common space, 19 a digit, 20 a full stop, 21 a narrow space.
const SPACES: [(u32, u8); 16] = [
    (0x0020, 18),
    (0x00A0, 18),
    (0x2000, 2),
    (0x2001, 1),
    (0x2002, 2),
    (0x2003, 1),
    (0x2004, 3),
    (0x2005, 4),
    (0x2006, 6),
    (0x2007, 19),
    (0x2008, 20),
    (0x2009, 5),
    (0x200A, 16),
    (0x202F, 21),
    (0x205F, 17),
    (0x3000, 1),
];
