// Generated from crates/opentype_gpos/src/fallback.rt by rust/erase; edit the source.

//! Marks of a text in a font without GPOS.

use crate::generated::opentype_gpos::finish::is_backward;
use crate::generated::opentype_gpos::mark_boxes::{
    GlyphBox, across_place, component_box, upright_place,
};
use crate::generated::opentype_gpos::moved::flag_up_to;
use crate::generated::opentype_gpos::nearby::ligature_number;
use crate::generated::shapers_buffer::buffer::{
    Buffer, Direction, GlyphInfo, GlyphPosition, PositionedWalk,
};

/// What a font says of its glyphs where marks are placed without GPOS.
pub trait MarkMetrics {
    /// The box of a glyph, if it has one.
    ///
    /// <details><summary>Contract</summary>
    ///
    /// # Contract
    ///
    /// ```text
    /// ensures { result ≡ box_of self.now glyph }
    /// ```
    ///
    /// </details>
    fn glyph_box(&self, glyph: u32) -> Option<GlyphBox>;

    /// How far a glyph moves the pen to the right, in font units.
    ///
    /// <details><summary>Contract</summary>
    ///
    /// # Contract
    ///
    /// ```text
    /// ensures { result ≡ advance_of self.now glyph }
    /// ```
    ///
    /// </details>
    fn glyph_advance(&self, glyph: u32) -> i32;
}

/// How marks are placed.
#[derive(Clone, Copy, Debug)]
pub struct MarkSettings {
    /// The gap between a mark and its base: a sixteenth of the em.
    pub gap: u16,
    /// The direction of the line.
    pub direction: Direction,
    /// Whether the components of a ligature come from right to left: the direction that the text was to
    /// be shaped in does, or of a vertical line the script.
    pub from_right: bool,
}

/// How far it is from the pen back to where a base began.
#[derive(Clone, Copy, Debug)]
pub struct PenWay {
    /// To the right.
    pub x: i32,
    /// Upwards.
    pub y: i32,
}

/// What the marks of a base so far leave to the next one.
#[derive(Clone, Copy, Debug)]
pub struct Around {
    /// The way back to the base.
    pub pen: PenWay,
    /// The component that the mark before was of, from 1 on.
    pub component: u8,
    /// Its class.
    pub class: u8,
    /// The box of that component.
    pub table_at: GlyphBox,
    /// What is left of it for marks of that class.
    pub rest: GlyphBox,
}

// A glyph around which marks come.
struct Base<'a> {
    // Its place.
    at: usize,
    glyph: &'a GlyphInfo,
    // Its box for marks.
    whole: GlyphBox,
}

// How many components a glyph has.
#[inline]
fn component_count(glyph: &GlyphInfo) -> u8 {
    if glyph.glyph_props.0 & 4 == 4 && glyph.lig_props.0 / 16 % 2 == 1 {
        glyph.lig_props.0 % 16
    } else {
        1
    }
}

// The component of a base that a mark is of.
#[inline]
fn component_under(base: &GlyphInfo, mark: &GlyphInfo) -> u8 {
    let count = component_count(base);
    let own = mark.lig_props.component();
    if ligature_number(base) == 0 || ligature_number(base) != ligature_number(mark) || count < own {
        count
    } else {
        own
    }
}

fn at_component(
    from_right: bool,
    base: &GlyphInfo,
    whole: &GlyphBox,
    mark: &GlyphInfo,
    around: Around,
) -> Around {
    let (count, component) = (component_count(base), component_under(base, mark));
    if count <= 1 || component == around.component {
        return around;
    }
    Around {
        component,
        class: 255,
        table_at: component_box(from_right, count, component, whole),
        ..around
    }
}

#[inline]
fn at_class(class: u8, around: Around) -> Around {
    if class == around.class {
        return around;
    }
    Around {
        class,
        rest: around.table_at,
        ..around
    }
}

#[inline]
fn bring_back(around: &Around, position: GlyphPosition) -> GlyphPosition {
    GlyphPosition {
        x_advance: 0,
        y_advance: 0,
        x_offset: position.x_offset.saturating_add(around.pen.x),
        y_offset: position.y_offset.saturating_add(around.pen.y),
        ..position
    }
}

#[inline]
fn with_offsets(x_offset: i32, y_offset: i32, position: GlyphPosition) -> GlyphPosition {
    GlyphPosition {
        x_offset,
        y_offset,
        ..position
    }
}

#[inline]
fn with_rest(rest: GlyphBox, around: Around) -> Around {
    Around { rest, ..around }
}

// A mark of a class whose glyph has a box, by what the marks before it left.
fn upon_box(
    settings: &MarkSettings,
    class: u8,
    around: Around,
    position: GlyphPosition,
    own: &GlyphBox,
) -> (GlyphPosition, Around) {
    let x = across_place(settings.direction, class, &around.rest, own);
    let height = upright_place(settings.gap, class, &around.rest, own);
    let placed = bring_back(&around, with_offsets(x, height.y, position));
    (placed, with_rest(height.rest, around))
}

// A mark of a class.
fn upon<M: MarkMetrics>(
    font: &M,
    settings: &MarkSettings,
    class: u8,
    around: Around,
    position: GlyphPosition,
    glyph: u32,
) -> (GlyphPosition, Around) {
    match font.glyph_box(glyph) {
        Some(own) => upon_box(settings, class, around, position, &own),
        None => (bring_back(&around, position), around),
    }
}

#[inline]
fn pen_past(direction: Direction, position: &GlyphPosition, pen: PenWay) -> PenWay {
    if is_backward(direction) {
        return PenWay {
            x: pen.x.saturating_add(position.x_advance),
            y: pen.y.saturating_add(position.y_advance),
        };
    }
    PenWay {
        x: pen.x.saturating_sub(position.x_advance),
        y: pen.y.saturating_sub(position.y_advance),
    }
}

#[inline]
fn with_pen(pen: PenWay, around: Around) -> Around {
    Around { pen, ..around }
}

// A glyph behind a base: a mark, or one that the pen goes past.
fn place_glyph<M: MarkMetrics>(
    font: &M,
    settings: &MarkSettings,
    base: &GlyphInfo,
    whole: &GlyphBox,
    glyph: &GlyphInfo,
    position: GlyphPosition,
    around: Around,
) -> (GlyphPosition, Around) {
    let class = glyph.unicode_props.modified_combining_class();
    if class == 0 {
        let pen = pen_past(settings.direction, &position, around.pen);
        return (position, with_pen(pen, around));
    }
    let around = at_component(settings.from_right, base, whole, glyph, around);
    upon(
        font,
        settings,
        class,
        at_class(class, around),
        position,
        glyph.glyph_id,
    )
}

// The glyph at a place behind a base; returns what it leaves to the next one.
fn place_at<M: MarkMetrics>(
    font: &M,
    settings: &MarkSettings,
    glyphs: &[GlyphInfo],
    base: &Base<'_>,
    i: usize,
    around: Around,
    positions: &mut [GlyphPosition],
) -> Around {
    let placed = place_glyph(
        font,
        settings,
        base.glyph,
        &base.whole,
        &glyphs[i],
        positions[i],
        around,
    );
    positions[i] = placed.0;
    placed.1
}

// The glyphs behind a base whose glyph has a box.
fn place_marks<M: MarkMetrics>(
    font: &M,
    settings: &MarkSettings,
    glyphs: &[GlyphInfo],
    base: &Base<'_>,
    end: usize,
    around: Around,
    positions: &mut [GlyphPosition],
) {
    let mut around = around;
    for i in base.at + 1..end {
        around = place_at(font, settings, glyphs, base, i, around, positions);
    }
}

#[inline]
fn without_box(direction: Direction, glyph: &GlyphInfo, position: GlyphPosition) -> GlyphPosition {
    if glyph.unicode_props.0 % 32 != 12 {
        return position;
    }
    if is_backward(direction) {
        return GlyphPosition {
            x_advance: 0,
            y_advance: 0,
            ..position
        };
    }
    GlyphPosition {
        x_advance: 0,
        y_advance: 0,
        x_offset: position.x_offset.saturating_sub(position.x_advance),
        y_offset: position.y_offset.saturating_sub(position.y_advance),
        ..position
    }
}

// The glyphs behind a base whose glyph has none.
fn zero_marks(
    direction: Direction,
    glyphs: &[GlyphInfo],
    start: usize,
    end: usize,
    positions: &mut [GlyphPosition],
) {
    for i in start..end {
        positions[i] = without_box(direction, &glyphs[i], positions[i]);
    }
}

#[inline]
fn box_for_marks(own: &GlyphBox, advance: i32, position: &GlyphPosition) -> GlyphBox {
    GlyphBox {
        x_bearing: 0,
        y_bearing: own.y_bearing.saturating_add(position.y_offset),
        width: advance,
        height: own.height,
    }
}

#[inline]
fn first_pen(direction: Direction, position: &GlyphPosition) -> PenWay {
    if is_backward(direction) {
        return PenWay { x: 0, y: 0 };
    }
    PenWay {
        x: 0_i32.saturating_sub(position.x_advance),
        y: 0_i32.saturating_sub(position.y_advance),
    }
}

#[inline]
fn first_around(direction: Direction, whole: &GlyphBox, position: &GlyphPosition) -> Around {
    Around {
        pen: first_pen(direction, position),
        component: 0,
        class: 255,
        table_at: *whole,
        rest: *whole,
    }
}

// The glyphs behind a base, up to an end.
fn place_around<M: MarkMetrics>(
    font: &M,
    settings: &MarkSettings,
    glyphs: &[GlyphInfo],
    base: usize,
    end: usize,
    positions: &mut [GlyphPosition],
) {
    let (glyph, position) = (&glyphs[base], positions[base]);
    match font.glyph_box(glyph.glyph_id) {
        Some(own) => {
            let whole = box_for_marks(&own, font.glyph_advance(glyph.glyph_id), &position);
            let around = first_around(settings.direction, &whole, &position);
            let base = Base {
                at: base,
                glyph,
                whole,
            };
            place_marks(font, settings, glyphs, &base, end, around, positions);
        }
        None => zero_marks(settings.direction, glyphs, base + 1, end, positions),
    }
}

#[inline]
fn is_mark(glyph: &GlyphInfo) -> bool {
    glyph.unicode_props.general_category().is_mark()
}

#[inline]
fn stays_with_base(glyph: &GlyphInfo) -> bool {
    is_mark(glyph)
        || glyph.unicode_props.is_hidden()
        || (glyph.unicode_props.is_ignorable() && !glyph.glyph_props.is_substituted())
}

// How many glyphs at the front stay with the one before them.
#[inline]
fn follower_count(glyphs: &[GlyphInfo]) -> usize {
    glyphs
        .iter()
        .take_while(|glyph| stays_with_base(glyph))
        .count()
}

// How many marks begin a text.
#[inline]
fn leading_count(glyphs: &[GlyphInfo]) -> usize {
    glyphs.iter().take_while(|glyph| is_mark(glyph)).count()
}

// The glyphs from a place on that stay together; returns the place behind them.
fn step<M: MarkMetrics>(
    font: &M,
    settings: &MarkSettings,
    glyphs: &mut [GlyphInfo],
    positions: &mut [GlyphPosition],
    at: usize,
) -> usize {
    let end = at + 1 + follower_count(&glyphs[at + 1..]);
    let base = at + leading_count(&glyphs[at..]);
    if base < end {
        place_around(font, settings, glyphs, base, end, positions);
        flag_up_to(true, base, end - 1, glyphs);
    }
    end
}

// Places the marks of a text.
fn place_along<M: MarkMetrics>(
    font: &M,
    settings: &MarkSettings,
    glyphs: &mut [GlyphInfo],
    positions: &mut [GlyphPosition],
) {
    let mut at = 0;
    for _ in 0..glyphs.len() {
        if at >= glyphs.len() {
            return;
        }
        at = step(font, settings, glyphs, positions, at);
    }
}

// A walk that places marks.
struct Placing<'a, M: MarkMetrics> {
    font: &'a M,
    settings: MarkSettings,
}

impl<'a, M: MarkMetrics> PositionedWalk for Placing<'a, M> {
    fn walk(&self, glyphs: &mut [GlyphInfo], positions: &mut [GlyphPosition]) {
        place_along(self.font, &self.settings, glyphs, positions);
    }
}

/// Places the marks of a text in a font without GPOS, behind everything else: each by its class, and
/// by the boxes of its glyph and of its base's. It writes positions and glyph flags alone.
///
/// <details><summary>Contract</summary>
///
/// # Contract
///
/// ```text
/// requires { length buffer.old.positions ≡ length buffer.old.glyphs }
/// ensures { let f = mark_font (M.box_of font.now) (M.advance_of font.now) settings in
///     buffer.new ≡ marks_placed f buffer.old }
/// ```
///
/// - `mark_font`, `marks_placed`: `crates/opentype_gpos/specs/Fallback.antt`
///
/// </details>
pub fn place_marks_by_boxes<M: MarkMetrics>(font: &M, settings: MarkSettings, buffer: &mut Buffer) {
    let placing = Placing { font, settings };
    buffer.walk_positioned(&placing);
}

// The class of a mark that has none, by its character.
fn class_of_character(character: u32) -> u8 {
    match character {
        0x0E31 | 0x0E34..=0x0E37 | 0x0E47 | 0x0E4C..=0x0E4E => 232,
        0x0EB1 | 0x0EB4..=0x0EB7 | 0x0EBB | 0x0ECC | 0x0ECD => 230,
        0x0EBC => 220,
        _ => 0,
    }
}

// The class of a mark of one script, by where it comes.
fn class_of_script(class: u8) -> u8 {
    match class {
        15..=25 | 30 | 33 | 118 | 129 | 131 => 220,
        26..=29 | 31 | 32 | 34..=36 | 122 | 132 => 230,
        13 => 214,
        10 | 107 => 232,
        11 | 14 => 228,
        3 => 222,
        _ => class,
    }
}

/// The class by which a nonspacing mark is placed without GPOS, of a character and its class: HarfBuzz
/// gives the glyph this one before characters are mapped to glyphs.
///
/// <details><summary>Contract</summary>
///
/// # Contract
///
/// ```text
/// ensures { result ≡ mark_class character class }
/// ```
///
/// - `mark_class`: `crates/opentype_gpos/specs/Fallback.antt`
///
/// </details>
pub fn mark_class(character: u32, class: u8) -> u8 {
    if class >= 200 {
        return class;
    }
    if class == 0 {
        return class_of_character(character);
    }
    if character == 0x0E3A {
        return 222;
    }
    class_of_script(class)
}
