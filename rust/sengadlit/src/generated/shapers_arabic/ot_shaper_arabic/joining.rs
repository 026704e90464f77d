// Generated from crates/shapers_arabic/src/ot_shaper_arabic/joining.rt by rust/erase; edit the source.

//! Joining: each letter takes the form that its neighbours require. (The Unicode Standard, "Cursive
//! Joining"; for Alaph, Dalath and Rish the OpenType specification for Syriac.)

use super::arabic_action_t::{FIN2, FIN3, FINA, INIT, ISOL, MED2, MEDI, NONE};
use crate::generated::shapers_base::buffer::glyph_flag::{
    SAFE_TO_INSERT_TATWEEL, UNSAFE_TO_BREAK, UNSAFE_TO_CONCAT,
};
use crate::generated::shapers_base::buffer::{
    BufferFlags, GeneralCategory, GlyphInfo, safe_to_insert_tatweel_in, unsafe_to_concat_in,
};
use crate::generated::shapers_base::font::Tables;
use crate::generated::shapers_base::plan::JoiningType;

/// What the letter before left, as far as the next one depends on it.
#[derive(Clone, Copy)]
enum State {
    /// After U, which joins nothing, and before any letter.
    Start,
    /// After R, or an Alaph that stands alone; neither joins on.
    Closed,
    /// After L or D that isn't joined; it joins on, and is initial then.
    Initial,
    /// After D that is joined; it joins on, and is medial then.
    Medial,
    /// After an Alaph that is joined; it doesn't join on.
    JoinedAlaph,
    /// After an Alaph of the second or third final form; it doesn't join on.
    LaterAlaph,
    /// After Dalath or Rish, which don't join on.
    DalathRish,
}

impl State {
    // The state's row of the table.
    #[inline]
    fn row(self) -> usize {
        self as usize
    }
}

use State::{Closed, DalathRish, Initial, JoinedAlaph, LaterAlaph, Medial, Start};

/// What a letter does: the form that it gives to the letter before it (NONE: that one keeps its
/// own), its own form as long as no letter follows, and the state behind it: three bytes.
#[derive(Clone, Copy)]
struct Transition(u8, u8, State);

/// By the state that the letter before left, and by the letter's type: U, L, R, D, Alaph, Dalath or
/// Rish.
static STATE_TABLE: [[Transition; 6]; 7] = [
    // 0: after U, which joins nothing.
    [
        Transition(NONE, NONE, Start),
        Transition(NONE, ISOL, Initial),
        Transition(NONE, ISOL, Closed),
        Transition(NONE, ISOL, Initial),
        Transition(NONE, ISOL, Closed),
        Transition(NONE, ISOL, DalathRish),
    ],
    // 1: after R, or an Alaph that stands alone; neither joins on.
    [
        Transition(NONE, NONE, Start),
        Transition(NONE, ISOL, Initial),
        Transition(NONE, ISOL, Closed),
        Transition(NONE, ISOL, Initial),
        Transition(NONE, FIN2, LaterAlaph),
        Transition(NONE, ISOL, DalathRish),
    ],
    // 2: after L or D that isn't joined; it joins on.
    [
        Transition(NONE, NONE, Start),
        Transition(NONE, ISOL, Initial),
        Transition(INIT, FINA, Closed),
        Transition(INIT, FINA, Medial),
        Transition(INIT, FINA, JoinedAlaph),
        Transition(INIT, FINA, DalathRish),
    ],
    // 3: after D that is joined; it joins on.
    [
        Transition(NONE, NONE, Start),
        Transition(NONE, ISOL, Initial),
        Transition(MEDI, FINA, Closed),
        Transition(MEDI, FINA, Medial),
        Transition(MEDI, FINA, JoinedAlaph),
        Transition(MEDI, FINA, DalathRish),
    ],
    // 4: after an Alaph that is joined; it doesn't join on.
    [
        Transition(NONE, NONE, Start),
        Transition(NONE, ISOL, Initial),
        Transition(MED2, ISOL, Closed),
        Transition(MED2, ISOL, Initial),
        Transition(MED2, FIN2, LaterAlaph),
        Transition(MED2, ISOL, DalathRish),
    ],
    // 5: after an Alaph of the second or third final form; it doesn't join on.
    [
        Transition(NONE, NONE, Start),
        Transition(NONE, ISOL, Initial),
        Transition(ISOL, ISOL, Closed),
        Transition(ISOL, ISOL, Initial),
        Transition(ISOL, FIN2, LaterAlaph),
        Transition(ISOL, ISOL, DalathRish),
    ],
    // 6: after Dalath or Rish, which don't join on.
    [
        Transition(NONE, NONE, Start),
        Transition(NONE, ISOL, Initial),
        Transition(NONE, ISOL, Closed),
        Transition(NONE, ISOL, Initial),
        Transition(NONE, FIN3, LaterAlaph),
        Transition(NONE, ISOL, DalathRish),
    ],
];

// The column of a letter.
#[inline]
fn column(joining_type: JoiningType) -> usize {
    match joining_type {
        JoiningType::T | JoiningType::X => 0,
        letter => letter as usize,
    }
}

// The cell of a state and a letter.
#[inline]
fn transition_of(state: State, joining_type: JoiningType) -> &'static Transition {
    &STATE_TABLE[state.row()][column(joining_type)]
}

// The state before a text, by the nearest letter before it.
#[inline]
fn state_at_start(before: Option<JoiningType>) -> State {
    match before {
        None => Start,
        Some(letter) => transition_of(Start, letter).2,
    }
}

// Whether the next letter can change the form of the last one, by the state that it left.
#[inline]
fn can_change(state: State) -> bool {
    matches!(state, Initial | Medial | JoinedAlaph | LaterAlaph)
}

// Whether a letter joins the one before it, or could.
#[inline]
fn joins_back(joining_type: JoiningType) -> bool {
    matches!(
        joining_type,
        JoiningType::R | JoiningType::D | JoiningType::GroupAlaph | JoiningType::GroupDalathRish
    )
}

// Whether a category lets a character of type X be passed over.
#[inline]
fn is_passed_over(category: GeneralCategory) -> bool {
    matches!(
        category,
        GeneralCategory::Mn | GeneralCategory::Me | GeneralCategory::Cf
    )
}

// The joining type, where the category decides X.
#[inline]
fn resolve(joining_type: JoiningType, category: GeneralCategory) -> JoiningType {
    match joining_type {
        JoiningType::X if is_passed_over(category) => JoiningType::T,
        JoiningType::X => JoiningType::U,
        own => own,
    }
}

// The joining type of a character as the tables have it; no other function looks it up.
#[inline]
fn look_up<T: Tables>(tables: &T, c: char) -> JoiningType {
    tables.joining_type(c)
}

// The type of a glyph, by its stored category.
#[inline]
fn stored_type<T: Tables>(glyph: &GlyphInfo, tables: &T) -> JoiningType {
    let c = char::from_u32(glyph.glyph_id).unwrap();
    resolve(look_up(tables, c), glyph.unicode_props.general_category())
}

// The nearest type of a context that isn't transparent, by the table's own categories.
#[inline]
pub(super) fn nearest_in<T: Tables>(context: &[char], tables: &T) -> Option<JoiningType> {
    for &c in context {
        match resolve(look_up(tables, c), tables.general_category(c)) {
            JoiningType::T => {}
            letter => return Some(letter),
        }
    }
    None
}

/// The last letter of a walk, if there was one yet, and the state that it left.
#[derive(Clone, Copy)]
struct Letters {
    last: Option<usize>,
    state: State,
}

// Gives the glyph at place `i` a form.
#[inline]
fn set_form(glyphs: &mut [GlyphInfo], i: usize, form: u8) {
    glyphs[i].auxiliary = form;
}

// The mask bits of a join.
#[inline]
fn join_bits(flags: BufferFlags) -> u32 {
    if flags.contains(BufferFlags::PRODUCE_SAFE_TO_INSERT_TATWEEL) {
        SAFE_TO_INSERT_TATWEEL
    } else {
        UNSAFE_TO_BREAK | UNSAFE_TO_CONCAT
    }
}

// Adds mask bits to the one of two neighbours whose cluster is above the other's.
#[inline]
fn flag_neighbours(pair: &mut [GlyphInfo], bits: u32) {
    let (first, second) = (pair[0].cluster, pair[1].cluster);
    if first < second {
        pair[1].mask |= bits;
    } else if second < first {
        pair[0].mask |= bits;
    }
}

// Flags a join from the letter at `last` to the one right before `end`. Most letters join their
// neighbours, which need no walk that looks for the least cluster.
#[inline]
fn flag_join(flags: BufferFlags, glyphs: &mut [GlyphInfo], last: usize, end: usize) {
    if end - last == 2 {
        flag_neighbours(&mut glyphs[last..end], join_bits(flags));
    } else {
        safe_to_insert_tatweel_in(flags, glyphs, last, end);
    }
}

// Flags no concatenation from place `s` to place `e`, as `unsafe_to_concat_in`, where the flags want
// it, which `concat` says.
#[inline(always)]
fn flag_concat(flags: BufferFlags, concat: bool, glyphs: &mut [GlyphInfo], s: usize, e: usize) {
    if concat {
        unsafe_to_concat_in(flags, glyphs, s, e);
    }
}

// Gives the letter at `last` the form that the next one requires, which is right before `end`; both
// and what is between are flagged, also where the form could have depended on the next letter.
#[inline(always)]
fn give_form(
    flags: BufferFlags,
    concat: bool,
    glyphs: &mut [GlyphInfo],
    last: usize,
    end: usize,
    given: u8,
    depends: bool,
) {
    if given != NONE {
        set_form(glyphs, last, given);
        flag_join(flags, glyphs, last, end);
    } else if depends {
        flag_concat(flags, concat, glyphs, last, end);
    }
}

// Gives the last letter, if there was one, the form that the next one requires, which is right
// before `end`. A first letter that could join is flagged with all before it.
#[inline(always)]
fn give_last(
    flags: BufferFlags,
    concat: bool,
    glyphs: &mut [GlyphInfo],
    letters: Letters,
    end: usize,
    given: u8,
    joins_back: bool,
) {
    match letters.last {
        Some(last) => {
            let depends = joins_back || can_change(letters.state);
            give_form(flags, concat, glyphs, last, end, given, depends);
        }
        None if joins_back => flag_concat(flags, concat, glyphs, 0, end),
        None => {}
    }
}

// Joins the letter at place `i` to the one before it.
#[inline(always)]
fn join_letter(
    flags: BufferFlags,
    concat: bool,
    glyphs: &mut [GlyphInfo],
    letters: &mut Letters,
    i: usize,
    letter: JoiningType,
) {
    let &Transition(given, own, next) = transition_of(letters.state, letter);
    give_last(
        flags,
        concat,
        glyphs,
        *letters,
        i + 1,
        given,
        joins_back(letter),
    );
    set_form(glyphs, i, own);
    *letters = Letters {
        last: Some(i),
        state: next,
    };
}

// Gives the glyph at place `i`, which has this type, its form as long as nothing follows.
#[inline(always)]
fn join_place(
    flags: BufferFlags,
    concat: bool,
    glyphs: &mut [GlyphInfo],
    letters: &mut Letters,
    i: usize,
    joining_type: JoiningType,
) {
    match joining_type {
        JoiningType::T => set_form(glyphs, i, NONE),
        letter => join_letter(flags, concat, glyphs, letters, i, letter),
    }
}

// Gives each glyph its form as long as nothing follows the text.
#[inline(always)]
fn join_letters<T: Tables>(
    flags: BufferFlags,
    concat: bool,
    glyphs: &mut [GlyphInfo],
    state: State,
    tables: &T,
) -> Letters {
    let mut letters = Letters { last: None, state };
    for i in 0..glyphs.len() {
        let joining_type = stored_type(&glyphs[i], tables);
        join_place(flags, concat, glyphs, &mut letters, i, joining_type);
    }
    letters
}

// Joins the letters of a text, by a copy of the loop for the flags of concatenation or by one without
// them: few texts want these, and the others take no test for them at each letter.
#[inline]
fn join_text<T: Tables>(
    flags: BufferFlags,
    glyphs: &mut [GlyphInfo],
    state: State,
    tables: &T,
) -> Letters {
    if flags.contains(BufferFlags::PRODUCE_UNSAFE_TO_CONCAT) {
        join_letters(flags, true, glyphs, state, tables)
    } else {
        join_letters(flags, false, glyphs, state, tables)
    }
}

// Gives each glyph its form, between the nearest letters before and after the text.
#[inline]
pub(super) fn join<T: Tables>(
    flags: BufferFlags,
    glyphs: &mut [GlyphInfo],
    before: Option<JoiningType>,
    after: Option<JoiningType>,
    tables: &T,
) {
    let letters = join_text(flags, glyphs, state_at_start(before), tables);
    if let Some(letter) = after {
        let given = transition_of(letters.state, letter).0;
        let concat = flags.contains(BufferFlags::PRODUCE_UNSAFE_TO_CONCAT);
        let end = glyphs.len();
        give_last(flags, concat, glyphs, letters, end, given, false);
    }
}
