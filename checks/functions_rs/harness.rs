//! Draws arguments, calls a function of the generated modules and its second version, and compares what
//! comes back.

use crate::alloc::{ArrayVec, Global, Vec as List};
use crate::buffer::{
    Buffer, BufferClusterLevel, BufferFlags, Direction, GeneralCategory, GlyphInfo, GlyphPosition, GlyphProps, LigProps,
    LookupRecord, Script, Span, Tag, UnicodeProps,
};
use crate::font::{Font, GlyphId, Tables};
use crate::generated::opentype_face::glyph_tables::{PreparedClassDef, PreparedCoverage};
use crate::generated::opentype_layout::glyph_text::GlyphText;
use crate::generated::opentype_layout::pair_tables::PairTable;
use crate::generated::opentype_layout::starts::{LookupTable, Starts};
use crate::generated::opentype_layout::subtable_tables::SubtableTables;
use crate::generated::opentype_layout::tables::{LayoutTable, PreparedTable};
use crate::map::{FeatureMap, Map};
use crate::plan::{BaseSearch, BreakFlags, Category, JoiningType, Plan, Position, StretchStart};
use crate::shaper::Shaper;
use core::ops::Range;
use core::sync::atomic::{AtomicBool, Ordering};
use std::string::String;
use std::vec;
use std::vec::Vec;
pub use crate::spans::{Indic, Khmer, Myanmar, Universal};
use crate::ot_shape_normalize::NormalizeContext;
use crate::ot_shape_prepare::UnicodeProperties;
use crate::plan::NormalizationMode;
use twice::lots::mixed;
pub use twice::words::COPY;

/// The numbers that arguments are drawn by: those that are given, then new ones.
pub struct Choices {
    pub given: Vec<u64>,
    pub at: usize,
    state: u64,
    /// Of a call for each argument there is: its place among all.
    place: Option<u64>,
    /// Whether no value stands at that place.
    pub is_void: bool,
    /// The character that was drawn last: the next may be one that goes with it.
    last: u32,
    /// Categories that belong together, which are likely.
    theme: Option<&'static [u8]>,
    /// Whether the lists of this call are about as long as a run of marks may be that is ordered; none before it is drawn.
    has_many_marks: Option<bool>,
}

impl Choices {
    pub fn new(seed: u64) -> Self {
        Choices { given: Vec::new(), at: 0, state: mixed(seed) | 1, place: None, is_void: false, last: 0, theme: None, has_many_marks: None }
    }

    pub fn again(given: Vec<u64>) -> Self {
        Choices { given, at: 0, state: 0, place: None, is_void: false, last: 0, theme: None, has_many_marks: None }
    }

    /// For the call at this place among those for each argument that there is.
    pub fn whole(place: u64) -> Self {
        Choices { place: Some(place), ..Choices::again(Vec::new()) }
    }

    /// A number below `end`. Where numbers are given again and come to an end, 0 follows.
    pub fn below(&mut self, end: u64) -> u64 {
        if self.at == self.given.len() {
            self.state = if self.state == 0 { 0 } else { mixed(self.state.wrapping_add(0x9E37_79B9_7F4A_7C15)) };
            self.given.push(if self.state == 0 { 0 } else { (self.state >> 11) % end });
        }
        let number = self.given[self.at].min(end - 1);
        self.at += 1;
        number
    }

    pub fn one_of<T: Copy>(&mut self, elements: &[T]) -> T {
        elements[self.below(elements.len() as u64) as usize]
    }

    /// A category: mostly one of those that belong together, drawn once a call.
    fn category(&mut self) -> u8 {
        let theme = match self.theme {
            Some(theme) => theme,
            None => self.one_of(&THEMES),
        };
        self.theme = Some(theme);
        if theme.is_empty() || self.once_in(6) { u8::draw(self) } else { self.one_of(theme) }
    }

    /// A value of its own, or one that is drawn by the numbers from a place on.
    pub fn twin<T: Draw>(&mut self, from: usize) -> T {
        let given = self.given[from..self.at].to_vec();
        if self.once_in(3) { T::draw(self) } else { T::draw(&mut Choices { theme: self.theme, has_many_marks: self.has_many_marks, ..Choices::again(given) }) }
    }

    pub fn once_in(&mut self, times: u64) -> bool {
        self.below(times) + 1 == times
    }

    /// Whether lists have 31 to 33 elements, and each glyph is a mark with a class. (Of up to 32 marks the order changes.)
    fn has_many_marks(&mut self) -> bool {
        let has = match self.has_many_marks {
            Some(has) => has,
            None => self.once_in(100),
        };
        self.has_many_marks = Some(has);
        has
    }
}

/// Categories that belong together: Indic, Khmer, Myanmar and universal syllables; any.
const THEMES: [&[u8]; 7] = [
    &[],
    &[1, 1, 4, 4, 15, 15, 6, 5, 7, 3, 14, 8],
    &[1, 4, 4, 15, 22, 22, 12, 6],
    &[1, 15, 32, 4, 36, 22, 20, 21, 9, 40],
    &[18, 1, 12, 22, 22, 23, 33, 24, 13, 16],
    &[11, 1, 4, 6, 15, 7],
    &[15, 4, 6],
];

static IS_INPUT: AtomicBool = AtomicBool::new(true);

/// Whether words are written for the other function to read, and not to be compared with its own.
pub fn is_input() -> bool {
    IS_INPUT.load(Ordering::Relaxed)
}

/// Says which words come next.
pub fn set_input(is_input: bool) {
    IS_INPUT.store(is_input, Ordering::Relaxed);
}

/// A value that is drawn.
pub trait Draw: Sized {
    fn draw(choices: &mut Choices) -> Self;
}

/// A value that makes words, those of the proved program's.
pub trait Dump {
    fn dump(&self, words: &mut Vec<u64>);
}

macro_rules! integers {
    ($($type:ty as $word:ty: $draw:expr;)*) => {
        $(
            impl Dump for $type {
                fn dump(&self, words: &mut Vec<u64>) { words.push(*self as $word as u64); }
            }
            impl Draw for $type {
                fn draw(choices: &mut Choices) -> Self { let draw: fn(&mut Choices) -> $type = $draw; draw(choices) }
            }
        )*
    };
}

integers! {
    u8 as u8: |it| match it.below(8) { 0 => it.below(256) as u8, 1 => it.one_of(&[0, 1, 127, 128, 254, 255]), _ => it.below(40) as u8 };
    u16 as u16: |it| match it.below(4) { 0 => it.below(1 << 16) as u16, _ => it.below(20) as u16 };
    u32 as u32: number;
    u64 as u64: |it| number(it).into();
    usize as u64: |it| match it.below(40) {
        0 => it.one_of(&[100, 1000]),
        1..20 if it.has_many_marks() => it.one_of(&[0, 31, 32, 33]),
        _ => it.below(14) as usize,
    };
    i32 as u32: |it| match it.below(4) { 0 => it.one_of(&[0, -1, 1, i32::MIN, i32::MAX, -1000]), _ => it.below(2000) as i32 - 300 };
    i64 as u64: |it| match it.below(4) { 0 => i64::from(i32::draw(it)) * 3, _ => it.below(6000) as i64 - 900 };
}

/// Where blocks begin whose characters mean something to a shaper.
const BLOCKS: [u32; 24] = [
    0x590, 0x5D0, 0x620, 0x64B, 0x6D0, 0x710, 0x8D0, 0x8F0, 0x915, 0x93C, 0x9BE, 0xE00, 0xE30, 0xEB0, 0x1000, 0x1100, 0x1160,
    0x11A7, 0x1780, 0x17BE, 0x1800, 0xA960, 0xD7B0, 0xF700,
];

fn number(it: &mut Choices) -> u32 {
    match it.below(6) {
        0 => it.one_of(&[0, 1, 2, 0x7FFF_FFFF, 0x8000_0000, 0xFFFF_FFFE, 0xFFFF_FFFF, 0x25CC, 0x302E, 0x302F, 0xE33, 0xEB3]),
        1 => it.below(1 << 32) as u32,
        2 => character(it),
        _ => it.below(16) as u32,
    }
}

fn character(it: &mut Choices) -> u32 {
    it.last = match it.below(8) {
        0 => it.one_of(&SPECIAL),
        1..=5 if is_selector(it.last) => behind(it),
        1 => 0xAC00 + it.below(11172) as u32,
        2 | 3 => behind(it),
        _ => it.one_of(&BLOCKS) + it.below(32) as u32,
    };
    it.last
}

/// Characters that one rule or another names.
const SPECIAL: [u32; 34] = [
    0x25CC, 0x302E, 0x302F, 0xE33, 0xEB3, 0x5B4, 0x5B7, 0x5BC, 0x5BC, 0x5BF, 0x5C1, 0xAC00, 0xAC01, 0xAC1C, 0xD7A3, 0x180B,
    0x180F, 0x9CB, 0x931, 0x17C4, 0x9AF, 0x9BC, 0x20, 0xA0, 0x2000, 0x2007, 0x2010, 0x2011, 0x202F, 0x3000, 0x34F, 0x34F,
    0xFE00, 0xE0100,
];

/// Whether it is one of the variation selectors that are drawn.
fn is_selector(c: u32) -> bool {
    matches!(c, 0xFE00 | 0xE0100)
}

/// A character that a rule names behind the last one.
fn behind(it: &mut Choices) -> u32 {
    let last = it.last;
    match last {
        0x9AF => 0x9BC,
        0x1100..=0x115F => 0x1161 + it.below(21) as u32,
        0x1161..=0x1175 => 0x11A8 + it.below(27) as u32,
        0xAC00..=0xD7A3 if it.once_in(2) => 0x11A8 + it.below(27) as u32,
        0x620..=0x64A => it.one_of(&[0x653, 0x654, 0x655]),
        0x915..=0x939 => 0x93C,
        0x5D0..=0x5EA => it.one_of(&[0x5B4, 0x5B7, 0x5B8, 0x5B9, 0x5BC, 0x5BF, 0x5C1, 0x5C2]),
        0xE01..=0xE2E => it.one_of(&[0xE31, 0xE38, 0xE48, 0xE33, 0xE4D]),
        0xFE00 | 0xE0100 => it.one_of(&[0xFE00, 0xE0100]),
        _ => 0x1100 + it.below(19) as u32,
    }
}

impl Dump for u128 {
    fn dump(&self, words: &mut Vec<u64>) { words.extend([*self as u64, (*self >> 64) as u64]); }
}

impl Draw for u128 {
    fn draw(choices: &mut Choices) -> Self { number(choices).into() }
}

impl Dump for i128 {
    fn dump(&self, words: &mut Vec<u64>) { (*self as u128).dump(words); }
}

impl Draw for i128 {
    fn draw(choices: &mut Choices) -> Self { i64::draw(choices).into() }
}

impl Dump for bool {
    fn dump(&self, words: &mut Vec<u64>) { words.push(u64::from(*self)); }
}

impl Draw for bool {
    fn draw(choices: &mut Choices) -> Self { choices.once_in(2) }
}

impl Dump for char {
    fn dump(&self, words: &mut Vec<u64>) { words.push(u64::from(u32::from(*self))); }
}

impl Draw for char {
    fn draw(choices: &mut Choices) -> Self { char::from_u32(character(choices)).unwrap_or('\u{628}') }
}

impl Dump for () {
    fn dump(&self, _words: &mut Vec<u64>) {}
}

impl Draw for () {
    fn draw(_choices: &mut Choices) -> Self {}
}

impl Dump for Global {
    fn dump(&self, _words: &mut Vec<u64>) {}
}

impl Draw for Global {
    fn draw(_choices: &mut Choices) -> Self { Global }
}

impl Dump for crate::alloc::AllocError {
    fn dump(&self, _words: &mut Vec<u64>) {}
}

impl Dump for core::cmp::Ordering {
    fn dump(&self, words: &mut Vec<u64>) { words.push((*self as i8 + 1) as u64); }
}

impl Draw for crate::alloc::AllocError {
    fn draw(_choices: &mut Choices) -> Self { crate::alloc::AllocError }
}

impl<T: Dump> Dump for [T] {
    fn dump(&self, words: &mut Vec<u64>) {
        words.push(self.len() as u64);
        self.iter().for_each(|it| it.dump(words));
    }
}

impl Dump for str {
    fn dump(&self, words: &mut Vec<u64>) { self.as_bytes().dump(words); }
}

impl Dump for String {
    fn dump(&self, words: &mut Vec<u64>) { self.as_bytes().dump(words); }
}

impl Draw for String {
    fn draw(choices: &mut Choices) -> Self { (0..choices.below(5)).map(|_| char::draw(choices)).collect() }
}

impl<T: Dump> Dump for Vec<T> {
    fn dump(&self, words: &mut Vec<u64>) { self.as_slice().dump(words); }
}

impl<T: Draw> Draw for Vec<T> {
    fn draw(choices: &mut Choices) -> Self {
        let len = match choices.has_many_marks() {
            true => 31 + choices.below(3),
            false => {
                let most = choices.one_of(&[3, 6, 12]);
                choices.below(most)
            }
        };
        (0..len).map(|_| T::draw(choices)).collect()
    }
}

impl<T: Dump> Dump for List<T> {
    fn dump(&self, words: &mut Vec<u64>) {
        words.push(self.len() as u64);
        // (lists grow by other steps there: what is given has its capacity, what comes back none)
        if is_input() {
            words.push(self.capacity() as u64);
        }
        self.iter().for_each(|it| it.dump(words));
    }
}

impl<T: Draw> Draw for List<T> {
    fn draw(choices: &mut Choices) -> Self { Vec::draw(choices).into() }
}

impl<T: Dump, const N: usize> Dump for [T; N] {
    fn dump(&self, words: &mut Vec<u64>) { self.iter().for_each(|it| it.dump(words)); }
}

impl<T: Draw, const N: usize> Draw for [T; N] {
    fn draw(choices: &mut Choices) -> Self { core::array::from_fn(|_| T::draw(choices)) }
}

impl<T: Dump, const N: usize> Dump for ArrayVec<T, N> {
    fn dump(&self, words: &mut Vec<u64>) { self.as_slice().dump(words); }
}

impl<T: Draw + Copy + Default, const N: usize> Draw for ArrayVec<T, N> {
    fn draw(choices: &mut Choices) -> Self {
        let mut list = ArrayVec::new();
        (0..choices.below(N as u64 + 1)).for_each(|_| list.push(T::draw(choices)));
        list
    }
}

impl<T: Dump> Dump for Option<T> {
    fn dump(&self, words: &mut Vec<u64>) {
        words.push(u64::from(self.is_some()));
        self.iter().for_each(|it| it.dump(words));
    }
}

impl<T: Draw> Draw for Option<T> {
    fn draw(choices: &mut Choices) -> Self { (!choices.once_in(4)).then(|| T::draw(choices)) }
}

impl<T: Dump, E: Dump> Dump for Result<T, E> {
    fn dump(&self, words: &mut Vec<u64>) {
        words.push(u64::from(self.is_err()));
        match self {
            Ok(it) => it.dump(words),
            Err(it) => it.dump(words),
        }
    }
}

impl<T: Dump> Dump for Range<T> {
    fn dump(&self, words: &mut Vec<u64>) {
        self.start.dump(words);
        self.end.dump(words);
    }
}

impl<T: Draw + PartialOrd> Draw for Range<T> {
    fn draw(choices: &mut Choices) -> Self {
        let (a, b) = (T::draw(choices), T::draw(choices));
        if a <= b || choices.once_in(8) { a..b } else { b..a }
    }
}

macro_rules! tuples {
    ($($($name:ident)*;)*) => {
        $(
            #[allow(non_snake_case)]
            impl<$($name: Dump),*> Dump for ($($name,)*) {
                fn dump(&self, words: &mut Vec<u64>) { let ($($name,)*) = self; $($name.dump(words);)* }
            }
            impl<$($name: Draw),*> Draw for ($($name,)*) {
                fn draw(choices: &mut Choices) -> Self { ($($name::draw(choices),)*) }
            }
        )*
    };
}

tuples! { A; A B; A B C; A B C D; }

impl<T: Dump + ?Sized> Dump for &T {
    fn dump(&self, words: &mut Vec<u64>) { (**self).dump(words); }
}

impl<T: Dump + ?Sized> Dump for &mut T {
    fn dump(&self, words: &mut Vec<u64>) { (**self).dump(words); }
}

impl<T: Draw> Draw for &'static T {
    fn draw(choices: &mut Choices) -> Self { std::boxed::Box::leak(std::boxed::Box::new(T::draw(choices))) }
}

impl<T: Draw> Draw for &'static [T] {
    fn draw(choices: &mut Choices) -> Self { Vec::draw(choices).leak() }
}

impl<T: Draw> Draw for &'static mut [T] {
    fn draw(choices: &mut Choices) -> Self { Vec::draw(choices).leak() }
}

impl Draw for GlyphInfo {
    fn draw(choices: &mut Choices) -> Self {
        let glyph_id = match choices.below(8) {
            0 => number(choices),
            1..=3 => choices.below(300) as u32,
            _ => character(choices),
        };
        GlyphInfo {
            glyph_id,
            cluster: choices.below(6) as u32,
            mask: match choices.below(3) {
                0 => number(choices),
                _ => choices.below(8) as u32,
            },
            // (what lookups did, and the lowest bits of a class)
            glyph_props: GlyphProps((choices.below(8) << 4 | choices.below(4)) as u16),
            lig_props: LigProps(choices.below(32) as u8),
            syllable: choices.one_of(&[0x10, 0x10, 0x10, 0x11, 0x12, 0x13, 0x15, 0x20, 0x27, 0x28, 0x00]),
            category: choices.category(),
            auxiliary: match choices.below(10) {
                0 => u8::draw(choices),
                _ => choices.below(15) as u8,
            },
            unicode_props: properties(glyph_id, choices),
        }
    }
}

/// A character's properties: mostly a letter's, a mark's or a space's, and a class that some hook knows. A selector is a mark,
/// but for one of eight.
fn properties(c: u32, choices: &mut Choices) -> UnicodeProps {
    let has_many_marks = choices.has_many_marks();
    // (the numbers 30 and 31 are no categories)
    let category = match choices.below(8) {
        _ if has_many_marks => 12,
        1.. if is_selector(c) => 12,
        0..3 => choices.below(32) as u16,
        _ => choices.one_of(&[7, 12, 12, 10, 29]),
    };
    let byte = match choices.below(8) {
        _ if has_many_marks => choices.one_of(&[14, 22, 220, 230]),
        0 => u8::draw(choices),
        _ => choices.one_of(&[0, 0, 14, 15, 16, 20, 21, 22, 23, 25, 26, 27, 220, 220, 230, 230]),
    };
    UnicodeProps(category | (choices.below(8) as u16) << 5 | u16::from(byte) << 8)
}

impl Draw for Span {
    fn draw(choices: &mut Choices) -> Self {
        let len = match choices.below(60) {
            0 => usize::MAX,
            _ => choices.below(5) as usize,
        };
        Span { len, kind: u8::draw(choices) % 20 }
    }
}

impl Draw for Buffer {
    fn draw(choices: &mut Choices) -> Self {
        let mut glyphs: Vec<GlyphInfo> = Vec::draw(choices);
        if choices.once_in(2) {
            (0..).zip(&mut glyphs).for_each(|(place, glyph)| glyph.cluster = place);
        }
        let mut buffer = Buffer::new(Global, glyphs.len());
        for glyph in &glyphs {
            buffer.push(*glyph).unwrap();
        }
        buffer.set_max_len(glyphs.len() + choices.one_of(&[0, 1, 5, 1000]));
        if choices.once_in(4) {
            let positions: Vec<_> = glyphs.iter().map(|_| GlyphPosition::draw(choices)).collect();
            assert!(buffer.set_positions(positions.into()));
        }
        buffer.set_direction(Direction::ALL[choices.below(5) as usize]);
        buffer.set_script(Option::draw(choices));
        buffer.set_cluster_level(BufferClusterLevel::ALL[choices.below(3) as usize]);
        buffer.set_flags(BufferFlags(choices.below(8) as u32 * 0x20));
        buffer.set_pre_context(&Vec::draw(choices));
        buffer.set_post_context(&Vec::draw(choices));
        buffer.set_has_broken_syllable(bool::draw(choices));
        buffer.set_has_stch(bool::draw(choices));
        buffer.set_lookup_record(LookupRecord {
            ligature_serial: u8::draw(choices),
            random_state: u32::draw(choices),
            operations_left: choices.one_of(&[0, 1, 5, 65536]),
            is_complete: bool::draw(choices),
        });
        buffer
    }
}

const SCRIPTS: [&[u8; 4]; 27] = [
    b"Qaag", b"Thai", b"Marc", b"Arab", b"Syrc", b"Mong", b"Hang", b"Hebr", b"Thai", b"Laoo", b"Khmr", b"Mymr", b"Deva", b"Beng", b"Guru", b"Gujr", b"Orya",
    b"Taml", b"Telu", b"Knda", b"Mlym", b"Sinh", b"Bali", b"Nkoo", b"Tibt", b"Phag", b"Mand",
];

const FEATURES: [&[u8; 4]; 32] = [
    b"isol", b"fina", b"fin2", b"fin3", b"medi", b"med2", b"init", b"stch", b"ljmo", b"vjmo", b"tjmo", b"rphf", b"pref", b"blwf",
    b"abvf", b"half", b"pstf", b"vatu", b"cjct", b"cfar", b"nukt", b"akhn", b"rkrf", b"pres", b"abvs", b"blws", b"psts", b"haln",
    b"locl", b"ccmp", b"liga", b"calt",
];

// The tables of a prepared face are made of bytes, so that they agree with these.
impl Draw for PreparedClassDef<'static> {
    fn draw(choices: &mut Choices) -> Self { PreparedClassDef::new(Draw::draw(choices), Global, &mut budget(choices)) }
}

impl Draw for PreparedCoverage<'static> {
    fn draw(choices: &mut Choices) -> Self { PreparedCoverage::new(Draw::draw(choices), Global, &mut budget(choices)) }
}

impl Draw for PairTable<'static> {
    fn draw(choices: &mut Choices) -> Self { PairTable::new(Global, Draw::draw(choices), &mut budget(choices)) }
}

impl Draw for SubtableTables<'static> {
    fn draw(choices: &mut Choices) -> Self {
        let (of_gpos, lookup) = (bool::draw(choices), Draw::draw(choices));
        SubtableTables::new(Global, of_gpos, lookup, &mut budget(choices))
    }
}

impl Draw for Starts<'static> {
    fn draw(choices: &mut Choices) -> Self {
        let (of_gpos, lookup) = (bool::draw(choices), Draw::draw(choices));
        Starts::new(Global, of_gpos, lookup, &mut budget(choices))
    }
}

impl Draw for LookupTable<'static> {
    fn draw(choices: &mut Choices) -> Self {
        match choices.below(4) {
            0 => LookupTable::of(Draw::draw(choices)),
            1 => {
                let (of_gpos, lookup): (bool, &'static [u8]) = (bool::draw(choices), Draw::draw(choices));
                let tables = SubtableTables::new(Global, of_gpos, lookup, &mut budget(choices));
                LookupTable::of(lookup).with_tables(std::boxed::Box::leak(std::boxed::Box::new(tables)))
            }
            2 => LookupTable::prepared(Draw::draw(choices)),
            _ => LayoutTable::draw(choices).lookup(choices.below(3) as u16),
        }
    }
}

impl Draw for PreparedTable<'static> {
    fn draw(choices: &mut Choices) -> Self {
        let (of_gpos, bytes) = (bool::draw(choices), Draw::draw(choices));
        PreparedTable::new(Global, of_gpos, bytes, &mut budget(choices))
    }
}

impl Draw for LayoutTable<'static> {
    fn draw(choices: &mut Choices) -> Self {
        if choices.once_in(2) {
            return LayoutTable::of(Draw::draw(choices));
        }
        let prepared: &'static PreparedTable<'static> = Draw::draw(choices);
        prepared.table()
    }
}

// A text gets its gap by edits.
impl Draw for GlyphText {
    fn draw(choices: &mut Choices) -> Self {
        let mut text = GlyphText::new(Draw::draw(choices));
        for _ in 0..choices.below(4) {
            let place = choices.below(text.len() as u64 + 1) as usize;
            if place < text.len() && choices.once_in(2) {
                text.remove(place);
            } else {
                text.insert(place, Draw::draw(choices)).unwrap();
            }
        }
        text
    }
}

/// How many bytes the tables of a face may take.
fn budget(choices: &mut Choices) -> usize {
    choices.one_of(&[0, 100, 10_000])
}

impl Draw for Script {
    fn draw(choices: &mut Choices) -> Self { Script(*choices.one_of(&SCRIPTS)) }
}

impl Draw for Tag {
    fn draw(choices: &mut Choices) -> Self {
        match choices.below(6) {
            0 | 1 => Tag(*choices.one_of(&[b"dev2", b"mlm2", b"deva", b"rclt", b"DFLT", b"latn", b"mymr", b"dev3"])),
            _ => Tag(*choices.one_of(&FEATURES)),
        }
    }
}

impl Draw for Map {
    fn draw(choices: &mut Choices) -> Self {
        let (mut features, mut stages) = (Vec::new(), Vec::new());
        for tag in FEATURES {
            if choices.once_in(2) {
                let mask = number(choices) & !7;
                features.push(FeatureMap { tag: Tag(*tag), mask, stage: stages.len() });
                let start = choices.below(6) as usize;
                stages.push(start..(start + choices.below(4) as usize).min(8));
            }
        }
        let lookups = [3, 1, 4, 1, 5, 9, 2, 6];
        let (mask, script, found) = (number(choices), Option::draw(choices), bool::draw(choices));
        let map = Map::from_slices(Global, &features, &stages, &lookups, mask, script, found);
        map.unwrap().expect("a map")
    }
}

impl Draw for Plan {
    fn draw(choices: &mut Choices) -> Self {
        let mut plan = Plan::new(Option::draw(choices), Map::draw(choices));
        plan.has_gpos_mark = bool::draw(choices);
        plan.stretch_start = choices.one_of(&[StretchStart::AsCode, StretchStart::Centred]);
        plan.break_flags = choices.one_of(&[BreakFlags::AsCode, BreakFlags::Sound]);
        plan.base_search = choices.one_of(&[BaseSearch::WithoutMedials, BaseSearch::AllConsonants]);
        Shaper::ALL[choices.below(9) as usize].with_data(plan)
    }
}

/// A font whose answers are drawn.
#[derive(Clone, Copy, Debug)]
pub struct LotFont(pub u64);

/// Tables whose answers are drawn.
#[derive(Clone, Copy, Debug)]
pub struct LotTables(pub u64);

impl Dump for LotFont {
    fn dump(&self, words: &mut Vec<u64>) { words.push(self.0); }
}

impl Draw for LotFont {
    fn draw(choices: &mut Choices) -> Self { LotFont(choices.below(1 << 32)) }
}

impl Dump for LotTables {
    fn dump(&self, words: &mut Vec<u64>) { words.push(self.0); }
}

impl Draw for LotTables {
    fn draw(choices: &mut Choices) -> Self { LotTables(choices.below(1 << 32)) }
}

/// A context of normalization whose answers are drawn.
#[derive(Clone, Copy, Debug)]
pub struct LotContext(pub u64);

impl Dump for LotContext {
    fn dump(&self, words: &mut Vec<u64>) { words.push(self.0); }
}

impl Draw for LotContext {
    fn draw(choices: &mut Choices) -> Self { LotContext(choices.below(1 << 32)) }
}

/// Properties of characters whose answers are drawn.
#[derive(Clone, Copy, Debug)]
pub struct LotProperties(pub u64);

impl Dump for LotProperties {
    fn dump(&self, words: &mut Vec<u64>) { words.push(self.0); }
}

impl Draw for LotProperties {
    fn draw(choices: &mut Choices) -> Self { LotProperties(choices.below(1 << 32)) }
}

/// An answer to a question, for which what the driver takes of memory doesn't count.
fn answer(of: u64, method: u64, seed: u64, parts: &[&dyn Dump]) -> Vec<u64> {
    let was_on = COPY.watch(false);
    let answer = twice::lots::answer(of, method, seed, &words(parts));
    COPY.watch(was_on);
    answer
}

/// The words of a question.
fn words(parts: &[&dyn Dump]) -> Vec<u64> {
    let mut words = Vec::new();
    parts.iter().for_each(|part| part.dump(&mut words));
    words
}

fn optional_char(answer: &[u64]) -> Option<char> {
    (answer[0] == 1).then(|| char::from_u32(answer[1] as u32).expect("a character"))
}

impl Font for LotFont {
    fn nominal_glyph(&self, c: u32) -> Option<GlyphId> {
        let answer = answer(0, 0, self.0, &[&c]);
        (answer[0] == 1).then(|| GlyphId(answer[1] as u16))
    }

    fn glyph_h_advance(&self, glyph: GlyphId) -> i32 { answer(0, 2, self.0, &[&glyph])[0] as u32 as i32 }

    fn would_apply(&self, lookup: u16, glyphs: &[GlyphId], zero_context: bool) -> bool {
        answer(0, 3, self.0, &[&lookup, &glyphs, &zero_context])[0] == 1
    }

    fn has_feature(&self, tag: Tag) -> bool { answer(0, 5, self.0, &[&tag])[0] == 1 }
}

impl Tables for LotTables {
    fn joining_type(&self, c: char) -> JoiningType { JoiningType::ALL[answer(1, 0, self.0, &[&c])[0] as usize] }

    fn general_category(&self, c: char) -> GeneralCategory {
        GeneralCategory::ALL[answer(1, 1, self.0, &[&c])[0] as usize]
    }

    fn indic_categories(&self, c: u32) -> (Category, Position) {
        let answer = answer(1, 2, self.0, &[&c]);
        (answer[0] as u8, answer[1] as u8)
    }

    fn use_category(&self, c: u32) -> Category { answer(1, 3, self.0, &[&c])[0] as u8 }

    fn compose(&self, a: char, b: char) -> Option<char> { optional_char(&answer(1, 4, self.0, &[&a, &b])) }

    fn decompose(&self, ab: char) -> Option<(char, char)> {
        let answer = answer(1, 5, self.0, &[&ab]);
        optional_char(&answer).map(|a| (a, char::from_u32(answer[2] as u32).expect("a character")))
    }
}

impl NormalizeContext for LotContext {
    fn normalization_preference(&self) -> NormalizationMode {
        [NormalizationMode::NONE, NormalizationMode::AUTO, NormalizationMode::CD][answer(2, 0, self.0, &[])[0] as usize]
    }

    fn decompose(&self, ab: u32) -> Option<(u32, u32)> {
        let answer = answer(2, 1, self.0, &[&ab]);
        (answer[0] == 1).then(|| (answer[1] as u32, answer[2] as u32))
    }

    fn compose(&self, a: u32, b: u32) -> Option<u32> {
        let answer = answer(2, 2, self.0, &[&a, &b]);
        (answer[0] == 1).then(|| answer[1] as u32)
    }

    fn nominal_glyph(&self, c: u32) -> Option<GlyphId> { optional_glyph(&answer(2, 3, self.0, &[&c])) }

    fn variation_glyph(&self, c: u32, selector: u32) -> Option<GlyphId> {
        optional_glyph(&answer(2, 4, self.0, &[&c, &selector]))
    }

    fn general_category(&self, c: u32) -> GeneralCategory { GeneralCategory::ALL[answer(2, 6, self.0, &[&c])[0] as usize] }

    fn modified_combining_class(&self, c: u32) -> u8 { answer(2, 7, self.0, &[&c])[0] as u8 }

    fn is_default_ignorable(&self, c: u32) -> bool { answer(2, 8, self.0, &[&c])[0] == 1 }

    fn invisible_glyph(&self) -> Option<GlyphId> { optional_glyph(&answer(2, 9, self.0, &[])) }

    fn draws_selectors(&self) -> bool { answer(2, 10, self.0, &[])[0] == 1 }

    fn reorder_marks(&self, _level: BufferClusterLevel, glyphs: &mut [GlyphInfo], start: usize, end: usize) {
        if self.0 % 2 == 1 {
            glyphs[start..end].reverse();
        }
    }
}

impl UnicodeProperties for LotProperties {
    fn general_category(&self, c: u32) -> GeneralCategory { GeneralCategory::ALL[answer(3, 0, self.0, &[&c])[0] as usize] }

    fn modified_combining_class(&self, c: u32) -> u8 { answer(3, 1, self.0, &[&c])[0] as u8 }

    fn is_default_ignorable(&self, c: u32) -> bool { answer(3, 2, self.0, &[&c])[0] == 1 }

    fn is_extended_pictographic(&self, c: u32) -> bool { answer(3, 5, self.0, &[&c])[0] == 1 }

    fn mirrored(&self, c: u32) -> Option<u32> { optional_number(&answer(3, 6, self.0, &[&c])) }

    fn vertical_form(&self, c: u32) -> Option<u32> { optional_number(&answer(3, 7, self.0, &[&c])) }
}

fn optional_number(answer: &[u64]) -> Option<u32> {
    (answer[0] == 1).then(|| answer[1] as u32)
}

fn optional_glyph(answer: &[u64]) -> Option<GlyphId> {
    (answer[0] == 1).then(|| GlyphId(answer[1] as u16))
}

/// A value of a type whose values can all be given.
pub trait Whole: Sized {
    /// How many there are, with those that aren't any.
    const COUNT: u64;
    fn nth(number: u64) -> Option<Self>;
}

macro_rules! whole {
    ($($type:ty: $count:expr, $nth:expr;)*) => {
        $(impl Whole for $type {
            const COUNT: u64 = $count;
            fn nth(number: u64) -> Option<Self> { let nth: fn(u64) -> Option<$type> = $nth; nth(number) }
        })*
    };
}

whole! {
    u8: 1 << 8, |it| u8::try_from(it).ok();
    u16: 1 << 16, |it| u16::try_from(it).ok();
    // (every character, and what follows)
    u32: 0x11_1000, |it| u32::try_from(it).ok();
    char: 0x11_0000, |it| char::from_u32(it as u32);
    bool: 2, |it| Some(it == 1);
}

/// How many calls give all arguments of these numbers; 0 where that is too many.
pub fn count_of(counts: &[u64]) -> u64 {
    let count = counts.iter().try_fold(1_u64, |count, of| count.checked_mul(*of));
    count.filter(|count| *count <= 1 << 21).unwrap_or(0)
}

/// The next argument of a call for each that there is, or one that is drawn.
pub fn whole_or_drawn<T: Whole + Draw>(choices: &mut Choices) -> T {
    match choices.place {
        None => T::draw(choices),
        Some(place) => {
            choices.place = Some(place / T::COUNT);
            T::nth(place % T::COUNT).unwrap_or_else(|| {
                choices.is_void = true;
                panic!("no value")
            })
        }
    }
}

/// A function of the generated modules: its name in the proved program, and how it is called.
pub struct Function {
    pub name: &'static str,
    pub call: fn(&mut Choices, &mut Vec<u64>, &mut Vec<u64>),
    /// How many arguments there are, where they can all be given; else 0.
    pub whole: u64,
    /// Whether it requires nothing of its caller.
    pub is_free: bool,
    /// The words with which what it returns begins where memory was refused; none where it can't say so.
    pub memory: &'static [u64],
}

/// Every function of the generated modules.
pub fn functions() -> Vec<Function> {
    let mut list = vec![];
    crate::all_functions(&mut list);
    list
}
