// Generated from crates/hbhook_commands/src/command/glyph_field.rt by rust/erase; edit the source.

//! The lines `at I FIELD V`.

use super::fields::{decimal, decimal_to, general_category, hexadecimal, signed};
use crate::generated::hbhook_commands::expected::{BYTE, Expected, FOUR_BYTES};
use crate::generated::hbhook_commands::fault::LineFault;
use sengadlit::buffer::{GeneralCategory, GlyphInfo, GlyphProps};

// The names of the fields.
const FIELDS: &str = "glyph, cluster, mask, syllable, cat, aux, gc, class, comp, marks, adv";

// What names marks.
const MARKS: &str = "letters of slmic, or - alone for none";

/// A field of a glyph or of its position, and its value.
#[derive(Clone, Copy)]
pub enum GlyphField {
    Glyph(u32),
    Cluster(u32),
    Mask(u32),
    Syllable(u8),
    Category(u8),
    Auxiliary(u8),
    GeneralCategory(GeneralCategory),
    CombiningClass(u8),
    Component(u8),
    Marks(Marks),
    Advance(i32),
}

/// What lookups did to a glyph, and two properties of its character.
#[derive(Clone, Copy)]
pub struct Marks {
    by_lookups: GlyphProps,
    is_ignorable: bool,
    is_continuation: bool,
}

impl GlyphField {
    /// The field of this name, with its value.
    pub(super) fn parse(name: &str, value: &str) -> Result<GlyphField, LineFault> {
        match name {
            "glyph" => Ok(GlyphField::Glyph(decimal(value, FOUR_BYTES)?)),
            "cluster" => Ok(GlyphField::Cluster(decimal(value, FOUR_BYTES)?)),
            "mask" => Ok(GlyphField::Mask(hexadecimal(value)?)),
            "syllable" => Ok(GlyphField::Syllable(decimal(value, BYTE)?)),
            "cat" => Ok(GlyphField::Category(decimal(value, BYTE)?)),
            "aux" => Ok(GlyphField::Auxiliary(decimal(value, BYTE)?)),
            "gc" => Ok(GlyphField::GeneralCategory(general_category(value)?)),
            "class" => Ok(GlyphField::CombiningClass(decimal(value, BYTE)?)),
            "comp" => Ok(GlyphField::Component(decimal_to(value, 15)?)),
            "marks" => Ok(GlyphField::Marks(marks_of(value)?)),
            "adv" => Ok(GlyphField::Advance(signed(value)?)),
            _ => Err(LineFault::Unreadable(Expected::Word(FIELDS))),
        }
    }

    /// Writes the field into a glyph; the advance is no field of a glyph.
    pub fn write(self, glyph: &mut GlyphInfo) {
        match self {
            GlyphField::Glyph(number) => glyph.glyph_id = number,
            GlyphField::Cluster(cluster) => glyph.cluster = cluster,
            GlyphField::Mask(mask) => glyph.mask = mask,
            GlyphField::Syllable(syllable) => glyph.syllable = syllable,
            GlyphField::Category(category) => glyph.category = category,
            GlyphField::Auxiliary(auxiliary) => glyph.auxiliary = auxiliary,
            GlyphField::GeneralCategory(category) => {
                // (the class stays, in whatever order lines set the two)
                let class = glyph.unicode_props.high_byte();
                glyph.unicode_props.set_general_category(category);
                glyph.unicode_props.set_high_byte(class);
            }
            GlyphField::CombiningClass(class) => glyph.unicode_props.set_high_byte(class),
            GlyphField::Component(component) => glyph.lig_props.set_component(component),
            GlyphField::Marks(marks) => {
                glyph.glyph_props = marks.by_lookups;
                glyph.unicode_props.set_ignorable(marks.is_ignorable);
                glyph.unicode_props.set_continuation(marks.is_continuation);
            }
            GlyphField::Advance(_) => {}
        }
    }
}

// The marks of these letters; `-` alone is none.
fn marks_of(letters: &str) -> Result<Marks, LineFault> {
    let is_mark = |letter: u8| b"slmic".contains(&letter);
    if letters.is_empty() || letters != "-" && !letters.bytes().all(is_mark) {
        return Err(LineFault::Unreadable(Expected::Word(MARKS)));
    }
    let mut by_lookups = GlyphProps::NONE;
    by_lookups.set_substituted(letters.contains('s'));
    by_lookups.set_ligated(letters.contains('l'));
    by_lookups.set_multiplied(letters.contains('m'));
    Ok(Marks {
        by_lookups,
        is_ignorable: letters.contains('i'),
        is_continuation: letters.contains('c'),
    })
}
