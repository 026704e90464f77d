//! A font that stands in for a real one: it has every character and the features of GSUB, and no
//! lookup.

use sengadlit::map::TableIndex;
use sengadlit::ot_shape_normalize::NormalizeFont;
use sengadlit::ot_shape_plan::FontFeatures;
use sengadlit::unicode::general_category;
use sengadlit::{Buffer, Font, GeneralCategory, GlyphId, Script, Tag};
use std::cell::RefCell;

/// The scripts of which fonts have a second specification, and its tag.
const SECOND: [([u8; 4], [u8; 4]); 10] = [
    (*b"Beng", *b"bng2"),
    (*b"Deva", *b"dev2"),
    (*b"Gujr", *b"gjr2"),
    (*b"Guru", *b"gur2"),
    (*b"Knda", *b"knd2"),
    (*b"Mlym", *b"mlm2"),
    (*b"Mymr", *b"mym2"),
    (*b"Orya", *b"ory2"),
    (*b"Taml", *b"tml2"),
    (*b"Telu", *b"tel2"),
];

// The numbers of glyphs that stand for characters above U+FFFF: those of surrogates and of private
// use, which no character has that the font has.
const FIRST_FAR: u32 = 0xD800;
const MOST_FAR: usize = 0xF900 - 0xD800;

/// The tag of a script's second specification, where there is one.
pub(crate) fn second_specification(script: Script) -> Option<Tag> {
    let row = SECOND.iter().find(|row| row.0 == script.0)?;
    Some(Tag(row.1))
}

/// The font for a text of a script. The glyph of a character has the character's number; those above
/// U+FFFF, which no glyph's number reaches, have others, in the order in which they were looked up.
pub(crate) struct WholeFont {
    chosen: Tag,
    has_gpos_mark: bool,
    far: RefCell<Vec<u32>>,
}

impl WholeFont {
    /// The font for this script, by the newest specification that its shaper reads; it places marks by
    /// GPOS, or has no GPOS.
    pub(crate) fn of(script: Script, has_gpos_mark: bool) -> Self {
        let first = || Tag(script.0.map(|letter| letter.to_ascii_lowercase()));
        WholeFont {
            chosen: second_specification(script).unwrap_or_else(first),
            has_gpos_mark,
            far: RefCell::new(Vec::new()),
        }
    }

    // Whether the font has a feature of this tag.
    fn offers(&self, table: TableIndex, tag: Tag) -> bool {
        match table {
            TableIndex::GSUB => !LACKING.contains(&tag),
            TableIndex::GPOS => self.has_gpos_mark && tag == MARK,
        }
    }

    /// Makes a call on a buffer of characters as glyphs, which are characters again behind it.
    pub(crate) fn on_glyphs<A>(
        &self,
        buffer: &mut Buffer,
        call: impl FnOnce(&mut Buffer) -> A,
    ) -> A {
        renumber(buffer, |character| {
            self.nominal_glyph(character)
                .map_or(0, |glyph| glyph.0.into())
        });
        self.to_characters(buffer, call)
    }

    /// The same for a call that makes glyphs of the characters.
    pub(crate) fn to_characters<A>(
        &self,
        buffer: &mut Buffer,
        call: impl FnOnce(&mut Buffer) -> A,
    ) -> A {
        let done = call(buffer);
        renumber(buffer, |glyph| self.character_of(glyph));
        done
    }

    // The character that a glyph stands for.
    fn character_of(&self, glyph: u32) -> u32 {
        let far = self.far.borrow();
        let place = glyph.checked_sub(FIRST_FAR).map(|place| place as usize);
        place
            .and_then(|place| far.get(place))
            .copied()
            .unwrap_or(glyph)
    }

    // The number of the glyph of a character above U+FFFF, as long as there are numbers.
    fn far_glyph(&self, character: u32) -> Option<u32> {
        let mut far = self.far.borrow_mut();
        let place = far.iter().position(|other| *other == character);
        let place = match place {
            Some(place) => place,
            None if far.len() == MOST_FAR => return None,
            None => {
                far.push(character);
                far.len() - 1
            }
        };
        Some(FIRST_FAR + place as u32)
    }
}

fn renumber(buffer: &mut Buffer, number: impl Fn(u32) -> u32) {
    buffer.with_glyphs_mut(|glyphs| {
        for glyph in glyphs {
            glyph.glyph_id = number(glyph.glyph_id);
        }
    });
}

impl Font for WholeFont {
    fn nominal_glyph(&self, c: u32) -> Option<GlyphId> {
        let category = general_category(char::from_u32(c)?);
        if matches!(category, GeneralCategory::Cn | GeneralCategory::Co) {
            return None;
        }
        let number = if c > 0xFFFF { self.far_glyph(c)? } else { c };
        u16::try_from(number).ok().map(GlyphId)
    }

    fn glyph_h_advance(&self, _glyph: GlyphId) -> i32 {
        0
    }

    fn would_apply(&self, _lookup: u16, _glyphs: &[GlyphId], _zero_context: bool) -> bool {
        false
    }

    fn has_feature(&self, tag: Tag) -> bool {
        self.feature_lookups(TableIndex::GSUB, tag).is_some()
    }
}

impl NormalizeFont for WholeFont {
    fn variation_glyph(&self, _c: u32, _selector: u32) -> Option<GlyphId> {
        None
    }
}

// The feature by which GPOS places marks.
const MARK: Tag = Tag(*b"mark");

// The features that GSUB lacks: that of GPOS, so that letters and points of Hebrew are composed; and
// `rand`, which would take eight bits of each mask.
const LACKING: [Tag; 2] = [MARK, Tag(*b"rand")];

impl FontFeatures for WholeFont {
    fn has_table(&self, table: TableIndex) -> bool {
        table == TableIndex::GSUB || self.has_gpos_mark
    }

    fn chosen_script(&self, table: TableIndex) -> Option<Tag> {
        (table == TableIndex::GSUB).then_some(self.chosen)
    }

    fn found_script(&self, table: TableIndex) -> bool {
        table == TableIndex::GSUB
    }

    fn feature_lookups(&self, table: TableIndex, tag: Tag) -> Option<&[u16]> {
        self.offers(table, tag).then_some(&[])
    }

    fn any_feature_lookups(&self, table: TableIndex, tag: Tag) -> Option<&[u16]> {
        self.feature_lookups(table, tag)
    }

    fn required_feature(&self, _table: TableIndex) -> Option<Tag> {
        None
    }

    fn required_lookups(&self, _table: TableIndex) -> &[u16] {
        &[]
    }
}

#[cfg(test)]
mod tests {
    use super::*;

    #[test]
    fn a_character_has_one_glyph_and_is_found_again() {
        let font = WholeFont::of(Script(*b"Adlm"), false);
        let glyph = |c| font.nominal_glyph(c).map(|glyph| u32::from(glyph.0));
        assert_eq!(glyph(0x1780), Some(0x1780));
        assert_eq!(glyph(0x1E900), Some(0xD800));
        assert_eq!(glyph(0x1E922), Some(0xD801));
        assert_eq!(glyph(0x1E900), Some(0xD800));
        assert_eq!(glyph(0xE000), None);
        assert_eq!(glyph(0xFFFF), None);
        for c in [0x1E900, 0x1E922, 0x1780] {
            assert_eq!(font.character_of(glyph(c).unwrap()), c);
        }
    }

    // The tags of OpenType's registry of scripts: Bengali v.2 and so on.
    #[test]
    fn the_newest_specification_is_chosen() {
        let chosen = |code| {
            let font = WholeFont::of(Script(code), false);
            font.chosen_script(TableIndex::GSUB).unwrap().0
        };
        let registered: [([u8; 4], &[u8; 4]); 12] = [
            (*b"Beng", b"bng2"),
            (*b"Deva", b"dev2"),
            (*b"Gujr", b"gjr2"),
            (*b"Guru", b"gur2"),
            (*b"Knda", b"knd2"),
            (*b"Mlym", b"mlm2"),
            (*b"Mymr", b"mym2"),
            (*b"Orya", b"ory2"),
            (*b"Taml", b"tml2"),
            (*b"Telu", b"tel2"),
            (*b"Khmr", b"khmr"),
            (*b"Sinh", b"sinh"),
        ];
        for (code, tag) in registered {
            assert_eq!(&chosen(code), tag);
        }
    }

    #[test]
    fn marks_are_placed_by_gpos_alone() {
        let feature = |has_gpos_mark, table, tag: &[u8; 4]| {
            let font = WholeFont::of(Script(*b"Hebr"), has_gpos_mark);
            font.feature_lookups(table, Tag(*tag)).is_some()
        };
        let (gsub, gpos) = (TableIndex::GSUB, TableIndex::GPOS);
        assert!(feature(true, gpos, b"mark") && !feature(false, gpos, b"mark"));
        assert!(!feature(true, gpos, b"kern") && !feature(true, gsub, b"mark"));
        assert!(!feature(true, gsub, b"rand") && feature(true, gsub, b"liga"));
    }
}
