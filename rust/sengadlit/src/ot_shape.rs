//! From a text to glyphs with positions, in the order of HarfBuzz's hb-ot-shape, by a
//! [`EnginePlan`](crate::ot_shape_plan::EnginePlan) and a caller's [`Lookups`]: [`shape`] does it all.
//! [`prepare_text`] does what comes before the font's lookups, [`run_stages`] runs those of GSUB,
//! with what the shaper does behind each stage, and [`substitute_text`] does both. [`length_bound`]
//! tells for how many glyphs a text needs room.
//!
//! # What a panic leaves
//!
//! A font, tables or lookups that panic within one of these calls leave the buffer empty, or with what
//! the text had become by then, without positions or with one for each glyph. Script, direction and
//! greatest length may be those that the text was shaped by: make a new buffer, or clear it
//! ([`Buffer::clear`](crate::Buffer::clear)) and set them again
//! ([`Buffer::set_settings`](crate::Buffer::set_settings)).
//!
//! # An example
//!
//! A Khmer word, in a font of the caller's, whose lookup makes one glyph of COENG and MO:
//!
//! ```
//! # use sengadlit::buffer::GlyphProps;
//! # use sengadlit::{Font, GlyphId, ShaperError, Tag};
//! # use sengadlit::map::TableIndex;
//! # use sengadlit::ot_shape::Lookups;
//! # use sengadlit::ot_shape_normalize::NormalizeFont;
//! # use sengadlit::ot_shape_plan::{FontFeatures, StageLookup};
//! # use sengadlit::ot_shape_position::{GlyphClasses, MetricsFont};
//! # struct MyFont;
//! # impl Font for MyFont {
//! #     fn nominal_glyph(&self, c: u32) -> Option<GlyphId> {
//! #         u16::try_from(c).ok().map(GlyphId)
//! #     }
//! #     fn glyph_h_advance(&self, _: GlyphId) -> i32 { 0 }
//! #     fn would_apply(&self, _: u16, _: &[GlyphId], _: bool) -> bool { false }
//! #     fn has_feature(&self, tag: Tag) -> bool { tag == Tag(*b"blwf") }
//! # }
//! # impl NormalizeFont for MyFont {
//! #     fn variation_glyph(&self, _: u32, _: u32) -> Option<GlyphId> { None }
//! # }
//! # impl MetricsFont for MyFont {
//! #     fn units_per_em(&self) -> u16 { 1000 }
//! #     fn glyph_v_advance(&self, _: GlyphId) -> i32 { 0 }
//! #     fn glyph_v_origin(&self, _: GlyphId) -> (i32, i32) { (0, 0) }
//! # }
//! # impl FontFeatures for MyFont {
//! #     fn has_table(&self, table: TableIndex) -> bool { table == TableIndex::GSUB }
//! #     fn chosen_script(&self, _: TableIndex) -> Option<Tag> { Some(Tag(*b"khmr")) }
//! #     fn found_script(&self, _: TableIndex) -> bool { true }
//! #     fn feature_lookups(&self, table: TableIndex, tag: Tag) -> Option<&[u16]> {
//! #         (table == TableIndex::GSUB && self.has_feature(tag)).then_some(&[0])
//! #     }
//! #     fn any_feature_lookups(&self, _: TableIndex, _: Tag) -> Option<&[u16]> { None }
//! #     fn required_feature(&self, _: TableIndex) -> Option<Tag> { None }
//! #     fn required_lookups(&self, _: TableIndex) -> &[u16] { &[] }
//! # }
//! # impl GlyphClasses for MyFont {
//! #     fn is_mark(&self, _: &sengadlit::GlyphInfo) -> bool { false }
//! # }
//! # impl Lookups for MyFont {
//! #     fn growth(&self, _: &StageLookup) -> usize { 1 }
//! #     fn position(&self, _: &StageLookup, _: &mut Buffer) -> Result<(), ShaperError> { Ok(()) }
//! #     fn finish_positions(&self, _: &mut Buffer) {}
//! #     fn glyph_props(&self, _: &sengadlit::GlyphInfo) -> GlyphProps { GlyphProps::NONE }
//! #     fn substitute(&self, lookup: &StageLookup, buffer: &mut Buffer) -> Result<(), ShaperError> {
//! #         let mut at = 0;
//! #         while at + 1 < buffer.len() {
//! #             let (coeng, mo) = (buffer.get(at), buffer.get(at + 1));
//! #             let is_on = coeng.mask & mo.mask & lookup.mask != 0;
//! #             if is_on && (coeng.glyph_id, mo.glyph_id) == (0x17D2, 0x1798) {
//! #                 buffer.merge_clusters(at, at + 2);
//! #                 buffer.set(at, sengadlit::GlyphInfo { glyph_id: 0xE000, ..buffer.get(at) });
//! #                 for place in at + 1..buffer.len() - 1 {
//! #                     buffer.set(place, buffer.get(place + 1));
//! #                 }
//! #                 buffer.truncate(buffer.len() - 1);
//! #             }
//! #             at += 1;
//! #         }
//! #         Ok(())
//! #     }
//! # }
//! use sengadlit::alloc::Global;
//! use sengadlit::ot_shape::{ShapeSettings, shape};
//! use sengadlit::ot_shape_plan::EnginePlan;
//! use sengadlit::ot_shape_position::DefaultIgnorables::Hide;
//! use sengadlit::unicode::UnicodeTables;
//! use sengadlit::{Buffer, Direction, script};
//!
//! // with `Font`, `NormalizeFont`, `MetricsFont`, `FontFeatures` and `Lookups`
//! let font = MyFont;
//! let (script, direction) = (Some(script::KHMER), Direction::LeftToRight);
//! let plan = EnginePlan::new(Global, script, direction, &font, &font, &[])?;
//! let mut buffer = Buffer::from("ខ្មែរ");
//! let settings = ShapeSettings { normalize: Default::default(), ignorables: Hide };
//! shape(&plan, &settings, &font, &UnicodeTables, &font, &mut buffer)?;
//! let glyphs: Vec<u32> = buffer.iter().map(|glyph| glyph.glyph_id).collect();
//! assert_eq!(glyphs, [0x17C2, 0x1781, 0xE000, 0x179A]);
//! # Ok::<(), Box<dyn std::error::Error>>(())
//! ```
//!
//! The first half alone:
//!
//! ```
//! use sengadlit::ot_shape::{TextPlan, prepare_text};
//! use sengadlit::ot_shape_normalize::{NormalizeFont, NormalizeSettings};
//! use sengadlit::ot_shape_plan::DriverMasks;
//! use sengadlit::unicode::UnicodeTables;
//! use sengadlit::{Buffer, Direction, Font, GlyphId, Plan, Tag};
//!
//! /// A font with a glyph for each character below U+10000, by its number.
//! struct ByNumber;
//!
//! impl Font for ByNumber {
//!     fn nominal_glyph(&self, c: u32) -> Option<GlyphId> {
//!         u16::try_from(c).ok().map(GlyphId)
//!     }
//! #   fn glyph_h_advance(&self, _: GlyphId) -> i32 { 0 }
//! #   fn would_apply(&self, _: u16, _: &[GlyphId], _: bool) -> bool { false }
//! #   fn has_feature(&self, _: Tag) -> bool { false }
//!     // and what else the hooks read
//! }
//!
//! impl NormalizeFont for ByNumber {
//!     fn variation_glyph(&self, _c: u32, _selector: u32) -> Option<GlyphId> {
//!         None
//!     }
//! }
//!
//! // a half with a fraction slash, in a font that has the features of fractions
//! let plan = Plan::builder().global_mask(1 << 31).build()?;
//! let masks = DriverMasks { frac: 0x10, numr: 0x20, dnom: 0x40, rtlm: 0, vert: 0 };
//! let direction = Direction::LeftToRight;
//! let text = TextPlan { shaper: None, plan: &plan, direction, masks, ranges: &[] };
//! let mut buffer = Buffer::from("1\u{2044}2");
//! let settings = NormalizeSettings::default();
//! prepare_text(&text, &settings, &ByNumber, &UnicodeTables, &mut buffer)?;
//!
//! let seen: Vec<_> = buffer.glyphs().iter().map(|glyph| (glyph.glyph_id, glyph.mask)).collect();
//! assert_eq!(seen, [(0x31, 0x8000_0030), (0x2044, 0x8000_0013), (0x32, 0x8000_0053)]);
//! # Ok::<(), Box<dyn std::error::Error>>(())
//! ```

pub use crate::generated::shapers_pipeline::{
    Lookups, NormalizeFont, NormalizeSettings, NormalizeTables, ShapeSettings, Single,
    SingleLookups, StagePlan, TextPlan, length_bound, prepare_text, run_stages, shape,
    substitute_text,
};

#[cfg(test)]
mod tests {
    use super::{
        Lookups, ShapeSettings, Single, SingleLookups, length_bound, shape, substitute_text,
    };
    use crate::alloc::Global;
    use crate::buffer::{
        Buffer, Direction, GlyphInfo, GlyphPosition, GlyphProps, Script, ShaperError, Tag,
    };
    use crate::font::{Font, GlyphId};
    use crate::map::TableIndex;
    use crate::ot_shape_normalize::{NormalizeFont, NormalizeSettings, Rounds};
    use crate::ot_shape_plan::{EnginePlan, FontFeatures, StageLookup};
    use crate::ot_shape_position::{DefaultIgnorables, GlyphClasses, MetricsFont};
    use crate::unicode::UnicodeTables;
    use std::vec::Vec;

    /// A font of Khmer with a glyph for each character but EN SPACE, by its number. Lookup 7 of the feature
    /// `pres` gives each glyph the next number.
    struct Khmer;

    impl Font for Khmer {
        fn nominal_glyph(&self, c: u32) -> Option<GlyphId> {
            let number = u16::try_from(c).ok()?;
            (number != 0x2002).then_some(GlyphId(number))
        }

        fn glyph_h_advance(&self, _: GlyphId) -> i32 {
            500
        }

        fn would_apply(&self, _: u16, _: &[GlyphId], _: bool) -> bool {
            false
        }

        fn has_feature(&self, tag: Tag) -> bool {
            tag == Tag(*b"pres")
        }
    }

    impl NormalizeFont for Khmer {
        fn variation_glyph(&self, _: u32, _: u32) -> Option<GlyphId> {
            None
        }
    }

    impl MetricsFont for Khmer {
        fn units_per_em(&self) -> u16 {
            2000
        }

        fn glyph_v_advance(&self, _: GlyphId) -> i32 {
            -900
        }

        fn glyph_v_origin(&self, _: GlyphId) -> (i32, i32) {
            (250, 880)
        }
    }

    impl FontFeatures for Khmer {
        fn has_table(&self, table: TableIndex) -> bool {
            table == TableIndex::GSUB
        }

        fn chosen_script(&self, _: TableIndex) -> Option<Tag> {
            Some(Tag(*b"khmr"))
        }

        fn found_script(&self, _: TableIndex) -> bool {
            true
        }

        fn feature_lookups(&self, table: TableIndex, tag: Tag) -> Option<&[u16]> {
            (table == TableIndex::GSUB && self.has_feature(tag)).then_some(&[7])
        }

        fn any_feature_lookups(&self, _: TableIndex, _: Tag) -> Option<&[u16]> {
            None
        }

        fn required_feature(&self, _: TableIndex) -> Option<Tag> {
            None
        }

        fn required_lookups(&self, _: TableIndex) -> &[u16] {
            &[]
        }
    }

    impl GlyphClasses for Khmer {
        fn is_mark(&self, glyph: &GlyphInfo) -> bool {
            glyph.glyph_props.contains(GlyphProps::MARK)
        }
    }

    impl Lookups for Khmer {
        fn glyph_props(&self, glyph: &GlyphInfo) -> GlyphProps {
            match glyph.glyph_id {
                0x17C6 => GlyphProps::MARK,
                _ => GlyphProps::BASE_GLYPH,
            }
        }

        fn growth(&self, lookup: &StageLookup) -> usize {
            assert_eq!(lookup.index, 7);
            3
        }

        fn position(&self, _: &StageLookup, _: &mut Buffer) -> Result<(), ShaperError> {
            panic!("the font has no GPOS")
        }

        fn finish_positions(&self, _: &mut Buffer) {}

        fn substitute(&self, lookup: &StageLookup, text: &mut Buffer) -> Result<(), ShaperError> {
            assert_eq!(lookup.index, 7);
            text.with_glyphs_mut(|glyphs| {
                for glyph in glyphs {
                    glyph.glyph_id += 1;
                }
            });
            Ok(())
        }
    }

    /// The vowel E of the test word has come before its letter when `pres` is applied.
    #[test]
    fn a_word_goes_through_all_stages() {
        let script = Some(Script(*b"Khmr"));
        let direction = Direction::LeftToRight;
        let plan = EnginePlan::new(Global, script, direction, &Khmer, &Khmer, &[]).unwrap();
        let mut text = Buffer::from("\u{1781}\u{17C2}\u{1784}");
        text.set_script(script);
        text.set_direction(direction);
        let settings = NormalizeSettings::default();
        substitute_text(&plan, &settings, &Khmer, &UnicodeTables, &Khmer, &mut text).unwrap();
        let glyphs: Vec<u32> = text.glyphs().iter().map(|glyph| glyph.glyph_id).collect();
        assert_eq!(glyphs, [0x17C3, 0x1782, 0x1785]);
        let clusters: Vec<u32> = text.glyphs().iter().map(|glyph| glyph.cluster).collect();
        assert_eq!(clusters, [0, 0, 6]);
    }

    /// A circle in front, nine for each in normalization, three by each lookup that is listed, and two
    /// by the reordering.
    #[test]
    fn a_bound_has_all_steps() {
        let plan = khmer_plan();
        let lookups = u32::try_from(plan.lookups().len()).unwrap();
        assert_eq!(
            length_bound(&plan, &Khmer, 4),
            5 * 9 * 3_usize.pow(lookups) * 2
        );
        assert_eq!(length_bound(&plan, &Khmer, usize::MAX), usize::MAX);
    }

    const SETTINGS: ShapeSettings = ShapeSettings {
        normalize: NormalizeSettings {
            rounds: Rounds::AsCode,
            invisible_glyph: None,
            draws_selectors: false,
        },
        ignorables: DefaultIgnorables::Hide,
    };

    fn khmer_plan() -> EnginePlan {
        let script = Some(Script(*b"Khmr"));
        EnginePlan::new(Global, script, Direction::LeftToRight, &Khmer, &Khmer, &[]).unwrap()
    }

    fn khmer_text(text: &str) -> Buffer {
        let mut buffer = Buffer::from(text);
        buffer.set_script(Some(Script(*b"Khmr")));
        buffer.set_direction(Direction::LeftToRight);
        buffer
    }

    /// A joiner that no lookup took is a space without a width.
    #[test]
    fn glyphs_have_advances_and_what_isnt_drawn_has_none() {
        let mut text = khmer_text("\u{1780}\u{200C}\u{1784}");
        let single = |glyph, substitute| Single {
            lookup: 7,
            glyph,
            substitute,
        };
        let singles = [single(0x1780, 5), single(0x1784, 6)];
        let lookups = SingleLookups { singles: &singles };
        let plan = khmer_plan();
        assert!(!plan.applies_gpos());
        shape(
            &plan,
            &SETTINGS,
            &Khmer,
            &UnicodeTables,
            &lookups,
            &mut text,
        )
        .unwrap();
        let glyphs: Vec<u32> = text.glyphs().iter().map(|glyph| glyph.glyph_id).collect();
        assert_eq!(glyphs, [5, 0x20, 6]);
        let advances: Vec<i32> = text.positions().iter().map(|at| at.x_advance).collect();
        assert_eq!(advances, [500, 0, 500]);
    }

    /// EN SPACE, which the font lacks, is a space of half an em.
    #[test]
    fn a_space_that_the_font_lacks_has_its_width() {
        let mut text = khmer_text("\u{1780}\u{2002}");
        let lookups = SingleLookups { singles: &[] };
        shape(
            &khmer_plan(),
            &SETTINGS,
            &Khmer,
            &UnicodeTables,
            &lookups,
            &mut text,
        )
        .unwrap();
        let seen: Vec<(u32, i32)> = text
            .glyphs()
            .iter()
            .zip(text.positions())
            .map(|(glyph, at)| (glyph.glyph_id, at.x_advance))
            .collect();
        assert_eq!(seen, [(0x1780, 500), (0x20, 1000)]);
    }

    /// Downwards advances are vertical, and glyphs are drawn by their vertical origins.
    #[test]
    fn vertical_text_runs_down() {
        let (script, direction) = (Some(Script(*b"Khmr")), Direction::TopToBottom);
        let plan = EnginePlan::new(Global, script, direction, &Khmer, &Khmer, &[]).unwrap();
        let mut text = khmer_text("\u{1780}\u{2002}");
        text.set_direction(direction);
        let lookups = SingleLookups { singles: &[] };
        shape(
            &plan,
            &SETTINGS,
            &Khmer,
            &UnicodeTables,
            &lookups,
            &mut text,
        )
        .unwrap();
        let at = |y_advance| GlyphPosition {
            x_advance: 0,
            y_advance,
            x_offset: -250,
            y_offset: -880,
            var: 0,
        };
        assert_eq!(text.positions(), [at(-900), at(-1000)]);
    }

    /// `pres` gives NIKAHIT the next number; its class stays, and the shaper keeps its advance.
    #[test]
    fn classes_stay_with_glyphs() {
        let mut text = khmer_text("\u{1780}\u{17C6}");
        shape(
            &khmer_plan(),
            &SETTINGS,
            &Khmer,
            &UnicodeTables,
            &Khmer,
            &mut text,
        )
        .unwrap();
        let classes: Vec<(u32, GlyphProps)> = text
            .glyphs()
            .iter()
            .map(|glyph| (glyph.glyph_id, glyph.glyph_props))
            .collect();
        assert_eq!(
            classes,
            [(0x1781, GlyphProps::BASE_GLYPH), (0x17C7, GlyphProps::MARK)]
        );
        let advances: Vec<i32> = text.positions().iter().map(|at| at.x_advance).collect();
        assert_eq!(advances, [500, 500]);
    }

    /// The caller wants the text from left to right: it is drawn so, and the direction stays.
    #[test]
    fn the_direction_is_the_callers_again() {
        let script = Some(Script(*b"Hebr"));
        let direction = Direction::LeftToRight;
        let plan = EnginePlan::new(Global, script, direction, &Khmer, &Khmer, &[]).unwrap();
        let mut text = Buffer::from("\u{5D0}\u{5D1}");
        text.set_script(script);
        text.set_direction(direction);
        let lookups = SingleLookups { singles: &[] };
        shape(
            &plan,
            &SETTINGS,
            &Khmer,
            &UnicodeTables,
            &lookups,
            &mut text,
        )
        .unwrap();
        let glyphs: Vec<u32> = text.glyphs().iter().map(|glyph| glyph.glyph_id).collect();
        assert_eq!(glyphs, [0x5D0, 0x5D1]);
        assert_eq!(text.direction(), direction);
    }
}
