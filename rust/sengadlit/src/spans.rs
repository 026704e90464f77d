//! The syllables of a text, found by the grammars of its script: the [`Span`]s that the pauses which
//! set syllables up take, and [`setup_syllables_found`], which finds them and sets them up at once.

pub use crate::generated::rustybuzz_shapers::shaper::checked::checked_run_pause_found;
pub use crate::generated::rustybuzz_shapers::shaper::{
    setup_syllables_found, setup_syllables_written,
};
pub use crate::generated::shapers_spans::{
    Indic, Khmer, Machine, Myanmar, Universal, find_syllables, find_syllables_in, spans_into,
    spans_of,
};

use crate::alloc::{Global, Vec};
use crate::{Buffer, Shaper, ShaperError, Span};

impl Shaper {
    /// The syllables of the buffer's text, by the shaper's grammar; they cover it. Empty for a shaper
    /// that reads no syllables.
    ///
    /// # Errors
    ///
    /// [`ShaperError::Memory`] where the list can't grow.
    pub fn spans_of(self, buffer: &Buffer) -> Result<Vec<Span>, ShaperError> {
        let mut spans = Vec::new(Global);
        self.spans_into(buffer, &mut spans)?;
        Ok(spans)
    }

    /// Fills the list with the syllables of the buffer's text, as [`Shaper::spans_of`] gives them. A
    /// list that has room for them takes no memory.
    ///
    /// # Errors
    ///
    /// [`ShaperError::Memory`] where the list can't grow.
    pub fn spans_into(self, buffer: &Buffer, spans: &mut Vec<Span>) -> Result<(), ShaperError> {
        let glyphs = buffer.glyphs();
        match self {
            Shaper::Indic => spans_into(&Indic, glyphs, spans),
            Shaper::Khmer => spans_into(&Khmer, glyphs, spans),
            Shaper::Myanmar => spans_into(&Myanmar, glyphs, spans),
            Shaper::Universal => spans_into(&Universal, glyphs, spans),
            Shaper::Arabic
            | Shaper::Hangul
            | Shaper::Hebrew
            | Shaper::MyanmarZawgyi
            | Shaper::Thai => {
                spans.clear();
                Ok(())
            }
        }
    }
}

#[cfg(test)]
mod tests {
    use super::{Indic, Universal, find_syllables_in, setup_syllables_found};
    use crate::alloc::{Global, Vec};
    use crate::buffer::UnicodeProps;
    use crate::font::NominalOnly;
    use crate::{Buffer, GeneralCategory, GlyphInfo, Pause, Plan, Shaper, Span, run_pause, script};

    // A buffer of glyphs of these categories; those of general category Mn are marks.
    fn text(glyphs: &[(u8, GeneralCategory)]) -> Buffer {
        let mut buffer = Buffer::new(Global, 1_000_000);
        for &(category, general_category) in glyphs {
            let glyph = GlyphInfo {
                category,
                unicode_props: UnicodeProps::new(general_category, 0),
                ..GlyphInfo::DEFAULT
            };
            buffer.push(glyph).unwrap();
        }
        buffer
    }

    fn letters(categories: &[u8]) -> Buffer {
        let glyphs: std::vec::Vec<_> = categories
            .iter()
            .map(|&category| (category, GeneralCategory::Lo))
            .collect();
        text(&glyphs)
    }

    fn spans(shaper: Shaper, buffer: &Buffer) -> std::vec::Vec<(usize, u8)> {
        let spans = shaper.spans_of(buffer).unwrap();
        spans.iter().map(|span| (span.len, span.kind)).collect()
    }

    #[test]
    fn each_shaper_has_its_grammar() {
        // Myanmar's SM and PT are one broken syllable, as in HarfRust
        assert_eq!(spans(Shaper::Myanmar, &letters(&[8, 39])), [(2, 2)]);
        assert_eq!(
            spans(Shaper::Indic, &letters(&[1, 4, 1, 7, 0])),
            [(4, 0), (1, 5)]
        );
        assert_eq!(
            spans(Shaper::Khmer, &letters(&[1, 4, 15, 26, 4])),
            [(4, 0), (1, 1)]
        );
        assert_eq!(
            spans(Shaper::Universal, &letters(&[47, 1, 33])),
            [(1, 8), (2, 2)]
        );
    }

    #[test]
    fn what_the_universal_grammar_passes_over_stands_in_the_span_before() {
        use GeneralCategory::{Lo, Mn};
        let buffer = text(&[
            (6, Mn),
            (1, Lo),
            (14, Lo),
            (6, Mn),
            (33, Mn),
            (14, Lo),
            (1, Lo),
        ]);
        assert_eq!(spans(Shaper::Universal, &buffer), [(1, 8), (5, 2), (1, 2)]);
    }

    #[test]
    fn shapers_without_syllables_have_no_spans() {
        for shaper in Shaper::ALL {
            let reads = matches!(
                shaper,
                Shaper::Indic | Shaper::Khmer | Shaper::Myanmar | Shaper::Universal
            );
            assert_eq!(spans(shaper, &letters(&[1])).is_empty(), !reads);
        }
    }

    #[test]
    fn a_list_is_filled_anew() {
        let mut list = Vec::new(Global);
        list.push(Span { len: 9, kind: 9 }).unwrap();
        Shaper::Indic
            .spans_into(&letters(&[1, 1]), &mut list)
            .unwrap();
        assert_eq!(list.len(), 2);
        Shaper::Thai.spans_into(&letters(&[1]), &mut list).unwrap();
        assert_eq!(list.len(), 0);
    }

    #[test]
    fn bytes_are_those_of_the_spans() {
        let categories = [5, 5, 1, 4, 1, 8, 0, 6, 6, 51, 51, 49, 14, 33, 9, 3, 18, 1];
        let mut buffer = letters(&categories);
        find_syllables_in(&Indic, &mut buffer);
        let found: std::vec::Vec<u8> = buffer.glyphs().iter().map(|glyph| glyph.syllable).collect();
        buffer
            .set_spans(&Shaper::Indic.spans_of(&buffer).unwrap(), 4)
            .unwrap();
        let set: std::vec::Vec<u8> = buffer.glyphs().iter().map(|glyph| glyph.syllable).collect();
        assert_eq!(found, set);
        find_syllables_in(&Universal, &mut buffer);
        buffer
            .set_spans(&Shaper::Universal.spans_of(&buffer).unwrap(), 7)
            .unwrap();
    }

    // What a set-up makes of a text in one pass, and by a list of spans.
    fn setup(
        shaper: Shaper,
        pause: Pause,
        script: crate::Script,
        categories: &[u8],
    ) -> [Buffer; 2] {
        let plan = Plan::builder().script(script).build_for(shaper).unwrap();
        let font = NominalOnly(|_| None);
        let mut found = letters(categories);
        assert!(setup_syllables_found(pause, &plan, &mut found));
        let mut set = letters(categories);
        let spans = shaper.spans_of(&set).unwrap();
        run_pause(pause, &plan, &font, &spans, &mut set).unwrap();
        [found, set]
    }

    #[test]
    fn in_one_pass_as_by_spans() {
        let texts: [&[u8]; 4] = [
            &[],
            &[1, 4, 1, 7, 8, 5, 1, 0, 9],
            &[3, 1, 33, 12, 1, 18, 1, 14, 20],
            &[5, 5, 5],
        ];
        for (shaper, pause, script) in [
            (
                Shaper::Indic,
                Pause::SetupSyllablesIndic,
                script::DEVANAGARI,
            ),
            (Shaper::Khmer, Pause::SetupSyllablesKhmer, script::KHMER),
            (
                Shaper::Myanmar,
                Pause::SetupSyllablesMyanmar,
                script::MYANMAR,
            ),
            (
                Shaper::Universal,
                Pause::SetupSyllablesUse,
                crate::Script(*b"Java"),
            ),
        ] {
            for text in texts {
                let [found, set] = setup(shaper, pause, script, text);
                assert_eq!(found.glyphs(), set.glyphs());
                assert_eq!(found.has_broken_syllable(), set.has_broken_syllable());
            }
        }
    }

    #[test]
    fn other_pauses_find_nothing() {
        let plan = Plan::builder()
            .script(script::KHMER)
            .build_for(Shaper::Khmer)
            .unwrap();
        let mut buffer = letters(&[1, 4]);
        assert!(!setup_syllables_found(
            Pause::ReorderKhmer,
            &plan,
            &mut buffer
        ));
        assert_eq!(buffer.glyphs(), letters(&[1, 4]).glyphs());
    }

    #[test]
    fn runs_of_joiners_are_linear() {
        // a second's worth, if each joiner read what is left of its run
        for (shaper, joiner) in [
            (Shaper::Indic, 5),
            (Shaper::Khmer, 6),
            (Shaper::Universal, 51),
        ] {
            let buffer = letters(&std::vec![joiner; 300_000]);
            assert_eq!(shaper.spans_of(&buffer).unwrap().len(), 300_000);
        }
    }
}
