//! What a lookup of GSUB does to a buffer: other glyphs for a range of it.

use crate::buffer::{Buffer, GlyphProps, LigProps, ShaperError};
use core::ops::Range;

impl Buffer {
    /// Puts glyphs of these numbers in the place of those of the range, as a multiple substitution
    /// does. Each is a copy of the first one of the range but for its number, in the cluster that
    /// the range has when its clusters are merged, with the mark
    /// [`SUBSTITUTED`](GlyphProps::SUBSTITUTED). Several for one glyph have the mark
    /// [`MULTIPLIED`](GlyphProps::MULTIPLIED), and as components their places among them, unless the
    /// glyph has the number of a ligature, which keeps its `lig_props` (HarfBuzz's `Sequence`). Where
    /// none are given, the clusters of the range go to the glyph behind it, or to the one before it.
    ///
    /// It takes time by the number of glyphs from the range on, and no memory unless the text grows.
    ///
    /// ```
    /// use sengadlit::Buffer;
    ///
    /// // one vowel sign becomes two
    /// let mut buffer = Buffer::from("\u{1780}\u{17C4}");
    /// buffer.replace_range(1..2, &[0x17C1, 0x17B6])?;
    /// let glyphs: Vec<_> = buffer.iter().map(|glyph| (glyph.glyph_id, glyph.cluster)).collect();
    /// assert_eq!(glyphs, [(0x1780, 0), (0x17C1, 3), (0x17B6, 3)]);
    /// # Ok::<(), sengadlit::ShaperError>(())
    /// ```
    ///
    /// # Errors
    ///
    /// [`ShaperError::TooLong`] and [`ShaperError::Memory`]; nothing has changed then.
    ///
    /// # Panics
    ///
    /// Where the range is empty or passes the end of the buffer, or the buffer has positions.
    pub fn replace_range(
        &mut self,
        range: Range<usize>,
        numbers: &[u32],
    ) -> Result<(), ShaperError> {
        self.expect_range(&range);
        self.grow(numbers.len().saturating_sub(range.len()))?;
        self.merge_clusters(range.start, range.end);
        if numbers.is_empty() {
            self.hand_on_clusters(&range);
        }
        let is_multiplied = range.len() == 1 && numbers.len() > 1;
        let first = self.get(range.start);
        self.with_glyphs_mut(|glyphs| {
            if numbers.len() > range.len() {
                glyphs[range.end..].rotate_right(numbers.len() - range.len());
            } else {
                glyphs[range.start..].rotate_left(range.len() - numbers.len());
            }
            let places = (0_u8..16).cycle();
            for ((glyph, number), place) in
                glyphs[range.start..].iter_mut().zip(numbers).zip(places)
            {
                *glyph = first;
                glyph.glyph_id = *number;
                glyph.glyph_props.insert(GlyphProps::SUBSTITUTED);
                if is_multiplied {
                    glyph.glyph_props.insert(GlyphProps::MULTIPLIED);
                }
                if is_multiplied && first.lig_props.number() == 0 {
                    glyph.lig_props = LigProps::mark(0, place);
                }
            }
        });
        self.truncate(self.len() - range.len().saturating_sub(numbers.len()));
        Ok(())
    }

    /// Puts one glyph in the place of those of the range, as a ligature: a copy of the first one but
    /// for its number, in the merged cluster of all, with the marks
    /// [`SUBSTITUTED`](GlyphProps::SUBSTITUTED) and [`LIGATED`](GlyphProps::LIGATED), and no longer
    /// [`MULTIPLIED`](GlyphProps::MULTIPLIED), and without `lig_props`. It can't refuse and takes no
    /// memory. (Which marks stay with which component GDEF says, and the caller keeps.)
    ///
    /// # Panics
    ///
    /// Where the range is empty or passes the end of the buffer, or the buffer has positions.
    pub fn ligate(&mut self, range: Range<usize>, number: u32) {
        self.expect_range(&range);
        self.merge_clusters(range.start, range.end);
        let mut glyph = self.get(range.start);
        glyph.glyph_id = number;
        glyph.glyph_props.insert(GlyphProps::SUBSTITUTED);
        glyph.glyph_props.insert(GlyphProps::LIGATED);
        glyph.glyph_props.remove(GlyphProps::MULTIPLIED);
        glyph.lig_props = LigProps::NONE;
        self.set(range.start, glyph);
        let removed = range.len() - 1;
        self.with_glyphs_mut(|glyphs| glyphs[range.start + 1..].rotate_left(removed));
        self.truncate(self.len() - removed);
    }

    // Panics at a range that no lookup has.
    #[track_caller]
    fn expect_range(&self, range: &Range<usize>) {
        let is_range = range.start < range.end && range.end <= self.len();
        assert!(
            is_range,
            "{range:?} is no range of a buffer of {} glyphs",
            self.len()
        );
        assert!(
            self.positions_len() == 0,
            "the buffer has positions already"
        );
    }

    // Merges the clusters of a range that goes with a neighbour's, unless that has them already.
    fn hand_on_clusters(&mut self, range: &Range<usize>) {
        let glyphs = self.glyphs();
        let here = glyphs[range.start].cluster;
        let before = glyphs[..range.start].last().map(|glyph| glyph.cluster);
        let behind = glyphs[range.end..].first().map(|glyph| glyph.cluster);
        if behind.is_some() && behind != Some(here) && before != Some(here) {
            self.merge_clusters(range.start, range.end + 1);
        } else if behind.is_none() && before.is_some() {
            self.merge_clusters(range.start - 1, range.end);
        }
    }
}

#[cfg(test)]
mod tests {
    use crate::alloc::{Global, Vec as List};
    use crate::buffer::{Buffer, GlyphPosition, GlyphProps, LigProps, ShaperError};
    use std::vec::Vec;

    fn text() -> Buffer {
        Buffer::from("abcd")
    }

    fn seen(buffer: &Buffer) -> Vec<(u32, u32, GlyphProps, u8)> {
        let fields = |glyph: &crate::GlyphInfo| {
            (
                glyph.glyph_id,
                glyph.cluster,
                glyph.glyph_props,
                glyph.lig_props.component(),
            )
        };
        buffer.iter().map(fields).collect()
    }

    const NONE: GlyphProps = GlyphProps::NONE;
    const SUBSTITUTED: GlyphProps = GlyphProps::SUBSTITUTED;

    fn both(first: GlyphProps, second: GlyphProps) -> GlyphProps {
        GlyphProps(first.0 | second.0)
    }

    #[test]
    fn one_glyph_becomes_others() {
        let mut buffer = text();
        buffer.replace_range(1..2, &[7]).unwrap();
        assert_eq!(seen(&buffer)[1], (7, 1, SUBSTITUTED, 0));
        let multiplied = both(SUBSTITUTED, GlyphProps::MULTIPLIED);
        buffer.replace_range(3..4, &[8, 9, 10]).unwrap();
        let parts = [
            (8, 3, multiplied, 0),
            (9, 3, multiplied, 1),
            (10, 3, multiplied, 2),
        ];
        assert_eq!(seen(&buffer)[3..], parts);
        assert_eq!(seen(&buffer)[2], (u32::from('c'), 2, NONE, 0));
    }

    /// HarfBuzz's `Sequence::apply`: what is attached to a ligature isn't disturbed.
    #[test]
    fn parts_of_a_mark_stay_at_its_component() {
        let mut buffer = text();
        let of_component = LigProps::mark(3, 2);
        buffer.with_glyphs_mut(|glyphs| glyphs[1].lig_props = of_component);
        buffer.replace_range(1..2, &[7, 8]).unwrap();
        for glyph in &buffer.glyphs()[1..3] {
            assert!(glyph.glyph_props.is_multiplied());
            assert_eq!(glyph.lig_props, of_component);
        }
    }

    // HarfBuzz packs a component into four bits.
    #[test]
    fn components_have_four_bits() {
        let mut buffer = text();
        buffer.replace_range(1..2, &[7; 18]).unwrap();
        let components = buffer.glyphs()[1..19].iter();
        let components: Vec<u8> = components.map(|it| it.lig_props.component()).collect();
        assert_eq!(components, [&Vec::from_iter(0..16)[..], &[0, 1]].concat());
    }

    // Of a glyph without a ligature's number each new one gets its place, whichever the glyph had.
    #[test]
    fn parts_of_a_part_have_their_own_places() {
        let mut buffer = text();
        buffer.replace_range(1..2, &[7, 8, 9]).unwrap();
        buffer.replace_range(3..4, &[5, 6]).unwrap();
        let components = buffer.glyphs()[1..5].iter();
        let components: Vec<u8> = components.map(|it| it.lig_props.component()).collect();
        assert_eq!(components, [0, 1, 0, 1]);
    }

    #[test]
    fn several_glyphs_become_fewer_or_more() {
        let mut buffer = text();
        buffer.replace_range(1..3, &[7, 8, 9]).unwrap();
        let clusters: Vec<_> = buffer.iter().map(|glyph| glyph.cluster).collect();
        assert_eq!(clusters, [0, 1, 1, 1, 3]);
        buffer.replace_range(0..5, &[1]).unwrap();
        assert_eq!(seen(&buffer), [(1, 0, SUBSTITUTED, 0)]);
    }

    // Each is a copy of the first one, features and category with it, and none of them is one of
    // several for one.
    #[test]
    fn glyphs_for_several_are_copies_of_the_first() {
        let mut buffer = text();
        buffer.with_glyphs_mut(|glyphs| {
            for (glyph, mask) in glyphs.iter_mut().zip([0x10, 0x20, 0x40, 0x80]) {
                (glyph.mask, glyph.category) = (mask, mask as u8 / 16);
            }
        });
        buffer.replace_range(1..3, &[7, 8, 9]).unwrap();
        for (glyph, number) in buffer.glyphs()[1..4].iter().zip(7..) {
            assert_eq!(
                (glyph.glyph_id, glyph.mask, glyph.category),
                (number, 0x20, 2)
            );
            assert_eq!(glyph.glyph_props, SUBSTITUTED);
        }
        assert_eq!(buffer.get(4).mask, 0x80);
        buffer.replace_range(3..5, &[1]).unwrap();
        assert_eq!(seen(&buffer)[3], (1, 1, SUBSTITUTED, 0));
        assert_eq!(buffer.get(3).mask, 0x20);
    }

    #[test]
    fn a_glyph_that_goes_hands_its_cluster_on() {
        let mut buffer = text();
        buffer.replace_range(0..1, &[]).unwrap();
        assert_eq!(seen(&buffer)[0], (u32::from('b'), 0, NONE, 0));
        buffer.replace_range(2..3, &[]).unwrap();
        let clusters: Vec<_> = buffer.iter().map(|glyph| glyph.cluster).collect();
        assert_eq!(clusters, [0, 2]);
        buffer.replace_range(0..2, &[]).unwrap();
        assert!(buffer.is_empty());
    }

    /// HarfBuzz's `hb_buffer_t::delete_glyph`: the cluster is left where a neighbour has it.
    // As in a text from right to left: the least cluster stays.
    #[test]
    fn the_last_glyph_hands_its_cluster_to_the_one_before() {
        let mut buffer = Buffer::from("ab");
        buffer.with_glyphs_mut(|glyphs| glyphs[0].cluster = 2);
        buffer.replace_range(1..2, &[]).unwrap();
        assert_eq!(seen(&buffer), [(u32::from('a'), 1, NONE, 0)]);
    }

    #[test]
    fn a_glyph_that_goes_hands_nothing_on_where_a_neighbour_has_its_cluster() {
        for (clusters, place) in [([0, 1, 1, 3], 2), ([0, 1, 1, 3], 1), ([3, 1, 1, 0], 2)] {
            let mut buffer = text();
            buffer.with_glyphs_mut(|glyphs| {
                for (glyph, cluster) in glyphs.iter_mut().zip(clusters) {
                    glyph.cluster = cluster;
                }
            });
            buffer.replace_range(place..place + 1, &[]).unwrap();
            let left: Vec<_> = buffer.iter().map(|glyph| glyph.cluster).collect();
            assert_eq!(left, [clusters[0], 1, clusters[3]]);
        }
    }

    #[test]
    fn a_text_that_would_be_too_long_stays() {
        let mut buffer = text();
        buffer.set_max_len(5);
        let before = buffer.try_clone().unwrap();
        assert_eq!(
            buffer.replace_range(2..3, &[1, 2, 3]),
            Err(ShaperError::TooLong)
        );
        assert_eq!(buffer, before);
        let several = buffer.replace_range(1..3, &[1, 2, 3, 4]);
        assert_eq!(several, Err(ShaperError::TooLong));
        assert_eq!(buffer, before);
    }

    #[test]
    fn glyphs_become_a_ligature() {
        let mut buffer = text();
        buffer.replace_range(2..3, &[5, 6]).unwrap();
        buffer.ligate(1..3, 9);
        let ligated = both(SUBSTITUTED, GlyphProps::LIGATED);
        let multiplied = both(SUBSTITUTED, GlyphProps::MULTIPLIED);
        let glyphs = [
            (97, 0, NONE, 0),
            (9, 1, ligated, 0),
            (6, 1, multiplied, 1),
            (100, 3, NONE, 0),
        ];
        assert_eq!(seen(&buffer), glyphs);
    }

    /// HarfBuzz's `_set_glyph_class` of a ligature: the last substitution alone counts.
    #[test]
    fn a_ligature_that_begins_with_one_of_several_is_none_of_them() {
        let mut buffer = text();
        buffer.replace_range(1..2, &[5, 6]).unwrap();
        assert!(buffer.get(2).glyph_props.is_multiplied());
        buffer.ligate(2..4, 9);
        let glyph = buffer.get(2);
        let ligated = both(SUBSTITUTED, GlyphProps::LIGATED);
        assert_eq!((glyph.glyph_id, glyph.glyph_props), (9, ligated));
        assert_eq!(glyph.lig_props, LigProps::NONE);
    }

    #[test]
    #[should_panic(expected = "2..2 is no range of a buffer of 4 glyphs")]
    fn nothing_is_no_ligature() {
        text().ligate(2..2, 9);
    }

    // A text whose glyphs have positions.
    fn positioned() -> Buffer {
        let mut buffer = text();
        let zero = List::from_elem(Global, GlyphPosition::ZERO, 4).unwrap();
        assert!(buffer.set_positions(zero));
        buffer
    }

    #[test]
    #[should_panic(expected = "the buffer has positions already")]
    fn nothing_is_replaced_behind_positioning() {
        let _ = positioned().replace_range(0..1, &[1]);
    }

    #[test]
    #[should_panic(expected = "the buffer has positions already")]
    fn nothing_is_ligated_behind_positioning() {
        positioned().ligate(0..2, 1);
    }
}
