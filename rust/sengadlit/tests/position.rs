//! What is done to glyphs around GPOS and behind it, beside HarfBuzz's rules written a second time.
#![cfg(feature = "text")]

mod common;

use common::numbers::Numbers;
use sengadlit::buffer::{
    Buffer, BufferClusterLevel, BufferFlags, Direction, GeneralCategory, GlyphInfo, GlyphPosition,
    GlyphProps, Tag, UnicodeProps,
};
use sengadlit::font::{Font, GlyphId, NominalOnly};
use sengadlit::ot_shape_position::{
    DefaultIgnorables, GlyphClasses, MetricsFont, hide_default_ignorables, propagate_flags,
    set_advances, set_space_widths, zero_mark_widths, zero_width_default_ignorables,
};
use std::cell::Cell;
use std::panic;

/// A font whose glyphs are as wide as their numbers, without a space.
struct Wide;

impl Font for Wide {
    fn nominal_glyph(&self, _: u32) -> Option<GlyphId> {
        None
    }

    fn glyph_h_advance(&self, glyph: GlyphId) -> i32 {
        i32::from(glyph.0)
    }

    fn would_apply(&self, _: u16, _: &[GlyphId], _: bool) -> bool {
        false
    }

    fn has_feature(&self, _: Tag) -> bool {
        false
    }
}

/// A glyph by its cluster and mask: 1 is ignorable, 2 was put in for an ignorable one.
fn glyph(kind: u32, cluster: u32, mask: u32) -> GlyphInfo {
    let mut glyph = GlyphInfo {
        glyph_id: 40 + kind,
        cluster,
        mask,
        ..GlyphInfo::DEFAULT
    };
    glyph.unicode_props.set_ignorable(kind > 0);
    glyph.glyph_props.set_substituted(kind > 1);
    glyph
}

/// The properties of a space by its kind, as HarfBuzz numbers them.
fn space(kind: u8) -> UnicodeProps {
    UnicodeProps::new(GeneralCategory::Zs, kind)
}

fn text(glyphs: &[(u32, u32, u32)]) -> Buffer {
    let glyphs = glyphs.iter();
    glyphs
        .map(|&(kind, cluster, mask)| glyph(kind, cluster, mask))
        .collect()
}

fn random_text(numbers: &mut Numbers) -> Buffer {
    let len = numbers.below(9);
    let glyphs: Vec<(u32, u32, u32)> = (0..len)
        .map(|_| {
            let kind = numbers.below(4) as u32 % 3;
            (kind, numbers.below(5) as u32, numbers.below(64) as u32)
        })
        .collect();
    let mut buffer = text(&glyphs);
    buffer.set_cluster_level(match numbers.below(3) {
        0 => BufferClusterLevel::MonotoneGraphemes,
        1 => BufferClusterLevel::MonotoneCharacters,
        _ => BufferClusterLevel::Characters,
    });
    buffer
}

fn clusters_and_masks(buffer: &Buffer) -> Vec<(u32, u32)> {
    let glyphs = buffer.glyphs().iter();
    glyphs.map(|glyph| (glyph.cluster, glyph.mask)).collect()
}

/// HarfBuzz's `delete_glyphs_inplace`, one glyph after another: those that open the text merge with
/// the next one each.
fn removed_in_steps(buffer: &Buffer) -> Vec<(u32, u32)> {
    let mut all: Buffer = buffer.glyphs().iter().copied().collect();
    all.set_cluster_level(buffer.cluster_level());
    let mut kept: Vec<GlyphInfo> = Vec::new();
    for at in 0..all.len() {
        let gone = all.get(at);
        if !gone.unicode_props.is_ignorable() || gone.glyph_props.is_substituted() {
            kept.push(gone);
            continue;
        }
        let next = all.glyphs().get(at + 1).copied();
        if next.is_some_and(|next| next.cluster == gone.cluster) {
            continue;
        }
        match kept.last().copied() {
            Some(last) if gone.cluster < last.cluster => {
                let run = kept
                    .iter_mut()
                    .rev()
                    .take_while(|glyph| glyph.cluster == last.cluster);
                for glyph in run {
                    glyph.cluster = gone.cluster;
                    glyph.mask = glyph.mask & !7 | gone.mask & 7;
                }
            }
            Some(_) => {}
            None if next.is_some() => all.merge_clusters(at, at + 2),
            None => {}
        }
    }
    kept.iter()
        .map(|glyph| (glyph.cluster, glyph.mask))
        .collect()
}

#[test]
fn removal_as_in_steps() {
    let mut numbers = Numbers::new(7);
    let font = NominalOnly(|_| None);
    for _ in 0..20_000 {
        let mut buffer = random_text(&mut numbers);
        let wanted = removed_in_steps(&buffer);
        hide_default_ignorables(DefaultIgnorables::Remove, None, &font, &mut buffer);
        assert_eq!(clusters_and_masks(&buffer), wanted);
    }
}

#[test]
fn hidden_or_removed() {
    let glyphs = [(0, 0, 0), (1, 1, 0), (2, 1, 0)];
    let space = NominalOnly(|c| (c == 0x20).then_some(GlyphId(3)));
    let none = NominalOnly(|_| None);
    let ids =
        |ignorables, invisible, font: &dyn Fn(&mut Buffer, DefaultIgnorables, Option<GlyphId>)| {
            let mut buffer = text(&glyphs);
            font(&mut buffer, ignorables, invisible);
            buffer
                .glyphs()
                .iter()
                .map(|glyph| glyph.glyph_id)
                .collect::<Vec<u32>>()
        };
    let by_space = |buffer: &mut Buffer, ignorables, invisible| {
        hide_default_ignorables(ignorables, invisible, &space, buffer);
    };
    let by_none = |buffer: &mut Buffer, ignorables, invisible| {
        hide_default_ignorables(ignorables, invisible, &none, buffer);
    };
    assert_eq!(ids(DefaultIgnorables::Hide, None, &by_space), [40, 3, 42]);
    assert_eq!(
        ids(DefaultIgnorables::Hide, Some(GlyphId(5)), &by_space),
        [40, 5, 42]
    );
    assert_eq!(ids(DefaultIgnorables::Hide, None, &by_none), [40, 42]);
    assert_eq!(
        ids(DefaultIgnorables::Remove, Some(GlyphId(5)), &by_space),
        [40, 42]
    );
    assert_eq!(
        ids(DefaultIgnorables::Preserve, None, &by_none),
        [40, 41, 42]
    );
}

#[test]
fn positions_go_with_their_glyphs() {
    let mut buffer = text(&[(1, 0, 0), (0, 1, 0), (1, 1, 0), (2, 2, 0)]);
    set_advances(&Wide, &mut buffer).unwrap();
    hide_default_ignorables(DefaultIgnorables::Hide, None, &Wide, &mut buffer);
    let advances: Vec<i32> = buffer.positions().iter().map(|p| p.x_advance).collect();
    assert_eq!(advances, [40, 42]);
}

/// Glyph 41 is a mark.
struct Marks;

impl GlyphClasses for Marks {
    fn is_mark(&self, glyph: &GlyphInfo) -> bool {
        glyph.glyph_id == 41
    }
}

#[test]
fn widths() {
    let at = |x_advance, y_advance, x_offset, y_offset| GlyphPosition {
        x_advance,
        y_advance,
        x_offset,
        y_offset,
        var: 0,
    };
    let mut buffer = text(&[(0, 0, 0), (1, 1, 0)]);
    // a buffer without positions keeps none
    zero_mark_widths(&Marks, true, &mut buffer);
    assert!(buffer.positions().is_empty());
    set_advances(&Wide, &mut buffer).unwrap();
    assert_eq!(buffer.positions(), [at(40, 0, 0, 0), at(41, 0, 0, 0)]);

    buffer.set_position(0, at(10, 20, 1, 2));
    buffer.set_position(1, at(10, 20, i32::MIN + 5, 2));
    zero_mark_widths(&Marks, true, &mut buffer);
    assert_eq!(
        buffer.positions(),
        [at(10, 20, 1, 2), at(0, 0, i32::MIN, -18)]
    );

    buffer.set_position(1, at(10, 20, 1, 2));
    for ignorables in [DefaultIgnorables::Preserve, DefaultIgnorables::Remove] {
        zero_width_default_ignorables(ignorables, &mut buffer);
        assert_eq!(buffer.position(1), at(10, 20, 1, 2));
    }
    zero_width_default_ignorables(DefaultIgnorables::Hide, &mut buffer);
    assert_eq!(buffer.positions(), [at(10, 20, 1, 2), at(0, 0, 0, 2)]);

    buffer.set_position(1, at(10, 20, 1, 2));
    buffer.set_direction(Direction::TopToBottom);
    zero_width_default_ignorables(DefaultIgnorables::Hide, &mut buffer);
    assert_eq!(buffer.position(1), at(0, 0, 1, 0));
}

impl MetricsFont for Wide {
    fn units_per_em(&self) -> u16 {
        1000
    }

    fn glyph_v_advance(&self, glyph: GlyphId) -> i32 {
        -i32::from(glyph.0) - 1
    }

    fn glyph_v_origin(&self, glyph: GlyphId) -> (i32, i32) {
        (i32::from(glyph.0) / 2, 880)
    }
}

#[test]
fn vertical_text() {
    let mut buffer = text(&[(0, 0, 0), (1, 1, 0)]);
    buffer.with_glyphs_mut(|glyphs| glyphs[1].unicode_props = space(3));
    for direction in [Direction::TopToBottom, Direction::BottomToTop] {
        buffer.set_direction(direction);
        set_advances(&Wide, &mut buffer).unwrap();
        set_space_widths(&Wide, &mut buffer);
        let at = |y_advance| GlyphPosition {
            x_advance: 0,
            y_advance,
            x_offset: -20,
            y_offset: -880,
            var: 0,
        };
        assert_eq!(buffer.positions(), [at(-41), at(-333)]);
    }
}

#[test]
fn widths_of_spaces() {
    let glyph = |kind, glyph_props| GlyphInfo {
        glyph_id: 251,
        unicode_props: space(kind),
        glyph_props,
        ..GlyphInfo::DEFAULT
    };
    let kinds = [0, 1, 3, 16, 17, 18, 19, 20, 21].map(|kind| glyph(kind, GlyphProps::NONE));
    let ligature = glyph(1, GlyphProps::LIGATED);
    let mut buffer: Buffer = kinds.into_iter().chain([ligature]).collect();
    set_advances(&Wide, &mut buffer).unwrap();
    set_space_widths(&Wide, &mut buffer);
    let advances: Vec<i32> = buffer.positions().iter().map(|p| p.x_advance).collect();
    // (the font has neither digits nor stops)
    assert_eq!(advances, [251, 1000, 333, 63, 222, 251, 251, 251, 125, 251]);
}

/// Classes, and a font, that answer so many questions, and then panic. Each glyph is a mark, and the font has each character.
struct Panicking {
    answers: Cell<usize>,
}

impl Panicking {
    fn ask<R>(&self, answer: R) -> R {
        let answers = self.answers.get();
        if answers == 0 {
            panic::resume_unwind(Box::new("the caller's code"));
        }
        self.answers.set(answers - 1);
        answer
    }
}

impl GlyphClasses for Panicking {
    fn is_mark(&self, _: &GlyphInfo) -> bool {
        self.ask(true)
    }
}

impl Font for Panicking {
    fn nominal_glyph(&self, _: u32) -> Option<GlyphId> {
        self.ask(Some(GlyphId(3)))
    }

    fn glyph_h_advance(&self, _: GlyphId) -> i32 {
        self.ask(7)
    }

    fn would_apply(&self, _: u16, _: &[GlyphId], _: bool) -> bool {
        false
    }

    fn has_feature(&self, _: Tag) -> bool {
        false
    }
}

impl MetricsFont for Panicking {
    fn units_per_em(&self) -> u16 {
        self.ask(1000)
    }

    fn glyph_v_advance(&self, _: GlyphId) -> i32 {
        self.ask(-7)
    }

    fn glyph_v_origin(&self, _: GlyphId) -> (i32, i32) {
        self.ask((0, 0))
    }
}

/// A call by its name, of which the caller's code is asked so many questions.
type Asking = (&'static str, usize, fn(&Panicking, &mut Buffer));

/// Whichever question is the one that panics: those before it were answered, so that some glyphs have been changed.
#[test]
fn panics_leave_no_half() {
    let placed = || {
        let mut buffer = text(&[(1, 0, 0), (0, 1, 0), (1, 2, 0)]);
        buffer.with_glyphs_mut(|glyphs| {
            glyphs[0].unicode_props = space(1);
            glyphs[1].unicode_props = space(2);
        });
        set_advances(&Wide, &mut buffer).unwrap();
        buffer
    };
    let calls: [Asking; 4] = [
        ("advances", 3, |font, buffer| {
            set_advances(font, buffer).unwrap();
        }),
        ("spaces", 2, |font, buffer| set_space_widths(font, buffer)),
        // (whether one is a mark, and then which)
        ("marks", 4, |font, buffer| {
            zero_mark_widths(font, false, buffer);
        }),
        ("ignorables", 1, |font, buffer| {
            hide_default_ignorables(DefaultIgnorables::Hide, None, font, buffer);
        }),
    ];
    let mut half_changed = Vec::new();
    for (name, questions, call) in calls {
        for answers in 0..=questions {
            let asked = Panicking {
                answers: Cell::new(answers),
            };
            let mut buffer = placed();
            let caught = panic::catch_unwind(panic::AssertUnwindSafe(|| call(&asked, &mut buffer)));
            assert_eq!(caught.is_ok(), answers == questions, "{name}");
            let old = placed();
            let is_old = buffer.glyphs() == old.glyphs() && buffer.positions() == old.positions();
            if caught.is_ok() {
                assert!(!buffer.is_empty() && !is_old, "{name}");
            } else if !buffer.is_empty() && !is_old {
                half_changed.push((name, answers));
            }
        }
    }
    assert_eq!(half_changed, []);
}

#[test]
fn flags_of_clusters() {
    let masks = |flags, glyphs: &[(u32, u32, u32)]| {
        let mut buffer = text(glyphs);
        buffer.set_flags(flags);
        propagate_flags(&mut buffer);
        buffer
            .glyphs()
            .iter()
            .map(|glyph| glyph.mask)
            .collect::<Vec<u32>>()
    };
    let concat = BufferFlags::PRODUCE_UNSAFE_TO_CONCAT;
    let tatweel = BufferFlags::PRODUCE_SAFE_TO_INSERT_TATWEEL;
    let both = BufferFlags(concat.0 | tatweel.0);
    let glyphs = [(0, 1, 0x12), (0, 1, 0x20), (0, 0, 5), (0, 3, 4)];
    assert_eq!(masks(BufferFlags(0), &glyphs), [0x10, 0x20, 5, 4]);
    assert_eq!(masks(concat, &glyphs), [0x12, 0x22, 5, 4]);
    assert_eq!(masks(tatweel, &glyphs), [0x10, 0x20, 1, 5]);
    assert_eq!(masks(both, &glyphs), [0x12, 0x22, 1, 7]);
}
