//! `worst`: the reorderings and Hangul's preprocessing on the texts that cost them most, in
//! nanoseconds per glyph at 10^5 and 10^6 glyphs. A text repeats a unit of categories, in one
//! syllable or in one a unit, or of characters, and its clusters rise, fall, fall with neighbours in
//! pairs, or rise and fall behind a long run of one cluster. A line has the least and the greatest
//! of these eight or four, each the least of some passes; where they grow with the text, it takes
//! its square.
//!
//!     cargo run --release -p sengadlit-tests --bin worst

#![forbid(unsafe_code)]

use sengadlit::alloc::Global;
use sengadlit::categories::{indic, khmer, myanmar, universal};
use sengadlit::font::{Glyphs, GlyphsOnly, NominalOnly};
use sengadlit::ot_shaper_syllabic::{
    indic_syllable, khmer_syllable, myanmar_syllable, use_syllable,
};
use sengadlit::plan::ot_position_t::{POS_BASE_C, POS_PRE_M};
use sengadlit::{Buffer, GlyphId, GlyphInfo, Pause, Plan, Script, Shaper, run_pause, script};
use std::time::Instant;

/// How many glyphs a text has.
const LENGTHS: [usize; 2] = [100_000, 1_000_000];
/// How many passes there are over one.
const PASSES: usize = 5;

/// The units of a pause: each a name and the categories that it repeats.
type Units = &'static [(&'static str, &'static [u8])];

/// A reordering: its pause, shaper and script, the kind of its syllables, and the units.
struct Reordering {
    pause: Pause,
    shaper: Shaper,
    script: Script,
    kind: u8,
    units: Units,
}

const REORDERINGS: [Reordering; 5] = [
    Reordering {
        pause: Pause::ReorderKhmer,
        shaper: Shaper::Khmer,
        script: script::KHMER,
        kind: khmer_syllable::CONSONANT_SYLLABLE,
        units: {
            use khmer::{C, H, Ra, VPre};
            &[
                ("VPre", &[VPre]),
                ("C VPre", &[C, VPre]),
                ("H Ra", &[H, Ra]),
                ("C H Ra", &[C, H, Ra]),
            ]
        },
    },
    Reordering {
        pause: Pause::ReorderMyanmar,
        shaper: Shaper::Myanmar,
        script: script::MYANMAR,
        kind: myanmar_syllable::CONSONANT_SYLLABLE,
        units: {
            use myanmar::{A, MR, VAbv, VBlw, VPre, VS};
            &[
                ("VPre", &[VPre]),
                ("MR VPre", &[MR, VPre]),
                ("VBlw VPre", &[VBlw, VPre]),
                ("VBlw MR", &[VBlw, MR]),
                ("VPre VS", &[VPre, VS]),
                ("VBlw A VAbv MR", &[VBlw, A, VAbv, MR]),
            ]
        },
    },
    Reordering {
        pause: Pause::ReorderUse,
        shaper: Shaper::Universal,
        script: Script(*b"Java"),
        kind: use_syllable::STANDARD_CLUSTER,
        units: {
            use universal::{B, H, R, VBlw, VPre};
            &[
                ("VPre", &[VPre]),
                ("VBlw VPre", &[VBlw, VPre]),
                ("B H VPre", &[B, H, VPre]),
                ("R B", &[R, B]),
                ("R H VPre", &[R, H, VPre]),
            ]
        },
    },
    Reordering {
        pause: Pause::InitialReordering,
        shaper: Shaper::Indic,
        script: script::DEVANAGARI,
        kind: indic_syllable::CONSONANT_SYLLABLE,
        units: {
            use indic::{C, H, M, N};
            &[
                ("C H", &[C, H]),
                ("C M", &[C, M]),
                ("M", &[M]),
                ("C N H M", &[C, N, H, M]),
            ]
        },
    },
    Reordering {
        pause: Pause::FinalReordering,
        shaper: Shaper::Indic,
        script: script::DEVANAGARI,
        kind: indic_syllable::CONSONANT_SYLLABLE,
        units: {
            use indic::{C, M};
            &[("M C", &[M, C]), ("M", &[M])]
        },
    },
];

/// Hangul's units: syllables that compose, and a tone that comes before one.
const HANGUL: [(&str, &[char]); 3] = [
    ("L V T", &['\u{1100}', '\u{1161}', '\u{11A8}']),
    (
        "L V T tone",
        &['\u{1100}', '\u{1161}', '\u{11A8}', '\u{302E}'],
    ),
    ("LV tone", &['\u{AC00}', '\u{302E}']),
];

/// Which clusters a text has.
#[derive(Clone, Copy)]
enum Clusters {
    Rising,
    Falling,
    FallingInPairs,
    /// Half of the text in one, and behind it stretches that fall to this and then below it.
    BehindRun,
}

impl Clusters {
    const ALL: [Self; 4] = [
        Self::Rising,
        Self::Falling,
        Self::FallingInPairs,
        Self::BehindRun,
    ];

    /// The cluster of a glyph, of so many.
    fn of(self, place: usize, length: usize) -> u32 {
        let cluster = match self {
            Self::Rising => place,
            Self::Falling => length - place,
            Self::FallingInPairs => length - place.div_ceil(2),
            Self::BehindRun => {
                let behind = place.saturating_sub(length / 2);
                let low = length - behind / 6;
                match behind % 6 {
                    0 if behind == 0 => length,
                    0..=2 => 2 * length,
                    3 | 4 => low,
                    _ => low - 1,
                }
            }
        };
        u32::try_from(cluster).expect("a text is shorter")
    }
}

impl Reordering {
    /// The text: all in one syllable, or each unit in one.
    fn text(&self, unit: &[u8], clusters: Clusters, is_one: bool, length: usize) -> Vec<GlyphInfo> {
        let glyph = |place: usize| {
            let category = unit[place % unit.len()];
            let serial = if is_one {
                1
            } else {
                (place / unit.len() % 15 + 1) as u8
            };
            GlyphInfo {
                glyph_id: u32::from(category),
                cluster: clusters.of(place, length),
                syllable: serial << 4 | self.kind,
                category,
                auxiliary: if category == indic::M {
                    POS_PRE_M
                } else {
                    POS_BASE_C
                },
                ..GlyphInfo::DEFAULT
            }
        };
        (0..length).map(glyph).collect()
    }

    /// Nanoseconds per glyph: the least of the passes.
    fn time(&self, glyphs: &[GlyphInfo]) -> f64 {
        let plan = Plan::builder()
            .script(self.script)
            .build_for(self.shaper)
            .expect("masks touch no flag");
        let font = NominalOnly(|c| u16::try_from(c).ok().map(GlyphId));
        let pass = |_| {
            let mut buffer = buffer_of(glyphs, self.script);
            let start = Instant::now();
            run_pause(self.pause, &plan, &font, &[], &mut buffer).expect("there is memory");
            start.elapsed().as_secs_f64() * 1e9 / glyphs.len() as f64
        };
        (0..PASSES).map(pass).fold(f64::INFINITY, f64::min)
    }

    /// The least and the greatest time of the texts of a unit.
    fn range(&self, unit: &[u8], length: usize) -> (f64, f64) {
        let mut range = (f64::INFINITY, 0.0f64);
        for clusters in Clusters::ALL {
            for is_one in [true, false] {
                let time = self.time(&self.text(unit, clusters, is_one, length));
                range = (range.0.min(time), range.1.max(time));
            }
        }
        range
    }
}

/// A font with a glyph for each character of the first plane, which moves the pen: a tone of some
/// width comes before its syllable.
struct AllGlyphs;

impl Glyphs for AllGlyphs {
    fn nominal_glyph(&self, c: u32) -> Option<GlyphId> {
        u16::try_from(c).ok().map(GlyphId)
    }

    fn glyph_h_advance(&self, _glyph: GlyphId) -> i32 {
        500
    }

    fn would_apply(&self, _lookup: u16, _glyphs: &[GlyphId], _zero_context: bool) -> bool {
        false
    }
}

/// Nanoseconds per character of Hangul's preprocessing: the least and the greatest time of the texts
/// of a unit.
fn hangul_range(unit: &[char], length: usize) -> (f64, f64) {
    let plan = Plan::builder()
        .script(script::HANGUL)
        .build_for(Shaper::Hangul)
        .expect("masks touch no flag");
    let font = GlyphsOnly(AllGlyphs);
    let time = |clusters: Clusters| {
        let glyph = |place: usize| {
            let character = u32::from(unit[place % unit.len()]);
            let cluster = clusters.of(place, length);
            GlyphInfo {
                glyph_id: character,
                cluster,
                ..GlyphInfo::DEFAULT
            }
        };
        let glyphs: Vec<GlyphInfo> = (0..length).map(glyph).collect();
        let pass = |_| {
            let mut buffer = buffer_of(&glyphs, script::HANGUL);
            let start = Instant::now();
            Shaper::Hangul
                .preprocess_text(&plan, &font, &mut buffer)
                .expect("there is memory");
            start.elapsed().as_secs_f64() * 1e9 / length as f64
        };
        (0..PASSES).map(pass).fold(f64::INFINITY, f64::min)
    };
    let times = Clusters::ALL.map(time);
    (
        times.into_iter().fold(f64::INFINITY, f64::min),
        times.into_iter().fold(0.0, f64::max),
    )
}

/// A buffer of these glyphs.
fn buffer_of(glyphs: &[GlyphInfo], script: Script) -> Buffer {
    let mut buffer = Buffer::new(Global, glyphs.len());
    buffer.set_script(Some(script));
    for &glyph in glyphs {
        buffer.push(glyph).expect("there is memory");
    }
    buffer
}

fn main() {
    for (name, unit) in HANGUL {
        print!("{:20} {name:15}", "Hangul");
        for length in LENGTHS {
            let (least, greatest) = hangul_range(unit, length);
            print!(" {least:8.1} {greatest:8.1}");
        }
        println!();
    }
    for reordering in &REORDERINGS {
        for (name, unit) in reordering.units {
            print!("{:20} {name:15}", format!("{:?}", reordering.pause));
            for length in LENGTHS {
                let (least, greatest) = reordering.range(unit, length);
                print!(" {least:8.1} {greatest:8.1}");
            }
            println!();
        }
    }
}
