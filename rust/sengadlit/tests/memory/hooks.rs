//! Trials of the hooks and pauses.

use crate::common::buffers::{buffer_of, letter, set_advances};
use crate::common::calls::{Call, Setting};
use crate::common::fonts::{PlainFont, PlainTables};
use crate::common::numbers::Numbers;
use crate::common::plans::{PAUSES, plan_of};
use crate::trial::{Subject, Trial};
use sengadlit::buffer::{Buffer, Direction, GlyphInfo, Span};
use sengadlit::ot_shaper_syllabic::{
    indic_syllable, khmer_syllable, myanmar_syllable, use_syllable,
};
use sengadlit::plan::Pause;
use sengadlit::shaper::Shaper;
use sengadlit::shaper::checked::CallError;

/// The pauses that insert dotted circles, with a shaper that makes them and the kind of its broken
/// syllables.
const CIRCLES: [(Pause, Shaper, u8); 4] = [
    (
        Pause::InitialReordering,
        Shaper::Indic,
        indic_syllable::BROKEN_CLUSTER,
    ),
    (
        Pause::ReorderKhmer,
        Shaper::Khmer,
        khmer_syllable::BROKEN_CLUSTER,
    ),
    (
        Pause::ReorderMyanmar,
        Shaper::Myanmar,
        myanmar_syllable::BROKEN_CLUSTER,
    ),
    (
        Pause::ReorderUse,
        Shaper::Universal,
        use_syllable::BROKEN_CLUSTER,
    ),
];

/// The script that a shaper shapes.
fn script_of(shaper: Shaper) -> &'static [u8; 4] {
    match shaper {
        Shaper::Arabic => b"Syrc",
        Shaper::Hangul => b"Hang",
        Shaper::Hebrew => b"Hebr",
        Shaper::Indic => b"Deva",
        Shaper::Khmer => b"Khmr",
        Shaper::Myanmar | Shaper::MyanmarZawgyi => b"Mymr",
        Shaper::Thai => b"Thai",
        Shaper::Universal => b"Mong",
    }
}

/// Whether a call may refuse memory, and whether it is the checked one.
#[derive(Clone, Copy, Debug)]
struct Kind {
    may_refuse: bool,
    is_checked: bool,
}

/// A trial of a call on a buffer, with a font that has the dotted circle.
fn trial(kind: Kind, call: Call, shaper: Shaper, spans: Vec<Span>, text: Buffer) -> Trial {
    let plan = plan_of(shaper, script_of(shaper));
    let Kind {
        may_refuse,
        is_checked,
    } = kind;
    let way = if is_checked { "checked " } else { "" };
    let name = format!("{way}{call:?} of {shaper:?} on {} glyphs", text.len());
    let make = move |subject: &mut Subject| {
        let setting = Setting {
            shaper,
            plan: &plan,
            font: &PlainFont(100),
            tables: &PlainTables,
            spans: &spans,
        };
        assert!(call.fits(&setting, subject.buffer()));
        let returned = match is_checked {
            true => call.make_checked(&setting, subject.buffer()),
            false => call
                .make(&setting, subject.buffer())
                .map_err(CallError::Refused),
        };
        match returned {
            Ok(_) => Ok(()),
            Err(CallError::Refused(error)) => Err(error),
            Err(error) => unreachable!("a condition that holds: {error:?}"),
        }
    };
    Trial {
        name,
        may_refuse,
        subject: Subject::Buffer(text),
        call: Box::new(make),
    }
}

/// A buffer of so many glyphs.
fn text(length: usize, glyph: impl Fn(u32) -> GlyphInfo) -> Buffer {
    let glyphs: Vec<_> = (0..length as u32).map(glyph).collect();
    buffer_of(&glyphs, 100_000)
}

/// Each hook and pause that may refuse memory, on a text that it makes longer.
pub fn growing(is_checked: bool, length: usize) -> Vec<Trial> {
    let kind = Kind {
        may_refuse: true,
        is_checked,
    };
    let mut trials = vec![
        trial(
            kind,
            Call::Preprocess,
            Shaper::Thai,
            Vec::new(),
            text(length, |i| letter(0x0E33, i)),
        ),
        trial(
            kind,
            Call::Preprocess,
            Shaper::Hangul,
            Vec::new(),
            text(length, |i| letter(0xAC00, i)),
        ),
    ];
    for (pause, shaper, broken) in CIRCLES {
        let mut text = text(length, |i| GlyphInfo {
            syllable: (i as u8 % 2 + 1) << 4 | broken,
            ..letter(i % 3, i)
        });
        text.set_has_broken_syllable(true);
        trials.push(trial(kind, Call::Pause(pause), shaper, Vec::new(), text));
    }
    for direction in [Direction::LeftToRight, Direction::RightToLeft] {
        let text = stretched_text(length, direction);
        trials.push(trial(
            kind,
            Call::Postprocess,
            Shaper::Arabic,
            Vec::new(),
            text,
        ));
    }
    trials
}

/// Words of one glyph, each with two tiles, the second of which repeats.
fn stretched_text(length: usize, direction: Direction) -> Buffer {
    let mut text = text(length, |i| GlyphInfo {
        auxiliary: [7, 8, 9][i as usize % 3],
        ..letter(i % 3, i)
    });
    text.set_direction(direction);
    text.set_has_stch(true);
    set_advances(&mut text, &vec![1000; length]);
    text
}

/// A call that takes no memory.
const STANDING: Kind = Kind {
    may_refuse: false,
    is_checked: false,
};

/// Each hook and pause of each shaper on a text that it leaves as long as it is: none takes memory.
pub fn standing(length: usize) -> Vec<Trial> {
    let mut trials = Vec::new();
    for shaper in Shaper::ALL {
        let hooks = [
            Call::Preprocess,
            Call::Masks,
            Call::Marks(0, length.min(32)),
            Call::Postprocess,
            Call::Compose('\u{5D9}', '\u{5B4}'),
            Call::Decompose('\u{931}'),
        ];
        for call in hooks {
            let mut text = text(length, |i| letter(0x0E01, i));
            if call.wants_positions() {
                set_advances(&mut text, &vec![1000; length]);
            }
            trials.push(trial(STANDING, call, shaper, Vec::new(), text));
        }
    }
    trials.extend(PAUSES.map(|pause| standing_pause(pause, length)));
    trials
}

/// A pause on a text without a broken syllable, in which nothing moves.
fn standing_pause(pause: Pause, length: usize) -> Trial {
    let glyph = |i| GlyphInfo {
        syllable: 0x10,
        category: 1,
        auxiliary: 4,
        ..letter(0x915, i)
    };
    let spans = vec![Span { len: 2, kind: 0 }; length / 2];
    let text = text(length, glyph);
    let shaper = shaper_of(pause);
    trial(STANDING, Call::Pause(pause), shaper, spans, text)
}

/// Each pause on texts drawn by lot without a broken syllable, whose clusters rise, fall, are shared or
/// mixed: where they fall, merges of neighbouring syllables flood each other.
pub fn moving(texts: u64) -> Vec<Trial> {
    let mut trials = Vec::new();
    for seed in 0..texts {
        for pause in PAUSES {
            let mut numbers = Numbers::new(seed);
            let length = numbers.below(300);
            let spans = covering_spans(&mut numbers, length);
            let text = moving_text(&mut numbers, shaper_of(pause), length);
            trials.push(trial(
                STANDING,
                Call::Pause(pause),
                shaper_of(pause),
                spans,
                text,
            ));
        }
    }
    trials
}

/// Spans of one to five glyphs that cover so many.
fn covering_spans(numbers: &mut Numbers, length: usize) -> Vec<Span> {
    let (mut spans, mut rest) = (Vec::new(), length);
    while rest > 0 {
        let len = rest.min(1 + numbers.below(5));
        spans.push(Span { len, kind: 0 });
        rest -= len;
    }
    spans
}

/// How the clusters of a text follow one another.
#[derive(Clone, Copy)]
enum Clusters {
    Rise,
    Fall,
    FallShared,
    Mixed,
}

/// A text of syllables of one to five glyphs, with categories and positions of the shaper.
fn moving_text(numbers: &mut Numbers, shaper: Shaper, length: usize) -> Buffer {
    use Clusters::{Fall, FallShared, Mixed, Rise};
    let clusters = numbers.one_of(&[Rise, Fall, FallShared, Mixed]);
    let (mut glyphs, mut serial): (Vec<GlyphInfo>, u8) = (Vec::new(), 1);
    while glyphs.len() < length {
        for _ in 0..1 + numbers.below(5) {
            let cluster = match clusters {
                Rise => glyphs.len(),
                Fall => 1000 - glyphs.len(),
                FallShared => (1000 - glyphs.len()) / 2,
                Mixed => numbers.below(9),
            };
            let (category, auxiliary) = numbers.one_of(moving_glyphs(shaper));
            glyphs.push(GlyphInfo {
                syllable: serial << 4,
                category,
                auxiliary,
                ..letter(0x915, cluster as u32)
            });
        }
        serial = serial % 15 + 1;
    }
    glyphs.truncate(length);
    buffer_of(&glyphs, 100_000)
}

/// Categories of a consonant, of vowels that go before it, and of signs; for Indic with their positions.
fn moving_glyphs(shaper: Shaper) -> &'static [(u8, u8)] {
    match shaper {
        // (C, H, M before the base, M behind it, Ra, SM)
        Shaper::Indic => &[
            (1, 4),
            (1, 4),
            (4, 14),
            (7, 2),
            (7, 2),
            (7, 11),
            (15, 4),
            (8, 13),
        ],
        // (C, VAbv, VPre, VPst, Ra, Coeng)
        Shaper::Khmer => &[
            (1, 0),
            (1, 0),
            (20, 0),
            (22, 0),
            (22, 0),
            (23, 0),
            (15, 0),
            (4, 0),
        ],
        // (C, VAbv, VPre, VPst, MR, A)
        Shaper::Myanmar => &[
            (1, 0),
            (1, 0),
            (20, 0),
            (22, 0),
            (22, 0),
            (23, 0),
            (36, 0),
            (9, 0),
        ],
        // (B, VPre, VPre, VPst, MPre, R, H)
        _ => &[
            (1, 0),
            (1, 0),
            (22, 0),
            (22, 0),
            (24, 0),
            (28, 0),
            (18, 0),
            (12, 0),
        ],
    }
}

/// The shaper that makes a pause.
fn shaper_of(pause: Pause) -> Shaper {
    match pause {
        Pause::SetupSyllablesIndic | Pause::InitialReordering | Pause::FinalReordering => {
            Shaper::Indic
        }
        Pause::SetupSyllablesUse | Pause::RecordRphf | Pause::ReorderUse => Shaper::Universal,
        Pause::SetupSyllablesKhmer | Pause::ReorderKhmer => Shaper::Khmer,
        Pause::RecordStch => Shaper::Arabic,
        _ => Shaper::Myanmar,
    }
}
