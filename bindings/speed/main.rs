//! speed TEXTS ROOT MODE [WORD]..: each hook by rustybuzz's own function and by the crate `sengadlit`, on words of real text
//! and on made texts. A case is one script's or one text's calls of one hook; words choose those whose script or hook has one.
//!
//!     count SIZE..   makes each call once; callgrind counts what runs within `call_original` and `call_ours`. A line tells
//!                    the case of each dump: text, hook, size, buffer (fresh or kept), side, glyphs
//!     plans          the same of `plan_original` and `plan_ours`
//!     check SIZE..   compares what both leave, and tells the cases that differ
//!     time SIZE..    nanoseconds per glyph of a call on a buffer that the call has gone over before, the least of many
//!     bytes          bytes that a glyph takes in both buffers
//!
//! TEXTS and ROOT are the folders of bindings/hooks/texts and of Debian's packages.

use std::collections::BTreeMap;
use std::hint::black_box;
use std::time::Instant;
use std::{env, fs};

use original::speed::{record, Call, OriginalBuffer, OurBuffer, Recorded, BYTES};
use original::Face;

/// The scripts whose words are counted, as the file `scripts` of TEXTS names them.
const SCRIPTS: [&str; 21] = [
    "Arabic",
    "Arabic, pointed",
    "Syriac",
    "N'Ko",
    "Hebrew",
    "Thai",
    "Lao",
    "Hangul",
    "Hangul, composed",
    "Devanagari",
    "Bengali",
    "Gujarati",
    "Tamil",
    "Telugu",
    "Malayalam",
    "Sinhala",
    "Tibetan",
    "Mongolian",
    "Adlam",
    "Khmer",
    "Myanmar",
];

/// Made texts: a name, the script of SCRIPTS whose font it has, the script that it is shaped as, and what is repeated. In the
/// first ones nothing changes, but for what every glyph gets.
const MADE: [(&str, &str, &[u8; 4], &str); 21] = [
    ("plain Thai", "Thai", b"Thai", "\u{E01}\u{E32}\u{E19}\u{E34}"),
    ("plain Hebrew", "Hebrew", b"Hebr", "\u{5D0}\u{5B7}\u{5D1}"),
    ("plain Hangul", "Hangul", b"Hang", "\u{AC01}\u{B098}\u{C11C}"),
    ("plain Khmer", "Khmer", b"Khmr", "\u{1780}\u{17B6}"),
    ("plain Myanmar", "Myanmar", b"Mymr", "\u{1000}\u{102C}"),
    ("plain Javanese", "Sinhala", b"Java", "\u{A98F}\u{A9B4}"),
    ("plain Devanagari", "Devanagari", b"Deva", "\u{915}\u{93E}"),
    ("Latin as Arabic", "Arabic", b"Arab", "latin "),
    ("Latin as Khmer", "Khmer", b"Khmr", "latin "),
    ("Latin as Myanmar", "Myanmar", b"Mymr", "latin "),
    ("Latin as Sinhala", "Sinhala", b"Sinh", "latin "),
    ("Latin as Devanagari", "Devanagari", b"Deva", "latin "),
    ("Khmer C VPre", "Khmer", b"Khmr", "\u{1780}\u{17C1}"),
    ("Khmer C H Ra", "Khmer", b"Khmr", "\u{1780}\u{17D2}\u{179A}"),
    ("Myanmar C VPre", "Myanmar", b"Mymr", "\u{1000}\u{1031}"),
    ("Myanmar C MR VPre", "Myanmar", b"Mymr", "\u{1000}\u{103C}\u{1031}"),
    ("Javanese B VPre", "Sinhala", b"Java", "\u{A98F}\u{A9BA}"),
    ("universal R B VPre", "Sinhala", b"Java", "\u{11D46}\u{A98F}\u{A9BA}"),
    ("Hangul tones", "Hangul", b"Hang", "\u{AC00}\u{302E}\u{302F}"),
    ("Hebrew points", "Hebrew", b"Hebr", "\u{5E9}\u{5BC}\u{5B8}\u{5C1}\u{5D1}\u{5BC}\u{5B0}"),
    ("Syriac stretch", "Syriac", b"Syrc", "\u{70F}\u{710}\u{712}\u{713} "),
];

/// How many runs of words there are of so many glyphs.
fn runs(size: usize) -> usize {
    (2000 / size).clamp(1, 20)
}

/// A text's name, its font, the script that it is shaped as, and its words.
struct Source {
    name: String,
    font: String,
    script: Option<[u8; 4]>,
    words: Vec<String>,
}

impl Source {
    /// Runs of words, each of at least so many characters.
    fn texts(&self, size: usize) -> Vec<String> {
        let mut words = self.words.iter().cycle();
        let run = |_| {
            let mut text = String::new();
            let mut count = 0;
            while count < size {
                let word = words.next().expect("words");
                if self.script.is_none() && count > 0 {
                    text.push(' ');
                    count += 1;
                }
                text.push_str(word);
                count += word.chars().count();
            }
            text
        };
        (0..runs(size)).map(run).collect()
    }
}

fn sources(texts: &str, root: &str) -> Vec<Source> {
    let told =
        ["scripts", "normalized"].map(|file| fs::read_to_string(format!("{texts}/{file}")).expect("texts")).concat();
    let fonts: BTreeMap<_, _> = told.lines().map(|line| line.split('\t')).map(|mut f| (f.next(), f.next())).collect();
    let font = |script: &str| format!("{root}/{}", fonts[&Some(script)].expect("a font"));
    let words = |script: &str| {
        let words = fs::read_to_string(format!("{texts}/{script}.words")).expect("words");
        words.lines().map(str::to_string).collect()
    };
    let real = SCRIPTS.map(|name| Source { name: name.into(), font: font(name), script: None, words: words(name) });
    let made = MADE.map(|(name, of, script, unit)| Source {
        name: name.into(),
        font: font(of),
        script: Some(*script),
        words: vec![unit.into()],
    });
    real.into_iter().chain(made).collect()
}

/// The calls of the same hook in these texts.
fn by_hook<'r, 'f, 'a>(texts: &'r [Recorded<'f, 'a>]) -> Vec<(String, Vec<(&'r Recorded<'f, 'a>, &'r Call)>)> {
    let mut hooks: Vec<(String, Vec<_>)> = Vec::new();
    for text in texts {
        for call in text.calls() {
            let name = call.name();
            match hooks.iter_mut().find(|hook| hook.0 == name) {
                Some((_, calls)) => calls.push((text, call)),
                None => hooks.push((name, vec![(text, call)])),
            }
        }
    }
    hooks
}

/// What was counted so far is dumped.
#[inline(never)]
fn case_ends() {
    black_box(());
}

type Calls<'r, 'f, 'a> = [(&'r Recorded<'f, 'a>, &'r Call)];

fn glyphs(calls: &Calls) -> usize {
    calls.iter().map(|(_, call)| call.glyphs()).sum()
}

fn count(case: &str, calls: &Calls) {
    let glyphs = glyphs(calls);
    let tell = |buffer: &str, side: &str| {
        case_ends();
        println!("{case}|{buffer}|{side}|{glyphs}");
    };
    let mut kept = OriginalBuffer::default();
    for (text, call) in calls {
        let mut buffer = OriginalBuffer::default();
        text.fill_original(call, &mut buffer);
        text.call_original(call, &mut buffer);
        text.fill_original(call, &mut kept);
        text.warm_original(call, &mut kept);
    }
    tell("fresh", "original");
    for (text, call) in calls {
        text.fill_original(call, &mut kept);
        text.call_original(call, &mut kept);
    }
    tell("kept", "original");
    let mut kept = OurBuffer::default();
    for (text, call) in calls {
        let mut buffer = OurBuffer::default();
        text.fill_ours(call, &mut buffer);
        text.call_ours(call, &mut buffer);
        text.fill_ours(call, &mut kept);
        text.warm_ours(call, &mut kept);
    }
    tell("fresh", "ours");
    for (text, call) in calls {
        text.fill_ours(call, &mut kept);
        text.call_ours(call, &mut kept);
    }
    tell("kept", "ours");
    let mut is_told = true;
    for (text, call) in calls {
        text.fill_ours(call, &mut kept);
        is_told &= black_box(call.find_nothing(&kept)).is_some();
    }
    if is_told {
        tell("kept", "limit");
    }
}

/// Nanoseconds per glyph, the least of many passes over the calls.
fn least(glyphs: usize, mut pass: impl FnMut()) -> f64 {
    let times = 100_000 / glyphs.max(1) + 1;
    let once = |_| {
        let start = Instant::now();
        (0..times).for_each(|_| pass());
        start.elapsed().as_nanos() as f64 / (times * glyphs) as f64
    };
    (0..40).map(once).fold(f64::MAX, f64::min)
}

fn time(case: &str, calls: &Calls) {
    let mut of_original: Vec<_> = calls.iter().map(|_| OriginalBuffer::default()).collect();
    let mut of_ours: Vec<_> = calls.iter().map(|_| OurBuffer::default()).collect();
    for (at, (text, call)) in calls.iter().enumerate() {
        text.fill_original(call, &mut of_original[at]);
        text.fill_ours(call, &mut of_ours[at]);
    }
    let original = least(glyphs(calls), || {
        calls.iter().zip(&mut of_original).for_each(|((text, call), buffer)| text.call_original(call, buffer));
    });
    let ours = least(glyphs(calls), || {
        calls.iter().zip(&mut of_ours).for_each(|((text, call), buffer)| text.call_ours(call, buffer));
    });
    println!("{case}|{original:.2}|{ours:.2}|{:.2}", ours / original);
}

fn check(case: &str, calls: &Calls) {
    let differences: Vec<_> = calls.iter().map(|(text, call)| text.differences(call)).collect();
    let differing: usize = differences.iter().map(|difference| difference.0).sum();
    let first = differences.iter().find(|difference| difference.0 > 0).map_or("", |difference| &difference.1);
    println!("{case}|{} calls|{} glyphs|{differing} differ|{first}", calls.len(), glyphs(calls));
}

fn plans(name: &str, text: &Recorded) {
    let lists = text.lists();
    for _ in 0..2 {
        text.plan_original();
        case_ends();
        println!("{name}|original");
        text.plan_ours(&lists);
        case_ends();
        println!("{name}|ours");
    }
}

fn main() {
    let arguments: Vec<String> = env::args().skip(1).collect();
    let [texts, root, mode, rest @ ..] = &arguments[..] else { panic!("speed TEXTS ROOT MODE [SIZE].. [WORD]..") };
    let sizes: Vec<usize> = rest.iter().filter_map(|size| size.parse().ok()).collect();
    let words: Vec<&String> = rest.iter().filter(|word| word.parse::<usize>().is_err()).collect();
    if mode == "bytes" {
        println!("{BYTES:?}");
        return;
    }
    for source in sources(texts, root) {
        let font = fs::read(&source.font).expect("a font");
        let face = Face::from_slice(&font, 0).expect("a font");
        if mode == "plans" {
            plans(&source.name, &record(&face, &source.texts(20)[0], source.script));
            continue;
        }
        for &size in &sizes {
            let recorded: Vec<_> = source.texts(size).iter().map(|text| record(&face, text, source.script)).collect();
            for (hook, calls) in by_hook(&recorded) {
                let case = format!("{}|{hook}|{size}", source.name);
                if !words.is_empty() && !words.iter().any(|word| case.contains(word.as_str())) {
                    continue;
                }
                match mode.as_str() {
                    "count" => count(&case, &calls),
                    "time" => time(&case, &calls),
                    _ => check(&case, &calls),
                }
            }
        }
    }
}
