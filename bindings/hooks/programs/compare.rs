//! compare TEXTS ROOT [--script NAME] [--every N] [--show N] [--list FILE]: shapes the texts of TEXTS
//! (bindings/hooks/texts) with the fonts in ROOT, by the crate as it is and with the hooks: at
//! each cluster level, with several flags, with contexts and with features of the user's.
//! `--script` takes one script, `--every` each Nth text, `--show` prints N differences of each
//! script, and `--list` writes all, a line each: font, level, flags, whether with contexts and with
//! features, code points, reasons, both outputs, separated by tabs.
//!
//! A difference is explained where the crate as it is, with the known differences edited away,
//! gives what the hooks give; its reasons are the edits that this takes. A table goes to
//! standard output, by script, and a list of reasons, each with its first text. The last line is 'N
//! passed, M failed': M outputs differ without a reason. With the feature `shadow` the crate with the hooks
//! runs both versions of each hook on each call, and the fields that differ are told.

use programs::{put_in_force, reasons, sengadlit, stock, Setting, Shaped, LEVELS, NORMALIZES, REASONS};
use std::collections::BTreeMap;
use std::fs;
use std::path::{Path, PathBuf};
use std::sync::atomic::{AtomicUsize, Ordering};
use std::sync::Mutex;

/// How outputs differ, from the least to the greatest.
const KINDS: [&str; 5] = ["flags", "clusters", "positions", "glyphs", "panic"];

/// What is tried at each level: flags (0x40 is unsafe-to-concat, 0x83 begin, end and tatweel, 0x10
/// no dotted circles), contexts and features.
const VARIANTS: [(u32, bool, bool); 6] = [
    (0, false, false),
    (0x40, false, false),
    (0xC3, false, false),
    (0x50, true, false),
    (0x10, false, true),
    (0x83, true, true),
];

/// The script whose texts are shaped with made-up glyphs, so that characters come apart.
const STRINGS: &str = "Random strings";

struct Options {
    texts: PathBuf,
    root: PathBuf,
    script: Option<String>,
    every: usize,
    show: usize,
    list: Option<PathBuf>,
}

/// The texts of a script, the real words first, and its fonts.
struct Script {
    name: String,
    fonts: Vec<PathBuf>,
    texts: Vec<String>,
    real: usize,
}

/// Outputs that differ, and those of them that are of whole real words.
#[derive(Clone, Copy, Default)]
struct Count {
    all: usize,
    real: usize,
}

impl Count {
    fn add(&mut self, real: bool) {
        self.all += 1;
        self.real += usize::from(real);
    }

    fn merge(&mut self, other: Self) {
        self.all += other.all;
        self.real += other.real;
    }

    fn told(self) -> String {
        if self.all == 0 {
            "0".into()
        } else {
            format!("{}, of real words {}", self.all, self.real)
        }
    }
}

/// What is known of a reason: its outputs, by level, and the first of them, a real word's if there
/// is one.
#[derive(Clone, Default)]
struct Reason {
    outputs: Count,
    levels: [usize; LEVELS.len()],
    kinds: [usize; KINDS.len()],
    first: Option<(bool, String)>,
}

#[derive(Default)]
struct Tally {
    shaped: usize,
    kinds: [Count; KINDS.len()],
    reasons: BTreeMap<&'static str, Reason>,
    unexplained: Vec<String>,
    shown: Vec<String>,
    listed: Vec<String>,
}

impl Tally {
    fn merge(&mut self, other: &Self) {
        self.shaped += other.shaped;
        for (count, more) in self.kinds.iter_mut().zip(other.kinds) {
            count.merge(more);
        }
        for (name, more) in &other.reasons {
            let reason = self.reasons.entry(name).or_default();
            reason.outputs.merge(more.outputs);
            reason.levels.iter_mut().zip(more.levels).for_each(|(count, more)| *count += more);
            reason.kinds.iter_mut().zip(more.kinds).for_each(|(count, more)| *count += more);
            let better = more.outputs.real > 0 && !reason.first.as_ref().is_some_and(|(real, _)| *real);
            if better || reason.first.is_none() {
                reason.first.clone_from(&more.first);
            }
        }
        self.unexplained.extend_from_slice(&other.unexplained);
    }

    fn add(&mut self, names: &[&'static str], kind: usize, level: usize, real: bool, told: &str) {
        for name in names {
            let reason = self.reasons.entry(name).or_default();
            reason.outputs.add(real);
            reason.levels[level] += 1;
            reason.kinds[kind] += 1;
            if reason.first.is_none() || (real && !reason.first.as_ref().is_some_and(|(real, _)| *real)) {
                reason.first = Some((real, told.to_string()));
            }
        }
    }
}

/// The greatest kind of difference, as a place in [`KINDS`].
fn kind(one: &Shaped, other: &Shaped) -> Option<usize> {
    if one == other {
        return None;
    }
    let (Shaped::Glyphs(one), Shaped::Glyphs(other)) = (one, other) else { return Some(4) };
    let numbers = |glyphs: &[programs::Glyph]| glyphs.iter().map(|glyph| glyph.number).collect::<Vec<_>>();
    let positions =
        |glyphs: &[programs::Glyph]| glyphs.iter().map(|glyph| (glyph.advance, glyph.offset)).collect::<Vec<_>>();
    let clusters = |glyphs: &[programs::Glyph]| glyphs.iter().map(|glyph| glyph.cluster).collect::<Vec<_>>();
    Some(if numbers(one) != numbers(other) {
        3
    } else if positions(one) != positions(other) {
        2
    } else {
        usize::from(clusters(one) != clusters(other))
    })
}

/// The crate with these reasons edited away.
fn with_reasons(names: &[&'static str], font: &[u8], texts: &[&str], setting: &Setting) -> Vec<Shaped> {
    put_in_force(names);
    reasons::shape_texts(font, texts, setting)
}

/// The reasons of each difference: as few edits as give what the hooks give; the first names
/// of [`REASONS`] are left out first. None where all together don't.
fn explain(font: &[u8], texts: &[&str], setting: &Setting, sengadlit: &[Shaped]) -> Vec<Vec<&'static str>> {
    let all = with_reasons(REASONS, font, texts, setting);
    let mut sets: Vec<Vec<&'static str>> = Vec::new();
    sets.extend((0..texts.len()).map(|place| match all[place] == sengadlit[place] {
        true => REASONS.to_vec(),
        false => Vec::new(),
    }));
    for name in REASONS {
        let mut groups: BTreeMap<Vec<&'static str>, Vec<usize>> = BTreeMap::new();
        for (place, set) in sets.iter().enumerate().filter(|(_, set)| set.len() > 1) {
            groups.entry(set.clone()).or_default().push(place);
        }
        for (set, places) in groups {
            let fewer: Vec<&str> = set.into_iter().filter(|other| other != name).collect();
            let some: Vec<&str> = places.iter().map(|&place| texts[place]).collect();
            let shaped = with_reasons(&fewer, font, &some, setting);
            for (place, shaped) in places.into_iter().zip(shaped) {
                if shaped == sengadlit[place] {
                    sets[place].clone_from(&fewer);
                }
            }
        }
    }
    sets
}

fn code_points(text: &str) -> String {
    text.chars().map(|character| format!("{:04X}", character as u32)).collect::<Vec<_>>().join(" ")
}

/// Compares the texts of a script with one font and setting.
fn compare(script: &Script, path: &Path, font: &[u8], setting: &Setting, show: usize, tally: &mut Tally) {
    let texts: Vec<&str> = script.texts.iter().map(String::as_str).collect();
    let (one, other) = (stock::shape_texts(font, &texts, setting), sengadlit::shape_texts(font, &texts, setting));
    tally.shaped += texts.len();
    let places: Vec<usize> = (0..texts.len()).filter(|&place| one[place] != other[place]).collect();
    if places.is_empty() {
        return;
    }
    let chosen: Vec<&str> = places.iter().map(|&place| texts[place]).collect();
    let [one, other] = [one, other].map(|shaped| places.iter().map(|&place| shaped[place].clone()).collect::<Vec<_>>());
    let explained = explain(font, &chosen, setting, &other);
    for (number, &place) in places.iter().enumerate() {
        let kind = kind(&one[number], &other[number]).unwrap_or_default();
        let real = place < script.real && !setting.contexts;
        let told = format!(
            "{}, {}, level {}, flags {:X}{}{}: {}",
            path.file_name().unwrap_or_default().to_string_lossy(),
            KINDS[kind],
            LEVELS[setting.level],
            setting.flags,
            if setting.contexts { ", contexts" } else { "" },
            if setting.features { ", features" } else { "" },
            code_points(texts[place])
        );
        tally.kinds[kind].add(real);
        tally.add(&explained[number], kind, setting.level, real, &told);
        let whole = format!("{told}\n    stock     {}\n    sengadlit {}", one[number], other[number]);
        tally.listed.push(format!(
            "{}\t{}\t{:X}\t{}\t{}\t{}\t{}\t{}\t{}",
            path.display(),
            setting.level,
            setting.flags,
            setting.contexts,
            setting.features,
            code_points(texts[place]),
            explained[number].join(","),
            one[number],
            other[number]
        ));
        if explained[number].is_empty() {
            tally.unexplained.push(whole);
        } else if tally.shown.len() < show {
            tally.shown.push(format!("{}: {whole}", explained[number].join(", ")));
        }
    }
}

/// Compares the texts of a script with all fonts and settings.
fn compare_script(script: &Script, show: usize) -> Tally {
    let mut tally = Tally::default();
    for path in &script.fonts {
        let font = fs::read(path).unwrap_or_else(|error| panic!("{}: {error}", path.display()));
        for level in 0..LEVELS.len() {
            let made_up = (script.name == STRINGS).then_some(0);
            let variants = if made_up.is_some() { &VARIANTS[..1] } else { &VARIANTS };
            for &(flags, contexts, features) in variants {
                let setting = Setting { level, flags, contexts, features, scale: None, made_up };
                compare(script, path, &font, &setting, show, &mut tally);
            }
        }
    }
    tally
}

fn lines(path: &Path, every: usize) -> Vec<String> {
    let text = fs::read_to_string(path).unwrap_or_else(|error| panic!("{}: {error}", path.display()));
    text.lines().step_by(every).map(String::from).collect()
}

fn scripts(options: &Options) -> Vec<Script> {
    let mut scripts = Vec::new();
    let mut listed = lines(&options.texts.join("scripts"), 1);
    if NORMALIZES {
        listed.extend(lines(&options.texts.join("normalized"), 1));
    }
    for line in listed {
        let mut fields = line.split('\t');
        let name = fields.next().expect("a name").to_string();
        if options.script.as_ref().is_some_and(|wanted| *wanted != name) {
            continue;
        }
        let read = |kind: &str| lines(&options.texts.join(format!("{name}.{kind}")), options.every);
        let is_random = name == STRINGS;
        let mut texts = if is_random { Vec::new() } else { read("real") };
        let real = texts.len();
        for kind in if is_random { &["random"][..] } else { &["torn", "random", "long"] } {
            texts.extend(read(kind));
        }
        scripts.push(Script { fonts: fields.map(|font| options.root.join(font)).collect(), texts, real, name });
    }
    scripts
}

/// The tally of each script, by as many threads as `THREADS` says or there are processors.
fn compare_scripts(scripts: &[Script], show: usize) -> Vec<Tally> {
    let wanted = std::env::var("THREADS").ok().and_then(|number| number.parse().ok());
    let threads = wanted.unwrap_or_else(|| std::thread::available_parallelism().map_or(1, usize::from));
    let next = AtomicUsize::new(0);
    let tallies: Vec<Mutex<Tally>> = scripts.iter().map(|_| Mutex::default()).collect();
    std::thread::scope(|scope| {
        for _ in 0..threads {
            scope.spawn(|| {
                while let Some(script) = scripts.get(next.fetch_add(1, Ordering::Relaxed)) {
                    let tally = compare_script(script, show);
                    let place = scripts.iter().position(|other| other.name == script.name).expect("a script");
                    *tallies[place].lock().expect("a lock") = tally;
                }
            });
        }
    });
    tallies.into_iter().map(|tally| tally.into_inner().expect("a lock")).collect()
}

fn print_table(scripts: &[Script], tallies: &[Tally]) {
    println!("| script | real words | other texts | shaped | other flags | other clusters | other positions | other glyphs | reasons |");
    println!("|---|---|---|---|---|---|---|---|---|");
    for (script, tally) in scripts.iter().zip(tallies) {
        let reasons: Vec<String> =
            tally.reasons.iter().map(|(name, reason)| format!("{name} {}", reason.outputs.all)).collect();
        let counts: Vec<String> = tally.kinds[..4].iter().map(|count| count.told()).collect();
        println!(
            "| {} | {} | {} | {} | {} | {} |",
            script.name,
            script.real,
            script.texts.len() - script.real,
            tally.shaped,
            counts.join(" | "),
            if reasons.is_empty() { "none".into() } else { reasons.join(", ") }
        );
    }
}

/// The numbers that aren't 0, with their names.
fn named(names: &[&str], numbers: &[usize]) -> String {
    let told =
        names.iter().zip(numbers).filter(|(_, number)| **number != 0).map(|(name, number)| format!("{name} {number}"));
    told.collect::<Vec<_>>().join(", ")
}

fn print_reasons(total: &Tally) {
    println!();
    for (name, reason) in &total.reasons {
        println!(
            "- {name}: {}; {}; {}; the first: {}",
            reason.outputs.told(),
            named(&KINDS, &reason.kinds),
            named(&LEVELS, &reason.levels),
            reason.first.as_ref().map_or("none", |(_, told)| told)
        );
    }
    let kinds: Vec<String> =
        KINDS.iter().zip(total.kinds).map(|(kind, count)| format!("{kind} {}", count.told())).collect();
    println!("- in all: {} shaped; {}", total.shaped, kinds.join("; "));
}

/// With both hooks on each call: the calls by shaper, hook and the fields that differ, and examples.
#[cfg(feature = "shadow")]
fn print_shadow() {
    println!();
    programs::shadow_report().iter().for_each(|line| println!("- {line}"));
}

#[cfg(not(feature = "shadow"))]
fn print_shadow() {}

fn options() -> Option<Options> {
    let mut arguments = std::env::args().skip(1);
    let (texts, root) = (arguments.next()?.into(), arguments.next()?.into());
    let mut options = Options { texts, root, script: None, every: 1, show: 0, list: None };
    while let Some(name) = arguments.next() {
        let value = arguments.next()?;
        match name.as_str() {
            "--script" => options.script = Some(value),
            "--every" => options.every = value.parse().ok()?,
            "--show" => options.show = value.parse().ok()?,
            "--list" => options.list = Some(value.into()),
            _ => return None,
        }
    }
    Some(options)
}

fn main() {
    let Some(options) = options() else {
        eprintln!("compare TEXTS ROOT [--script NAME] [--every N] [--show N] [--list FILE]");
        std::process::exit(2);
    };
    std::panic::set_hook(Box::new(|_| {}));
    let scripts = scripts(&options);
    let tallies = compare_scripts(&scripts, options.show);
    print_table(&scripts, &tallies);
    let mut total = Tally::default();
    for tally in &tallies {
        total.merge(tally);
    }
    print_reasons(&total);
    print_shadow();
    if let Some(path) = &options.list {
        let lines: String = tallies.iter().flat_map(|tally| &tally.listed).flat_map(|line| [line, "\n"]).collect();
        fs::write(path, lines).unwrap_or_else(|error| panic!("{}: {error}", path.display()));
    }
    for (script, tally) in scripts.iter().zip(&tallies) {
        tally.shown.iter().for_each(|told| println!("{}: {told}", script.name));
        tally.unexplained.iter().take(5).for_each(|told| println!("FAILED: {}: no reason: {told}", script.name));
    }
    let failed = total.unexplained.len();
    println!("{} passed, {failed} failed", total.shaped - failed);
    std::process::exit(i32::from(failed > 0 || total.shaped == 0));
}
