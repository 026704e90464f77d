//! Arguments, fonts and texts that can't be used: a message that names what is wrong, hb-shape's status, and
//! never a panic.

mod common;

use common::{Scratch, run, run_with_input, sample_font};
use std::ffi::OsString;

/// Runs with these arguments behind the sample font; the status, and the first line of the message.
fn refused(arguments: &[&str]) -> (Option<i32>, String) {
    let font = sample_font();
    let done = run(&[&[font], arguments].concat());
    let first = done.error.lines().next().unwrap_or_default();
    let message = first.strip_prefix("sengadlit-shape: ").unwrap_or_default();
    (done.status, message.into())
}

#[test]
fn arguments() {
    let either = "Either --text or --unicodes can be provided but not both";
    for (arguments, message) in [
        (&["--bogus"][..], "Unknown option --bogus"),
        (&["-Q"], "Unknown option -Q"),
        (&["-vQ"], "Unknown option -Q"),
        (&["A", "A"], "Too many arguments on the command line"),
        (&["--text"], "Missing argument for --text"),
        (&["-y"], "Missing argument for -y"),
        (&["--bot=1"], "--bot takes no value"),
        (&["--version=1"], "--version takes no value"),
        (
            &["--text=A", "--text-file=x"],
            "Only one of text and text-file can be set",
        ),
        (
            &["--text=A", "--unicodes=41"],
            &format!("--unicodes: {either}"),
        ),
        (&["--text=A", "--text=B"], &format!("--text: {either}")),
        (&["--unicodes=4G"], "--unicodes: \"G\" is no number"),
        (
            &["--face-index=-1"],
            "--face-index: \"-1\" is no number from 0 to 4294967295",
        ),
        (
            &["--cluster-level=4"],
            "--cluster-level: it is 0, 1, 2 or 3",
        ),
        (
            &["--direction=up"],
            "--direction: a direction is ltr, rtl, ttb or btt",
        ),
        (
            &["--script=Lat"],
            "--script: a script is a code of four letters, as Latn",
        ),
        (
            &["--features=kern,toolong"],
            "--features: \"toolong\": a feature is written as kern, -liga, kern=0 or aalt[3:5]=2",
        ),
        (
            &["--font-size=1,2,3"],
            "--font-size: it is one or two numbers, or upem",
        ),
        (&["--font-ptem=x"], "--font-ptem: \"x\" is no number"),
        (
            &["--invisible-glyph=65536"],
            "--invisible-glyph: no font has a glyph 65536",
        ),
        (&["--shapers=graphite2"], "--shapers: the shaper is ot"),
        (
            &["--output-format=xml", "A"],
            "Unknown output format `xml'; supported formats are: text/json",
        ),
        (
            &["--unicodes-after=41", "--text-after=A"],
            "--text-after: Either a text or numbers can be provided but not both",
        ),
    ] {
        assert_eq!(
            refused(arguments),
            (Some(1), message.into()),
            "{arguments:?}"
        );
    }
    assert_eq!(refused(&["--font-funcs=coretext"]).0, Some(4));
    assert_eq!(run(&[""; 0]).status, Some(1));
    assert_eq!(run(&["-", "--text-file=-"]).status, Some(1));
}

#[test]
fn options_that_hb_shape_has() {
    for option in [
        "--variations=wght=700",
        "--named-instance=1",
        "--glyphs",
        "--font-ppem=12",
        "--face-loader=ot",
    ] {
        let (status, message) = refused(&[option, "A"]);
        let name = option.split('=').next().unwrap();
        let expected = format!("{name} is an option of hb-shape that isn't supported here");
        assert_eq!((status, message), (Some(1), expected));
    }
}

#[test]
fn files() {
    let folder = Scratch::new("refusals");
    let nowhere = folder.path("nowhere/x");
    for option in ["--text-file", "--output-file", "--svg"] {
        let text = if option == "--text-file" { "" } else { "A" };
        let arguments = [option, &nowhere, text];
        let count = if text.is_empty() { 2 } else { 3 };
        let (status, message) = refused(&arguments[..count]);
        assert_eq!(status, Some(1), "{option}");
        assert!(message.starts_with(&format!("{nowhere}: ")), "{message}");
    }
    let done = run(&[nowhere.as_str(), "A"]);
    assert_eq!(done.status, Some(2));
    assert!(done.error.contains(&nowhere) && !done.error.contains("Os {"));
    let no_font = folder.path("no-font");
    std::fs::write(&no_font, "text").unwrap();
    let done = run(&[no_font.as_str(), "A"]);
    assert_eq!(
        done.error,
        format!("sengadlit-shape: {no_font}: the file is no font\n")
    );
    assert_eq!(refused(&["--face-index=1", "A"]).0, Some(2));
    // (a folder)
    assert_eq!(run(&[folder.path("").as_str(), "A"]).status, Some(2));
}

#[cfg(unix)]
#[test]
fn any_bytes_are_arguments() {
    use std::os::unix::ffi::OsStringExt;
    let bytes = |bytes: &[u8]| OsString::from_vec(bytes.to_vec());
    let font = OsString::from(sample_font());
    let done = run(&[
        font.clone(),
        bytes(b"A\xFF\xE1\x9E"),
        "--show-unicode".into(),
    ]);
    assert!(
        done.success()
            .starts_with("<U+0041=0|U+FFFD=1|U+FFFD=2|U+FFFD=3>\n")
    );
    let hostile: [&[u8]; 8] = [
        b"--\xFF",
        b"-\xFF",
        b"--features=\xFF",
        b"--script=\xFF\xFF\xFF\xFF",
        b"--unicodes=\xFF",
        b"--face-index=\xFF",
        b"--direction=\xFF",
        b"--output-format=\xFF",
    ];
    for argument in hostile {
        let done = run(&[font.clone(), "A".into(), bytes(argument)]);
        assert_eq!(done.status, Some(1), "{argument:?}: {}", done.error);
    }
    assert_eq!(run(&[bytes(b"/\xFF/nowhere"), "A".into()]).status, Some(2));
}

/// The sample font with bytes spoilt, by a generator that always gives the same numbers.
#[test]
fn spoilt_fonts() {
    let folder = Scratch::new("spoilt");
    let (path, picture) = (folder.path("font"), folder.path("o.svg"));
    let font = std::fs::read(sample_font()).unwrap();
    let mut state = 1_u64;
    let mut next = |bound: usize| {
        state = state
            .wrapping_mul(6_364_136_223_846_793_005)
            .wrapping_add(1);
        usize::try_from(state >> 33).unwrap() % bound
    };
    for _ in 0..60 {
        let mut spoilt = font.clone();
        for _ in 0..=next(20) {
            let place = next(spoilt.len());
            spoilt[place] = u8::try_from(next(256)).unwrap();
        }
        std::fs::write(&path, &spoilt).unwrap();
        let text = "AV fi \u{628}\u{64E} \u{915}\u{94D}\u{937}\u{93F} \u{1780}\u{17D2}\u{179A}";
        let options = [path.as_str(), text, "--show-extents", "--svg", &picture];
        let done = run(&options);
        assert!(matches!(done.status, Some(0 | 2 | 3)), "{done:?}");
        assert!(!done.error.contains("panicked"), "{done:?}");
    }
}

#[test]
fn texts_without_end() {
    let font = sample_font();
    let long = "\u{915}\u{94D}".repeat(5_000);
    let done = run_with_input(&[font, "--no-positions"], long.as_bytes());
    assert_eq!(done.status, Some(0));
    let nul = run_with_input(&[font, "--ned"], b"A\0V");
    assert_eq!(nul.success().matches('|').count(), 2);
}

#[cfg(target_os = "linux")]
#[test]
fn output_that_cant_be_written() {
    let (status, message) = refused(&["A", "--output-file=/dev/full"]);
    assert_eq!(status, Some(3));
    assert!(message.starts_with("/dev/full: "), "{message}");
}
