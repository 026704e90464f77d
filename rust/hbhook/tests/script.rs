//! The script ./hbhook: which cargo and rustc it takes, where it has them build, and its messages. A stand-in for cargo
//! leaves a program that prints its own path and its arguments.
#![cfg(unix)]

use std::fs;
use std::os::unix::fs::PermissionsExt;
use std::path::{Path, PathBuf};
use std::process::{Command, Stdio};

// A run of the script: what it printed, what it told on standard error, and its status.
#[derive(Debug)]
struct Run {
    printed: String,
    told: String,
    status: Option<i32>,
}

fn from_top(path: &str) -> PathBuf {
    PathBuf::from(concat!(env!("CARGO_MANIFEST_DIR"), "/../..")).join(path)
}

// It builds by making a program that prints how it was called.
const CARGO: &str = r#"#!/bin/sh
case $1 in
--version)
    echo "cargo VERSION (0123456789 2025-01-01)"
    exit
    ;;
esac
triple= target=
while [ $# -gt 0 ]; do
    case $1 in
    --target) triple=/$2 ;;
    --target-dir) target=$2 ;;
    esac
    shift
done
mkdir -p "$target$triple/release"
printf '#!/bin/sh\necho "$0 $*"\n' >"$target$triple/release/hbhook"
chmod +x "$target$triple/release/hbhook"
echo built >>"$target/times"
"#;

const RUSTC: &str = "#!/bin/sh\necho 'rustc VERSION (0123456789 2025-01-01)'\n";

// A folder with stand-ins for cargo and rustc of these versions, where nothing is built yet.
struct Tools(PathBuf);

impl Tools {
    fn new(name: &str, cargo: &str, rustc: &str) -> Self {
        let folder = std::env::temp_dir().join(format!("hbhook-{name}-{}", std::process::id()));
        let _ = fs::remove_dir_all(&folder);
        fs::create_dir_all(folder.join("bin")).unwrap();
        for (tool, text, version) in [("cargo", CARGO, cargo), ("rustc", RUSTC, rustc)] {
            let path = folder.join("bin").join(tool);
            fs::write(&path, text.replace("VERSION", version)).unwrap();
            fs::set_permissions(&path, fs::Permissions::from_mode(0o755)).unwrap();
        }
        Tools(folder)
    }

    fn path(&self, name: &str) -> String {
        self.0.join(name).to_str().unwrap().into()
    }

    // How often cargo has built in a folder.
    fn times(&self, folder: &str) -> usize {
        let told = fs::read_to_string(self.0.join(folder).join("times"));
        told.map_or(0, |text| text.lines().count())
    }

    // Runs the script with these tools alone before those of the system.
    fn run(&self, variables: &[(&str, &str)], arguments: &[&str]) -> Run {
        let path = format!("{}:/usr/bin:/bin", self.path("bin"));
        run(&path, variables, arguments)
    }
}

impl Drop for Tools {
    fn drop(&mut self) {
        let _ = fs::remove_dir_all(&self.0);
    }
}

fn run(path: &str, variables: &[(&str, &str)], arguments: &[&str]) -> Run {
    let mut script = Command::new(from_top("hbhook"));
    for name in [
        "CARGO",
        "RUSTC",
        "CARGO_TARGET_DIR",
        "CARGO_BUILD_TARGET",
        "CARGO_BUILD_TARGET_DIR",
    ] {
        script.env_remove(name);
    }
    let output = script
        .env("PATH", path)
        .envs(variables.iter().copied())
        .args(arguments)
        .stdin(Stdio::null())
        .output()
        .unwrap();
    Run {
        printed: String::from_utf8(output.stdout).unwrap(),
        told: String::from_utf8(output.stderr).unwrap(),
        status: output.status.code(),
    }
}

#[test]
fn an_old_cargo_or_rustc_is_named_before_anything_is_built() {
    for (cargo, rustc, named) in [
        ("1.65.0", "1.85.0", "cargo 1.65.0"),
        ("1.9.0", "1.85.0", "cargo 1.9.0"),
        ("1.85.0", "1.84.1", "rustc 1.84.1"),
    ] {
        let tools = Tools::new("old", cargo, rustc);
        let target = tools.path("target");
        let run = tools.run(&[("CARGO_TARGET_DIR", &target)], &["--word", "\u{0E19}"]);
        let told = format!("hbhook: this is {named}, and 1.85 or later is needed: ");
        assert!(run.told.starts_with(&told), "{}", run.told);
        assert!(
            run.told.ends_with("Debian 12 as cargo-web\n"),
            "{}",
            run.told
        );
        assert_eq!((run.printed.as_str(), run.status), ("", Some(3)));
        assert_eq!(tools.times("target"), 0);
    }
}

#[test]
fn cargo_builds_where_its_variables_say() {
    let tools = Tools::new("targets", "1.100.0", "1.85.0");
    let (one, other) = (tools.path("one"), tools.path("other"));
    let cases: [(&[(&str, &str)], &str); 3] = [
        (&[("CARGO_TARGET_DIR", &one)], "one"),
        (
            &[
                ("CARGO_TARGET_DIR", &one),
                ("CARGO_BUILD_TARGET", "some-os"),
            ],
            "one/some-os",
        ),
        (&[("CARGO_BUILD_TARGET_DIR", &other)], "other"),
    ];
    for (variables, folder) in cases {
        let first = tools.run(variables, &["--word", "\u{0E19}"]);
        let program = tools.path(&format!("{folder}/release/hbhook"));
        assert_eq!(
            first.printed,
            format!("{program} --explain --word \u{0E19}\n")
        );
        let target = tools.path(folder.split('/').next().unwrap());
        let told =
            format!("hbhook: the program is built in {target}, which takes half a minute, once\n");
        assert_eq!((first.told, first.status), (told, Some(0)));
        // cargo looks at the sources each time; what takes no time isn't told
        let again = tools.run(variables, &["--word", "\u{0E19}"]);
        assert_eq!((again.printed, again.told.as_str()), (first.printed, ""));
    }
    assert_eq!((tools.times("one"), tools.times("other")), (4, 2));
}

#[test]
fn a_program_that_is_not_there_is_told() {
    let tools = Tools::new("elsewhere", "1.85.0", "1.85.0");
    let cargo = tools.0.join("bin/cargo");
    let text = fs::read_to_string(&cargo).unwrap();
    fs::write(
        &cargo,
        text.replace("$triple/release", "/elsewhere/release"),
    )
    .unwrap();
    let target = tools.path("target");
    let run = tools.run(&[("CARGO_TARGET_DIR", &target)], &["--word", "\u{0E19}"]);
    let told = "CARGO_BUILD_TARGET names what it builds for\n";
    assert!(run.told.ends_with(told), "{}", run.told);
    assert_eq!(run.status, Some(3));
}

#[test]
fn what_needs_no_program_builds_none() {
    let tools = Tools::new("nothing", "1.85.0", "1.85.0");
    let target = tools.path("target");
    let run = |arguments: &[&str]| tools.run(&[("CARGO_TARGET_DIR", &target)], arguments);
    let version = fs::read_to_string(from_top("VERSION")).unwrap();
    assert_eq!(run(&["--version"]).printed, format!("hbhook {version}"));
    let usage = run(&["--help"]);
    assert_eq!((usage.told.as_str(), usage.status), ("", Some(0)));
    // an option that there isn't: all that there are
    for arguments in [
        &["--what"][..],
        &["--draw", "--what"],
        &["a", "--what"],
        &["--text", "a", "--what"],
    ] {
        let rejected = run(arguments);
        assert!(
            rejected
                .told
                .starts_with("hbhook: there is no option --what; there are ")
        );
        assert_eq!((rejected.printed.as_str(), rejected.status), ("", Some(2)));
        for option in options_of(&usage.printed) {
            assert!(
                rejected.told.contains(&option),
                "{option}: {}",
                rejected.told
            );
        }
    }
    for (arguments, told) in [
        (
            &["--help", "a"][..],
            "hbhook: --help takes no other argument (hbhook --help)\n",
        ),
        (
            &["a", "--version"],
            "hbhook: --version takes no other argument (hbhook --help)\n",
        ),
        (
            &["--why", "--proved"],
            "hbhook: --proved has to come first (hbhook --help)\n",
        ),
    ] {
        assert_eq!(
            (run(arguments).told.as_str(), run(arguments).status),
            (told, Some(2))
        );
    }
    assert_eq!(tools.times("target"), 0);
    // behind -- and as a text an option is none
    for arguments in [
        &["--", "--what"][..],
        &["--text", "--what"],
        &["--", "--proved"],
    ] {
        assert!(
            run(arguments).printed.contains("--explain"),
            "{arguments:?}"
        );
    }
}

// The options that a usage lists.
fn options_of(usage: &str) -> Vec<String> {
    let words = usage.split(|c: char| !(c.is_ascii_lowercase() || c == '-'));
    let mut options: Vec<String> = words
        .filter(|word| word.starts_with("--") && word.len() > 2)
        .map(String::from)
        .collect();
    options.sort();
    options.dedup();
    assert!(options.len() >= 10, "{options:?}");
    options
}

// Without cargo, and without the toolchain that makes the other programs.
#[test]
fn without_cargo_each_message_names_the_script() {
    let folder = std::env::temp_dir().join(format!("hbhook-none-{}", std::process::id()));
    fs::create_dir_all(&folder).unwrap();
    for tool in [
        "sh", "cat", "dirname", "readlink", "awk", "cksum", "find", "sed", "sort", "tr",
    ] {
        let found = ["/usr/bin", "/bin"].map(|place| Path::new(place).join(tool));
        let Some(path) = found.iter().find(|path| path.exists()) else {
            continue;
        };
        let _ = std::os::unix::fs::symlink(path, folder.join(tool));
    }
    let path = folder.to_str().unwrap();
    for (arguments, status) in [
        (&["--word", "a"][..], 3),
        (&["--sound", "--text", "a"], 3),
        (&["no such file"], 2),
        (&["--proved", "--what"], 2),
        (&["--proved", "--draw", "--why"], 2),
        (&["--proved", "a", "b"], 2),
        (&["--proved", "--", "-x"], 2),
        (&["--proved"], 3),
    ] {
        let run = run(path, &[], arguments);
        assert_eq!(
            (run.printed.as_str(), run.status),
            ("", Some(status)),
            "{arguments:?} {}",
            run.told
        );
        assert!(run.told.lines().count() > 0, "{arguments:?}");
        for line in run.told.lines() {
            assert!(line.starts_with("hbhook: "), "{arguments:?}: {line}");
        }
    }
    let _ = fs::remove_dir_all(&folder);
}

// A stand-in for rt that runs this program in place of the one that Rattle's compiler makes.
const RT: &str =
    "#!/bin/sh\nPROGRAM\nstatus=$?\necho \"run=ended status=$status\" >&2\nexit $status\n";

// The program that Rattle's compiler makes takes lines alone: the script leaves comments and empty lines of a file out, and
// its messages have the numbers of the file.
#[test]
fn a_file_for_the_proved_program_may_have_comments() {
    let tools = Tools::new("proved", "1.85.0", "1.85.0");
    let rt = tools.0.join("bin/rt");
    fs::write(&rt, RT.replace("PROGRAM", env!("CARGO_BIN_EXE_hbhook"))).unwrap();
    fs::set_permissions(&rt, fs::Permissions::from_mode(0o755)).unwrap();
    let file = tools.path("file of lines");
    for (lines, printed, told, status) in [
        ("# one\n\ntext 41\n", "0041 0 00000000 00 0 0 0\n", "", 0),
        ("# one\n\n", "", "", 0),
        (
            "\n# two\ntext 41\ntext U+41\n",
            "",
            "line 4: unreadable\n",
            2,
        ),
        ("#\ntext 41\n \n", "", "line 3: unreadable\n", 2),
        ("set maxlen 0\n#\ntext 41\n", "", "refused: TooLong\n", 1),
    ] {
        fs::write(&file, lines).unwrap();
        let run = tools.run(&[], &["--proved", &file]);
        assert_eq!(
            (run.printed.as_str(), run.status),
            (printed, Some(status)),
            "{lines:?}"
        );
        let named = |line: &&str| !line.starts_with("hbhook: ");
        let messages: String = run.told.split_inclusive('\n').filter(named).collect();
        assert_eq!(messages, told, "{lines:?}");
    }
}
