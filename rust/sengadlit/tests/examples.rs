//! What the examples print.

use std::process::Command;

/// The lines that an example prints.
fn output_of(example: &str) -> String {
    let cargo = env!("CARGO");
    let run = Command::new(cargo)
        .args([
            "run",
            "--quiet",
            "--package",
            "sengadlit",
            "--example",
            example,
        ])
        .output()
        .expect("cargo runs");
    assert!(
        run.status.success(),
        "{}",
        String::from_utf8_lossy(&run.stderr)
    );
    String::from_utf8(run.stdout).expect("the lines are UTF-8")
}

#[test]
fn thai_prints_the_glyphs_of_sara_am() {
    let lines = "0e14 0 00000000 00 0 0 0\n\
                 0e4d 1 00000000 00 0 0 0\n\
                 0e4b 1 00000000 00 0 0 0\n\
                 0e32 1 00000000 00 0 0 0\n";
    assert_eq!(output_of("thai"), lines);
}
