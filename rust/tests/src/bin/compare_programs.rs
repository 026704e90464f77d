//! `compare_programs FIRST COUNT THREADS PROGRAM..`: runs the random scripts of COUNT seeds from
//! FIRST on by the library of `hbhook`, as rustc compiles it, and by each of the programs, a process
//! a script. Status, output and message must be the same to the byte.

#![forbid(unsafe_code)]

use sengadlit_tests::End;
use sengadlit_tests::scripts::script;
use std::io::{self, Write};
use std::process::{Command, ExitCode, Stdio};
use std::sync::atomic::{AtomicU64, Ordering};
use std::thread;

/// How many differences are shown in full.
const SHOWN: u64 = 5;

/// What is compared.
struct Comparison {
    first: u64,
    count: u64,
    threads: u64,
    programs: Vec<String>,
}

impl Comparison {
    /// What the arguments select.
    fn parse(mut arguments: impl Iterator<Item = String>) -> Option<Self> {
        let mut number = || arguments.next()?.parse().ok();
        let (first, count, threads) = (number()?, number()?, number()?);
        let programs: Vec<_> = arguments.collect();
        let is_whole = threads > 0 && !programs.is_empty();
        is_whole.then_some(Comparison {
            first,
            count,
            threads,
            programs,
        })
    }

    /// Runs all scripts: how many runs differ.
    fn run(&self) -> u64 {
        let differences = AtomicU64::new(0);
        let next = AtomicU64::new(0);
        thread::scope(|scope| {
            for _ in 0..self.threads {
                scope.spawn(|| self.run_some(&next, &differences));
            }
        });
        differences.into_inner()
    }

    /// Runs scripts until none is left.
    fn run_some(&self, next: &AtomicU64, differences: &AtomicU64) {
        loop {
            let place = next.fetch_add(1, Ordering::Relaxed);
            if place >= self.count {
                return;
            }
            self.compare(self.first + place, differences);
        }
    }

    /// Runs the script of a seed every way.
    fn compare(&self, seed: u64, differences: &AtomicU64) {
        let script = script(seed);
        let wanted = End::of(script.as_bytes());
        for program in &self.programs {
            let is_same = match run_by_program(program, script.as_bytes()) {
                Ok(end) if end == wanted => true,
                other => {
                    if differences.load(Ordering::Relaxed) < SHOWN {
                        println!(
                            "seed {seed}, {program}: {other:?}\n  by the library: {wanted:?}\n{script}"
                        );
                    }
                    false
                }
            };
            differences.fetch_add(u64::from(!is_same), Ordering::Relaxed);
        }
    }
}

/// How the run of a script by a program ends, which reads all of its input before it writes.
fn run_by_program(program: &str, script: &[u8]) -> io::Result<End> {
    let mut running = Command::new(program)
        .stdin(Stdio::piped())
        .stdout(Stdio::piped())
        .stderr(Stdio::piped())
        .spawn()?;
    if let Some(mut input) = running.stdin.take() {
        input.write_all(script)?;
    }
    let output = running.wait_with_output()?;
    let status = output
        .status
        .code()
        .and_then(|code| u8::try_from(code).ok());
    Ok(End {
        status: status.ok_or_else(|| io::Error::other(output.status.to_string()))?,
        printed: output.stdout,
        told: output.stderr,
    })
}

fn main() -> ExitCode {
    let Some(comparison) = Comparison::parse(std::env::args().skip(1)) else {
        eprintln!("usage: compare_programs FIRST COUNT THREADS PROGRAM..");
        return ExitCode::from(2);
    };
    let differences = comparison.run();
    let (count, programs) = (comparison.count, comparison.programs.len());
    println!("{count} scripts by {programs} programs: {differences} runs differ");
    ExitCode::from(u8::from(differences > 0))
}
