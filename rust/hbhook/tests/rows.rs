//! The worked rows of crates/hbhook_rows/data: each run prints, tells and ends as its row says.
//!
//! A line that begins with `#` is a comment, and an empty line ends a row. A row is a run: its lines,
//! each behind `> `, what they print, and behind `! ` the status and the message of a run that ends in
//! a fault.

use sengadlit::alloc::Global;
use std::fs;
use std::path::Path;

#[derive(Default)]
struct Row {
    begins_on: usize,
    script: String,
    printed: String,
    told: String,
    status: u8,
}

impl Row {
    fn add(&mut self, line: &str) {
        let (text, line) = if let Some(line) = line.strip_prefix('>') {
            (&mut self.script, line.strip_prefix(' ').unwrap_or(line))
        } else if let Some(end) = line.strip_prefix("! ") {
            let (status, message) = end.split_once(' ').unwrap();
            self.status = status.parse().unwrap();
            (&mut self.told, message)
        } else {
            (&mut self.printed, line)
        };
        text.push_str(line);
        text.push('\n');
    }

    // Whether the row has a length that only usize of 64 bits holds.
    fn is_wide(&self) -> bool {
        self.script.contains(&u64::MAX.to_string())
    }

    fn check(&self, file: &str) {
        let (mut printed, mut told) = (Vec::new(), Vec::new());
        let script = self.script.as_bytes();
        let status = hbhook::run_lines(Global, script, &mut printed, &mut told);
        let place = format!("crates/hbhook_rows/data/{file}, line {}", self.begins_on);
        assert_eq!(String::from_utf8_lossy(&printed), self.printed, "{place}");
        assert_eq!(String::from_utf8_lossy(&told), self.told, "{place}");
        assert_eq!(status, self.status, "{place}");
    }
}

// The rows of a file. Only line feeds end its lines: a line may hold a carriage return.
fn rows_of(text: &str) -> Vec<Row> {
    let mut rows: Vec<Row> = Vec::new();
    let mut has_ended = true;
    for (i, line) in text.split_terminator('\n').enumerate() {
        if line.is_empty() {
            has_ended = true;
        } else if !line.starts_with('#') {
            if has_ended {
                rows.push(Row {
                    begins_on: i + 1,
                    ..Row::default()
                });
            }
            has_ended = false;
            rows.last_mut().unwrap().add(line);
        }
    }
    rows
}

#[test]
fn every_worked_row_holds() {
    let program = Path::new(env!("CARGO_MANIFEST_DIR")).join("../../crates/hbhook_rows");
    let counts = fs::read_to_string(program.join("stdout")).unwrap();
    let mut files = 0;
    for line in counts.lines() {
        let (file, _) = line.split_once(": ").unwrap();
        let rows = rows_of(&fs::read_to_string(program.join("data").join(file)).unwrap());
        let is_held = |row: &&Row| usize::BITS == 64 || !row.is_wide();
        rows.iter().filter(is_held).for_each(|row| row.check(file));
        assert_eq!(line, format!("{file}: {} rows", rows.len()));
        files += 1;
    }
    assert_eq!(files, fs::read_dir(program.join("data")).unwrap().count());
}
