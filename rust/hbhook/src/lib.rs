//! A small laboratory for the hooks of the script shapers.
//!
//! A script of lines says what a font has and what Unicode's tables say, chooses a shaper, puts a
//! text into a buffer and runs hooks over it; docs/HBHOOK.md of the repository explains the lines.
//! [`run_lines`] prints the glyphs that are left, [`explain_lines`] also what was expected of a
//! rejected line, and [`draw_lines`] writes a page of HTML that shows what each hook did. A file of
//! lines may have comments and empty lines ([`run_file`], [`Source`]).
//! [`explain_end`] names the field of a rejected line, and [`without_table`] the characters of the
//! texts that no `table` line is about. [`lines_of_word`] makes the lines that a word takes;
//! [`print_text`] and [`draw_text`] take a text the whole way up to a font's lookups, without lines;
//! [`print_text_in_font`] and [`draw_text_in_font`] shape it with a font file; and [`Steps`] has what
//! the page of bindings/page shows.
//!
//! ```
//! use sengadlit::alloc::Global;
//!
//! let script = "font F711 1 0\nset shaper thai\nset script Thai\ntext 0E1B 0E33\nrun preprocess";
//! let mut printed = Vec::new();
//! let mut faults = Vec::new();
//! let status = hbhook::run_lines(Global, script.as_bytes(), &mut printed, &mut faults);
//! assert_eq!(status, 0);
//! assert!(printed.starts_with(b"0e1b 0 00000000 00 0 0 0\nf711 0 "));
//! ```
//!
//! The modules in `generated` are made from proved sources by deletion; the rest is written by hand.

#![forbid(unsafe_code)]
#![deny(missing_docs)]

#[allow(
    unused_imports,
    reason = "the sources import a trait for methods that the types have of their own in Rust"
)]
mod generated {
    pub(crate) mod hbhook_commands;
    pub(crate) mod hbhook_lines;
}
mod drawing;
mod explained;
mod source;
mod steps;
mod support;
mod text;
mod way;
mod whole_font;
mod word;

pub use drawing::draw_lines;
pub use explained::{explain_end, without_table};
pub use generated::hbhook_lines::{explain_lines, run_lines};
pub use source::{Source, run_file};
pub use steps::{Choices, MOST_SHOWN, Step, Steps, drawing_style};
pub use text::{TextFault, draw_text, draw_text_in_font, print_text, print_text_in_font};
pub use word::{lines_of_word, script_named, scripts_with_hooks};
