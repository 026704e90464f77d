//! What tests the crate `sengadlit` and the program `hbhook` on random texts and scripts, and on the
//! repository's worked rows.
//!
//! [`scripts`] makes random scripts, [`End`] is how one ends, [`pieces`] breaks texts.
#![forbid(unsafe_code)]
#![deny(missing_docs)]

mod end;
#[path = "../../sengadlit/tests/common/numbers.rs"]
pub mod numbers;
pub mod pieces;
pub mod scripts;

pub use end::End;

/// The lines of Rust of docs/GUIDE.md are tested.
#[cfg(doctest)]
#[doc = include_str!("../../../docs/GUIDE.md")]
struct Guide;
