//! What several tests share: numbers drawn by lot, fonts and tables, buffers, and the crate's
//! calls.
//!
//! A test that uses a part of it leaves the rest unused.
#![allow(dead_code)]

pub mod buffers;
pub mod calls;
pub mod fonts;
pub mod lookup_font;
pub mod misuse;
pub mod numbers;
pub mod plans;
pub mod scenes;
pub mod spoiled;
pub mod watchdog;
