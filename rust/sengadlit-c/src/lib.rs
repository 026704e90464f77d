//! The shapers of the crate `sengadlit` for C: `include/sengadlit.h` is what C reads, and says what each call does.
//!
//! A function of the header stands under its name in one of the modules of `border`, which alone are unsafe: they turn
//! pointers into references, call back, and catch panics. The other modules are safe: numbers, outcomes, layouts, and the
//! hooks themselves.
#![deny(unsafe_code)]
#![cfg_attr(
    not(feature = "opentype"),
    allow(dead_code, reason = "what faces alone take stays where it is")
)]
#![warn(missing_docs)]

mod border;
mod buffer;
mod encodings;
#[cfg(feature = "opentype")]
mod faces;
mod features;
mod hooks;
mod layout;
mod numbers;
mod plan;
#[cfg(feature = "opentype")]
mod plan_cache;
#[cfg(feature = "opentype")]
mod serialize;
mod shaping;
mod status;
