//! What the sources of the crate `sengadlit` take from Rust's `alloc`, where they are compiled for C: its list, which may also
//! work in an array that someone lends it, and Rust's own strings.
#![no_std]
#![deny(missing_docs)]

extern crate alloc as rust_alloc;
#[cfg(test)]
extern crate std;

pub mod vec;

pub use rust_alloc::string;
