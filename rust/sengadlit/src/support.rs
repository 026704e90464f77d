//! What the sources take from Rattle's library and its crates where Rust's own differ: an allocator
//! that is handed in, lists whose growth can fail, a list in place, and flags.
//!
//! Each item keeps the promises that Rattle's library makes under the same name.

pub mod alloc;
pub mod arrayvec;
pub mod bitflags;
mod error;
pub mod vec;

/// What every generated file that names a list imports.
pub mod prelude {
    pub use super::vec::Vec;
}
