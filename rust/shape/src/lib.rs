//! What the program `sengadlit-shape` shares with other programs of this repository: the outlines of
//! glyphs.

#![forbid(unsafe_code)]
#![deny(missing_docs)]

pub mod outline;
