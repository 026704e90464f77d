//! What the sources take from Rattle's library where Rust's own differs: text, maps and lists whose
//! growth can fail, and readers that fill such lists.

mod collecting;
pub mod collections;
pub mod io;
mod messages;
pub mod string;

pub mod alloc {
    //! The allocator that calls are handed, and what they return where it has no memory.

    pub use sengadlit::alloc::{AllocError, Global};
}

pub mod prelude {
    //! What the generated files that name a list or a text import.

    pub use super::collecting::CollectIn;
    pub use super::string::String;
    pub use sengadlit::alloc::Vec;
}
