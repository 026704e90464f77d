//! What an editor does with shaped text: lines of a paragraph, carets, pictures.
#![forbid(unsafe_code)]

pub mod arguments;
pub mod carets;
pub mod paragraph;
pub mod run;
pub mod svg;
