// Generated from crates/shapers_spans/src/lib.rt by rust/erase; edit the source.

//! The syllables of a text, found by the grammars of the scripts.

mod finding;
mod indic;
mod khmer;
mod machine;
mod myanmar;
mod passing;
mod spans;
mod syllables;
mod universal;

pub use indic::Indic;
pub use khmer::Khmer;
pub use machine::Machine;
pub use myanmar::Myanmar;
pub use spans::{spans_into, spans_of};
pub use syllables::{find_syllables, find_syllables_in};
pub use universal::Universal;
