// Generated from crates/rustybuzz_shapers/src/lib.rt by rust/erase; edit the source.

//! The script shapers behind one enum, and everything that its callers name.

pub mod shaper;

pub use crate::generated::shapers_arabic::ot_shaper_arabic;
pub use crate::generated::shapers_base::{buffer, font, map, plan};
pub use crate::generated::shapers_hangul::ot_shaper_hangul;
pub use crate::generated::shapers_indic::ot_shaper_indic;
pub use crate::generated::shapers_indic_final::ot_shaper_indic_final;
pub use crate::generated::shapers_indic_initial::ot_shaper_indic_initial;
pub use crate::generated::shapers_khmer::ot_shaper_khmer;
pub use crate::generated::shapers_myanmar::ot_shaper_myanmar;
pub use crate::generated::shapers_stretch::ot_shaper_arabic_stretch;
pub use crate::generated::shapers_syllabic::ot_shaper_syllabic;
pub use crate::generated::shapers_text::{ot_shaper_hebrew, ot_shaper_thai};
pub use crate::generated::shapers_universal::ot_shaper_use;
