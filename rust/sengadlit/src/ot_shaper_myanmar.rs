//! The shaper of Myanmar. Its hooks are methods of [`MYANMAR_SHAPER`]; between stages of lookups
//! [`run_pause`] runs its pauses [`SetupSyllablesMyanmar`] and [`ReorderMyanmar`].
//!
//! [`run_pause`]: crate::run_pause
//! [`SetupSyllablesMyanmar`]: crate::Pause::SetupSyllablesMyanmar
//! [`ReorderMyanmar`]: crate::Pause::ReorderMyanmar

pub use crate::shaper::{MYANMAR_SHAPER, MYANMAR_ZAWGYI_SHAPER};
