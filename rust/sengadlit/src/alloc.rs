//! The allocator that constructors take, the lists that the crate takes and returns, and the errors of
//! a list that can't grow.

pub use crate::support::alloc::{AllocError, AllocFailed, Global};
pub use crate::support::arrayvec::{ArrayVec, CapacityError};
pub use crate::support::vec::Vec;
