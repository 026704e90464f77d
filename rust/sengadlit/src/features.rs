//! How features are requested, as a type of flags.

use crate::buffer::{ShaperError, Tag};
use crate::map::{F_GLOBAL, F_HAS_FALLBACK, F_MANUAL_ZWJ, F_MANUAL_ZWNJ, F_PER_SYLLABLE};
use crate::ot_shape_plan::{F_GLOBAL_SEARCH, F_RANDOM};
use crate::plan::{Planner, Request};
use crate::support::bitflags::bitflag_items;

/// How a feature is requested: the flags whose bits [`Request::Feature`] and
/// [`Planner::add_feature`] take.
///
/// ```
/// use sengadlit::map::FeatureFlags;
/// use sengadlit::{Planner, Request, Tag, alloc::Global};
///
/// let mut planner = Planner::new(Global, None);
/// let flags = FeatureFlags::GLOBAL | FeatureFlags::PER_SYLLABLE;
/// planner.add_feature(Tag(*b"pres"), flags.into(), 1)?;
/// assert_eq!(planner.requests()[0].flags(), Some(flags));
/// # Ok::<(), sengadlit::ShaperError>(())
/// ```
#[repr(transparent)]
#[derive(Clone, Copy, Debug, Default, PartialEq, Eq, Hash)]
pub struct FeatureFlags(pub u32);

bitflag_items! {
    impl FeatureFlags: u32 {
        /// The feature holds for the whole text ([`F_GLOBAL`]).
        const GLOBAL = F_GLOBAL;
        /// Something stands in for the feature where the font lacks it ([`F_HAS_FALLBACK`]).
        const HAS_FALLBACK = F_HAS_FALLBACK;
        /// The feature sees zero width non-joiners ([`F_MANUAL_ZWNJ`]).
        const MANUAL_ZWNJ = F_MANUAL_ZWNJ;
        /// The feature sees zero width joiners ([`F_MANUAL_ZWJ`]).
        const MANUAL_ZWJ = F_MANUAL_ZWJ;
        /// The feature may be any script's of the font ([`F_GLOBAL_SEARCH`]).
        const GLOBAL_SEARCH = F_GLOBAL_SEARCH;
        /// An alternate is picked at random ([`F_RANDOM`]).
        const RANDOM = F_RANDOM;
        /// The feature stays within a syllable ([`F_PER_SYLLABLE`]).
        const PER_SYLLABLE = F_PER_SYLLABLE;
    }
}

impl From<FeatureFlags> for u32 {
    #[inline]
    fn from(flags: FeatureFlags) -> Self {
        flags.0
    }
}

impl From<u32> for FeatureFlags {
    #[inline]
    fn from(bits: u32) -> Self {
        FeatureFlags(bits)
    }
}

impl Request {
    /// A request for a feature; the value 0 turns it off.
    #[inline]
    pub const fn feature(tag: Tag, flags: FeatureFlags, value: u32) -> Self {
        Request::Feature(tag, flags.0, value)
    }

    /// How a feature is requested; None for a pause.
    #[inline]
    pub const fn flags(self) -> Option<FeatureFlags> {
        match self {
            Request::Feature(_, flags, _) => Some(FeatureFlags(flags)),
            Request::Pause(_) => None,
        }
    }
}

impl Planner {
    /// Adds one request.
    ///
    /// # Errors
    ///
    /// [`ShaperError::Memory`]; the planner is as it was then.
    #[inline]
    pub fn add_request(&mut self, request: Request) -> Result<(), ShaperError> {
        self.add_requests(&[request])
    }
}

#[cfg(test)]
mod tests {
    use super::*;
    use crate::alloc::Global;
    use std::format;

    #[test]
    fn flags_are_the_bits_of_requests() {
        let mut planner = Planner::new(Global, None);
        let (tag, flags) = (
            Tag(*b"vert"),
            FeatureFlags::GLOBAL | FeatureFlags::GLOBAL_SEARCH,
        );
        planner
            .add_request(Request::feature(tag, flags, 1))
            .unwrap();
        planner.add_request(Request::Pause(None)).unwrap();
        assert_eq!(planner.requests()[0], Request::Feature(tag, 17, 1));
        assert_eq!(planner.requests()[0].flags(), Some(flags));
        assert_eq!(planner.requests()[1].flags(), None);
    }

    #[test]
    fn each_bit_is_one_flag() {
        let bits = FeatureFlags::FLAGS.iter().map(|(_, flag)| flag.0);
        assert!(bits.eq((0..7).map(|bit| 1 << bit)));
        assert_eq!(u32::from(FeatureFlags::all()), 127);
        assert_eq!(format!("{:#x}", FeatureFlags::RANDOM), "0x20");
    }
}
