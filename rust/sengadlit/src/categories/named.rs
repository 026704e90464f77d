//! Categories and positions as types, which know their names.

use super::{indic, khmer, myanmar, position, universal};
use crate::buffer::GlyphInfo;
use core::fmt;

macro_rules! named_number {
    ($(#[$doc:meta])* $type:ident = $module:ident, $field:ident: $($name:ident)*) => {
        $(#[$doc])*
        #[derive(Clone, Copy, PartialEq, Eq, Hash, PartialOrd, Ord)]
        pub struct $type(pub u8);

        impl $type {
            /// That of a glyph, which [`setup_masks`](crate::Shaper::setup_masks) has set.
            #[inline]
            pub const fn of(glyph: &GlyphInfo) -> Self {
                $type(glyph.$field)
            }

            /// Its name; None for a number that has none.
            pub const fn name(self) -> Option<&'static str> {
                match self.0 {
                    $($module::$name => Some(stringify!($name)),)*
                    _ => None,
                }
            }

            /// What has this name.
            pub fn from_name(name: &str) -> Option<Self> {
                match name {
                    $(stringify!($name) => Some($type($module::$name)),)*
                    _ => None,
                }
            }
        }

        /// The name, or the number where it has none.
        impl fmt::Display for $type {
            fn fmt(&self, f: &mut fmt::Formatter<'_>) -> fmt::Result {
                match self.name() {
                    Some(name) => f.pad(name),
                    None => self.0.fmt(f),
                }
            }
        }

        impl fmt::Debug for $type {
            fn fmt(&self, f: &mut fmt::Formatter<'_>) -> fmt::Result {
                write!(f, "{}({self})", stringify!($type))
            }
        }

        impl From<u8> for $type {
            #[inline]
            fn from(number: u8) -> Self {
                $type(number)
            }
        }

        impl From<$type> for u8 {
            #[inline]
            fn from(value: $type) -> Self {
                value.0
            }
        }
    };
}

named_number! {
    /// A category of the Indic shaper, by its number in [`indic`].
    IndicCategory = indic, category:
        A C CM CS DOTTEDCIRCLE H M MPst N PLACEHOLDER RS Ra Repha SM SMPst Symbol V X ZWJ ZWNJ
}

named_number! {
    /// A category of Khmer's shaper, by its number in [`khmer`].
    KhmerCategory = khmer, category:
        C DOTTEDCIRCLE H PLACEHOLDER Ra Robatic V VAbv VBlw VPre VPst X Xgroup Ygroup ZWJ ZWNJ
}

named_number! {
    /// A category of Myanmar's shaper, by its number in [`myanmar`].
    MyanmarCategory = myanmar, category:
        A As C CS DB DOTTEDCIRCLE GB H IV MH ML MR MW MY PT Ra SM SMPst VAbv VBlw VPre VPst VS X
        ZWJ ZWNJ
}

named_number! {
    /// A category of the universal shaper, by its number in [`universal`].
    UniversalCategory = universal, category:
        B CGJ CMAbv CMBlw CS FAbv FBlw FMAbv FMBlw FMPst FPst G GB H HM HN HR HVM IS J MAbv MBlw
        MPre MPst N O R RK SB SE SMAbv SMBlw SUB Sk VAbv VBlw VMAbv VMBlw VMPre VMPst VPre VPst WJ
        ZWNJ
}

named_number! {
    /// A place in an Indic syllable, by its number in [`position`].
    IndicPosition = position, auxiliary:
        ABOVE_C AFTER_MAIN AFTER_POST AFTER_SUB BASE_C BEFORE_POST BEFORE_SUB BELOW_C END POST_C
        PRE_C PRE_M RA_TO_BECOME_REPH SMVD START
}

#[cfg(test)]
mod tests {
    use super::*;
    use std::string::{String, ToString};
    use std::{format, vec::Vec};

    #[test]
    fn what_setup_masks_set_has_a_name() {
        let glyph = GlyphInfo {
            category: indic::Ra,
            auxiliary: position::BASE_C,
            ..GlyphInfo::DEFAULT
        };
        assert_eq!(IndicCategory::of(&glyph).to_string(), "Ra");
        assert_eq!(IndicPosition::of(&glyph).to_string(), "BASE_C");
        assert_eq!(format!("{:?}", KhmerCategory(200)), "KhmerCategory(200)");
        assert_eq!(
            format!("{:?}", KhmerCategory(khmer::VPre)),
            "KhmerCategory(VPre)"
        );
    }

    // The numbers of HarfBuzz's `ot_category_t` and of its universal shaper's machine.
    #[test]
    fn names_have_harfbuzzs_numbers() {
        let indic = "X=0 C=1 V=2 N=3 H=4 ZWNJ=5 ZWJ=6 M=7 SM=8 A=9 PLACEHOLDER=10 DOTTEDCIRCLE=11 RS=12 \
            MPst=13 Repha=14 Ra=15 CM=16 Symbol=17 CS=18 SMPst=57";
        let khmer = "X=0 C=1 V=2 H=4 ZWNJ=5 ZWJ=6 PLACEHOLDER=10 DOTTEDCIRCLE=11 Ra=15 VAbv=20 VBlw=21 \
            VPre=22 VPst=23 Robatic=25 Xgroup=26 Ygroup=27";
        let myanmar = "X=0 C=1 IV=2 DB=3 H=4 ZWNJ=5 ZWJ=6 SM=8 A=9 GB=10 DOTTEDCIRCLE=11 Ra=15 CS=18 \
            VAbv=20 VBlw=21 VPre=22 VPst=23 As=32 MH=35 MR=36 MW=37 MY=38 PT=39 VS=40 ML=41 SMPst=57";
        let universal = "O=0 B=1 N=4 GB=5 CGJ=6 SUB=11 H=12 HN=13 ZWNJ=14 WJ=16 R=18 VPre=22 VMPre=23 \
            FAbv=24 FBlw=25 FPst=26 MAbv=27 MBlw=28 MPst=29 MPre=30 CMAbv=31 CMBlw=32 VAbv=33 VBlw=34 \
            VPst=35 VMAbv=37 VMBlw=38 VMPst=39 SMAbv=41 SMBlw=42 CS=43 IS=44 FMAbv=45 FMBlw=46 FMPst=47 \
            Sk=48 G=49 J=50 SB=51 SE=52 HVM=53 HM=54 HR=55 RK=56";
        let position = "START=0 RA_TO_BECOME_REPH=1 PRE_M=2 PRE_C=3 BASE_C=4 AFTER_MAIN=5 ABOVE_C=6 \
            BEFORE_SUB=7 BELOW_C=8 AFTER_SUB=9 BEFORE_POST=10 POST_C=11 AFTER_POST=12 SMVD=13 END=14";
        assert_eq!(named(|number| IndicCategory(number).name()), indic);
        assert_eq!(named(|number| KhmerCategory(number).name()), khmer);
        assert_eq!(named(|number| MyanmarCategory(number).name()), myanmar);
        assert_eq!(named(|number| UniversalCategory(number).name()), universal);
        assert_eq!(named(|number| IndicPosition(number).name()), position);
    }

    // Each name with its number, in the numbers' order.
    fn named(name: impl Fn(u8) -> Option<&'static str>) -> String {
        let named = (0..=255).filter_map(|number| Some(format!("{}={number}", name(number)?)));
        named.collect::<Vec<_>>().join(" ")
    }

    #[test]
    fn names_lead_back_to_their_numbers() {
        let known = (0..=255_u8).filter_map(|number| UniversalCategory(number).name());
        let known: Vec<_> = known.collect();
        assert_eq!(known.len(), 44);
        for name in known {
            let category = UniversalCategory::from_name(name).unwrap();
            assert_eq!(category.name(), Some(name));
        }
        assert_eq!(
            MyanmarCategory::from_name("DB"),
            Some(MyanmarCategory(myanmar::DB))
        );
        assert_eq!(IndicPosition::from_name("nowhere"), None);
        assert_eq!(u8::from(IndicCategory::from(15)), 15);
    }
}
