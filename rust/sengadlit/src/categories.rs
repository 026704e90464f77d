//! Categories and positions by name, for each shaper that reads them, and as types that know their
//! names ([`IndicCategory`] and the others): what [`Tables`](crate::Tables)
//! return, and what `category` and, for Indic, `auxiliary` of a glyph hold behind
//! [`setup_masks`](crate::Shaper::setup_masks).
//!
//! Names and numbers are those of HarfBuzz 13.0.0 by HarfRust 0.12.0, which follows it:
//! `ot_category_t`, `ot_position_t`, and the universal shaper's machine. HarfBuzz 6.0.0 has fewer of
//! them (no `SMPst`, no `RK`), numbered alike. The kinds of syllables are in
//! [`ot_shaper_syllabic`](crate::ot_shaper_syllabic).

mod named;

pub use named::{IndicCategory, IndicPosition, KhmerCategory, MyanmarCategory, UniversalCategory};

/// Of the Indic shaper.
pub mod indic {
    pub use crate::plan::ot_category_t::{
        OT_A as A, OT_C as C, OT_CM as CM, OT_CS as CS, OT_DOTTEDCIRCLE as DOTTEDCIRCLE, OT_H as H,
        OT_M as M, OT_MPst as MPst, OT_N as N, OT_PLACEHOLDER as PLACEHOLDER, OT_RS as RS,
        OT_Ra as Ra, OT_Repha as Repha, OT_SM as SM, OT_Symbol as Symbol, OT_V as V, OT_X as X,
        OT_ZWJ as ZWJ, OT_ZWNJ as ZWNJ,
    };

    /// A syllable modifier behind others.
    #[expect(non_upper_case_globals, reason = "HarfBuzz's name")]
    pub const SMPst: u8 = 57;
}

/// Of Khmer's.
pub mod khmer {
    pub use crate::plan::ot_category_t::{
        OT_C as C, OT_DOTTEDCIRCLE as DOTTEDCIRCLE, OT_H as H, OT_PLACEHOLDER as PLACEHOLDER,
        OT_Ra as Ra, OT_Robatic as Robatic, OT_V as V, OT_VAbv as VAbv, OT_VBlw as VBlw,
        OT_VPre as VPre, OT_VPst as VPst, OT_X as X, OT_Xgroup as Xgroup, OT_Ygroup as Ygroup,
        OT_ZWJ as ZWJ, OT_ZWNJ as ZWNJ,
    };
}

/// Of Myanmar's; `DB` is Indic's `N`, and `GB` its `PLACEHOLDER`.
pub mod myanmar {
    pub use super::indic::SMPst;
    pub use crate::plan::ot_category_t::{
        IV, OT_A as A, OT_As as As, OT_C as C, OT_CS as CS, OT_DOTTEDCIRCLE as DOTTEDCIRCLE,
        OT_GB as GB, OT_H as H, OT_MH as MH, OT_ML as ML, OT_MR as MR, OT_MW as MW, OT_MY as MY,
        OT_N as DB, OT_PT as PT, OT_Ra as Ra, OT_SM as SM, OT_VAbv as VAbv, OT_VBlw as VBlw,
        OT_VPre as VPre, OT_VPst as VPst, OT_VS as VS, OT_X as X, OT_ZWJ as ZWJ, OT_ZWNJ as ZWNJ,
    };
}

/// Of the universal shaper.
pub mod universal {
    pub use crate::ot_shaper_use::category::{
        B, CGJ, CMAbv, CMBlw, CS, FAbv, FBlw, FMAbv, FMBlw, FMPst, FPst, G, GB, H, HM, HN, HR, HVM,
        IS, J, MAbv, MBlw, MPre, MPst, N, O, R, SB, SE, SMAbv, SMBlw, SUB, Sk, VAbv, VBlw, VMAbv,
        VMBlw, VMPre, VMPst, VPre, VPst, WJ, ZWNJ,
    };

    /// A killer of vowels that is reordered (Batak).
    pub const RK: u8 = 56;
}

/// The places in an Indic syllable, in the order in which it is sorted by them.
pub mod position {
    pub use crate::plan::ot_position_t::{
        POS_ABOVE_C as ABOVE_C, POS_AFTER_MAIN as AFTER_MAIN, POS_AFTER_POST as AFTER_POST,
        POS_AFTER_SUB as AFTER_SUB, POS_BASE_C as BASE_C, POS_BEFORE_POST as BEFORE_POST,
        POS_BEFORE_SUB as BEFORE_SUB, POS_BELOW_C as BELOW_C, POS_END as END, POS_POST_C as POST_C,
        POS_PRE_C as PRE_C, POS_PRE_M as PRE_M, POS_RA_TO_BECOME_REPH as RA_TO_BECOME_REPH,
        POS_SMVD as SMVD, POS_START as START,
    };
}
