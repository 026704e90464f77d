// Generated from crates/shapers_base/src/plan/indic.rt by rust/erase; edit the source.

//! What the shaper of the Indic scripts keeps in the plan, and its questions to the font.

use crate::generated::shapers_base::buffer::{Script, Tag};
use crate::generated::shapers_base::font::{Font, GlyphId};
use crate::generated::shapers_base::map::{Map, TableIndex};
use core::ops::Range;

/// Where a reph goes, as the position that it stands behind or before.
#[derive(Clone, Copy, Debug, PartialEq, Eq, Hash)]
pub enum RephPosition {
    /// Behind the main consonant (`POS_AFTER_MAIN`).
    AfterMain,
    /// Before the forms below the base (`POS_BEFORE_SUB`).
    BeforeSub,
    /// Behind the forms below the base (`POS_AFTER_SUB`).
    AfterSub,
    /// Before the forms behind the base (`POS_BEFORE_POST`).
    BeforePost,
    /// Behind the forms behind the base (`POS_AFTER_POST`).
    AfterPost,
}

/// How a reph is written.
#[derive(Clone, Copy, Debug, PartialEq, Eq, Hash)]
pub enum RephMode {
    /// As an opening Ra, H.
    Implicit,
    /// As an opening Ra, H, ZWJ.
    Explicit,
    /// As a character of its own, which is reordered.
    LogRepha,
}

/// Where the feature of below-base forms applies.
#[derive(Clone, Copy, Debug, PartialEq, Eq, Hash)]
pub enum BlwfMode {
    /// Before the base and after it.
    PreAndPost,
    /// After the base only.
    PostOnly,
}

/// Among which consonants the base of a syllable is looked for.
#[derive(Clone, Copy, Debug, PartialEq, Eq, Default, Hash)]
pub enum BaseSearch {
    /// Among those that aren't medial (`OT_CM`), as in rustybuzz 0.20.1.
    #[default]
    WithoutMedials,
    /// Among all, as in HarfBuzz.
    AllConsonants,
}

/// Where the questions to the font leave out rules that need context around the glyphs. For Malayalam
/// they never do.
#[derive(Clone, Copy, Debug, PartialEq, Eq, Default, Hash)]
pub enum ZeroContext {
    /// In fonts of the older specification, as in rustybuzz 0.20.1.
    #[default]
    OldSpec,
    /// In fonts of the newer specification, as in HarfBuzz.
    NewSpec,
}

/// The properties of one script that the rules depend on.
#[derive(Clone, Copy, Debug, PartialEq, Eq, Hash)]
pub struct IndicConfig {
    /// The script, or none for any other.
    pub script: Option<Script>,
    /// Whether fonts may follow an older specification of it.
    pub has_old_spec: bool,
    /// Its virama, or 0.
    pub virama: u32,
    /// Where its reph goes.
    pub reph_pos: RephPosition,
    /// How its reph is written.
    pub reph_mode: RephMode,
    /// Where its feature `blwf` applies.
    pub blwf_mode: BlwfMode,
}

/// The question whether a feature would substitute some glyphs.
#[derive(Clone, Debug, PartialEq, Eq, Hash)]
pub struct IndicWouldSubstituteFeature {
    lookups: Range<usize>,
    zero_context: bool,
}

impl IndicWouldSubstituteFeature {
    /// The question about the lookups of a feature's stage. With `zero_context` only those count
    /// that need no context around the glyphs.
    ///
    /// <details><summary>Contract</summary>
    ///
    /// # Contract
    ///
    /// ```text
    /// ensures { result ≡ question_for feature_tag zero_context map.now }
    /// ```
    ///
    /// - `question_for`: `crates/shapers_base/specs/Questions.antt`
    ///
    /// </details>
    #[inline]
    pub fn new(map: &Map, feature_tag: Tag, zero_context: bool) -> Self {
        let lookups = match map.stage_of(TableIndex::GSUB, feature_tag) {
            Some(stage) => map.stage_lookup_range(TableIndex::GSUB, stage),
            None => 0..0,
        };
        IndicWouldSubstituteFeature {
            lookups,
            zero_context,
        }
    }

    /// Whether some lookup of the feature's stage would apply to exactly these glyphs.
    ///
    /// <details><summary>Contract</summary>
    ///
    /// # Contract
    ///
    /// ```text
    /// ensures { result ≡ would_by (F.font face.now).applies map.now self.now glyphs.now }
    /// ```
    ///
    /// - `would_by`: `crates/shapers_base/specs/Questions.antt`
    ///
    /// </details>
    #[inline]
    pub fn would_substitute<F: Font>(&self, map: &Map, face: &F, glyphs: &[GlyphId]) -> bool {
        face.would_apply_any(self.lookups(map), glyphs, self.zero_context)
    }

    /// The lookups that it is about.
    ///
    /// <details><summary>Contract</summary>
    ///
    /// # Contract
    ///
    /// ```text
    /// ensures { result.now ≡ lookups_in self.now.lookups map.now }
    /// ```
    ///
    /// - `lookups_in`: `crates/shapers_base/specs/Map.antt`
    ///
    /// </details>
    #[inline]
    pub fn lookups<'a>(&self, map: &'a Map) -> &'a [u16] {
        map.lookups(&self.lookups)
    }

    /// Whether only those count that need no context around the glyphs.
    ///
    /// <details><summary>Contract</summary>
    ///
    /// # Contract
    ///
    /// ```text
    /// ensures { result ≡ self.now.zero_context }
    /// ```
    ///
    /// </details>
    #[inline]
    pub fn zero_context(&self) -> bool {
        self.zero_context
    }
}

/// What the shaper of the Indic scripts keeps in the plan.
#[derive(Clone, Debug, PartialEq, Eq, Hash)]
pub struct IndicPlan {
    /// The properties of the script.
    pub config: IndicConfig,
    /// Whether the font follows the older specification.
    pub is_old_spec: bool,
    /// Among which consonants the base is looked for.
    pub base_search: BaseSearch,
    /// The question whether the font forms a reph, by `rphf`.
    pub rphf: IndicWouldSubstituteFeature,
    /// The question whether it forms a consonant that goes before the base, by `pref`.
    pub pref: IndicWouldSubstituteFeature,
    /// The question whether it forms one below the base, by `blwf`.
    pub blwf: IndicWouldSubstituteFeature,
    /// The question whether it forms one behind the base, by `pstf`.
    pub pstf: IndicWouldSubstituteFeature,
    /// The question whether it joins a consonant with a Ra below it, by `vatu`.
    pub vatu: IndicWouldSubstituteFeature,
    /// The masks of the shaper's features, by [`indic_feature`]; 0 for those of the whole text.
    ///
    /// [`indic_feature`]: crate::ot_shaper_indic::indic_feature
    pub mask_array: [u32; 17],
}
