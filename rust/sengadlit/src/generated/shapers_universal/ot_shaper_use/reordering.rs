// Generated from crates/shapers_universal/src/ot_shaper_use/reordering.rt by rust/erase; edit the source.

//! The reordering of a text in the universal shaper.

use super::category;
use super::ordering::UniversalOrder;
use crate::generated::shapers_base::buffer::{Buffer, ShaperError};
use crate::generated::shapers_base::font::Font;
use crate::generated::shapers_syllabic::ot_shaper_syllabic::use_syllable::BROKEN_CLUSTER;
use crate::generated::shapers_syllabic::ot_shaper_syllabic::{ScriptCircles, reorder_pause};

// The dotted circles of broken syllables: bases, behind their leading rephas.
const CIRCLES: ScriptCircles = ScriptCircles {
    broken_kind: BROKEN_CLUSTER,
    category: category::B,
    repha: Some(category::R),
    position: None,
};

/// Gives each broken syllable a dotted circle, behind its leading rephas, and then each syllable
/// its order; returns whether circles are wanted. Every cluster afterwards is one that the text
/// had. Refuses with [`TooLong`] where the text would be longer than [`max_len`], and with [`Memory`];
/// where no circle is put in it takes none. (OpenType, the Universal Shaping Engine.)
///
/// <details><summary>Contract</summary>
///
/// # Contract
///
/// ```text
/// requires { buffer.old.positions ≡ [] }
/// ensures answer { let circles = script_circles universal_circles (F.font face.now) buffer.old in
///     IfOk result (λ answer. answer ≡ is_some circles) }
/// ensures ok { let circles = script_circles universal_circles (F.font face.now) buffer.old in
///     OnOk result (PauseReordered circles universal_order universal_steps buffer.old buffer.new) }
/// ensures linked { let circles = script_circles universal_circles (F.font face.now) buffer.old in
///     OnOk result (PauseLinked circles
///     (SyllableReordered universal_order universal_steps) buffer.old buffer.new) }
/// ensures laws { let circles = script_circles universal_circles (F.font face.now) buffer.old in
///     let opened = circled circles buffer.old.glyphs in
///     OnOk result (ReorderedHold carried buffer.old.level
///     (text_steps universal_steps (order_view opened)) opened buffer.new.glyphs) }
/// ensures cut { let circles = script_circles universal_circles (F.font face.now) buffer.old in
///     OnOk result
///     (PauseCutsAtBorders circles universal_order universal_steps buffer.old buffer.new) }
/// ensures clusters { OnOk result (NoNewCluster buffer.old.glyphs buffer.new.glyphs) }
/// ensures length { let circles = script_circles universal_circles (F.font face.now) buffer.old in
///     RefusesLength buffer.old.max_len (length (circled circles buffer.old.glyphs)) result }
/// ensures err { OnErr result (buffer.new ≡ buffer.old) }
/// ensures without_memory { let circles =
///     script_circles universal_circles (F.font face.now) buffer.old in
///     circled circles buffer.old.glyphs ≡ buffer.old.glyphs → IsOk result }
/// ```
///
/// - `order_view`: `crates/shapers_buffer/specs/Glyph.antt`
/// - `RefusesLength`: `crates/shapers_buffer/specs/Refusals.antt`
/// - `ReorderedHold`: `crates/shapers_clusters/specs/Laws.antt`
/// - `NoNewCluster`: `crates/shapers_syllabic/specs/CircleLaws.antt`
/// - `circled`: `crates/shapers_syllabic/specs/Circles.antt`
/// - `PauseLinked`, `PauseReordered`, `SyllableReordered`, `carried`, `script_circles`, `text_steps`: `crates/shapers_syllabic/specs/Reordering.antt`
/// - `PauseCutsAtBorders`: `crates/shapers_syllabic/specs/ReorderingLaws.antt`
/// - `universal_order`, `universal_steps`: `crates/shapers_universal/specs/Universal.antt`
/// - `universal_circles`: `crates/shapers_universal/specs/UniversalText.antt`
///
/// </details>
///
/// [`Memory`]: crate::ShaperError::Memory
/// [`TooLong`]: crate::ShaperError::TooLong
/// [`max_len`]: crate::Buffer::max_len
#[inline]
pub fn reorder_use<F: Font>(face: &F, buffer: &mut Buffer) -> Result<bool, ShaperError> {
    reorder_pause(face, &UniversalOrder, &CIRCLES, None, buffer)
}
