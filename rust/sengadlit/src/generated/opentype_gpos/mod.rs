// Generated from crates/opentype_gpos/src/lib.rt by rust/erase; edit the source.

//! The lookups of GPOS: values of glyphs and of pairs, cursive lines, marks upon bases, ligatures and other
//! marks, and contexts that apply lookups, along a text; what attachments do behind the last lookup; pairs by
//! the table `kern`; and marks in fonts without GPOS. What is applied, and in what way, is as in HarfBuzz;
//! positions are in font units.
//!
//! Device tables and variations of values and anchors read as none, and so do a glyph's contour points.
//! Offsets and advances that pass 32 bits stop at their bound. A mark more than 32,768 glyphs behind the one
//! that it would be attached to isn't attached, and of attachments in a row 64 are followed.

pub mod anchors;
pub mod apply_along;
pub mod calling;
pub mod coming;
pub mod fallback;
pub mod finish;
pub mod joins;
pub mod kern;
pub mod kern_lefts;
pub mod making;
pub mod mark_boxes;
pub mod moved;
pub mod moves;
pub mod nearby;
pub mod pass;
pub mod trying;
pub mod values;
