//! What is done to a text before normalization, in the order of HarfBuzz's steps:
//!
//! 1. [`set_unicode_properties`] notes what each character is, and which carry on a grapheme;
//! 2. [`insert_dotted_circle`] puts a circle in front of a text that begins with a mark;
//! 3. [`form_clusters`] brings each grapheme into one cluster;
//! 4. [`ensure_native_direction`] turns a text whose script runs the other way;
//! 5. [`preprocess_text_vowel_constraints`], for the Indic and the universal shaper, parts vowels that
//!    look like another one together;
//! 6. [`flag_zwnj_graphemes`], for the Indic shaper, flags graphemes that begin with ZWNJ where a plan
//!    wants the flags of [`BreakFlags::Sound`](crate::plan::BreakFlags);
//! 7. [`rotate_chars`] takes mirrored characters and vertical forms that the font has.
//!
//! Normalization follows ([`ot_shape_normalize`](crate::ot_shape_normalize)). Characters are looked up
//! by a caller's [`UnicodeProperties`]; [`UnicodeTables`](crate::unicode::UnicodeTables) is one.
//!
//! ```
//! use sengadlit::ot_shape_prepare::{form_clusters, set_unicode_properties};
//! use sengadlit::unicode::UnicodeTables;
//! use sengadlit::Buffer;
//!
//! // the flags of Germany and France: two letters each
//! let mut buffer = Buffer::default();
//! buffer.push_str("\u{1F1E9}\u{1F1EA}\u{1F1EB}\u{1F1F7}")?;
//! set_unicode_properties(&UnicodeTables, &mut buffer);
//! form_clusters(&mut buffer);
//!
//! let clusters: Vec<u32> = buffer.glyphs().iter().map(|glyph| glyph.cluster).collect();
//! assert_eq!(clusters, [0, 0, 8, 8]);
//! # Ok::<(), sengadlit::ShaperError>(())
//! ```

pub use crate::generated::shapers_prepare::ot_shape_prepare::{
    BEGINNING_OF_TEXT, CharRotation, UnicodeProperties, ensure_native_direction,
    flag_zwnj_graphemes, form_clusters, insert_dotted_circle, preprocess_text_vowel_constraints,
    rotate_chars, set_unicode_properties,
};
