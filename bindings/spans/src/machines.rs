//! The machines of rustybuzz 0.18.0 and HarfRust 0.12.0, with as much around them as they read.

macro_rules! machines {
    ($name:ident, $prefix:literal) => {
        #[allow(warnings, clippy::all)]
        pub mod $name {
            pub mod buffer {
                pub const HB_BUFFER_SCRATCH_FLAG_HAS_BROKEN_SYLLABLE: u32 = 0x10;

                #[derive(Default)]
                pub struct hb_buffer_t {
                    pub info: Vec<super::hb_glyph_info_t>,
                    pub len: usize,
                    pub scratch_flags: u32,
                }
            }
            pub mod ot_layout {}
            pub mod ot_shaper_use {
                pub mod category {
                    pub const CGJ: u8 = 6;
                    pub const ZWNJ: u8 = 14;
                }
            }

            // 20 bytes, as their glyphs have
            #[derive(Clone, Copy, Default)]
            pub struct hb_glyph_info_t {
                pub rest: [u32; 3],
                pub mark: bool,
                pub category: u8,
                pub syllable: u8,
                pub more: [u8; 5],
            }
            pub type GlyphInfo = hb_glyph_info_t;
            impl hb_glyph_info_t {
                pub fn indic_category(&self) -> u8 {
                    self.category
                }
                pub fn khmer_category(&self) -> u8 {
                    self.category
                }
                pub fn myanmar_category(&self) -> u8 {
                    self.category
                }
                pub fn use_category(&self) -> u8 {
                    self.category
                }
                pub fn set_syllable(&mut self, syllable: u8) {
                    self.syllable = syllable;
                }
                pub fn is_unicode_mark(&self) -> bool {
                    self.mark
                }
            }
            fn _hb_glyph_info_is_unicode_mark(glyph: &hb_glyph_info_t) -> bool {
                glyph.mark
            }

            macro_rules! file {
                ($file:literal) => {
                    include!(concat!(env!("OUT_DIR"), "/", $prefix, "_", $file, ".rs"));
                };
            }
            mod ot_shaper_indic_machine {
                file!("ot_shaper_indic_machine");
            }
            mod ot_shaper_khmer_machine {
                file!("ot_shaper_khmer_machine");
            }
            mod ot_shaper_myanmar_machine {
                file!("ot_shaper_myanmar_machine");
            }
            mod ot_shaper_use_machine {
                use super::_hb_glyph_info_is_unicode_mark;
                file!("ot_shaper_use_machine");
            }
            mod machine_cursor {
                file!("machine_cursor");
            }
            pub use buffer::hb_buffer_t;

            /// A buffer of these categories, each with whether its glyph is a mark.
            pub fn buffer(text: &[(u8, bool)]) -> hb_buffer_t {
                let glyph = |&(category, mark)| hb_glyph_info_t { category, mark, ..Default::default() };
                hb_buffer_t { info: text.iter().map(glyph).collect(), len: text.len(), scratch_flags: 0 }
            }

            /// Writes the syllables, by the grammar of this number.
            #[inline(never)]
            pub fn find(grammar: usize, buffer: &mut hb_buffer_t) {
                match grammar {
                    0 => ot_shaper_indic_machine::find_syllables_indic(buffer),
                    1 => ot_shaper_khmer_machine::find_syllables_khmer(buffer),
                    2 => ot_shaper_myanmar_machine::find_syllables_myanmar(buffer),
                    _ => ot_shaper_use_machine::find_syllables(buffer),
                }
            }
        }
    };
}

machines!(rustybuzz, "rustybuzz");
machines!(harfrust, "harfrust");
