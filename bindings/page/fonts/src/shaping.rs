//! How HarfRust is called: as it is, and the copy with the hooks.

/// A glyph of a shaped text; positions are in units of the font.
#[derive(Clone, Copy, Default)]
pub struct Glyph {
    pub number: u32,
    /// The place of its character in the text's UTF-8.
    pub cluster: u32,
    pub flags: u32,
    pub advance: i32,
    pub x: i32,
    pub y: i32,
}

pub type Shaped = Vec<Glyph>;

/// How a text is shaped: script and direction are guessed where they are empty.
#[derive(Default)]
pub struct Setting<'a> {
    pub script: &'a str,
    pub direction: &'a str,
    pub level: usize,
    pub flags: u32,
}

macro_rules! shaper {
    ($module:ident, $harfrust:ident) => {
        pub mod $module {
            use super::{Glyph, Setting, Shaped};
            use $harfrust::{
                BufferClusterLevel, BufferFlags, Direction, FontRef, GlyphBuffer, GlyphFlags, Script, ShapeOptions,
                ShaperData, Tag, UnicodeBuffer,
            };

            const LEVELS: [BufferClusterLevel; 3] = [
                BufferClusterLevel::MonotoneGraphemes,
                BufferClusterLevel::MonotoneCharacters,
                BufferClusterLevel::Characters,
            ];

            /// Shapes each text; `None` where the font can't be read.
            pub fn shape_texts(font: &[u8], texts: &[&str], setting: &Setting) -> Option<Vec<Shaped>> {
                let font = FontRef::from_index(font, 0).ok()?;
                let data = ShaperData::new(&font);
                let shaper = data.shaper(&font).build();
                let shape = |text: &&str| glyphs(&shaper.shape(filled(text, setting), ShapeOptions::new()));
                Some(texts.iter().map(shape).collect())
            }

            fn filled(text: &str, setting: &Setting) -> UnicodeBuffer {
                let mut buffer = UnicodeBuffer::new();
                buffer.push_str(text);
                buffer.set_cluster_level(LEVELS[setting.level.min(2)]);
                buffer.set_flags(BufferFlags::from_bits_retain(setting.flags));
                buffer.guess_segment_properties();
                if let Some(script) = setting.script.as_bytes().try_into().ok() {
                    let script: &[u8; 4] = script;
                    if let Some(script) = Script::from_iso15924_tag(Tag::new(script)) {
                        buffer.set_script(script);
                    }
                }
                match setting.direction {
                    "ltr" => buffer.set_direction(Direction::LeftToRight),
                    "rtl" => buffer.set_direction(Direction::RightToLeft),
                    _ => {}
                }
                buffer
            }

            fn glyphs(buffer: &GlyphBuffer) -> Shaped {
                let positions = buffer.glyph_positions();
                let glyphs = buffer.glyph_infos().iter().zip(positions).map(|(glyph, position)| Glyph {
                    number: glyph.glyph_id,
                    cluster: glyph.cluster,
                    flags: glyph.flags().to_bits() & GlyphFlags::ALL.to_bits(),
                    advance: position.x_advance,
                    x: position.x_offset,
                    y: position.y_offset,
                });
                glyphs.collect()
            }
        }
    };
}

shaper!(stock, stock);
shaper!(sengadlit, sengadlit);
