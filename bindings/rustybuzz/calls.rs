//! How rustybuzz is called.

/// The cluster levels.
pub const LEVELS: [&str; 3] = ["MonotoneGraphemes", "MonotoneCharacters", "Characters"];

/// Whether texts are prepared and normalized by the hooks' crate.
pub const NORMALIZES: bool = false;

/// The reasons of bindings/rustybuzz/reasons.
pub const REASONS: &[&str] = &[
    "merge-flags",
    "least-cluster",
    "front-of-a-merge",
    "category-range",
    "contexts",
    "medial",
    "long-syllable",
    "copied-marks",
    "yiddish-yod-yod",
    "dotted-circles",
];

macro_rules! calls {
    ($module:ident, $rustybuzz:ident) => {
        pub mod $module {
            use crate::{caught, parts, serialized, Glyph, Setting, Shaped, FEATURES};
            use $rustybuzz::ttf_parser::Tag;
            use $rustybuzz::{
                shape, shape_with_plan, BufferClusterLevel, BufferFlags, Direction, Face, Feature, GlyphBuffer, Script,
                SerializeFlags, ShapePlan, UnicodeBuffer,
            };

            const LEVELS: [BufferClusterLevel; 3] = [
                BufferClusterLevel::MonotoneGraphemes,
                BufferClusterLevel::MonotoneCharacters,
                BufferClusterLevel::Characters,
            ];

            fn features(setting: &Setting) -> Vec<Feature> {
                let wanted = if setting.features { &FEATURES[..] } else { &[] };
                wanted
                    .iter()
                    .map(|&(tag, value, first, last)| Feature::new(Tag::from_bytes(tag), value, first..=last))
                    .collect()
            }

            fn fill(buffer: &mut UnicodeBuffer, text: &str, setting: &Setting) {
                let [before, inside, after] = parts(text, setting);
                buffer.push_str(&inside);
                if setting.contexts {
                    buffer.set_pre_context(&before);
                    buffer.set_post_context(&after);
                }
                buffer.set_cluster_level(LEVELS[setting.level]);
                buffer.set_flags(BufferFlags::from_bits_retain(setting.flags));
                buffer.guess_segment_properties();
            }

            /// The flags of each glyph: the crate tells them all in a serialized text alone.
            fn flags(face: &Face, buffer: &GlyphBuffer) -> Vec<u32> {
                let told = SerializeFlags::NO_GLYPH_NAMES
                    | SerializeFlags::NO_CLUSTERS
                    | SerializeFlags::NO_POSITIONS
                    | SerializeFlags::GLYPH_FLAGS;
                let text = buffer.serialize(face, told);
                text.split('|')
                    .map(|glyph| {
                        glyph.split_once('#').map_or(0, |(_, flags)| u32::from_str_radix(flags, 16).expect("flags"))
                    })
                    .collect()
            }

            fn glyphs(face: &Face, buffer: &GlyphBuffer) -> Vec<Glyph> {
                let positions = buffer.glyph_positions();
                let glyphs = buffer.glyph_infos().iter().zip(positions).zip(flags(face, buffer)).map(
                    |((glyph, position), flags)| Glyph {
                        number: glyph.glyph_id,
                        cluster: glyph.cluster,
                        flags,
                        advance: (position.x_advance, position.y_advance),
                        offset: (position.x_offset, position.y_offset),
                    },
                );
                glyphs.collect()
            }

            /// Shapes each text.
            pub fn shape_texts(font: &[u8], texts: &[&str], setting: &Setting) -> Vec<Shaped> {
                let face = Face::from_slice(font, 0).expect("a font");
                let features = features(setting);
                let mut plans: Vec<(Direction, Script, ShapePlan)> = Vec::new();
                let shape = |text: &&str| {
                    let mut buffer = UnicodeBuffer::new();
                    fill(&mut buffer, text, setting);
                    let (direction, script) = (buffer.direction(), buffer.script());
                    if !plans.iter().any(|plan| plan.0 == direction && plan.1 == script) {
                        plans.push((
                            direction,
                            script,
                            ShapePlan::new(&face, direction, Some(script), None, &features),
                        ));
                    }
                    let plan = plans.iter().find(|plan| plan.0 == direction && plan.1 == script).expect("a plan");
                    caught(|| glyphs(&face, &shape_with_plan(&face, &plan.2, buffer)))
                };
                texts.iter().map(shape).collect()
            }

            /// The shaped text with the names of its glyphs, as `hb-shape --show-flags` writes it.
            pub fn told(font: &[u8], text: &str, setting: &Setting) -> String {
                let face = Face::from_slice(font, 0).expect("a font");
                let mut buffer = UnicodeBuffer::new();
                fill(&mut buffer, text, setting);
                serialized(|| {
                    format!(
                        "[{}]",
                        shape(&face, &features(setting), buffer).serialize(&face, SerializeFlags::GLYPH_FLAGS)
                    )
                })
            }

            /// Shapes each text so many times into one buffer, and gives the sum of the glyphs'
            /// numbers.
            pub fn shape_times(font: &[u8], texts: &[&str], times: usize) -> u64 {
                let face = Face::from_slice(font, 0).expect("a font");
                let setting = Setting::default();
                let mut plans: Vec<(Direction, Script, ShapePlan)> = Vec::new();
                let mut buffer = UnicodeBuffer::new();
                let mut sum = 0;
                for text in (0..times).flat_map(|_| texts) {
                    buffer.push_str(text);
                    buffer.set_cluster_level(LEVELS[setting.level]);
                    buffer.guess_segment_properties();
                    let (direction, script) = (buffer.direction(), buffer.script());
                    if !plans.iter().any(|plan| plan.0 == direction && plan.1 == script) {
                        plans.push((direction, script, ShapePlan::new(&face, direction, Some(script), None, &[])));
                    }
                    let plan = plans.iter().find(|plan| plan.0 == direction && plan.1 == script).expect("a plan");
                    let glyphs = shape_with_plan(&face, &plan.2, buffer);
                    sum += glyphs.glyph_infos().iter().map(|glyph| u64::from(glyph.glyph_id)).sum::<u64>();
                    buffer = glyphs.clear();
                }
                sum
            }

            /// The same with a new buffer and a new plan for each text, as usvg calls.
            pub fn shape_times_anew(font: &[u8], texts: &[&str], times: usize) -> u64 {
                let face = Face::from_slice(font, 0).expect("a font");
                let mut sum = 0;
                for text in (0..times).flat_map(|_| texts) {
                    let mut buffer = UnicodeBuffer::new();
                    buffer.push_str(text);
                    buffer.guess_segment_properties();
                    let glyphs = shape(&face, &[], buffer);
                    sum += glyphs.glyph_infos().iter().map(|glyph| u64::from(glyph.glyph_id)).sum::<u64>();
                }
                sum
            }
        }
    };
}
