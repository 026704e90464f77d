//! How harfrust is called.

/// The cluster levels.
pub const LEVELS: [&str; 4] = ["MonotoneGraphemes", "MonotoneCharacters", "Characters", "Graphemes"];

/// Whether texts are prepared and normalized by the hooks' crate.
pub const NORMALIZES: bool = true;

/// The reasons of bindings/harfrust/reasons.
pub const REASONS: &[&str] = &[
    "merge-flags",
    "least-cluster",
    "long-stretch",
    "category-range",
    "contexts",
    "copied-marks",
    "graphemes",
    "continuation",
    "yiddish-yod-yod",
    "dotted-circles",
    "ignorable-180f",
    "turned-jamo",
];

macro_rules! calls {
    ($module:ident, $harfrust:ident) => {
        pub mod $module {
            use crate::{caught, made_up, parts, serialized, Glyph, Setting, Shaped, FEATURES};
            use $harfrust::font::{BuiltinFontFuncs, FontFuncs};
            use $harfrust::{
                BufferClusterLevel, BufferFlags, Direction, Feature, FontRef, GlyphBuffer, GlyphFlags, GlyphId, Script,
                SerializeFlags, ShapeOptions, ShapePlan, ShaperData, Tag, UnicodeBuffer,
            };

            /// The made-up font of a text, whose glyphs for characters begin at a number.
            struct MadeUp {
                text: u32,
                first: u32,
            }

            impl FontFuncs for MadeUp {
                fn nominal_glyph(&mut self, _: &BuiltinFontFuncs, c: u32) -> Option<GlyphId> {
                    made_up(self.text, c, 0).map(|number| GlyphId::new(self.first + number))
                }

                fn variant_glyph(&mut self, _: &BuiltinFontFuncs, c: u32, selector: u32) -> Option<GlyphId> {
                    made_up(self.text, c, selector).map(GlyphId::new)
                }
            }

            /// Settings for a text whose font is made up: a direction, flags, a glyph for selectors.
            fn vary(number: u32, buffer: &mut UnicodeBuffer) {
                let directions =
                    [Direction::LeftToRight, Direction::RightToLeft, Direction::TopToBottom, Direction::BottomToTop];
                if let Some(direction) = directions.get(number as usize / 5 % 8) {
                    buffer.set_direction(*direction);
                }
                buffer.set_flags(BufferFlags::from_bits_retain([0, 1, 0x40, 0x11][number as usize / 40 % 4]));
                if number / 160 % 4 == 0 {
                    buffer.set_not_found_variation_selector_glyph(3);
                }
            }

            const LEVELS: [BufferClusterLevel; 4] = [
                BufferClusterLevel::MonotoneGraphemes,
                BufferClusterLevel::MonotoneCharacters,
                BufferClusterLevel::Characters,
                BufferClusterLevel::Graphemes,
            ];

            fn features(setting: &Setting) -> Vec<Feature> {
                let wanted = if setting.features { &FEATURES[..] } else { &[] };
                wanted
                    .iter()
                    .map(|&(tag, value, first, last)| Feature::new(Tag::new(tag), value, first..=last))
                    .collect()
            }

            fn fill(buffer: &mut UnicodeBuffer, text: &str, setting: &Setting) {
                let [before, inside, after] = parts(text, setting);
                buffer.push_str(&inside);
                if setting.contexts {
                    buffer.set_pre_context(&before);
                    buffer.set_post_context(&after);
                }
                buffer.set_cluster_level(LEVELS[setting.level]);
                buffer.set_flags(BufferFlags::from_bits_retain(setting.flags));
                buffer.guess_segment_properties();
            }

            fn glyphs(buffer: &GlyphBuffer) -> Vec<Glyph> {
                let positions = buffer.glyph_positions();
                let glyphs = buffer.glyph_infos().iter().zip(positions).map(|(glyph, position)| Glyph {
                    number: glyph.glyph_id,
                    cluster: glyph.cluster,
                    flags: glyph.flags().to_bits() & GlyphFlags::ALL.to_bits(),
                    advance: (position.x_advance, position.y_advance),
                    offset: (position.x_offset, position.y_offset),
                });
                glyphs.collect()
            }

            /// Shapes each text.
            pub fn shape_texts(font: &[u8], texts: &[&str], setting: &Setting) -> Vec<Shaped> {
                let font = FontRef::new(font).expect("a font");
                let data = ShaperData::new(&font);
                let shaper = data.shaper(&font).build();
                let features = features(setting);
                let mut plans: Vec<(Direction, Script, ShapePlan)> = Vec::new();
                let shape = |text: &&str| {
                    let mut buffer = UnicodeBuffer::new();
                    fill(&mut buffer, text, setting);
                    let number = text.chars().fold(0, |sum: u32, c| sum.wrapping_mul(31) ^ c as u32);
                    if setting.made_up.is_some() {
                        vary(number, &mut buffer);
                    }
                    let (direction, script) = (buffer.direction(), buffer.script());
                    if !plans.iter().any(|plan| plan.0 == direction && plan.1 == script) {
                        plans.push((
                            direction,
                            script,
                            ShapePlan::new(&shaper, direction, Some(script), None, &features),
                        ));
                    }
                    let plan = plans.iter().find(|plan| plan.0 == direction && plan.1 == script).map(|plan| &plan.2);
                    let mut font = MadeUp { text: number, first: setting.made_up.unwrap_or(0) };
                    let mut options = ShapeOptions::new().plan(plan).features(&features).scale(setting.scale);
                    if setting.made_up.is_some() {
                        options = options.font_funcs(Some(&mut font));
                    }
                    caught(|| glyphs(&shaper.shape(buffer, options)))
                };
                texts.iter().map(shape).collect()
            }

            /// The shaped text with the names of its glyphs, as `hb-shape --show-flags` writes it.
            pub fn told(font: &[u8], text: &str, setting: &Setting) -> String {
                let font = FontRef::new(font).expect("a font");
                let data = ShaperData::new(&font);
                let shaper = data.shaper(&font).build();
                let features = features(setting);
                let mut buffer = UnicodeBuffer::new();
                fill(&mut buffer, text, setting);
                let options = ShapeOptions::new().features(&features).scale(setting.scale);
                serialized(|| shaper.shape(buffer, options).serialize(&shaper, SerializeFlags::GLYPH_FLAGS))
            }

            /// Shapes each text so many times into one buffer, and gives the sum of the glyphs'
            /// numbers.
            pub fn shape_times(font: &[u8], texts: &[&str], times: usize) -> u64 {
                let font = FontRef::new(font).expect("a font");
                let data = ShaperData::new(&font);
                let shaper = data.shaper(&font).build();
                let setting = Setting::default();
                let mut plans: Vec<(Direction, Script, ShapePlan)> = Vec::new();
                let mut buffer = UnicodeBuffer::new();
                let mut sum = 0;
                for text in (0..times).flat_map(|_| texts) {
                    buffer.push_str(text);
                    buffer.set_cluster_level(LEVELS[setting.level]);
                    buffer.guess_segment_properties();
                    let (direction, script) = (buffer.direction(), buffer.script());
                    if !plans.iter().any(|plan| plan.0 == direction && plan.1 == script) {
                        plans.push((direction, script, ShapePlan::new(&shaper, direction, Some(script), None, &[])));
                    }
                    let plan = plans.iter().find(|plan| plan.0 == direction && plan.1 == script).map(|plan| &plan.2);
                    let glyphs = shaper.shape(buffer, ShapeOptions::new().plan(plan));
                    sum += glyphs.glyph_infos().iter().map(|glyph| u64::from(glyph.glyph_id)).sum::<u64>();
                    buffer = glyphs.clear();
                }
                sum
            }

            /// The same with a new buffer and a new plan for each text, as usvg calls.
            pub fn shape_times_anew(font: &[u8], texts: &[&str], times: usize) -> u64 {
                let font = FontRef::new(font).expect("a font");
                let data = ShaperData::new(&font);
                let shaper = data.shaper(&font).build();
                let mut sum = 0;
                for text in (0..times).flat_map(|_| texts) {
                    let mut buffer = UnicodeBuffer::new();
                    buffer.push_str(text);
                    buffer.guess_segment_properties();
                    let glyphs = shaper.shape(buffer, ShapeOptions::new());
                    sum += glyphs.glyph_infos().iter().map(|glyph| u64::from(glyph.glyph_id)).sum::<u64>();
                }
                sum
            }
        }
    };
}
