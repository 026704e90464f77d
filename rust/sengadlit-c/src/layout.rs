//! The structs of the header that hold numbers alone, and the layout of all of them. Glyphs, positions and spans are the
//! crate's own structs, whose layout is C's and whose fields may hold any number.
use crate::numbers::tag;
#[cfg(feature = "opentype")]
use crate::numbers::tag_number;
use core::ffi::{c_int, c_uint};
use core::mem::size_of;
use sengadlit::ot_shape_plan::{StageLookup, UserFeature as Wanted};

/// `sengadlit_bool_t`: 0 is false.
pub type Bool = c_int;

/// `sengadlit_buffer_properties_t`.
#[repr(C)]
#[derive(Clone, Copy)]
pub struct Properties {
    pub size: usize,
    pub script: u32,
    pub direction: u32,
    pub cluster_level: u32,
    pub flags: u32,
    pub max_length: u32,
}

/// `sengadlit_shaper_constants_t`.
#[repr(C)]
#[derive(Clone, Copy)]
pub struct Constants {
    pub size: usize,
    pub hooks: u32,
    pub gpos_tag: u32,
    pub normalization_preference: u32,
    pub zero_width_marks: u32,
    pub fallback_position: Bool,
}

/// `sengadlit_feature_t`.
#[repr(C)]
#[derive(Clone, Copy)]
pub struct Feature {
    pub tag: u32,
    pub mask: u32,
    pub stage: u32,
}

/// `sengadlit_stage_t`.
#[repr(C)]
#[derive(Clone, Copy)]
pub struct Stage {
    pub start: u32,
    pub end: u32,
}

/// `sengadlit_plan_data_t`.
#[repr(C)]
#[derive(Clone, Copy, Default)]
pub struct Data {
    pub size: usize,
    pub shaper: u32,
    pub joins: Bool,
    pub has_stch: Bool,
    pub rphf_mask: u32,
    pub masks: [u32; 9],
}

/// `sengadlit_unaffected_t`.
#[repr(C)]
pub struct Unaffected {
    pub front: c_uint,
    pub back: c_uint,
}

/// `sengadlit_user_feature_t`.
#[repr(C)]
#[derive(Clone, Copy)]
pub struct UserFeature {
    pub tag: u32,
    pub value: u32,
    pub start: u32,
    pub end: u32,
}

#[cfg(feature = "opentype")]
impl From<Wanted> for UserFeature {
    fn from(wanted: Wanted) -> Self {
        UserFeature {
            tag: tag_number(wanted.tag),
            value: wanted.value,
            start: wanted.start,
            end: wanted.end,
        }
    }
}

impl UserFeature {
    /// The same of the crate's.
    pub fn wanted(&self) -> Wanted {
        Wanted {
            tag: tag(self.tag),
            value: self.value,
            start: self.start,
            end: self.end,
        }
    }
}

/// `sengadlit_glyph_extents_t`.
#[cfg(feature = "opentype")]
#[repr(C)]
pub struct GlyphExtents {
    pub x_bearing: i32,
    pub y_bearing: i32,
    pub width: i32,
    pub height: i32,
}

/// `sengadlit_lookup_t`.
#[repr(C)]
pub struct Lookup {
    pub index: u32,
    pub mask: u32,
    pub auto_zwnj: Bool,
    pub auto_zwj: Bool,
    pub random: Bool,
    pub per_syllable: Bool,
}

impl From<StageLookup> for Lookup {
    fn from(lookup: StageLookup) -> Self {
        Lookup {
            index: lookup.index.into(),
            mask: lookup.mask,
            auto_zwnj: lookup.auto_zwnj.into(),
            auto_zwj: lookup.auto_zwj.into(),
            random: lookup.random.into(),
            per_syllable: lookup.per_syllable.into(),
        }
    }
}

const _: () = assert!(size_of::<c_uint>() == 4 && size_of::<Bool>() == 4);

#[cfg(test)]
mod tests {
    use super::*;
    use crate::border::callbacks::{Font, FontFuncs, Map, MapFuncs, Tables, TablesFuncs};
    #[cfg(feature = "opentype")]
    use crate::border::faces::ShapeOptions;
    use crate::border::plans::PlanInput;
    use crate::border::shaping::{
        LayoutTableInput, Lookups, LookupsFuncs, ShapePlanInput, TableFeatureInput,
    };
    use crate::status::Error;
    use core::fmt::Write;
    use core::mem::offset_of;
    use sengadlit::buffer::{GlyphInfo, GlyphPosition, Span};

    /// The size of each struct and the offset of each field, one line each, as `tests/layout.c` prints them.
    fn layouts() -> String {
        let mut lines = String::new();
        macro_rules! layout {
        ($name:literal, $c:ty: $($field:ident $(.$inner:ident)? $(= $as:literal)?),*) => {
            writeln!(lines, "{} {}", $name, size_of::<$c>()).unwrap();
            $(
                let name = [$($as,)? stringify!($field)][0];
                writeln!(lines, "  {} {}", name, offset_of!($c, $field $(.$inner)?)).unwrap();
            )*
        };
    }
        layout!("error", Error: status, argument, index);
        layout!("shaper_constants", Constants: size, hooks, gpos_tag, normalization_preference, zero_width_marks, fallback_position);
        layout!("font_funcs", FontFuncs: size, nominal_glyph, glyph_h_advance, would_substitute, has_feature);
        layout!("tables_funcs", TablesFuncs: size, joining_type, general_category, indic_categories, use_category, compose, decompose);
        layout!("map_funcs", MapFuncs: size, add_feature, add_gsub_pause);
        layout!("font", Font: funcs, user_data);
        layout!("tables", Tables: funcs, user_data);
        layout!("map", Map: funcs, user_data);
        layout!("feature", Feature: tag, mask, stage);
        layout!("stage", Stage: start, end);
        layout!("plan_input", PlanInput: size, script, chosen_script, found_script, has_gpos_mark, centres_stretch, sound_breaks,
        global_mask, searches_medials, features, features_length, stages, stages_length, lookups, lookups_length, kept.user_data = "user_data", kept.destroy = "destroy",
        new_spec_zero_context);
        layout!("plan_data", Data: size, shaper, joins, has_stch, rphf_mask, masks);
        layout!("glyph_info", GlyphInfo: glyph_id, mask, cluster, glyph_props, lig_props, syllable, unicode_props, category,
        auxiliary);
        layout!("glyph_position", GlyphPosition: x_advance, y_advance, x_offset, y_offset, var);
        layout!("buffer_properties", Properties: size, script, direction, cluster_level, flags, max_length);
        layout!("span", Span: len = "length", kind);
        layout!("table_feature", TableFeatureInput: tag, lookups_length, lookups);
        layout!("layout_table", LayoutTableInput: has_table, chosen_script, found_script, features_length, features, anywhere,
        anywhere_length, required);
        layout!("user_feature", UserFeature: tag, value, start, end);
        layout!("shape_plan_input", ShapePlanInput: size, script, direction, gsub, gpos, user_features, user_features_length,
        units_per_em, centres_stretch, sound_breaks, searches_medials, reserved, new_spec_zero_context);
        layout!("lookup", Lookup: index, mask, auto_zwnj, auto_zwj, random, per_syllable);
        layout!("lookups_funcs", LookupsFuncs: size, variation_glyph, glyph_props, substitute, is_mark, position, finish_positions,
        glyph_v_advance, glyph_v_origin);
        layout!("lookups", Lookups: funcs, user_data);
        layout!("unaffected", Unaffected: front, back);
        #[cfg(feature = "opentype")]
        layout!("shape_options", ShapeOptions<'static>: size, script, direction, language, features, features_length, sound_breaks,
        skips_medials, normalizes_always, invisible_glyph, not_found_glyph, not_found_selector_glyph, font, cache,
        old_spec_zero_context);
        #[cfg(feature = "opentype")]
        layout!("glyph_extents", GlyphExtents: x_bearing, y_bearing, width, height);
        lines
    }

    /// `abi/layout.txt` is what C prints of the header: `checks/c` compares it.
    #[cfg(target_arch = "x86_64")]
    #[test]
    fn layouts_are_the_recorded_ones() {
        assert_eq!(layouts(), include_str!("../abi/layout.txt"));
    }
}
