//! The names that rustybuzz has for the types of this crate.

pub use crate::buffer::{
    Buffer as hb_buffer_t, GeneralCategory as hb_unicode_general_category_t,
    GlyphInfo as hb_glyph_info_t, Tag as hb_tag_t,
};
pub use crate::font::Font as hb_font_t;
pub use crate::map::{FeatureMap as feature_map_t, Map as hb_ot_map_t};
pub use crate::plan::{
    ArabicPlan as arabic_shape_plan_t, HangulPlan as hangul_shape_plan_t,
    IndicPlan as indic_shape_plan_t, JoiningType as hb_arabic_joining_type_t,
    KhmerPlan as khmer_shape_plan_t, Plan as hb_ot_shape_plan_t, Planner as hb_ot_shape_planner_t,
    UniversalPlan as use_shape_plan_t,
};
pub use crate::shaper::Shaper as hb_ot_shaper_t;
