/* HarfBuzz's nine files, their shapers renamed. Included by sengadlit.cc alone. */

/* ---- HarfBuzz's own shapers ---- */

/* A feature or a pause that a shaper requests of the map. */
struct request_t
{
  hb_tag_t tag; /* 0 for a pause */
  unsigned flags;
  unsigned value;
  hb_ot_map_t::pause_func_t pause;
};

/* Stands for the map builder in HarfBuzz's own shapers, and lists what they request. */
struct listing_map_t
{
  void add_feature (hb_tag_t tag, hb_ot_map_feature_flags_t flags = F_NONE, unsigned value = 1)
  { requests.push (request_t {tag, flags, value, nullptr}); }
  void add_feature (const hb_ot_map_feature_t &feature)
  { add_feature (feature.tag, feature.flags); }
  void enable_feature (hb_tag_t tag, hb_ot_map_feature_flags_t flags = F_NONE, unsigned value = 1)
  { add_feature (tag, F_GLOBAL | flags, value); }
  void disable_feature (hb_tag_t tag)
  { add_feature (tag, F_GLOBAL, 0); }
  void add_gsub_pause (hb_ot_map_t::pause_func_t pause)
  { requests.push (request_t {0, 0, 0, pause}); }
  bool has_feature (hb_tag_t tag)
  { return builder->has_feature (tag); }

  hb_ot_map_builder_t *builder;
  hb_vector_t<request_t> requests;
};

struct listing_planner_t
{
  hb_segment_properties_t props;
  listing_map_t map;
};

/* A shaper of HarfBuzz's: the fields of hb_ot_shaper_t, but for lists that it makes in a listing planner. */
struct stock_shaper_t
{
  void (*collect_features) (listing_planner_t *planner);
  void (*override_features) (listing_planner_t *planner);
  decltype (hb_ot_shaper_t::data_create) data_create;
  decltype (hb_ot_shaper_t::data_destroy) data_destroy;
  decltype (hb_ot_shaper_t::preprocess_text) preprocess_text;
  decltype (hb_ot_shaper_t::postprocess_glyphs) postprocess_glyphs;
  decltype (hb_ot_shaper_t::decompose) decompose;
  decltype (hb_ot_shaper_t::compose) compose;
  decltype (hb_ot_shaper_t::setup_masks) setup_masks;
  decltype (hb_ot_shaper_t::reorder_marks) reorder_marks;
  decltype (hb_ot_shaper_t::gpos_tag) gpos_tag;
  decltype (hb_ot_shaper_t::normalization_preference) normalization_preference;
  decltype (hb_ot_shaper_t::zero_width_marks) zero_width_marks;
  decltype (hb_ot_shaper_t::fallback_position) fallback_position;
};

#define hb_ot_shape_planner_t listing_planner_t
#define hb_ot_map_builder_t listing_map_t
#define hb_ot_shaper_t stock_shaper_t
#define _hb_ot_shaper_arabic stock_arabic
#define _hb_ot_shaper_hangul stock_hangul
#define _hb_ot_shaper_hebrew stock_hebrew
#define _hb_ot_shaper_indic stock_indic
#define _hb_ot_shaper_khmer stock_khmer
#define _hb_ot_shaper_myanmar stock_myanmar
#define _hb_ot_shaper_myanmar_zawgyi stock_myanmar_zawgyi
#define _hb_ot_shaper_thai stock_thai
#define _hb_ot_shaper_use stock_use
#include "nine.cc" /* made by `build`: the includes of the nine files */
#undef hb_ot_shape_planner_t
#undef hb_ot_map_builder_t
#undef hb_ot_shaper_t
#undef _hb_ot_shaper_arabic
#undef _hb_ot_shaper_hangul
#undef _hb_ot_shaper_hebrew
#undef _hb_ot_shaper_indic
#undef _hb_ot_shaper_khmer
#undef _hb_ot_shaper_myanmar
#undef _hb_ot_shaper_myanmar_zawgyi
#undef _hb_ot_shaper_thai
#undef _hb_ot_shaper_use

/* By enum sengadlit_shaper_t. */
static const stock_shaper_t *const stock_shapers[] =
{
  &stock_arabic,
  &stock_hangul,
  &stock_hebrew,
  &stock_indic,
  &stock_khmer,
  &stock_myanmar,
  &stock_myanmar_zawgyi,
  &stock_thai,
  &stock_use,
};
