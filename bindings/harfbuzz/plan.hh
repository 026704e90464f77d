/* The plan, the callbacks, and the lists of features. Included by sengadlit.cc alone. */

#ifdef SENGADLIT_REMEMBERS
/* What the face returned for up to three glyphs. */
struct remembered_t { uint64_t question; sengadlit_bool_t answer; };
#endif

/* What is kept with a plan between calls: a buffer of the library's, and what it was told last. */
struct work_t
{
  ~work_t () { sengadlit_buffer_destroy (buffer); }

  sengadlit_buffer_t *buffer = sengadlit_buffer_create ();
  sengadlit_buffer_properties_t properties = SENGADLIT_INIT (sengadlit_buffer_properties_t);
  hb_buffer_t *text = nullptr; /* Whose properties those are. */
  const hb_glyph_info_t *glyphs = nullptr; /* Those that are lent; null where none are. */
  unsigned length = 0, allocated = 0;
  unsigned state = 0;
  bool has_context = false;
  hb_font_t *virama_font = nullptr; /* HarfBuzz's own keeps the glyph of the virama with the plan. */
  unsigned virama_serial = 0;
  hb_codepoint_t virama = 0, virama_glyph = 0;
#ifdef SENGADLIT_REMEMBERS
  remembered_t remembered[512] = {};
#endif
};

/* Where something is kept that one caller at a time takes out: a second one makes its own. */
template <typename T>
struct slot_t
{
  ~slot_t () { delete_kept (kept.get_acquire ()); }

  T *take () const
  {
    T *p = kept.get_acquire ();
    if (likely (p && kept.cmpexch (p, nullptr))) return p;
    p = (T *) hb_malloc (sizeof (T));
    return likely (p) ? new (p) T () : nullptr;
  }
  void put (T *p) const
  {
    if (unlikely (!kept.cmpexch (nullptr, p))) delete_kept (p);
  }

  private:
  static void delete_kept (T *p)
  {
    if (!p) return;
    p->~T ();
    hb_free (p);
  }
  mutable atomic_pointer_t<T> kept;
};

/* The lookups of a stage. */
struct stage_t { const hb_ot_map_t::lookup_map_t *lookups; unsigned length; };

/* What our shapers keep in a plan of HarfBuzz's. */
struct proved_plan_t
{
  ~proved_plan_t () { sengadlit_plan_destroy (plan); }

  sengadlit_plan_t *plan;
  sengadlit_plan_data_t data = SENGADLIT_INIT (sengadlit_plan_data_t);
  unsigned shaper;
  bool zero_context; /* As HarfBuzz queries whether a lookup of Indic would apply. */
  slot_t<work_t> work;
  hb_vector_t<stage_t> asked; /* The lookups of the stages that Indic queries. */

  /* The plan as HarfBuzz's own functions see it, with their data. A copy that owns nothing. */
  const hb_ot_shape_plan_t *stock_plan () const { return (const hb_ot_shape_plan_t *) stock; }
  void *stock_data;
  alignas (hb_ot_shape_plan_t) char stock[sizeof (hb_ot_shape_plan_t)];
};

static const proved_plan_t *
proved_plan (const hb_ot_shape_plan_t *plan)
{
  return (const proved_plan_t *) plan->data;
}

/* ---- Callbacks ---- */

/* What is queried during a call. */
struct asked_t
{
  hb_font_t *font;
  const proved_plan_t *proved;
  work_t *work;
};

/* The library counts in one direction: where the font's scale is negative, so is what it is told. */
static int
sign_of (const hb_font_t *font)
{
  return font->x_scale < 0 ? -1 : +1;
}

static sengadlit_bool_t
nominal_glyph (void *user_data, uint32_t unicode, uint32_t *glyph)
{
  return ((asked_t *) user_data)->font->get_nominal_glyph (unicode, glyph);
}

/* The pauses of Indic request the virama's glyph each time. */
static sengadlit_bool_t
nominal_glyph_indic (void *user_data, uint32_t unicode, uint32_t *glyph)
{
  asked_t *asked = (asked_t *) user_data;
  work_t *work = asked->work;
  if (likely (work->virama == unicode && work->virama_font == asked->font && work->virama_serial == asked->font->serial))
  {
    *glyph = work->virama_glyph;
    return true;
  }
  if (!asked->font->get_nominal_glyph (unicode, glyph)) return false;
  if (unicode != 0x25CCu)
  {
    work->virama = unicode;
    work->virama_font = asked->font;
    work->virama_serial = asked->font->serial;
    work->virama_glyph = *glyph;
  }
  return true;
}

static int32_t
glyph_h_advance (void *user_data, uint32_t glyph)
{
  hb_font_t *font = ((asked_t *) user_data)->font;
  return sign_of (font) * font->get_glyph_h_advance (glyph);
}

SENGADLIT_APART static sengadlit_bool_t
ask_face_of_all (const asked_t *asked, const stage_t &stage, const uint32_t *glyphs, unsigned length)
{
  for (unsigned i = 0; i < stage.length; i++)
    if (hb_ot_layout_lookup_would_substitute (asked->font->face, stage.lookups[i].index, glyphs, length, asked->proved->zero_context))
      return true;
  return false;
}

/* Most stages have one lookup, and then nothing is left to do after the call. */
static inline sengadlit_bool_t
ask_face (const asked_t *asked, unsigned number, const uint32_t *glyphs, unsigned length)
{
  const stage_t &stage = asked->proved->asked.arrayZ[number];
  if (unlikely (stage.length != 1)) return ask_face_of_all (asked, stage, glyphs, length);
  return hb_ot_layout_lookup_would_substitute (asked->font->face, stage.lookups->index, glyphs, length, asked->proved->zero_context);
}

/* The library is told of one lookup per stage, by the stage's number: the face is queried about all of the stage. Glyphs have
   16 bits here. */
static sengadlit_bool_t
would_substitute (void *user_data, const uint16_t *lookups, unsigned lookups_length HB_UNUSED, const uint32_t *glyphs, unsigned length,
		  sengadlit_bool_t zero_context HB_UNUSED)
{
  const asked_t *asked = (const asked_t *) user_data;
#ifdef SENGADLIT_REMEMBERS
  uint64_t question = ((uint64_t) lookups[0] + 1) << 50 | (uint64_t) length << 48 | (uint64_t) glyphs[0] << 16 |
		      (length > 1 ? glyphs[1] : 0) | (uint64_t) (length > 2 ? glyphs[2] : 0) << 32;
  remembered_t &kept = asked->work->remembered[(question ^ question >> 13 ^ question >> 44) % 512];
  if (unlikely (kept.question != question)) kept = {question, ask_face (asked, lookups[0], glyphs, length)};
  return kept.answer;
#else
  return ask_face (asked, lookups[0], glyphs, length);
#endif
}

static sengadlit_bool_t
offers_feature (void *user_data, uint32_t tag)
{
  hb_ot_map_builder_t *builder = (hb_ot_map_builder_t *) user_data;
  return builder && builder->has_feature (tag);
}

static const sengadlit_font_funcs_t font_funcs = {sizeof font_funcs, nominal_glyph, glyph_h_advance, would_substitute, offers_feature};
static const sengadlit_font_funcs_t font_funcs_indic = {sizeof font_funcs_indic, nominal_glyph_indic, glyph_h_advance, would_substitute, offers_feature};

static uint8_t ask_joining_type (void *, uint32_t u) { return joining_type (u); }
static uint8_t ask_general_category (void *unicode, uint32_t u) { return ((hb_unicode_funcs_t *) unicode)->general_category (u); }
static uint16_t ask_indic_categories (void *, uint32_t u) { return hb_indic_get_categories (u); }
static uint8_t ask_use_category (void *, uint32_t u) { return hb_use_get_category (u); }
static sengadlit_bool_t ask_compose (void *unicode, uint32_t a, uint32_t b, uint32_t *ab) { return ((hb_unicode_funcs_t *) unicode)->compose (a, b, ab); }
static sengadlit_bool_t ask_decompose (void *unicode, uint32_t ab, uint32_t *a, uint32_t *b) { return ((hb_unicode_funcs_t *) unicode)->decompose (ab, a, b); }

static const sengadlit_tables_funcs_t tables_funcs =
{sizeof tables_funcs, ask_joining_type, ask_general_category, ask_indic_categories, ask_use_category, ask_compose, ask_decompose};

/* ---- Lists of features ---- */

/* A feature or a pause, as a shaper requests it. */
struct proved_request_t { uint32_t tag, flags, value, pause; };

typedef hb_vector_t<proved_request_t> requests_t;

static void
list_feature (void *user_data, uint32_t tag, uint32_t flags, uint32_t value)
{
  ((requests_t *) user_data)->push (proved_request_t {tag, flags, value, 0});
}

static void
list_pause (void *user_data, sengadlit_pause_t pause)
{
  ((requests_t *) user_data)->push (proved_request_t {0, 0, 0, pause == SENGADLIT_PAUSE_NONE ? SENGADLIT_NONE : (uint32_t) pause});
}

static const sengadlit_map_funcs_t listing_funcs = {sizeof listing_funcs, list_feature, list_pause};

/* What a shaper requests of the map, in order; with `builder`, the font is queried through it. */
static void
list_requests (unsigned shaper, hb_script_t script, bool override, hb_ot_map_builder_t *builder, requests_t &requests)
{
  sengadlit_font_t font = {&font_funcs, builder};
  sengadlit_map_t map = {&listing_funcs, &requests};
  (void) (override ? sengadlit_override_features ((sengadlit_shaper_t) shaper, script, &map, nullptr) :
   sengadlit_collect_features ((sengadlit_shaper_t) shaper, script, &font, &map, nullptr));
}

static hb_ot_map_t::pause_func_t pause_function (unsigned number);

/* Makes the requests of the map. */
static void
make_requests (unsigned shaper, bool override, hb_ot_shape_planner_t *planner)
{
  hb_ot_map_builder_t *map = &planner->map;
  requests_t requests;
  list_requests (shaper, planner->props.script, override, map, requests);
  for (const proved_request_t &request : requests)
  {
    if (shaper == SENGADLIT_SHAPER_ARABIC && request.tag == HB_TAG ('r','l','i','g'))
      map->add_gsub_pause (free_joining_byte);
    if (request.tag)
      map->add_feature (request.tag, (hb_ot_map_feature_flags_t) request.flags, request.value);
    else
      map->add_gsub_pause (pause_function (request.pause));
  }
}

/* ---- Plan data ---- */

/* The features that the shaper requested, as the map has them. */
static void
add_features (const hb_ot_shape_plan_t *plan, unsigned shaper, bool override, hb_vector_t<sengadlit_feature_t> &features)
{
  requests_t requests;
  list_requests (shaper, plan->props.script, override, nullptr, requests);
  for (const proved_request_t &request : requests)
  {
    unsigned stage = request.tag ? plan->map.get_feature_stage (0, request.tag) : UINT_MAX;
    if (stage != UINT_MAX)
      features.push (sengadlit_feature_t {request.tag, plan->map.get_1_mask (request.tag), stage});
  }
}

/* The stages that features name, each with its number for a lookup. */
static void
add_stages (const hb_ot_map_t &map, const hb_vector_t<sengadlit_feature_t> &features, proved_plan_t *proved,
	    hb_vector_t<sengadlit_stage_t> &stages, hb_vector_t<uint16_t> &lookups)
{
  for (const sengadlit_feature_t &feature : features)
  {
    if (feature.stage >= stages.length && unlikely (!stages.resize (feature.stage + 1))) return;
    if (stages[feature.stage].end) continue;
    stages[feature.stage].start = lookups.length;
    if (map.get_stage_lookups (0, feature.stage).length)
    {
      lookups.push (proved->asked.length);
      hb_array_t<const hb_ot_map_t::lookup_map_t> list = map.get_stage_lookups (0, feature.stage);
      proved->asked.push (stage_t {list.arrayZ, list.length});
    }
    stages[feature.stage].end = lookups.length;
  }
}

/* HarfBuzz's own functions that run in any case: the fallback shaper of Arabic. */
static bool
needs_stock_data (unsigned shaper)
{
#ifdef SENGADLIT_SHADOW
  return true;
#else
  return shaper == SENGADLIT_SHAPER_ARABIC;
#endif
}

/* Keeps a copy of the plan for HarfBuzz's own functions, with the data that they made. */
static void
set_stock_plan (const hb_ot_shape_plan_t *plan, proved_plan_t *proved)
{
  memcpy (proved->stock, (const void *) plan, sizeof (*plan));
  proved->stock_data = nullptr;
  auto create = stock_shapers[proved->shaper]->data_create;
  if (create && needs_stock_data (proved->shaper))
    proved->stock_data = create (plan);
  ((hb_ot_shape_plan_t *) proved->stock)->data = proved->stock_data;
}

static void
destroy_proved_plan (void *data)
{
  proved_plan_t *proved = (proved_plan_t *) data;
  if (proved->stock_data)
    stock_shapers[proved->shaper]->data_destroy (proved->stock_data);
  proved->~proved_plan_t ();
  hb_free (proved);
}

static void *
create_proved_plan (unsigned shaper, const hb_ot_shape_plan_t *plan)
{
  void *room = hb_malloc (sizeof (proved_plan_t));
  if (unlikely (!room)) return nullptr;
  proved_plan_t *proved = new (room) proved_plan_t ();
  hb_vector_t<sengadlit_feature_t> features;
  hb_vector_t<sengadlit_stage_t> stages;
  hb_vector_t<uint16_t> lookups;
  proved->shaper = shaper;
  add_features (plan, shaper, false, features);
  add_features (plan, shaper, true, features);
  if (shaper == SENGADLIT_SHAPER_INDIC)
  {
    bool is_old_spec = (plan->map.chosen_script[0] & 0x000000FFu) != '2';
    proved->zero_context = !is_old_spec && plan->props.script != HB_SCRIPT_MALAYALAM;
    add_stages (plan->map, features, proved, stages, lookups);
  }
  set_stock_plan (plan, proved);
  sengadlit_plan_input_t input = SENGADLIT_INIT (sengadlit_plan_input_t);
  input.script = plan->props.script;
  input.chosen_script = plan->map.chosen_script[0];
  input.found_script = plan->map.found_script[0];
  input.has_gpos_mark = plan->has_gpos_mark;
  input.global_mask = plan->map.get_global_mask ();
  input.searches_medials = true;
#ifdef SENGADLIT_SOUND
  input.sound_breaks = true;
#endif
  input.features = features.arrayZ;
  input.features_length = features.length;
  input.stages = stages.arrayZ;
  input.stages_length = stages.length;
  input.lookups = lookups.arrayZ;
  input.lookups_length = lookups.length;
  proved->plan = sengadlit_plan_create ((sengadlit_shaper_t) shaper, &input, nullptr);
  if (likely (proved->plan))
  {
    sengadlit_plan_get_data (proved->plan, &proved->data);
    return proved;
  }
  destroy_proved_plan (proved);
  return nullptr;
}
