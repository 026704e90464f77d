/* Both hooks on each call: HarfBuzz's own runs first, the buffer is put back, ours runs, and every field is compared.
   What ours made stays. Included by sengadlit.cc alone, with SENGADLIT_SHADOW.

   When the program ends, what was counted is added to the file that the environment names in SENGADLIT_SHADOW, a line
   for each shaper, hook and reason: `count SHAPER HOOK REASON CALLS`, where the reason `same` is none; and each
   difference without a known reason, up to a few, in lines that begin with `#`. */

#include <stdio.h>
#include <stdlib.h>

/* ---- Reasons ---- */

enum reason_t
{
  SAME,
  ANOTHER_LIST,    /* Arabic: HarfBuzz has a pause that frees a byte, and 6.0.0 requests rclt too */
  LEVEL,           /* level Characters: HarfBuzz's merges flag what they would merge */
  JOINING_FLAGS,   /* 6.0.0 flags fewer places as unsafe to concatenate */
  STRETCH,         /* 6.0.0 begins a stretch at 0, and leaves tiles their advance */
  LONG_STRETCH,    /* 12 sets no flags on a longer stretch */
  SYMBOL_CLUSTERS, /* HarfBuzz reorders the universal shaper's kind 5 */
  CIRCLES,         /* HarfBuzz opens no circle for a broken syllable behind another one of the same byte */
  UNKNOWN,
  REASONS
};

static const char *const reason_names[REASONS] =
{
  "same", "another-list", "level-characters", "joining-flags", "stretch", "long-stretch", "symbol-clusters", "dotted-circles", "UNKNOWN",
};

/* ---- Counts ---- */

static const char *const shaper_names[] =
{ "arabic", "hangul", "hebrew", "indic", "khmer", "myanmar", "zawgyi", "thai", "universal" };

enum hook_t
{
  COLLECT_FEATURES = ARRAY_LENGTH_CONST (pauses),
  OVERRIDE_FEATURES,
  CREATE_DATA,
  PREPROCESS_TEXT,
  POSTPROCESS_GLYPHS,
  DECOMPOSE,
  COMPOSE,
  SETUP_MASKS,
  REORDER_MARKS,
  HOOKS_LENGTH
};

/* The pauses by their numbers, and then the hooks. */
static const char *const hook_names[HOOKS_LENGTH] =
{
  "setup_syllables_indic", "setup_syllables_khmer", "setup_syllables_myanmar", "setup_syllables_use", "initial_reordering",
  "reorder_khmer", "reorder_myanmar", "reorder_use", "final_reordering", "record_stch", "record_rphf", "record_pref",
  "syllabic_clear_var", "clear_substitution_flags", "arabic_fallback_shape",
  "collect_features", "override_features", "create_data", "preprocess_text", "postprocess_glyphs", "decompose", "compose",
  "setup_masks", "reorder_marks",
};

struct tally_t
{
  ~tally_t ()
  {
    const char *path = getenv ("SENGADLIT_SHADOW");
    FILE *file = path ? fopen (path, "a") : nullptr;
    if (!file) return;
    for (unsigned shaper = 0; shaper < ARRAY_LENGTH (shaper_names); shaper++)
      for (unsigned hook = 0; hook < HOOKS_LENGTH; hook++)
	for (unsigned reason = 0; reason < REASONS; reason++)
	  if (counts[shaper][hook][reason])
	    fprintf (file, "count %s %s %s %lu\n", shaper_names[shaper], hook_names[hook], reason_names[reason],
		     counts[shaper][hook][reason]);
    if (notes.length) fwrite (notes.arrayZ, 1, notes.length, file);
    fclose (file);
  }

  /* Keeps a note for the end. */
  void note (const char *text)
  {
    while (*text) notes.push (*text++);
  }

  unsigned long counts[ARRAY_LENGTH_CONST (shaper_names)][HOOKS_LENGTH][REASONS] = {};
  unsigned noted = 0;
  hb_vector_t<char> notes;
};

static tally_t tally;

/* ---- What a hook made ---- */

struct snapshot_t
{
  explicit snapshot_t (const hb_buffer_t *buffer) : state (*buffer)
  {
    infos.resize (buffer->len);
    positions.resize (buffer->len);
    if (buffer->len) memcpy (infos.arrayZ, buffer->info, buffer->len * sizeof (infos[0]));
    if (buffer->len) memcpy (positions.arrayZ, buffer->pos, buffer->len * sizeof (positions[0]));
  }

  void put_back (hb_buffer_t *buffer) const
  {
    buffer->successful = state.successful;
    buffer->serial = state.serial;
    buffer->len = state.len;
    buffer->allocated_var_bits = state.allocated_var_bits;
    buffer->scratch_flags = state.scratch_flags;
    buffer->have_positions = state.have_positions;
    if (infos.length) memcpy (buffer->info, infos.arrayZ, infos.length * sizeof (infos[0]));
    if (infos.length && state.have_positions) memcpy (buffer->pos, positions.arrayZ, infos.length * sizeof (positions[0]));
  }

  struct state_t
  {
    explicit state_t (const hb_buffer_t &buffer)
      : successful (buffer.successful), have_positions (buffer.have_positions), serial (buffer.serial), len (buffer.len),
	allocated_var_bits (buffer.allocated_var_bits), scratch_flags (buffer.scratch_flags) {}
    bool successful, have_positions;
    uint8_t serial;
    unsigned len;
    uint8_t allocated_var_bits;
    hb_buffer_scratch_flags_t scratch_flags;
  } state;
  hb_vector_t<hb_glyph_info_t> infos;
  hb_vector_t<hb_glyph_position_t> positions;
};

/* ---- A comparison ---- */

enum fields_that_differ_t
{
  LENGTH = 1, CODEPOINT = 2, CLUSTER = 4, MASK = 8, FLAGS = 16, CONCAT_FLAG = 32, SYLLABLE = 64, BYTES = 128, X_POSITION = 256,
  Y_POSITION = 512, STATE = 1024, ANSWER = 2048, FLAGGED = 4096
};

static unsigned
compare_bytes (const hb_glyph_info_t &a, const hb_glyph_info_t &b, uint8_t var_bits)
{
  const uint8_t *p = (const uint8_t *) &a.var1, *q = (const uint8_t *) &b.var1;
  unsigned differ = 0;
  for (unsigned i = 0; i < 8; i++)
    if ((var_bits >> i & 1) && p[i] != q[i]) differ |= i == 3 ? SYLLABLE : BYTES;
  return differ;
}

static unsigned
compare_infos (const hb_glyph_info_t &a, const hb_glyph_info_t &b, uint8_t var_bits)
{
  hb_mask_t masks = a.mask ^ b.mask;
  return (a.codepoint != b.codepoint ? CODEPOINT : 0) | (a.cluster != b.cluster ? CLUSTER : 0) |
	 (masks & ~HB_GLYPH_FLAG_DEFINED ? MASK : 0) | (masks & HB_GLYPH_FLAG_UNSAFE_TO_CONCAT ? CONCAT_FLAG : 0) |
	 (masks & HB_GLYPH_FLAG_DEFINED & ~HB_GLYPH_FLAG_UNSAFE_TO_CONCAT ? FLAGS : 0) | compare_bytes (a, b, var_bits);
}

static unsigned
compare_positions (const hb_glyph_position_t &a, const hb_glyph_position_t &b)
{
  return (a.x_offset != b.x_offset || a.x_advance != b.x_advance ? X_POSITION : 0) |
	 (a.y_offset != b.y_offset || a.y_advance != b.y_advance ? Y_POSITION : 0);
}

static hb_mask_t
masks_of (const snapshot_t &text)
{
  hb_mask_t masks = 0;
  for (const hb_glyph_info_t &info : text.infos) masks |= info.mask;
  return masks;
}

static unsigned
compare_states (const snapshot_t &a, const snapshot_t &b)
{
  unsigned flags = a.state.scratch_flags ^ b.state.scratch_flags;
  unsigned differ = flags & ~has_glyph_flags || a.state.successful != b.state.successful ||
		    a.state.allocated_var_bits != b.state.allocated_var_bits ? STATE : 0;
  /* HarfBuzz notes that a glyph may have a flag, we that one has. */
  bool any_has = (masks_of (a) | masks_of (b)) & HB_GLYPH_FLAG_DEFINED;
  return differ | (any_has && flags & has_glyph_flags ? FLAGGED : 0);
}

/* The fields in which two results differ. `first` is the first place that does. */
static unsigned
compare_texts (const snapshot_t &stock, const snapshot_t &proved, uint8_t var_bits, unsigned *first)
{
  unsigned differ = compare_states (stock, proved);
  *first = hb_min (stock.infos.length, proved.infos.length);
  if (stock.infos.length != proved.infos.length) differ |= LENGTH;
  for (unsigned i = hb_min (stock.infos.length, proved.infos.length); i; i--)
  {
    unsigned here = compare_infos (stock.infos[i - 1], proved.infos[i - 1], var_bits);
    if (stock.state.have_positions) here |= compare_positions (stock.positions[i - 1], proved.positions[i - 1]);
    if (here) *first = i - 1;
    differ |= here;
  }
  return differ;
}

/* The end of the syllable that begins at `start`. */
static unsigned
syllable_end (const snapshot_t &text, unsigned start)
{
  unsigned end = start + 1;
  while (end < text.infos.length && text.infos[end].syllable () == text.infos[start].syllable ()) end++;
  return end;
}

static bool
is_symbol_cluster (const snapshot_t &text, unsigned start, unsigned end HB_UNUSED)
{
  return (text.infos[start].syllable () & 0x0F) == use_symbol_cluster;
}

/* Marks the glyphs of the syllables that `excepts` names with 2, and with 1 those that a merge of theirs may reach:
   neighbours of the same cluster. */
static void
mark_excepted (const snapshot_t &text, bool (*excepts) (const snapshot_t &text, unsigned start, unsigned end),
	       hb_vector_t<uint8_t> &marks)
{
  unsigned length = text.infos.length;
  marks.resize (length);
  for (unsigned start = 0, end; start < length; start = end)
  {
    end = syllable_end (text, start);
    for (unsigned i = start; i < end; i++)
      marks[i] = excepts (text, start, end) ? 2 : 0;
  }
  for (unsigned i = 1; i < length; i++)
    if (marks[i - 1] && !marks[i] && text.infos[i].cluster == text.infos[i - 1].cluster) marks[i] = 1;
  for (unsigned i = length; i > 1; i--)
    if (marks[i - 1] && !marks[i - 2] && text.infos[i - 2].cluster == text.infos[i - 1].cluster) marks[i - 2] = 1;
}

/* Whether two results of one length differ in no syllable but those that `excepts` names, and what these merge with. */
static bool
differ_only_in (const snapshot_t &stock, const snapshot_t &proved, uint8_t var_bits,
		bool (*excepts) (const snapshot_t &text, unsigned start, unsigned end))
{
  hb_vector_t<uint8_t> marks;
  if (stock.infos.length != proved.infos.length) return false;
  mark_excepted (proved, excepts, marks);
  for (unsigned i = 0; i < proved.infos.length; i++)
  {
    unsigned differ = compare_infos (stock.infos[i], proved.infos[i], var_bits);
    if (marks[i] == 2) continue;
    if (marks[i] == 1) differ &= ~(CLUSTER | FLAGS | CONCAT_FLAG);
    if (differ) return false;
  }
  return true;
}

/* How many broken syllables HarfBuzz passes over: their byte is that of the last broken one, or 0 for the first. */
static unsigned
circles_left_out (const snapshot_t &text, unsigned broken_kind)
{
  unsigned count = 0, last = 0;
  for (unsigned start = 0; start < text.infos.length; start = syllable_end (text, start))
  {
    unsigned byte = text.infos[start].syllable ();
    if ((byte & 0x0F) != broken_kind) continue;
    if (byte == last) count++;
    last = byte;
  }
  return count;
}

/* The kind of broken syllables in a reordering, as ours have it; none in other hooks. */
static unsigned
broken_kind (unsigned hook)
{
  switch (hook)
  {
    case SENGADLIT_PAUSE_INITIAL_REORDERING: return indic_broken_cluster;
    case SENGADLIT_PAUSE_REORDER_KHMER: return khmer_broken_cluster;
    case SENGADLIT_PAUSE_REORDER_MYANMAR: return 2;
    case SENGADLIT_PAUSE_REORDER_USE: return use_broken_cluster;
    default: return SENGADLIT_NONE;
  }
}

/* ---- A call ---- */

struct shadow_t
{
  shadow_t (unsigned shaper_, unsigned hook_, hb_buffer_t *buffer_)
    : shaper (shaper_), hook (hook_), buffer (buffer_), before (buffer_), stock (buffer_) {}

  /* Keeps what HarfBuzz's own hook made, and puts the buffer back. */
  void turn (bool answer = false)
  {
    stock_answer = answer;
    stock = snapshot_t (buffer);
    before.put_back (buffer);
  }

  /* Compares with what ours made. */
  void close (bool answer = false)
  {
    snapshot_t proved (buffer);
    unsigned first;
    uint8_t var_bits = stock.state.allocated_var_bits;
    if (hook != SENGADLIT_PAUSE_SYLLABIC_CLEAR_VAR) var_bits |= before.state.allocated_var_bits;
    unsigned differ = compare_texts (stock, proved, var_bits, &first) | (answer != stock_answer ? ANSWER : 0);
    reason_t reason = differ ? reason_of (differ, proved, var_bits) : SAME;
    tally.counts[shaper][hook][reason]++;
    if (reason == UNKNOWN) describe (differ, first, proved);
  }

  private:
  reason_t reason_of (unsigned differ, const snapshot_t &proved, uint8_t var_bits) const
  {
    bool is_of_flags = !(differ & ~(FLAGS | CONCAT_FLAG | FLAGGED));
    bool may_be_long = buffer->len > longest_flagged || shaper == SENGADLIT_SHAPER_HANGUL;
    if (is_of_flags && longest_flagged < UINT_MAX && may_be_long) return LONG_STRETCH;
    if (buffer->cluster_level == HB_BUFFER_CLUSTER_LEVEL_CHARACTERS && is_of_flags) return LEVEL;
    if (hook == SETUP_MASKS && buffer->flags & HB_BUFFER_FLAG_PRODUCE_UNSAFE_TO_CONCAT && !(differ & ~(CONCAT_FLAG | FLAGGED)))
      return JOINING_FLAGS;
    if (hook == POSTPROCESS_GLYPHS && differ == X_POSITION) return STRETCH;
    if (hook == SENGADLIT_PAUSE_REORDER_USE && differ_only_in (stock, proved, var_bits, is_symbol_cluster)) return SYMBOL_CLUSTERS;
    if (differ & LENGTH && proved.infos.length == stock.infos.length + circles_left_out (before, broken_kind (hook))) return CIRCLES;
    return UNKNOWN;
  }

  void note_text (const char *name, const snapshot_t &text) const
  {
    char line[128];
    snprintf (line, sizeof (line), "#  %s:", name);
    tally.note (line);
    for (unsigned i = 0; i < text.infos.length; i++)
    {
      const hb_glyph_info_t &info = text.infos[i];
      snprintf (line, sizeof (line), " %04x=%u,%x,%08x,%08x", info.codepoint, info.cluster, info.mask, info.var1.u32, info.var2.u32);
      tally.note (line);
      if (!text.state.have_positions) continue;
      snprintf (line, sizeof (line), "@%d+%d", text.positions[i].x_offset, text.positions[i].x_advance);
      tally.note (line);
    }
    tally.note ("\n");
  }

  void describe (unsigned differ, unsigned first, const snapshot_t &proved) const
  {
    char line[256];
    if (tally.noted++ >= 20 || before.infos.length > 200) return;
    snprintf (line, sizeof (line), "# %s %s: fields %x differ from place %u on; level %d, flags %x, script %c%c%c%c, direction %d\n",
	      shaper_names[shaper], hook_names[hook], differ, first, (int) buffer->cluster_level, (unsigned) buffer->flags,
	      HB_UNTAG (buffer->props.script), (int) buffer->props.direction);
    tally.note (line);
    note_text ("before", before);
    note_text ("stock", stock);
    note_text ("sengadlit", proved);
  }

  unsigned shaper, hook;
  hb_buffer_t *buffer;
  snapshot_t before, stock;
  bool stock_answer = false;
};

/* ---- Lists and data ---- */

static unsigned
pause_number (hb_ot_map_t::pause_func_t stock)
{
  for (unsigned i = 0; i < ARRAY_LENGTH (pauses); i++)
    if (pauses[i].stock == stock) return i;
  return SENGADLIT_NONE;
}

/* Whether HarfBuzz's list has something at this place that ours leaves out: the pause that frees a byte, and rclt. */
static bool
is_left_out (const request_t &request)
{
  return request.pause == deallocate_buffer_var || request.tag == HB_TAG ('r','c','l','t');
}

static bool
same_request (const request_t &stock, const proved_request_t &proved)
{
  if (stock.tag || proved.tag) return stock.tag == proved.tag && stock.flags == proved.flags && stock.value == proved.value;
  return pause_number (stock.pause) == proved.pause;
}

static reason_t
compare_lists (const hb_vector_t<request_t> &stock, const hb_vector_t<proved_request_t> &proved)
{
  bool any_is_left_out = false;
  unsigned place = 0;
  for (const request_t &request : stock)
    if (is_left_out (request))
      any_is_left_out = true;
    else if (place == proved.length || !same_request (request, proved[place++]))
      return UNKNOWN;
  return place < proved.length ? UNKNOWN : any_is_left_out ? ANOTHER_LIST : SAME;
}

static void
shadow_list (unsigned shaper, bool override, hb_ot_shape_planner_t *planner)
{
  listing_planner_t listing = {planner->props, {&planner->map, {}}};
  hb_vector_t<proved_request_t> requests;
  if (override) stock_shapers[shaper]->override_features (&listing);
  else stock_shapers[shaper]->collect_features (&listing);
  list_requests (shaper, planner->props.script, override, &planner->map, requests);
  tally.counts[shaper][override ? OVERRIDE_FEATURES : COLLECT_FEATURES][compare_lists (listing.map.requests, requests)]++;
}

static bool
same_masks (const uint32_t *a, const hb_mask_t *b, unsigned length)
{
  return 0 == memcmp (a, b, length * sizeof (*a));
}

static bool
same_joining (const sengadlit_plan_data_t &data, const arabic_shape_plan_t *stock)
{
  return same_masks (data.masks, stock->mask_array, ARRAY_LENGTH (stock->mask_array)) && data.has_stch == stock->has_stch;
}

static bool
same_data (unsigned shaper, const sengadlit_plan_data_t &data, const void *stock)
{
  switch (shaper)
  {
    case SENGADLIT_SHAPER_ARABIC:
      return same_joining (data, (const arabic_shape_plan_t *) stock);
    case SENGADLIT_SHAPER_HANGUL:
      return same_masks (data.masks, ((const hangul_shape_plan_t *) stock)->mask_array, HANGUL_FEATURE_COUNT);
    case SENGADLIT_SHAPER_KHMER:
      return same_masks (data.masks, ((const khmer_shape_plan_t *) stock)->mask_array, KHMER_NUM_FEATURES);
    case SENGADLIT_SHAPER_UNIVERSAL:
    {
      const use_shape_plan_t *use = (const use_shape_plan_t *) stock;
      return data.rphf_mask == use->rphf_mask && data.joins == !!use->arabic_plan &&
	     (!use->arabic_plan || same_joining (data, use->arabic_plan));
    }
    default:
      return true;
  }
}

/* ---- Hooks ---- */

template <unsigned shaper>
struct shadow_hooks_t
{
  typedef proved_hooks_t<shaper> proved;
  static const stock_shaper_t &stock () { return *stock_shapers[shaper]; }

  static void collect_features (hb_ot_shape_planner_t *planner)
  {
    shadow_list (shaper, false, planner);
    proved::collect_features (planner);
  }

  static void override_features (hb_ot_shape_planner_t *planner)
  {
    shadow_list (shaper, true, planner);
    proved::override_features (planner);
  }

  static void *data_create (const hb_ot_shape_plan_t *plan)
  {
    proved_plan_t *made = (proved_plan_t *) proved::data_create (plan);
    if (made && made->stock_data)
      tally.counts[shaper][CREATE_DATA][same_data (shaper, made->data, made->stock_data) ? SAME : UNKNOWN]++;
    return made;
  }

  static void preprocess_text (const hb_ot_shape_plan_t *plan, hb_buffer_t *buffer, hb_font_t *font)
  {
    shadow_t shadow (shaper, PREPROCESS_TEXT, buffer);
    stock ().preprocess_text (proved_plan (plan)->stock_plan (), buffer, font);
    shadow.turn ();
    proved::preprocess_text (plan, buffer, font);
    shadow.close ();
  }

  static void postprocess_glyphs (const hb_ot_shape_plan_t *plan, hb_buffer_t *buffer, hb_font_t *font)
  {
    shadow_t shadow (shaper, POSTPROCESS_GLYPHS, buffer);
    stock ().postprocess_glyphs (proved_plan (plan)->stock_plan (), buffer, font);
    shadow.turn ();
    proved::postprocess_glyphs (plan, buffer, font);
    shadow.close ();
  }

  static bool decompose (const hb_ot_shape_normalize_context_t *c, hb_codepoint_t ab, hb_codepoint_t *a, hb_codepoint_t *b)
  {
    hb_codepoint_t x = 0, y = 0;
    bool ret = stock ().decompose (c, ab, &x, &y);
    bool is_same = ret == proved::decompose (c, ab, a, b) && (!ret || (*a == x && *b == y));
    tally.counts[shaper][DECOMPOSE][is_same ? SAME : UNKNOWN]++;
    return proved::decompose (c, ab, a, b);
  }

  static bool compose (const hb_ot_shape_normalize_context_t *c, hb_codepoint_t a, hb_codepoint_t b, hb_codepoint_t *ab)
  {
    hb_codepoint_t x = 0;
    bool ret = stock ().compose (c, a, b, &x);
    bool is_same = ret == proved::compose (c, a, b, ab) && (!ret || *ab == x);
    tally.counts[shaper][COMPOSE][is_same ? SAME : UNKNOWN]++;
    return proved::compose (c, a, b, ab);
  }

  static void setup_masks (const hb_ot_shape_plan_t *plan, hb_buffer_t *buffer, hb_font_t *font)
  {
    shadow_t shadow (shaper, SETUP_MASKS, buffer);
    stock ().setup_masks (proved_plan (plan)->stock_plan (), buffer, font);
    shadow.turn ();
    proved::setup_masks (plan, buffer, font);
    shadow.close ();
  }

  static void reorder_marks (const hb_ot_shape_plan_t *plan, hb_buffer_t *buffer, unsigned int start, unsigned int end)
  {
    shadow_t shadow (shaper, REORDER_MARKS, buffer);
    stock ().reorder_marks (proved_plan (plan)->stock_plan (), buffer, start, end);
    shadow.turn ();
    proved::reorder_marks (plan, buffer, start, end);
    shadow.close ();
  }
};

/* Myanmar's kinds have other numbers here: `kinds` has the new number of each. */
static void
renumber_kinds (hb_buffer_t *buffer, const uint8_t (&kinds)[4])
{
  for (unsigned i = 0; i < buffer->len; i++)
    buffer->info[i].syllable () = (buffer->info[i].syllable () & 0xF0) | kinds[buffer->info[i].syllable () & 0x03];
}

/* HarfBuzz's own function of a pause, with our kinds before and behind it. */
static bool
stock_pause (unsigned number, const hb_ot_shape_plan_t *plan, hb_font_t *font, hb_buffer_t *buffer)
{
  static const uint8_t theirs[4] = {0, 0, 1, 2}, ours[4] = {0, 2, 3, 0};
  if (number == SENGADLIT_PAUSE_REORDER_MYANMAR) renumber_kinds (buffer, theirs);
  bool ret = pauses[number].stock (proved_plan (plan)->stock_plan (), font, buffer);
  if (number == SENGADLIT_PAUSE_REORDER_MYANMAR || number == SENGADLIT_PAUSE_SETUP_SYLLABLES_MYANMAR) renumber_kinds (buffer, ours);
  return ret;
}

template <unsigned number>
static bool
shadow_pause (const hb_ot_shape_plan_t *plan, hb_font_t *font, hb_buffer_t *buffer)
{
  shadow_t shadow (proved_plan (plan)->shaper, number, buffer);
  shadow.turn (stock_pause (number, plan, font, buffer));
  bool ret = pauses[number].proved (plan, font, buffer);
  shadow.close (ret);
  return ret;
}

/* By enum sengadlit_pause_t. */
static const hb_ot_map_t::pause_func_t shadow_pauses[] =
{
  shadow_pause<0>, shadow_pause<1>, shadow_pause<2>, shadow_pause<3>, shadow_pause<4>, shadow_pause<5>, shadow_pause<6>,
  shadow_pause<7>, shadow_pause<8>, shadow_pause<9>, shadow_pause<10>, shadow_pause<11>, shadow_pause<12>, shadow_pause<13>,
  shadow_pause<14>,
};
