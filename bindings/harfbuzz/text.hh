/* HarfBuzz's glyphs, lent to the library's buffer. Included by sengadlit.cc alone.

   The library's glyph is HarfBuzz's, byte for byte: number, mask, cluster, and the two words, in which HarfBuzz 6.0.0 and
   12.3.2 keep the same things in the same bits. So nothing is copied, and whatever a hook doesn't read stays. */

static_assert (sizeof (sengadlit_glyph_info_t) == sizeof (hb_glyph_info_t), "");
static_assert (offsetof (sengadlit_glyph_info_t, glyph_id) == offsetof (hb_glyph_info_t, codepoint), "");
static_assert (offsetof (sengadlit_glyph_info_t, mask) == offsetof (hb_glyph_info_t, mask), "");
static_assert (offsetof (sengadlit_glyph_info_t, cluster) == offsetof (hb_glyph_info_t, cluster), "");
static_assert (offsetof (sengadlit_glyph_info_t, glyph_props) == offsetof (hb_glyph_info_t, var1), "");
static_assert (offsetof (sengadlit_glyph_info_t, unicode_props) == offsetof (hb_glyph_info_t, var2), "");
static_assert ((unsigned) SENGADLIT_GLYPH_PROPS_SUBSTITUTED == HB_OT_LAYOUT_GLYPH_PROPS_SUBSTITUTED, "");
static_assert ((unsigned) SENGADLIT_GLYPH_PROPS_LIGATED == HB_OT_LAYOUT_GLYPH_PROPS_LIGATED, "");
static_assert ((unsigned) SENGADLIT_GLYPH_PROPS_MULTIPLIED == HB_OT_LAYOUT_GLYPH_PROPS_MULTIPLIED, "");
static_assert ((unsigned) SENGADLIT_UNICODE_PROPS_GENERAL_CATEGORY == UPROPS_MASK_GEN_CAT, "");
static_assert ((unsigned) SENGADLIT_UNICODE_PROPS_IGNORABLE == UPROPS_MASK_IGNORABLE, "");
static_assert ((unsigned) SENGADLIT_UNICODE_PROPS_HIDDEN == UPROPS_MASK_HIDDEN, "");
static_assert ((unsigned) SENGADLIT_UNICODE_PROPS_CONTINUATION == UPROPS_MASK_CONTINUATION, "");
static_assert (sizeof (sengadlit_glyph_position_t) == sizeof (hb_glyph_position_t), "");

/* What isn't a character joins as the replacement character does, which is not at all. */
static inline hb_codepoint_t
scalar_of (hb_codepoint_t u)
{
  return likely (u < 0xD800u || (u >= 0xE000u && u <= 0x10FFFFu)) ? u : 0xFFFDu;
}

/* Makes room in HarfBuzz's buffer, whose glyphs are lent: what it has then, if memory is refused too. */
static sengadlit_glyph_info_t *
grow_buffer (void *user_data, sengadlit_glyph_info_t *glyphs HB_UNUSED, unsigned wanted, unsigned *allocated)
{
  hb_buffer_t *buffer = (hb_buffer_t *) user_data;
  (void) buffer->ensure (wanted);
  *allocated = buffer->allocated;
  return (sengadlit_glyph_info_t *) buffer->info;
}

/* A call of a hook: takes what the plan keeps, until the end of a block. */
struct call_t
{
  call_t (const hb_ot_shape_plan_t *plan, hb_buffer_t *buffer_, hb_font_t *font_)
    : proved (proved_plan (plan)), buffer (buffer_), work (proved->work.take ()), asked {font_, proved, work} {}
  ~call_t () { if (likely (work)) proved->work.put (work); }
  call_t (const call_t &) = delete;
  call_t &operator = (const call_t &) = delete;

  /* Lends the glyphs. The hooks of characters begin a text, and tell what it is like. The pauses only do if another buffer came
     between, and if the glyphs are as many as they were, in the same array, that is lent still. */
  bool open (bool begins)
  {
    if (unlikely (!work)) return fail ();
    bool is_told = !begins && work->text == buffer;
    return (is_told && work->glyphs == buffer->info && work->length == buffer->len && work->allocated == buffer->allocated) || lend (is_told);
  }

  /* The state of the text, where it isn't what the last call left. */
  void set_state (unsigned state)
  {
    if (likely (work->state == state)) return;
    sengadlit_buffer_set_state (work->buffer, state);
    work->state = state;
  }
  unsigned get_state () { return work->state = sengadlit_buffer_get_state (work->buffer); }

  /* The texts on both sides. */
  void set_contexts ()
  {
    bool has_context = buffer->context_len[0] || buffer->context_len[1];
    if (!has_context && !work->has_context) return;
    work->has_context = has_context;
    uint32_t context[2][hb_buffer_t::CONTEXT_LENGTH];
    for (unsigned side = 0; side < 2; side++)
      for (unsigned i = 0; i < buffer->context_len[side]; i++)
	context[side][i] = scalar_of (buffer->context[side][i]);
    (void) sengadlit_buffer_set_context (work->buffer, context[0], buffer->context_len[0], context[1], buffer->context_len[1]);
  }

  /* Takes the glyphs back, which stand where HarfBuzz's buffer has them. A hook that refuses leaves that in error, as
     HarfBuzz does where it can't grow. */
  bool close (sengadlit_status_t status)
  {
    (void) sengadlit_buffer_give_back (work->buffer, &buffer->len, nullptr);
    work->glyphs = nullptr;
    return likely (status == SENGADLIT_DONE) || (status != SENGADLIT_ABSENT && fail ());
  }

  /* The same of a hook that leaves the length: there is nothing to take, and the array stays lent. */
  bool close_same (sengadlit_status_t status) { return likely (status == SENGADLIT_DONE) || close (status); }

  /* HarfBuzz notes that a glyph may have a flag. */
  void note_flags ()
  {
    if (has_glyph_flags == HB_BUFFER_SCRATCH_FLAG_DEFAULT) return;
    hb_mask_t masks = 0;
    for (unsigned i = 0; i < buffer->len; i++)
      masks |= buffer->info[i].mask;
    if (masks & HB_GLYPH_FLAG_DEFINED)
      buffer->scratch_flags |= has_glyph_flags;
  }

  bool fail ()
  {
    buffer->successful = false;
    return false;
  }

  sengadlit_font_t font () { return {proved->shaper == SENGADLIT_SHAPER_INDIC ? &font_funcs_indic : &font_funcs, &asked}; }
  sengadlit_tables_t tables () { return {&tables_funcs, buffer->unicode}; }

  const proved_plan_t *proved;
  hb_buffer_t *buffer;
  work_t *work;
  asked_t asked;

  private:
  SENGADLIT_APART bool lend (bool is_told)
  {
    if (unlikely (!work->buffer || (!is_told && !tell ()))) return fail ();
    sengadlit_glyph_info_t *glyphs = (sengadlit_glyph_info_t *) buffer->info;
    if (unlikely (sengadlit_buffer_lend (work->buffer, glyphs, buffer->len, buffer->allocated) != SENGADLIT_DONE)) return fail ();
    work->glyphs = buffer->info;
    work->length = buffer->len;
    work->allocated = buffer->allocated;
    return true;
  }

  bool tell ()
  {
    if (unlikely (work->text != buffer))
    {
      if (unlikely (sengadlit_buffer_set_grow_func (work->buffer, grow_buffer, buffer) != SENGADLIT_DONE)) return false;
      work->text = buffer;
      work->glyphs = nullptr;
    }
    sengadlit_buffer_properties_t &told = work->properties;
    unsigned max_length = hb_max (buffer->max_len, buffer->len);
    sengadlit_direction_t direction = (sengadlit_direction_t) buffer->props.direction;
    sengadlit_buffer_cluster_level_t cluster_level = cluster_level_of (buffer, proved->shaper);
    if (likely (told.script == buffer->props.script && told.max_length == max_length && told.direction == direction &&
		told.cluster_level == cluster_level && told.flags == (uint32_t) buffer->flags)) return true;
    told.script = buffer->props.script;
    told.max_length = max_length;
    told.direction = direction;
    told.cluster_level = cluster_level;
    told.flags = buffer->flags;
    return sengadlit_buffer_set_properties (work->buffer, &told) == SENGADLIT_DONE;
  }
};
