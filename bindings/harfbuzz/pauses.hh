/* The pauses: set-ups of syllables, reorderings and the rest. Included by sengadlit.cc alone. */

/* HarfBuzz's functions for a pause. */
struct pause_t
{
  const char *name;                   /* of the script, in messages */
  hb_ot_map_t::pause_func_t stock;
  hb_ot_map_t::pause_func_t proved;
  void (*find_syllables) (hb_buffer_t *buffer);
};

/* By enum sengadlit_pause_t. */
extern const pause_t pauses[15];

/* ---- Set-ups ---- */

/* HarfBuzz's machine writes the syllables, and the library reads them there. */
template <unsigned number>
static bool
set_up_syllables (const hb_ot_shape_plan_t *plan, hb_font_t *font, hb_buffer_t *buffer)
{
  HB_BUFFER_ALLOCATE_VAR (buffer, syllable);
  hb_buffer_scratch_flags_t scratch_flags = buffer->scratch_flags;
  pauses[number].find_syllables (buffer);
  buffer->scratch_flags = scratch_flags;
  if (number == SENGADLIT_PAUSE_SETUP_SYLLABLES_MYANMAR)
    for (unsigned i = 0; i < buffer->len; i++)
      buffer->info[i].syllable () = (buffer->info[i].syllable () & 0xF0) |
				    SENGADLIT_MYANMAR_SYLLABLE_FROM_HARFBUZZ (buffer->info[i].syllable () & 0x0F);
  call_t call (plan, buffer, font);
  if (unlikely (!call.open (false))) return false;
  call.set_state (0);
  if (unlikely (!call.close_same (sengadlit_setup_syllables_written (call.proved->plan, (sengadlit_pause_t) number, call.work->buffer)))) return false;
  if (buffer->len > 1) buffer->scratch_flags |= has_glyph_flags; /* of longer syllables */
  if (call.get_state () & SENGADLIT_BUFFER_STATE_HAS_BROKEN_SYLLABLE)
    buffer->scratch_flags |= HB_BUFFER_SCRATCH_FLAG_HAS_BROKEN_SYLLABLE;
  return false;
}

/* ---- Reorderings ---- */

/* The message that HarfBuzz sends before or after a reordering. */
static bool
send_message (hb_buffer_t *buffer, hb_font_t *font, const char *when, unsigned number)
{
  return !buffer->messaging () || buffer->message (font, "%s reordering %s", when, pauses[number].name);
}

template <unsigned number>
static bool
reorder_glyphs (const hb_ot_shape_plan_t *plan, hb_font_t *font, hb_buffer_t *buffer)
{
  call_t call (plan, buffer, font);
  if (unlikely (!call.open (false))) return false;
  call.set_state (buffer->scratch_flags & HB_BUFFER_SCRATCH_FLAG_HAS_BROKEN_SYLLABLE ? SENGADLIT_BUFFER_STATE_HAS_BROKEN_SYLLABLE : 0);
  sengadlit_font_t f = call.font ();
  sengadlit_bool_t circles = 0;
  sengadlit_status_t status = sengadlit_run_pause (call.proved->plan, (sengadlit_pause_t) number, &f, nullptr, 0, call.work->buffer,
						   &circles);
  if (unlikely (!(circles ? call.close (status) : call.close_same (status)))) return false; /* circles alone make it longer */
  if (buffer->len > 1) buffer->scratch_flags |= has_glyph_flags;
  return circles;
}

template <unsigned number>
static bool
reorder (const hb_ot_shape_plan_t *plan, hb_font_t *font, hb_buffer_t *buffer)
{
  if (!send_message (buffer, font, "start", number)) return false;
  bool ret = reorder_glyphs<number> (plan, font, buffer);
  (void) send_message (buffer, font, "end", number);
  return ret;
}

/* ---- Records: glyphs stay where they are ---- */

template <unsigned number>
static bool
record (const hb_ot_shape_plan_t *plan, hb_font_t *font, hb_buffer_t *buffer)
{
  call_t call (plan, buffer, font);
  if (unlikely (!call.open (false))) return false;
  if (number == SENGADLIT_PAUSE_RECORD_STCH) call.set_state (0);
  sengadlit_font_t f = call.font ();
  if (unlikely (!call.close_same (sengadlit_run_pause (call.proved->plan, (sengadlit_pause_t) number, &f, nullptr, 0, call.work->buffer,
						       nullptr)))) return false;
  if (number == SENGADLIT_PAUSE_RECORD_STCH && call.get_state () & SENGADLIT_BUFFER_STATE_HAS_STCH)
    buffer->scratch_flags |= HB_BUFFER_SCRATCH_FLAG_ARABIC_HAS_STCH;
  return false;
}

static bool
any_is_substituted (const hb_buffer_t *buffer)
{
  for (unsigned i = 0; i < buffer->len; i++)
    if (_hb_glyph_info_substituted (&buffer->info[i])) return true;
  return false;
}

/* Whether a pause changes nothing, as its contract says, or nothing but a byte that HarfBuzz frees: then there is no call to
   make. */
static inline bool
changes_nothing (unsigned number, const hb_ot_shape_plan_t *plan, const hb_buffer_t *buffer)
{
  const sengadlit_plan_data_t &data = proved_plan (plan)->data;
  switch (number)
  {
    case SENGADLIT_PAUSE_RECORD_STCH: return !data.has_stch;
    case SENGADLIT_PAUSE_RECORD_RPHF: return !data.rphf_mask || !any_is_substituted (buffer);
    case SENGADLIT_PAUSE_RECORD_PREF: return !any_is_substituted (buffer);
    case SENGADLIT_PAUSE_CLEAR_SUBSTITUTION_FLAGS: return !any_is_substituted (buffer);
    case SENGADLIT_PAUSE_SYLLABIC_CLEAR_VAR: return true; /* the syllable's */
    case SENGADLIT_PAUSE_ARABIC_FALLBACK_SHAPE: return true;
    default: return false;
  }
}

/* HarfBuzz frees the bytes of its glyphs that a shaper no longer needs. */
static inline void
free_bytes (unsigned number, hb_buffer_t *buffer)
{
  switch (number)
  {
    case SENGADLIT_PAUSE_REORDER_KHMER:
    case SENGADLIT_PAUSE_REORDER_USE:
      HB_BUFFER_DEALLOCATE_VAR (buffer, ot_shaper_var_u8_category);
      break;
    case SENGADLIT_PAUSE_REORDER_MYANMAR:
    case SENGADLIT_PAUSE_FINAL_REORDERING:
      HB_BUFFER_DEALLOCATE_VAR (buffer, ot_shaper_var_u8_category);
      HB_BUFFER_DEALLOCATE_VAR (buffer, ot_shaper_var_u8_auxiliary);
      break;
    case SENGADLIT_PAUSE_SYLLABIC_CLEAR_VAR:
      HB_BUFFER_DEALLOCATE_VAR (buffer, syllable);
      break;
  }
}

/* A pause, by its number. */
template <unsigned number>
static bool
proved_pause (const hb_ot_shape_plan_t *plan, hb_font_t *font, hb_buffer_t *buffer)
{
  bool ret = false;
  if (!changes_nothing (number, plan, buffer))
    ret = number <= SENGADLIT_PAUSE_SETUP_SYLLABLES_USE ? set_up_syllables<number> (plan, font, buffer) :
	  number <= SENGADLIT_PAUSE_FINAL_REORDERING ? reorder<number> (plan, font, buffer) : record<number> (plan, font, buffer);
  free_bytes (number, buffer);
  return ret;
}

/* The fallback shaper is HarfBuzz's own. */
static bool
fallback_shape (const hb_ot_shape_plan_t *plan, hb_font_t *font, hb_buffer_t *buffer)
{
  return arabic_fallback_shape (proved_plan (plan)->stock_plan (), font, buffer);
}

/* HarfBuzz's own functions of a pause may be inline or in a header: they have names in this unit all the same. */
const pause_t pauses[15] =
{
  {"", setup_syllables_indic, proved_pause<SENGADLIT_PAUSE_SETUP_SYLLABLES_INDIC>, find_syllables_indic},
  {"", setup_syllables_khmer, proved_pause<SENGADLIT_PAUSE_SETUP_SYLLABLES_KHMER>, find_syllables_khmer},
  {"", setup_syllables_myanmar, proved_pause<SENGADLIT_PAUSE_SETUP_SYLLABLES_MYANMAR>, find_syllables_myanmar},
  {"", setup_syllables_use, proved_pause<SENGADLIT_PAUSE_SETUP_SYLLABLES_USE>, find_syllables_use},
  {"indic initial", initial_reordering_indic, proved_pause<SENGADLIT_PAUSE_INITIAL_REORDERING>, nullptr},
  {"khmer", reorder_khmer, proved_pause<SENGADLIT_PAUSE_REORDER_KHMER>, nullptr},
  {"myanmar", reorder_myanmar, proved_pause<SENGADLIT_PAUSE_REORDER_MYANMAR>, nullptr},
  {"USE", reorder_use, proved_pause<SENGADLIT_PAUSE_REORDER_USE>, nullptr},
  {"indic final", final_reordering_indic, proved_pause<SENGADLIT_PAUSE_FINAL_REORDERING>, nullptr},
  {"", record_stch, proved_pause<SENGADLIT_PAUSE_RECORD_STCH>, nullptr},
  {"", record_rphf_use, proved_pause<SENGADLIT_PAUSE_RECORD_RPHF>, nullptr},
  {"", record_pref_use, proved_pause<SENGADLIT_PAUSE_RECORD_PREF>, nullptr},
  {"", hb_syllabic_clear_var, proved_pause<SENGADLIT_PAUSE_SYLLABIC_CLEAR_VAR>, nullptr},
  {"", _hb_clear_substitution_flags, proved_pause<SENGADLIT_PAUSE_CLEAR_SUBSTITUTION_FLAGS>, nullptr},
  {"", arabic_fallback_shape, fallback_shape, nullptr},
};
