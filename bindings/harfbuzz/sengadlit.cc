/* HarfBuzz's script shapers with the hooks in their place.

   This unit stands for the nine files of HarfBuzz's script shapers. It includes them, their shapers renamed, and
   then has shapers of the same names: each hook and each pause lends HarfBuzz's glyphs to a buffer of the library's, hands over
   plan, map and font as sengadlit.h takes them, and makes the call. HarfBuzz's own functions still do what the
   hooks leave to a caller: syllable machines, vowel constraints, tables of Unicode, the fallback shaper.

   With SENGADLIT_SOUND the plans choose the sound flags of breaks.

   With SENGADLIT_SHADOW each hook runs after HarfBuzz's own on the same buffer, and both are compared (shadow.hh). */

#include "hb.hh"
#include "hb-ot-shaper.hh"
#include "hb-ot-shaper-arabic.hh"
#include "hb-ot-shaper-vowel-constraints.hh"

#include "sengadlit.h"

#define SENGADLIT_NONE 0xFFFFFFFFu

/* What few calls need is a function of its own, so that the others don't save registers for it. */
#ifdef __GNUC__
#define SENGADLIT_APART __attribute__ ((noinline))
#else
#define SENGADLIT_APART
#endif

#include "version.hh"
#include "stock.hh"

/* After the joining forms HarfBuzz frees their byte. */
static bool
free_joining_byte (const hb_ot_shape_plan_t *plan HB_UNUSED, hb_font_t *font HB_UNUSED, hb_buffer_t *buffer)
{
  HB_BUFFER_DEALLOCATE_VAR (buffer, ot_shaper_var_u8_auxiliary);
  return false;
}

#include "plan.hh"
#include "text.hh"
#include "pauses.hh"

/* ---- Hooks ---- */

#ifdef SENGADLIT_SOUND
/* What the library's own shaping flags in Indic texts: graphemes that begin with ZWNJ. */
static void
flag_zwnj_graphemes (hb_buffer_t *buffer)
{
  bool begins = false;
  for (unsigned i = 0; i < buffer->len; i++)
  {
    hb_glyph_info_t &glyph = buffer->info[i];
    if (!_hb_glyph_info_is_continuation (&glyph)) begins = glyph.codepoint == 0x200Cu;
    if (!begins) continue;
    glyph.mask |= HB_GLYPH_FLAG_UNSAFE_TO_BREAK | HB_GLYPH_FLAG_UNSAFE_TO_CONCAT;
    buffer->scratch_flags |= has_glyph_flags;
  }
}
#endif

/* The hooks of a shaper, by its number. */
template <unsigned shaper>
struct proved_hooks_t
{
  static void collect_features (hb_ot_shape_planner_t *planner) { make_requests (shaper, false, planner); }
  static void override_features (hb_ot_shape_planner_t *planner) { make_requests (shaper, true, planner); }
  static void *data_create (const hb_ot_shape_plan_t *plan) { return create_proved_plan (shaper, plan); }

  static void preprocess_text (const hb_ot_shape_plan_t *plan, hb_buffer_t *buffer, hb_font_t *font)
  {
    if (shaper != SENGADLIT_SHAPER_THAI && shaper != SENGADLIT_SHAPER_HANGUL) /* Indic's and the universal hook only return a result. */
    {
      _hb_preprocess_text_vowel_constraints (plan, buffer, font);
#ifdef SENGADLIT_SOUND
      if (shaper == SENGADLIT_SHAPER_INDIC) flag_zwnj_graphemes (buffer);
#endif
      return;
    }
    if (shaper == SENGADLIT_SHAPER_HANGUL)
      HB_BUFFER_ALLOCATE_VAR (buffer, ot_shaper_var_u8_auxiliary);
    bool is_parted = shaper == SENGADLIT_SHAPER_THAI && has_sara_am (buffer);
    if (shaper == SENGADLIT_SHAPER_THAI && plan->map.found_script[0] && !is_parted) return; /* no change, by contract */
    call_t call (plan, buffer, font);
    if (unlikely (!call.open (true))) return;
    sengadlit_bool_t constraints;
    sengadlit_font_t f = call.font ();
    if (unlikely (!call.close (sengadlit_preprocess_text (call.proved->plan, &f, call.work->buffer, &constraints)))) return;
    if (is_parted) buffer->scratch_flags |= has_continuations;
    call.note_flags ();
  }

  /* That of Thai or of Lao. */
  static bool has_sara_am (const hb_buffer_t *buffer)
  {
    for (unsigned i = 0; i < buffer->len; i++)
      if ((buffer->info[i].codepoint & ~0x80u) == 0x0E33u) return true;
    return false;
  }

  static bool has_jamo (const hb_buffer_t *buffer)
  {
    for (unsigned i = 0; i < buffer->len; i++)
      if (buffer->info[i].ot_shaper_var_u8_auxiliary ()) return true;
    return false;
  }

  static void postprocess_glyphs (const hb_ot_shape_plan_t *plan, hb_buffer_t *buffer, hb_font_t *font)
  {
    if (!(buffer->scratch_flags & HB_BUFFER_SCRATCH_FLAG_ARABIC_HAS_STCH)) return; /* no change, by contract */
    call_t call (plan, buffer, font);
    int sign = sign_of (font);
    if (unlikely (!call.open (true))) return;
    unsigned length = 0;
    sengadlit_glyph_position_t *positions = sengadlit_buffer_get_glyph_positions (call.work->buffer, &length);
    if (unlikely (!positions)) { (void) call.close (SENGADLIT_MEMORY); return; }
    copy_positions ((sengadlit_glyph_position_t *) buffer->pos, positions, length, sign);
    call.set_state (SENGADLIT_BUFFER_STATE_HAS_STCH);
    sengadlit_font_t f = call.font ();
    sengadlit_status_t status = sengadlit_postprocess_glyphs (call.proved->plan, &f, call.work->buffer);
    positions = sengadlit_buffer_get_glyph_positions (call.work->buffer, &length);
    if (likely (status == SENGADLIT_DONE && positions))
      copy_positions (positions, (sengadlit_glyph_position_t *) buffer->pos, length, sign);
    if (likely (call.close (status))) call.note_flags ();
  }

  /* The library counts in one direction. */
  static void copy_positions (const sengadlit_glyph_position_t *from, sengadlit_glyph_position_t *to, unsigned length, int sign)
  {
    for (unsigned i = 0; i < length; i++)
      to[i] = {sign * from[i].x_advance, from[i].y_advance, sign * from[i].x_offset, from[i].y_offset, from[i].var};
  }

  /* Whether the shaper may have, of a character or a pair, what Unicode hasn't: by contract Hebrew, and these alone. */
  static bool has_parts (hb_codepoint_t ab) { return shaper == SENGADLIT_SHAPER_KHMER && hb_in_range (ab, 0x17BEu, 0x17C5u); }
  static bool has_pair (hb_codepoint_t a)
  { return shaper == SENGADLIT_SHAPER_HEBREW || (shaper == SENGADLIT_SHAPER_INDIC && a == 0x09AFu); }

  static bool decompose (const hb_ot_shape_normalize_context_t *c, hb_codepoint_t ab, hb_codepoint_t *a, hb_codepoint_t *b)
  {
    if (!has_parts (ab) && !c->unicode->decompose (ab, a, b)) return false;
    sengadlit_tables_t tables = {&tables_funcs, c->unicode};
    return sengadlit_decompose (proved_plan (c->plan)->plan, &tables, ab, a, b, nullptr) == SENGADLIT_DONE;
  }

  static bool compose (const hb_ot_shape_normalize_context_t *c, hb_codepoint_t a, hb_codepoint_t b, hb_codepoint_t *ab)
  {
    if (!has_pair (a) && !c->unicode->compose (a, b, ab)) return false;
    sengadlit_tables_t tables = {&tables_funcs, c->unicode};
    return sengadlit_compose (proved_plan (c->plan)->plan, &tables, a, b, ab, nullptr) == SENGADLIT_DONE;
  }

  /* The bytes that HarfBuzz reserves in its glyphs for a shaper, from setup_masks on. */
  static bool has_category () { return shaper == SENGADLIT_SHAPER_INDIC || shaper == SENGADLIT_SHAPER_KHMER || shaper == SENGADLIT_SHAPER_MYANMAR || shaper == SENGADLIT_SHAPER_UNIVERSAL; }
  static bool has_position () { return shaper == SENGADLIT_SHAPER_INDIC; }

  static void setup_masks (const hb_ot_shape_plan_t *plan, hb_buffer_t *buffer, hb_font_t *font)
  {
    if (shaper == SENGADLIT_SHAPER_HANGUL && !has_jamo (buffer)) /* no change, by contract */
    {
      HB_BUFFER_DEALLOCATE_VAR (buffer, ot_shaper_var_u8_auxiliary);
      return;
    }
    call_t call (plan, buffer, font);
    bool joins = (shaper == SENGADLIT_SHAPER_ARABIC || shaper == SENGADLIT_SHAPER_UNIVERSAL) && call.proved->data.joins;
    if (has_category ()) HB_BUFFER_ALLOCATE_VAR (buffer, ot_shaper_var_u8_category);
    if (has_position () || joins || shaper == SENGADLIT_SHAPER_MYANMAR) HB_BUFFER_ALLOCATE_VAR (buffer, ot_shaper_var_u8_auxiliary);
    if (unlikely (!call.open (true))) return;
    if (joins) call.set_contexts ();
    sengadlit_tables_t tables = call.tables ();
    sengadlit_status_t status = sengadlit_setup_masks (call.proved->plan, &tables, call.work->buffer);
    if (joins && unlikely (status == SENGADLIT_ARGUMENT)) status = setup_masks_of_scalars (call, tables);
    if (unlikely (!call.close_same (status))) return;
    if (joins || shaper == SENGADLIT_SHAPER_HANGUL) call.note_flags ();
    if (shaper == SENGADLIT_SHAPER_HANGUL)
      HB_BUFFER_DEALLOCATE_VAR (buffer, ot_shaper_var_u8_auxiliary);
  }

  /* The same of a text that has what is no character; letters that join stay in their places. */
  static sengadlit_status_t setup_masks_of_scalars (call_t &call, const sengadlit_tables_t &tables)
  {
    hb_buffer_t *buffer = call.buffer;
    hb_vector_t<hb_codepoint_t> codepoints;
    if (unlikely (!codepoints.resize (buffer->len))) return SENGADLIT_MEMORY;
    for (unsigned i = 0; i < buffer->len; i++)
    {
      codepoints.arrayZ[i] = buffer->info[i].codepoint;
      buffer->info[i].codepoint = scalar_of (buffer->info[i].codepoint);
    }
    sengadlit_status_t status = sengadlit_setup_masks (call.proved->plan, &tables, call.work->buffer);
    for (unsigned i = 0; i < buffer->len; i++)
      buffer->info[i].codepoint = codepoints.arrayZ[i];
    return status;
  }

  static void reorder_marks (const hb_ot_shape_plan_t *plan, hb_buffer_t *buffer, unsigned int start, unsigned int end)
  {
    call_t call (plan, buffer, nullptr);
    if (unlikely (!call.open (true))) return;
    if (likely (call.close (sengadlit_reorder_marks (call.proved->plan, call.work->buffer, start, end)))) call.note_flags ();
  }
};

/* ---- Shapers ---- */

#ifdef SENGADLIT_SHADOW
#include "shadow.hh"
#define HOOKS shadow_hooks_t
#define PAUSE(number) shadow_pauses[number]
#else
#define HOOKS proved_hooks_t
#define PAUSE(number) pauses[number].proved
#endif

/* The function for a pause of a list; null for one that does nothing. */
static hb_ot_map_t::pause_func_t
pause_function (unsigned number)
{
  return number < ARRAY_LENGTH (pauses) ? PAUSE (number) : nullptr;
}

/* A shaper with ours for each hook that HarfBuzz's has, and data in every plan. */
template <unsigned shaper>
static hb_ot_shaper_t
proved_shaper (const stock_shaper_t &stock)
{
  typedef HOOKS<shaper> hooks;
  sengadlit_shaper_constants_t constants = SENGADLIT_INIT (sengadlit_shaper_constants_t);
  (void) sengadlit_shaper_get_constants ((sengadlit_shaper_t) shaper, &constants);
  return {
    stock.collect_features ? hooks::collect_features : nullptr,
    stock.override_features ? hooks::override_features : nullptr,
    hooks::data_create,
    destroy_proved_plan,
    stock.preprocess_text ? hooks::preprocess_text : nullptr,
    stock.postprocess_glyphs ? hooks::postprocess_glyphs : nullptr,
    stock.decompose ? hooks::decompose : nullptr,
    stock.compose ? hooks::compose : nullptr,
    stock.setup_masks ? hooks::setup_masks : nullptr,
    stock.reorder_marks ? hooks::reorder_marks : nullptr,
    constants.gpos_tag,
    (hb_ot_shape_normalization_mode_t) constants.normalization_preference,
    (hb_ot_shape_zero_width_marks_type_t) constants.zero_width_marks,
    constants.fallback_position || stock.fallback_position, /* HarfBuzz 12 says yes of Hangul. */
  };
}

const hb_ot_shaper_t _hb_ot_shaper_arabic = proved_shaper<SENGADLIT_SHAPER_ARABIC> (stock_arabic);
const hb_ot_shaper_t _hb_ot_shaper_hangul = proved_shaper<SENGADLIT_SHAPER_HANGUL> (stock_hangul);
const hb_ot_shaper_t _hb_ot_shaper_hebrew = proved_shaper<SENGADLIT_SHAPER_HEBREW> (stock_hebrew);
const hb_ot_shaper_t _hb_ot_shaper_indic = proved_shaper<SENGADLIT_SHAPER_INDIC> (stock_indic);
const hb_ot_shaper_t _hb_ot_shaper_khmer = proved_shaper<SENGADLIT_SHAPER_KHMER> (stock_khmer);
const hb_ot_shaper_t _hb_ot_shaper_myanmar = proved_shaper<SENGADLIT_SHAPER_MYANMAR> (stock_myanmar);
const hb_ot_shaper_t _hb_ot_shaper_myanmar_zawgyi = proved_shaper<SENGADLIT_SHAPER_MYANMAR_ZAWGYI> (stock_myanmar_zawgyi);
const hb_ot_shaper_t _hb_ot_shaper_thai = proved_shaper<SENGADLIT_SHAPER_THAI> (stock_thai);
const hb_ot_shaper_t _hb_ot_shaper_use = proved_shaper<SENGADLIT_SHAPER_UNIVERSAL> (stock_use);
