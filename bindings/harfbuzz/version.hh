/* What HarfBuzz 12 has otherwise than 6.0.0. Included by sengadlit.cc alone. */

#if HB_VERSION_ATLEAST (12, 0, 0)

/* Its header undefines this at its end. */
#define unicode_props() var2.u16[0]

template <typename T> using atomic_pointer_t = hb_atomic_t<T *>;

/* Whether a glyph has a flag isn't noted. */
static constexpr hb_buffer_scratch_flags_t has_glyph_flags = HB_BUFFER_SCRATCH_FLAG_DEFAULT;

/* That a glyph continues a grapheme is. */
static constexpr hb_buffer_scratch_flags_t has_continuations = HB_BUFFER_SCRATCH_FLAG_HAS_CONTINUATIONS;

/* A longer stretch gets no flags. Of Hangul's tones it is counted from a place in the output to one in the input, and so is
   longer than any where the output is ahead. */
static constexpr unsigned longest_flagged = 255;

/* Thai, Lao and Hangul merge at both monotone levels, as the hooks do at MonotoneGraphemes; at level Graphemes, which the hooks
   haven't, no hook merges. */
static inline sengadlit_buffer_cluster_level_t
cluster_level_of (const hb_buffer_t *buffer, unsigned shaper)
{
  if (!HB_BUFFER_CLUSTER_LEVEL_IS_MONOTONE (buffer->cluster_level)) return SENGADLIT_BUFFER_CLUSTER_LEVEL_CHARACTERS;
  if (shaper == SENGADLIT_SHAPER_THAI || shaper == SENGADLIT_SHAPER_HANGUL) return SENGADLIT_BUFFER_CLUSTER_LEVEL_MONOTONE_GRAPHEMES;
  return (sengadlit_buffer_cluster_level_t) buffer->cluster_level;
}

#else

template <typename T> using atomic_pointer_t = hb_atomic_ptr_t<T *>;

static constexpr hb_buffer_scratch_flags_t has_glyph_flags = HB_BUFFER_SCRATCH_FLAG_HAS_GLYPH_FLAGS;

static constexpr unsigned longest_flagged = UINT_MAX;

static constexpr hb_buffer_scratch_flags_t has_continuations = HB_BUFFER_SCRATCH_FLAG_DEFAULT;

static inline sengadlit_buffer_cluster_level_t
cluster_level_of (const hb_buffer_t *buffer, unsigned shaper HB_UNUSED)
{
  return (sengadlit_buffer_cluster_level_t) buffer->cluster_level;
}

#endif
