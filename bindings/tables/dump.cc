// What HarfBuzz's own tables say of each code point, ten numbers of 64 bits each, and then what each pair composes to that
// stands in the input, two numbers of 32 bits. With the argument `texts`: what HarfBuzz decodes of each text of the input, all
// in numbers of 32 bits; with `shapers`: which shaper each script takes, in a byte each. It includes the one-file build, since
// most of these tables are its own.
#include "harfbuzz.cc"

#include <stdio.h>

static void put (uint64_t number) { fwrite (&number, sizeof number, 1, stdout); }
static void put_word (uint32_t number) { fwrite (&number, sizeof number, 1, stdout); }

static void put_tables ()
{
  hb_unicode_funcs_t *funcs = hb_unicode_funcs_get_default ();
  for (hb_codepoint_t u = 0; u < 0x110000u; u++)
  {
    hb_unicode_general_category_t category = funcs->general_category (u);
    hb_codepoint_t a = 0, b = 0, mirrored = funcs->mirroring (u), vertical = hb_vert_char_for (u);
    unsigned indic = hb_indic_get_categories (u);
    bool has_parts = funcs->decompose (u, &a, &b);
    put (category);
    put (get_joining_type (u, category));
    put (funcs->modified_combining_class (u));
    put (funcs->is_default_ignorable (u));
    put (mirrored == u ? 0 : mirrored);
    put (vertical == u ? 0 : vertical);
    put (indic & 0xFF);
    put (indic >> 8);
    put (hb_use_get_category (u));
    put (has_parts ? (uint64_t) a << 32 | b : 0);
  }
  uint32_t pair[2];
  while (fread (pair, sizeof pair, 1, stdin) == 1)
  {
    hb_codepoint_t ab = 0;
    put (funcs->compose (pair[0], pair[1], &ab) ? ab : 0);
  }
}

// Adds an item of a text of the input, whose units are of this size, to a buffer.
template <typename utf_t>
static void add_text (hb_buffer_t *buffer, const uint32_t *wide, const uint32_t *head)
{
  typename utf_t::codepoint_t units[64];
  for (unsigned i = 0; i < head[1]; i++) units[i] = wide[i];
  hb_buffer_add_utf<utf_t> (buffer, units, head[1], head[2], head[3]);
}

// A text is the bytes of a unit, the number of its units (at most 64), the item's place and length, and the units. Of each
// the context before, the characters with their clusters and the context after are written, each list behind its length.
static void put_texts ()
{
  uint32_t head[4], units[64];
  while (fread (head, sizeof head, 1, stdin) == 1 && fread (units, sizeof *units, head[1], stdin) == head[1])
  {
    hb_buffer_t *buffer = hb_buffer_create ();
    if (head[0] == 1) add_text<hb_utf8_t> (buffer, units, head);
    if (head[0] == 2) add_text<hb_utf16_t> (buffer, units, head);
    if (head[0] == 4) add_text<hb_utf32_t> (buffer, units, head);
    put_word (buffer->context_len[0]);
    for (unsigned i = 0; i < buffer->context_len[0]; i++) put_word (buffer->context[0][i]);
    put_word (buffer->len);
    for (unsigned i = 0; i < buffer->len; i++)
    {
      put_word (buffer->info[i].codepoint);
      put_word (buffer->info[i].cluster);
    }
    put_word (buffer->context_len[1]);
    for (unsigned i = 0; i < buffer->context_len[1]; i++) put_word (buffer->context[1][i]);
    hb_buffer_destroy (buffer);
  }
}

// The number of a shaper in the order of src/shapers.rs.
static int number_of (const hb_ot_shaper_t *shaper)
{
  static const hb_ot_shaper_t *const shapers[] = {
    &_hb_ot_shaper_arabic, &_hb_ot_shaper_hangul, &_hb_ot_shaper_hebrew, &_hb_ot_shaper_indic, &_hb_ot_shaper_khmer,
    &_hb_ot_shaper_myanmar, &_hb_ot_shaper_myanmar_zawgyi, &_hb_ot_shaper_thai, &_hb_ot_shaper_use};
  for (int i = 0; i < 9; i++)
    if (shaper == shapers[i]) return i + 1;
  return 0;
}

// For each code of four letters, each direction, and each script that may be found.
static void put_shapers ()
{
  static const hb_tag_t found[] = {
    HB_TAG_NONE, HB_TAG ('D','F','L','T'), HB_TAG ('l','a','t','n'), HB_TAG ('m','y','m','r'), HB_TAG ('m','y','m','2'),
    HB_TAG ('d','e','v','2'), HB_TAG ('d','e','v','3')};
  hb_segment_properties_t props = HB_SEGMENT_PROPERTIES_DEFAULT;
  hb_ot_shape_planner_t planner (hb_face_get_empty (), props);
  for (unsigned place = 0; place < 26 * 26 * 26 * 26; place++)
    for (int direction = HB_DIRECTION_LTR; direction <= HB_DIRECTION_BTT; direction++)
      for (hb_tag_t tag : found)
      {
	planner.props.script = (hb_script_t) HB_TAG ('A' + place / 17576, 'a' + place / 676 % 26, 'a' + place / 26 % 26,
						     'a' + place % 26);
	planner.props.direction = (hb_direction_t) direction;
	planner.map.chosen_script[0] = tag;
	putchar (number_of (hb_ot_shaper_categorize (&planner)));
      }
}

int main (int argc, char **argv)
{
  if (argc < 2) put_tables ();
  else if (!strcmp (argv[1], "texts")) put_texts ();
  else put_shapers ();
  return 0;
}
