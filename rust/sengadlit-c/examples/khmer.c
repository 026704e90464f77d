/* A Khmer word, shaped in a font of the example's own: COENG and MO are one glyph, by the feature `blwf`, and so are COENG and
   RO, by `pref`. The vowel sign comes before its letter. Then the bytes of the text before which a caret may stand. */
#include <sengadlit.h>

#include <stdio.h>
#include <stdlib.h>
#include <string.h>

static const struct { uint32_t first, second, glyph; } ligatures[] = {{0x17D2, 0x1798, 0xE000}, {0x17D2, 0x179A, 0xE001}};
/* A glyph for each character of Khmer, by its number. */
static sengadlit_bool_t nominal_glyph(void *user_data, uint32_t unicode, uint32_t *glyph)
{
    *glyph = unicode;
    return (void)user_data, unicode >= 0x1780 && unicode < 0x1800;
}
static int32_t glyph_h_advance(void *user_data, uint32_t glyph) { return (void)user_data, glyph >= 0xE000 ? 0 : 600; }
/* The font's GSUB: lookup I makes one glyph of two. */
static sengadlit_bool_t substitute(void *user_data, const sengadlit_lookup_t *lookup, sengadlit_buffer_t *buffer)
{
    unsigned int length;
    sengadlit_glyph_info_t *glyphs = ((void)user_data, sengadlit_buffer_get_glyph_infos(buffer, &length));

    for (unsigned int i = 0; i + 1 < length; i++) {
        if (!(glyphs[i].mask & glyphs[i + 1].mask & lookup->mask) || glyphs[i].glyph_id != ligatures[lookup->index].first ||
            glyphs[i + 1].glyph_id != ligatures[lookup->index].second)
            continue;
        (void)sengadlit_buffer_merge_clusters(buffer, i, i + 2);
        glyphs = sengadlit_buffer_get_glyph_infos(buffer, NULL);
        glyphs[i].glyph_id = ligatures[lookup->index].glyph;
        glyphs[i].glyph_props |= SENGADLIT_GLYPH_PROPS_SUBSTITUTED | SENGADLIT_GLYPH_PROPS_LIGATED;
        memmove(&glyphs[i + 1], &glyphs[i + 2], (length - i - 2) * sizeof *glyphs);
        glyphs = sengadlit_buffer_set_length(buffer, --length);
    }
    return 1;
}

int main(void)
{
    const sengadlit_table_feature_t features[] = {{SENGADLIT_TAG('b', 'l', 'w', 'f'), 1, (const uint16_t[]){0}},
                                                  {SENGADLIT_TAG('p', 'r', 'e', 'f'), 1, (const uint16_t[]){1}}};
    const sengadlit_shape_plan_input_t input = {sizeof input, SENGADLIT_TAG('K', 'h', 'm', 'r'), SENGADLIT_DIRECTION_LTR,
        .gsub = {.has_table = 1, .chosen_script = SENGADLIT_TAG('k', 'h', 'm', 'r'), .features_length = 2, .features = features}};
    const sengadlit_font_funcs_t font_funcs = {sizeof font_funcs, nominal_glyph, glyph_h_advance, NULL, NULL};
    const sengadlit_lookups_funcs_t lookups_funcs = {.size = sizeof lookups_funcs, .substitute = substitute};
    const sengadlit_font_t font = {.funcs = &font_funcs};
    const sengadlit_lookups_t lookups = {.funcs = &lookups_funcs};
    sengadlit_shape_plan_t *plan = sengadlit_shape_plan_create(&input, NULL);
    sengadlit_buffer_t *buffer = sengadlit_buffer_create();
    unsigned int length = 0;

    if (sengadlit_buffer_add_utf8(buffer, "ខ្មែរ", -1, 0, -1) || sengadlit_shape(plan, &font, &lookups, buffer))
        return EXIT_FAILURE;
    const sengadlit_glyph_position_t *positions = sengadlit_buffer_get_glyph_positions(buffer, NULL);
    const sengadlit_glyph_info_t *glyphs = sengadlit_buffer_get_glyph_infos(buffer, &length);
    for (; length > 0; length--, glyphs++, positions++)
        printf("glyph %04X cluster %u advance %d\n", glyphs->glyph_id, glyphs->cluster, positions->x_advance);
    const uint32_t *stops = sengadlit_caret_stops(buffer, input.direction, &length);
    for (; stops && length > 0; length--) printf("caret at %u\n", *stops++);
    sengadlit_buffer_destroy(buffer);
    sengadlit_shape_plan_destroy(plan);
    return EXIT_SUCCESS;
}
