/* From Thai text to glyphs and clusters: KO KAI, MAI EK, SARA AM, PO PLA, MAI EK, for a font without GSUB.

   SARA AM is taken apart, and its NIKHAHIT comes before the tone. For the tone on the tall PO PLA the font is asked for a
   form lower and further to the left, which such fonts keep in the Private Use Area. */
#include <sengadlit.h>

#include <inttypes.h>
#include <stdio.h>
#include <stdlib.h>

/* The font: its glyphs of Thai, and MAI EK lower and further to the left. */
static sengadlit_bool_t nominal_glyph(void *user_data, uint32_t unicode, uint32_t *glyph)
{
    (void)user_data;
    *glyph = unicode == 0xF705 ? 200 : unicode - 0x0E00;
    return unicode == 0xF705 || (unicode > 0x0E00 && unicode <= 0x0E5B);
}

int main(void)
{
    static const sengadlit_font_funcs_t funcs = {.size = sizeof funcs, .nominal_glyph = nominal_glyph};
    const sengadlit_font_t font = {.funcs = &funcs};
    const sengadlit_plan_input_t input = {.size = sizeof input, .script = SENGADLIT_TAG('T', 'h', 'a', 'i')};
    unsigned int length;
    sengadlit_plan_t *plan = sengadlit_plan_create(SENGADLIT_SHAPER_THAI, &input, NULL);
    sengadlit_buffer_t *buffer = sengadlit_buffer_create();

    if (plan == NULL || sengadlit_buffer_add_utf8(buffer, "ก่ำป่", -1, 0, -1) != SENGADLIT_DONE)
        return EXIT_FAILURE;
    sengadlit_status_t status = sengadlit_preprocess_text(plan, &font, buffer, NULL);
    if (status != SENGADLIT_DONE) {
        fprintf(stderr, "preprocess_text: %s\n", sengadlit_status_name(status));
        return EXIT_FAILURE;
    }
    const sengadlit_glyph_info_t *glyphs = sengadlit_buffer_get_glyph_infos(buffer, &length);
    for (unsigned int i = 0; i < length; i++) {
        uint32_t glyph = 0;
        (void)nominal_glyph(NULL, glyphs[i].glyph_id, &glyph);
        printf("character %04" PRIX32 " glyph %" PRIu32 " cluster %" PRIu32 "\n", glyphs[i].glyph_id, glyph,
               glyphs[i].cluster);
    }
    sengadlit_buffer_destroy(buffer);
    sengadlit_plan_destroy(plan);
    return EXIT_SUCCESS;
}
