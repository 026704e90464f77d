/* Which callbacks are called, and what becomes of results that are invalid, that change, or that come after calls on
   other buffers. The last line is 'N passed, M failed'. */
#include "world.h"

#include <stdio.h>
#include <stdlib.h>
#include <string.h>

static unsigned int passed, failed;

static void check(const char *what, int holds)
{
    if (holds) {
        passed++;
        return;
    }
    printf("FAILED: %s\n", what);
    failed++;
}

static sengadlit_status_t reorder(sengadlit_pause_t pause, sengadlit_bool_t *circles)
{
    return sengadlit_run_pause(world.plan, pause, &world.font, NULL, 0, world.buffer, circles);
}

static unsigned int length_of(sengadlit_buffer_t *buffer)
{
    unsigned int length;

    (void)sengadlit_buffer_get_glyph_infos(buffer, &length);
    return length;
}

/* ---- Glyphs ---- */

static uint32_t glyph_answered;
static sengadlit_bool_t truth;

static sengadlit_bool_t answer_glyph(void *user_data, uint32_t unicode, uint32_t *glyph)
{
    (void)user_data, (void)unicode;
    *glyph = glyph_answered;
    return truth;
}

/* A broken syllable of Khmer, for which the font returns this. */
static void expect_circle(const char *what, uint32_t glyph, sengadlit_bool_t answer, sengadlit_bool_t wanted)
{
    static const sengadlit_span_t broken[] = {{1, 1}};
    sengadlit_bool_t circles = 77;

    begin_world(SENGADLIT_SHAPER_KHMER, SENGADLIT_TAG('K', 'h', 'm', 'r'), 0x17C1, 1);
    world.font_funcs.nominal_glyph = answer_glyph;
    glyph_answered = glyph;
    truth = answer;
    (void)sengadlit_run_pause(world.plan, SENGADLIT_PAUSE_SETUP_SYLLABLES_KHMER, NULL, broken, 1, world.buffer, NULL);
    check(what, reorder(SENGADLIT_PAUSE_REORDER_KHMER, &circles) == SENGADLIT_DONE);
    check(what, circles == wanted && length_of(world.buffer) == (wanted ? 2 : 1));
}

static void glyphs_of_circles(void)
{
    expect_circle("a circle", 65535, 1, 1);
    expect_circle("truth is any number but 0", 7, -3, 1);
    expect_circle("no circle", 7, 0, 0);
    expect_circle("a glyph above 65535 is none", 65536, 1, 0);
    expect_circle("a glyph far above is none", UINT32_MAX, 1, 0);
}

/* ---- Lookups ---- */

static unsigned int questions, wrong_questions;

static sengadlit_bool_t check_question(void *user_data, const uint16_t *lookups, unsigned int lookups_length,
                                       const uint32_t *numbers, unsigned int length, sengadlit_bool_t zero_context)
{
    questions++;
    if (user_data != &world.answers || lookups_length != 1 || lookups[0] < 7 || lookups[0] > 10 || length < 2 || length > 3 ||
        (zero_context != 0 && zero_context != 1))
        wrong_questions++;
    for (unsigned int i = 0; i < length && i < 3; i++)
        if (numbers[i] != 0x0930 && numbers[i] != 0x094D && numbers[i] != 0x0915)
            wrong_questions++;
    return 0;
}

/* RA, VIRAMA, KA. */
static void questions_about_lookups(void)
{
    static const sengadlit_span_t syllable[] = {{3, 0}};

    begin_world(SENGADLIT_SHAPER_INDIC, SENGADLIT_TAG('D', 'e', 'v', 'a'), 0x0915, 3);
    glyphs()[0].glyph_id = 0x0930;
    glyphs()[0].category = 15;
    glyphs()[1].glyph_id = 0x094D;
    glyphs()[1].category = 4;
    glyphs()[2].category = 1;
    world.font_funcs.would_substitute = check_question;
    (void)sengadlit_run_pause(world.plan, SENGADLIT_PAUSE_SETUP_SYLLABLES_INDIC, NULL, syllable, 1, world.buffer, NULL);
    check("Indic", reorder(SENGADLIT_PAUSE_INITIAL_REORDERING, NULL) == SENGADLIT_DONE);
    check("lookups, glyphs and context", questions > 0 && wrong_questions == 0);
}

/* ---- Tables ---- */

static uint32_t composed;

static sengadlit_bool_t answer_pair(void *user_data, uint32_t a, uint32_t b, uint32_t *ab)
{
    (void)user_data, (void)a, (void)b;
    *ab = composed;
    return truth;
}

static sengadlit_bool_t answer_parts(void *user_data, uint32_t ab, uint32_t *a, uint32_t *b)
{
    (void)user_data, (void)ab;
    *a = 0x41;
    *b = composed;
    return truth;
}

static void expect_pair(const char *what, uint32_t answer, sengadlit_status_t status)
{
    uint32_t a = 77, b = 77;

    composed = answer;
    truth = 2;
    check(what, sengadlit_compose(world.plan, &world.tables, 0x41, 0x300, &a, NULL) == status);
    check(what, a == (status == SENGADLIT_DONE ? answer : 77));
    a = 77;
    check(what, sengadlit_decompose(world.plan, &world.tables, 0x1780, &a, &b, NULL) == status);
    check(what, a == (status == SENGADLIT_DONE ? 0x41 : 77) && b == (status == SENGADLIT_DONE ? answer : 77));
}

static void characters_that_are_none(void)
{
    begin_world(SENGADLIT_SHAPER_KHMER, SENGADLIT_TAG('K', 'h', 'm', 'r'), 0x1780, 1);
    world.tables_funcs.compose = answer_pair;
    world.tables_funcs.decompose = answer_parts;
    expect_pair("a character", 0xC0, SENGADLIT_DONE);
    expect_pair("a surrogate is no answer", 0xD800, SENGADLIT_NOT_FOUND);
    expect_pair("beyond Unicode is no answer", 0x110000, SENGADLIT_NOT_FOUND);
    world.answers.general_category = SENGADLIT_UNICODE_GENERAL_CATEGORY_NON_SPACING_MARK;
    composed = 0xC0;
    check("a mark composes with nothing",
          sengadlit_compose(world.plan, &world.tables, 0x41, 0x300, &composed, NULL) == SENGADLIT_NOT_FOUND);
    for (unsigned int number = 30; number < 256; number++) {
        world.answers.general_category = (uint8_t)number;
        check("a category that is none is no mark",
              sengadlit_compose(world.plan, &world.tables, 0x41, 0x300, &composed, NULL) == SENGADLIT_DONE);
    }
}

/* The masks of three letters of this joining type. */
static void joined(uint8_t joining_type, uint32_t *masks)
{
    begin_world(SENGADLIT_SHAPER_ARABIC, SENGADLIT_TAG('A', 'r', 'a', 'b'), 0x0628, 3);
    world.answers.joining_type = joining_type;
    check("masks", sengadlit_setup_masks(world.plan, &world.tables, world.buffer) == SENGADLIT_DONE);
    for (unsigned int i = 0; i < 3; i++)
        masks[i] = glyphs()[i].mask << 8 | glyphs()[i].auxiliary;
}

static void joining_types_that_are_none(void)
{
    uint32_t u[3], d[3], other[3];

    joined(SENGADLIT_JOINING_TYPE_U, u);
    joined(SENGADLIT_JOINING_TYPE_D, d);
    check("letters join", memcmp(u, d, sizeof u) != 0);
    for (unsigned int number = 6; number < 256; number++) {
        if (number == SENGADLIT_JOINING_TYPE_T || number == SENGADLIT_JOINING_TYPE_X)
            continue;
        joined((uint8_t)number, other);
        check("a joining type that is none is U", memcmp(u, other, sizeof u) == 0);
    }
}

static uint16_t both;

static uint16_t answer_both(void *user_data, uint32_t unicode)
{
    (void)user_data, (void)unicode;
    return both;
}

static void categories_that_are_none(void)
{
    static const sengadlit_span_t syllable[] = {{3, 0}};

    for (unsigned int number = 0; number < 0x10000; number += 253) {
        begin_world(SENGADLIT_SHAPER_INDIC, SENGADLIT_TAG('D', 'e', 'v', 'a'), 0x0915, 3);
        world.tables_funcs.indic_categories = answer_both;
        both = (uint16_t)number;
        check("any category", sengadlit_setup_masks(world.plan, &world.tables, world.buffer) == SENGADLIT_DONE);
        check("is written", glyphs()[0].category == number % 256 && glyphs()[2].auxiliary == number / 256);
        (void)sengadlit_run_pause(world.plan, SENGADLIT_PAUSE_SETUP_SYLLABLES_INDIC, NULL, syllable, 1, world.buffer, NULL);
        check("and taken", reorder(SENGADLIT_PAUSE_INITIAL_REORDERING, NULL) == SENGADLIT_DONE);
        check("twice", reorder(SENGADLIT_PAUSE_FINAL_REORDERING, NULL) == SENGADLIT_DONE);
    }
}

/* ---- Results that change ---- */

static uint32_t random_state;

static int32_t changing_advance(void *user_data, uint32_t glyph)
{
    (void)user_data, (void)glyph;
    random_state = random_state * 1664525u + 1013904223u;
    return (int32_t)(random_state >> 22);
}

/* Stretches a mark over a word by advances that change; the buffer serves again however that ends. */
static sengadlit_status_t stretch_by_changing_advances(uint32_t seed)
{
    sengadlit_error_t error;
    sengadlit_status_t status;

    begin_word_and_tiles();
    random_state = seed;
    world.font_funcs.glyph_h_advance = changing_advance;
    (void)reorder(SENGADLIT_PAUSE_RECORD_STCH, NULL);
    positions()[0].x_advance = 1000;
    status = sengadlit_postprocess_glyphs(world.plan, &world.font, world.buffer);
    sengadlit_buffer_get_error(world.buffer, &error);
    if (status != SENGADLIT_INTERNAL)
        return status;
    check("an internal error is told", error.status == SENGADLIT_INTERNAL && error.argument == SENGADLIT_ARGUMENT_NONE);
    check("it leaves an empty buffer", length_of(world.buffer) == 0 && sengadlit_buffer_get_state(world.buffer) == 0);
    check("which serves again", sengadlit_buffer_set_length(world.buffer, 3) != NULL && glyphs()[2].glyph_id == 0);
    check("with its properties",
          sengadlit_buffer_set_length(world.buffer, ROOM + 1) != NULL &&
              sengadlit_setup_masks(world.plan, &world.tables, world.buffer) == SENGADLIT_TOO_LONG);
    return status;
}

static void answers_that_change(void)
{
    unsigned int ends[SENGADLIT_INTERNAL + 1] = {0};

    for (uint32_t seed = 0; seed < 3000; seed++)
        ends[stretch_by_changing_advances(seed)]++;
    printf("advances that change: %u done, %u too long, %u internal errors\n", ends[SENGADLIT_DONE],
           ends[SENGADLIT_TOO_LONG], ends[SENGADLIT_INTERNAL]);
    check("some are met by an internal error", ends[SENGADLIT_INTERNAL] > 0);
    check("and nothing else happens",
          ends[SENGADLIT_DONE] + ends[SENGADLIT_TOO_LONG] + ends[SENGADLIT_STRETCH_OVERFLOW] + ends[SENGADLIT_INTERNAL] == 3000);
}

/* ---- Calls from callbacks ---- */

static sengadlit_buffer_t *other;

static sengadlit_bool_t call_on_other(void *user_data, uint32_t unicode, uint32_t *glyph)
{
    sengadlit_glyph_info_t *text = sengadlit_buffer_set_length(other, 2);

    (void)user_data;
    text[0].unicode_props = text[1].unicode_props = SENGADLIT_UNICODE_GENERAL_CATEGORY_OTHER_LETTER;
    text[1].glyph_id = 0x0E33;
    if (sengadlit_setup_masks(world.plan, NULL, other) == SENGADLIT_DONE) questions++;
    *glyph = unicode;
    return 1;
}

static void calls_on_other_buffers(void)
{
    begin_world(SENGADLIT_SHAPER_HANGUL, SENGADLIT_TAG('H', 'a', 'n', 'g'), 0x1100, 4);
    glyphs()[1].glyph_id = glyphs()[3].glyph_id = 0x1161;
    world.font_funcs.nominal_glyph = call_on_other;
    other = sengadlit_buffer_create();
    questions = 0;
    check("a callback may use another buffer", sengadlit_preprocess_text(world.plan, &world.font, world.buffer, NULL) == SENGADLIT_DONE);
    check("jamo compose", length_of(world.buffer) == 2 && glyphs()[0].glyph_id == 0xAC00 && questions > 0);
    sengadlit_buffer_destroy(other);
}

int main(void)
{
    glyphs_of_circles();
    questions_about_lookups();
    characters_that_are_none();
    joining_types_that_are_none();
    categories_that_are_none();
    answers_that_change();
    calls_on_other_buffers();
    end_world();
    printf("%u passed, %u failed\n", passed, failed);
    return failed == 0 ? EXIT_SUCCESS : EXIT_FAILURE;
}
