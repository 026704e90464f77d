/* Texts in arrays that are lent: what stands in the array after each call, how it grows, what refusals and internal errors leave.
   (The other tests run on lent texts too, compiled with LENT.) The last line is 'N passed, M failed'. */
#include "world.h"

#include <stdio.h>
#include <stdlib.h>
#include <string.h>

static unsigned int passed, failed;

static void check(const char *what, int holds)
{
    if (holds) {
        passed++;
        return;
    }
    printf("FAILED: %s\n", what);
    failed++;
}

/* ---- Arrays ---- */

enum { MOST = 32, NOBODYS = 0x5A };

static sengadlit_glyph_info_t array[MOST], other[MOST];
static unsigned int growths, wanted_last;
static int refuses, is_short;

/* Moves the text to the other array. */
static sengadlit_glyph_info_t *grow(void *user_data, sengadlit_glyph_info_t *glyphs, unsigned int wanted,
                                    unsigned int *allocated)
{
    growths++;
    wanted_last = wanted;
    check("user data", user_data == &growths);
    check("more is wanted than there is", wanted > *allocated && wanted <= MOST);
    if (refuses) return NULL;
    check("the array", glyphs == array);
    if (is_short) {
        *allocated = 2;
        return other;
    }
    memcpy(other, glyphs, *allocated * sizeof *glyphs);
    memset(array, NOBODYS, sizeof array);
    *allocated = wanted;
    return other;
}

/* Makes an array where there was none. */
static sengadlit_glyph_info_t *grow_none(void *user_data, sengadlit_glyph_info_t *glyphs, unsigned int wanted,
                                         unsigned int *allocated)
{
    check("none, and more is wanted", user_data == NULL && glyphs == NULL && *allocated == 0 && wanted == 3);
    *allocated = MOST;
    return array;
}

/* A text of Thai in the array: a consonant, a tone and SARA AM. (The script is Lao, without forms of the Private Use Area.) */
static void write_thai(void)
{
    static const uint32_t text[] = {0x0E1B, 0x0E48, 0x0E33};

    memset(array, NOBODYS, sizeof array);
    memset(other, NOBODYS, sizeof other);
    memset(array, 0, 3 * sizeof *array);
    for (unsigned int i = 0; i < 3; i++) {
        array[i].glyph_id = text[i];
        array[i].cluster = i;
        array[i].unicode_props = SENGADLIT_UNICODE_GENERAL_CATEGORY_OTHER_LETTER;
    }
}

static void begin(unsigned int allocated, int grows)
{
    begin_world(SENGADLIT_SHAPER_THAI, SENGADLIT_TAG('L', 'a', 'o', 'o'), 0x0E01, 1);
    write_thai();
    growths = wanted_last = 0;
    refuses = is_short = 0;
    check("a function", sengadlit_buffer_set_grow_func(world.buffer, grows ? grow : NULL, &growths) == SENGADLIT_DONE);
    check("lent", sengadlit_buffer_lend(world.buffer, array, 3, allocated) == SENGADLIT_DONE);
}

static sengadlit_status_t preprocess(void)
{
    return sengadlit_preprocess_text(world.plan, &world.font, world.buffer, NULL);
}

/* Whether NIKHAHIT stands before the tone, and SARA AA behind it. */
static int is_done(const sengadlit_glyph_info_t *made)
{
    return made[0].glyph_id == 0x0E1B && made[1].glyph_id == 0x0E4D && made[2].glyph_id == 0x0E48 && made[3].glyph_id == 0x0E32;
}

static int is_nobodys(const sengadlit_glyph_info_t *first, unsigned int length)
{
    const unsigned char *bytes = (const unsigned char *)first;

    for (size_t i = 0; i < length * sizeof *first; i++)
        if (bytes[i] != NOBODYS) return 0;
    return 1;
}

static void expect_refused(const char *what, sengadlit_status_t status)
{
    sengadlit_error_t error;

    sengadlit_buffer_get_error(world.buffer, &error);
    check(what, status == SENGADLIT_ARGUMENT && error.status == status && error.argument == SENGADLIT_ARGUMENT_GLYPHS);
}

static void give_back(const char *what, const sengadlit_glyph_info_t *place, unsigned int length, unsigned int allocated)
{
    unsigned int found, room;

    check(what, sengadlit_buffer_give_back(world.buffer, &found, &room) == place && found == length && room == allocated);
    expect_refused(what, sengadlit_buffer_give_back(world.buffer, NULL, NULL) == NULL ? SENGADLIT_ARGUMENT : SENGADLIT_DONE);
    check(what, sengadlit_buffer_get_glyph_infos(world.buffer, &found) != NULL && found == 0);
}

/* ---- What is tested ---- */

static void arrays_that_are_none(void)
{
    unsigned int length;

    begin_world(SENGADLIT_SHAPER_THAI, SENGADLIT_TAG('L', 'a', 'o', 'o'), 0x0E01, 1);
    expect_refused("nothing is lent", sengadlit_buffer_give_back(world.buffer, NULL, NULL) ? SENGADLIT_DONE : SENGADLIT_ARGUMENT);
    expect_refused("null", sengadlit_buffer_lend(world.buffer, NULL, 0, 1));
    expect_refused("longer than the array", sengadlit_buffer_lend(world.buffer, array, 4, 3));
    check("the text stays", sengadlit_buffer_get_glyph_infos(world.buffer, &length) != NULL && length == 1);
    check("no buffer", sengadlit_buffer_lend(NULL, array, 1, 1) == SENGADLIT_ARGUMENT);
    check("no buffer", sengadlit_buffer_give_back(NULL, &length, &length) == NULL);
    check("no buffer", sengadlit_buffer_set_grow_func(NULL, grow, NULL) == SENGADLIT_ARGUMENT);
    check("none", sengadlit_buffer_lend(world.buffer, NULL, 0, 0) == SENGADLIT_DONE);
    check("none", sengadlit_buffer_get_glyph_infos(world.buffer, &length) != NULL && length == 0);
    length = 77;
    check("none given back", sengadlit_buffer_give_back(world.buffer, &length, NULL) == NULL && length == 0);
    check("a function", sengadlit_buffer_set_grow_func(world.buffer, grow_none, NULL) == SENGADLIT_DONE);
    check("none", sengadlit_buffer_lend(world.buffer, NULL, 0, 0) == SENGADLIT_DONE);
    check("grown", sengadlit_buffer_set_length(world.buffer, 3) == array && array[2].glyph_id == 0);
    give_back("grown", array, 3, MOST);
    end_world();
}

static void one_array_after_another(void)
{
    unsigned int length;

    begin(8, 0);
    memcpy(other, array, 3 * sizeof *array);
    check("preprocessed", preprocess() == SENGADLIT_DONE);
    check("another", sengadlit_buffer_lend(world.buffer, other, 3, 4) == SENGADLIT_DONE && glyphs() == other);
    check("the first one is left", is_done(array));
    check("preprocessed", preprocess() == SENGADLIT_DONE && is_done(other));
    check("again", sengadlit_buffer_lend(world.buffer, other, 2, 4) == SENGADLIT_DONE);
    check("again", sengadlit_buffer_get_glyph_infos(world.buffer, &length) == other && length == 2);
    give_back("the last", other, 2, 4);
    begin(3, 0);
    check("elsewhere", preprocess() == SENGADLIT_DONE && glyphs() != array);
    check("another", sengadlit_buffer_lend(world.buffer, other, 4, 8) == SENGADLIT_DONE && glyphs() == other);
    give_back("the last", other, 4, 8);
    end_world();
}

static void texts_that_fit(void)
{
    begin(8, 0);
    check("the place", glyphs() == array);
    check("preprocessed", preprocess() == SENGADLIT_DONE && glyphs() == array && is_done(array));
    check("nothing behind it", is_nobodys(array + 4, MOST - 4) || is_nobodys(array + 8, MOST - 8));
    check("longer", sengadlit_buffer_set_length(world.buffer, 8) == array && array[7].glyph_id == 0);
    check("nothing behind the array", is_nobodys(array + 8, MOST - 8));
    check("shorter", sengadlit_buffer_set_length(world.buffer, 4) == array);
    check("cleared", (sengadlit_buffer_clear_contents(world.buffer), glyphs() == array));
    check("added", sengadlit_buffer_add_utf8(world.buffer, "\u0E1B\u0E48\u0E33", -1, 0, -1) == SENGADLIT_DONE);
    check("added in the array", glyphs() == array && array[2].glyph_id == 0x0E33 && array[2].cluster == 6);
    check("preprocessed again", preprocess() == SENGADLIT_DONE && glyphs() == array && is_done(array));
    give_back("back", array, 4, 8);
    check("it stays", is_done(array));
    end_world();
}

static void texts_that_grow(void)
{
    begin(3, 1);
    check("preprocessed", preprocess() == SENGADLIT_DONE && glyphs() == other && is_done(other));
    check("grown once", growths == 1 && wanted_last == 4);
    check("the old one is left", is_nobodys(array, MOST));
    check("nothing behind it", is_nobodys(other + 4, MOST - 4));
    give_back("the other", other, 4, 4);
    end_world();
}

static void growth_that_is_refused(void)
{
    sengadlit_glyph_info_t before[MOST];
    unsigned int length;

    begin(3, 1);
    refuses = 1;
    memcpy(before, array, sizeof before);
    check("refused", preprocess() == SENGADLIT_MEMORY && growths == 1);
    check("as it was", sengadlit_buffer_get_glyph_infos(world.buffer, &length) == array && length == 3);
    check("in the array", memcmp(before, array, sizeof before) == 0);
    check("no longer", sengadlit_buffer_set_length(world.buffer, 4) == NULL && memcmp(before, array, sizeof before) == 0);
    check("nothing added", sengadlit_buffer_add_utf8(world.buffer, "ab", -1, 0, -1) == SENGADLIT_MEMORY);
    check("in the array", memcmp(before, array, sizeof before) == 0);
    refuses = 0;
    is_short = 1;
    check("no room for the text", preprocess() == SENGADLIT_MEMORY && glyphs() == array);
    check("no longer", sengadlit_buffer_set_length(world.buffer, 4) == NULL);
    check("as it was", sengadlit_buffer_get_glyph_infos(world.buffer, &length) == array && length == 3);
    check("in the array", memcmp(before, array, sizeof before) == 0 && is_nobodys(other, MOST));
    is_short = 0;
    check("done", preprocess() == SENGADLIT_DONE && is_done(other));
    give_back("the other", other, 4, 4);
    end_world();
}

static void texts_that_leave_the_array(void)
{
    unsigned int length, room = 77;
    sengadlit_glyph_info_t *made;

    begin(3, 0);
    check("preprocessed", preprocess() == SENGADLIT_DONE);
    made = sengadlit_buffer_get_glyph_infos(world.buffer, &length);
    check("elsewhere", made != array && length == 4 && is_done(made));
    check("nothing behind the array", is_nobodys(array + 3, MOST - 3));
    (void)positions();
    check("given", sengadlit_buffer_give_back(world.buffer, &length, &room) == made && length == 4 && room == 0);
    check("the text is given", is_done(made) && sengadlit_buffer_get_state(world.buffer) == 0 && is_done(made));
    check("the buffer has none", sengadlit_buffer_get_glyph_infos(world.buffer, &length) != NULL && length == 0);
    check("nor positions", sengadlit_buffer_get_glyph_positions(world.buffer, &length) != NULL && length == 0);
    check("another text", sengadlit_buffer_add_utf8(world.buffer, "\u0E01", -1, 0, -1) == SENGADLIT_DONE);
    check("of it alone", sengadlit_buffer_get_glyph_infos(world.buffer, &length) != NULL && length == 1);
    begin(3, 0);
    check("preprocessed", preprocess() == SENGADLIT_DONE);
    made = glyphs();
    memmove(made, made + 1, 3 * sizeof *made);
    check("shorter", sengadlit_buffer_set_length(world.buffer, 3) != NULL);
    check("a call brings it back", preprocess() == SENGADLIT_DONE && glyphs() == array && array[2].glyph_id == 0x0E32);
    give_back("back", array, 3, 3);
    end_world();
}

static sengadlit_bool_t has_jamo_alone(void *user_data, uint32_t unicode, uint32_t *glyph)
{
    (void)user_data;
    *glyph = unicode;
    return unicode < 0xAC00;
}

/* Syllables of Hangul, which are taken apart and put together again, once more than there is room for at first. */
static void texts_that_are_rewritten(void)
{
    for (unsigned int round = 0; round < 4; round++) {
        begin_world(SENGADLIT_SHAPER_HANGUL, SENGADLIT_TAG('H', 'a', 'n', 'g'), 0, 0);
        memset(array, 0, sizeof array);
        array[0].glyph_id = 0x1100;
        array[1].glyph_id = 0x1161;
        array[2].glyph_id = 0x302E;
        check("lent", sengadlit_buffer_lend(world.buffer, array, 3, 3 + round) == SENGADLIT_DONE);
        check("composed", preprocess() == SENGADLIT_DONE && glyphs() == array);
        give_back("composed", array, 2, 3 + round);
        check("composed", array[0].glyph_id == 0x302E && array[1].glyph_id == 0xAC00);
    }
    end_world();
}

/* Two syllables that the font lacks become six jamo, beside the array of two, in which spare glyphs stand then. */
static void texts_that_are_rewritten_elsewhere(void)
{
    for (unsigned int lends = 0; lends < 2; lends++) {
        const sengadlit_glyph_info_t *made;
        unsigned int length = 0, room = 77;

        begin_world(SENGADLIT_SHAPER_HANGUL, SENGADLIT_TAG('H', 'a', 'n', 'g'), 0, 0);
        world.font_funcs.nominal_glyph = has_jamo_alone;
        memset(array, 0, sizeof array);
        array[0].glyph_id = array[1].glyph_id = 0xAC01;
        check("lent", sengadlit_buffer_lend(world.buffer, array, 2, 2) == SENGADLIT_DONE);
        check("decomposed", preprocess() == SENGADLIT_DONE && glyphs() != array);
        memset(array, NOBODYS, sizeof array);
        if (lends) {
            memset(other, 0, sizeof other);
            check("another", sengadlit_buffer_lend(world.buffer, other, 1, 4) == SENGADLIT_DONE && glyphs() == other);
            give_back("the other", other, 1, 4);
        } else {
            made = sengadlit_buffer_give_back(world.buffer, &length, &room);
            check("given", made != array && length == 6 && room == 0);
            check("jamo", made[0].glyph_id == 0x1100 && made[5].glyph_id == 0x11A8);
        }
        check("its own", sengadlit_buffer_set_length(world.buffer, 2) != NULL);
        glyphs()[0].glyph_id = glyphs()[1].glyph_id = 0xAC01;
        check("decomposed", preprocess() == SENGADLIT_DONE && glyphs()[5].glyph_id == 0x11A8);
        check("the array is left", is_nobodys(array, MOST));
    }
    end_world();
}

/* Reorderings of a text whose array grows need no other memory: the circle of Khmer. */
static void circles(void)
{
    const sengadlit_pause_t setup = SENGADLIT_PAUSE_SETUP_SYLLABLES_KHMER;

    begin_world(SENGADLIT_SHAPER_KHMER, SENGADLIT_TAG('K', 'h', 'm', 'r'), 0, 0);
    check("a function", sengadlit_buffer_set_grow_func(world.buffer, grow, &growths) == SENGADLIT_DONE);
    memset(array, 0, sizeof array);
    world.answers.glyph_of_circle = 7;
    array[0].glyph_id = 0x17B6;
    array[0].syllable = 0x10 | SENGADLIT_KHMER_SYLLABLE_BROKEN;
    refuses = 0;
    check("lent", sengadlit_buffer_lend(world.buffer, array, 1, 1) == SENGADLIT_DONE);
    check("set up", sengadlit_setup_syllables_written(world.plan, setup, world.buffer) == SENGADLIT_DONE);
    check("in the array", glyphs() == array);
    check("a circle", sengadlit_run_pause(world.plan, SENGADLIT_PAUSE_REORDER_KHMER, &world.font, NULL, 0, world.buffer, NULL) ==
                          SENGADLIT_DONE);
    give_back("grown", other, 2, 2);
    check("the circle", other[0].glyph_id == 7 && other[1].glyph_id == 0x17B6);
    end_world();
}

/* Advances that change from call to call. */
static int32_t changing(void *user_data, uint32_t glyph)
{
    static uint32_t state = 1;

    (void)user_data, (void)glyph;
    state = state * 1664525 + 1013904223;
    return (int32_t)(state >> 16) % 40 - 10;
}

static void ignore(const char *message, void *user_data) { (void)message, (void)user_data; }

static void stretched_marks(void)
{
    unsigned int internal = 0, stretched = 0, length;

    sengadlit_set_message_func(ignore, NULL);
    for (unsigned int round = 0; round < 2000 && (internal == 0 || stretched == 0); round++) {
        sengadlit_status_t status;
        begin_word_and_tiles();
        memcpy(array, glyphs(), 3 * sizeof *array);
        check("a function", sengadlit_buffer_set_grow_func(world.buffer, NULL, NULL) == SENGADLIT_DONE);
        check("lent", sengadlit_buffer_lend(world.buffer, array, 3, MOST) == SENGADLIT_DONE);
        status = sengadlit_run_pause(world.plan, SENGADLIT_PAUSE_RECORD_STCH, NULL, NULL, 0, world.buffer, NULL);
        check("recorded", status == SENGADLIT_DONE);
        for (unsigned int i = 0; i < 3; i++) positions()[i].x_advance = 100;
        world.font_funcs.glyph_h_advance = changing;
        status = sengadlit_postprocess_glyphs(world.plan, &world.font, world.buffer);
        check("in the array", sengadlit_buffer_get_glyph_infos(world.buffer, &length) == array || length > MOST);
        internal += status == SENGADLIT_INTERNAL;
        stretched += status == SENGADLIT_DONE && length > 3;
        if (status == SENGADLIT_INTERNAL) {
            check("empty", length == 0);
            check("used again", sengadlit_buffer_set_length(world.buffer, 2) == array && array[1].glyph_id == 0);
            give_back("used again", array, 2, MOST);
        }
        end_world();
    }
    sengadlit_set_message_func(NULL, NULL);
    check("internal errors", internal > 0);
    check("stretched marks", stretched > 0);
}

static void many_arrays(void)
{
    static sengadlit_glyph_info_t arrays[8][MOST];

    begin_world(SENGADLIT_SHAPER_THAI, SENGADLIT_TAG('L', 'a', 'o', 'o'), 0x0E01, 1);
    for (unsigned int round = 0; round < 64; round++) {
        sengadlit_glyph_info_t *one = arrays[round % 8];
        write_thai();
        memcpy(one, array, 3 * sizeof *one);
        check("lent", sengadlit_buffer_lend(world.buffer, one, 3, 4 + round % 9) == SENGADLIT_DONE);
        check("preprocessed", preprocess() == SENGADLIT_DONE);
        give_back("back", one, 4, 4 + round % 9);
        check("done", is_done(one));
    }
    check("its own again", sengadlit_buffer_set_length(world.buffer, 2) != NULL && glyphs()[1].glyph_id == 0);
    check("lent and destroyed", sengadlit_buffer_lend(world.buffer, array, 3, 3) == SENGADLIT_DONE);
    end_world();
    check("the caller's", array[2].glyph_id == 0x0E33);
}

int main(void)
{
    arrays_that_are_none();
    one_array_after_another();
    texts_that_fit();
    texts_that_grow();
    growth_that_is_refused();
    texts_that_leave_the_array();
    texts_that_are_rewritten();
    texts_that_are_rewritten_elsewhere();
    circles();
    stretched_marks();
    many_arrays();
    printf("%u passed, %u failed\n", passed, failed);
    return failed == 0 ? EXIT_SUCCESS : EXIT_FAILURE;
}
