/* Plans for whole texts, and texts that are shaped by a font's lookups: what the calls refuse, what they make, and
   what a callback may do with the buffer that it is lent. The last line is 'N passed, M failed'. */
#include "world.h"

#include <stdio.h>
#include <stdlib.h>
#include <string.h>

static unsigned int passed, failed;

static void check(const char *what, int holds)
{
    if (holds) {
        passed++;
        return;
    }
    printf("FAILED: %s\n", what);
    failed++;
}

/* ---- A plan of Khmer: the feature pres, on everywhere behind the reordering, has lookup 7 ---- */

static const uint16_t seven[] = {7}, eight[] = {8};
static const sengadlit_table_feature_t pres = {SENGADLIT_TAG('p', 'r', 'e', 's'), 1, seven};

static sengadlit_shape_plan_input_t khmer(void)
{
    sengadlit_shape_plan_input_t input = SENGADLIT_INIT(sengadlit_shape_plan_input_t);

    input.script = SENGADLIT_TAG('K', 'h', 'm', 'r');
    input.direction = SENGADLIT_DIRECTION_LTR;
    input.gsub.has_table = 1;
    input.gsub.chosen_script = SENGADLIT_TAG('k', 'h', 'm', 'r');
    input.gsub.found_script = 1;
    input.gsub.features = &pres;
    input.gsub.features_length = 1;
    return input;
}

/* A plan of Latin, which needs no shaper: the feature kern, of GPOS, has lookup 8. */
static sengadlit_shape_plan_t *latin(sengadlit_bool_t has_gpos)
{
    static const sengadlit_table_feature_t kern = {SENGADLIT_TAG('k', 'e', 'r', 'n'), 1, eight};
    sengadlit_shape_plan_input_t input = SENGADLIT_INIT(sengadlit_shape_plan_input_t);

    input.script = SENGADLIT_TAG('L', 'a', 't', 'n');
    input.direction = SENGADLIT_DIRECTION_LTR;
    input.gpos.has_table = has_gpos;
    input.gpos.chosen_script = has_gpos ? SENGADLIT_TAG('l', 'a', 't', 'n') : 0;
    input.gpos.features = &kern;
    input.gpos.features_length = has_gpos ? 1 : 0;
    return sengadlit_shape_plan_create(&input, NULL);
}

/* ---- Lookups ---- */

/* What lookup 7 does. */
static sengadlit_bool_t (*lookup_7)(const sengadlit_lookup_t *lookup, sengadlit_buffer_t *buffer);

static sengadlit_bool_t substitute(void *user_data, const sengadlit_lookup_t *lookup, sengadlit_buffer_t *buffer)
{
    check("the lookup", user_data == &lookup_7 && lookup->index == 7 && lookup->mask == 1u << 31 && lookup->auto_zwnj == 0 &&
                            lookup->auto_zwj == 0 && lookup->random == 0 && lookup->per_syllable == 0);
    return lookup_7(lookup, buffer);
}

static sengadlit_bool_t variation_glyph(void *user_data, uint32_t unicode, uint32_t selector, uint32_t *glyph)
{
    (void)user_data;
    *glyph = 0xF8FF;
    return unicode == 0x1780 && selector == 0xFE00;
}

/* The class of a glyph: the dot below is a mark. */
static uint16_t glyph_props(void *user_data, const sengadlit_glyph_info_t *glyph)
{
    check("the glyph of its class", user_data == &lookup_7 && glyph->glyph_props == 0 && glyph->lig_props == 0);
    return glyph->glyph_id == 0x0323 ? SENGADLIT_GLYPH_PROPS_MARK : 0;
}

static sengadlit_bool_t is_mark(void *user_data, const sengadlit_glyph_info_t *glyph)
{
    (void)user_data;
    return glyph->glyph_props == SENGADLIT_GLYPH_PROPS_MARK;
}

/* What lookup 8, of GPOS, does. */
static sengadlit_bool_t (*lookup_8)(sengadlit_buffer_t *buffer);

static sengadlit_bool_t position(void *user_data, const sengadlit_lookup_t *lookup, sengadlit_buffer_t *buffer)
{
    check("the lookup of GPOS", user_data == &lookup_7 && lookup->index == 8);
    return lookup_8(buffer);
}

/* What is wrong with what it leaves. */
static enum { NOTHING, NUMBER, LENGTH } fault_at_end;

static void finish_positions(void *user_data, sengadlit_buffer_t *buffer)
{
    (void)user_data;
    sengadlit_buffer_get_glyph_positions(buffer, NULL)[0].y_offset = 5;
    if (fault_at_end == NUMBER) sengadlit_buffer_get_glyph_infos(buffer, NULL)[0].glyph_id = 65536;
    if (fault_at_end == LENGTH) (void)sengadlit_buffer_set_length(buffer, 1);
}

static int32_t glyph_v_advance(void *user_data, uint32_t glyph)
{
    check("the glyph of an advance", user_data == &lookup_7 && glyph <= UINT16_MAX);
    return -1000;
}

static void glyph_v_origin(void *user_data, uint32_t glyph, int32_t *x, int32_t *y)
{
    check("the glyph of an origin", user_data == &lookup_7 && *x == 0 && *y == 0);
    *x = (int32_t)glyph;
    *y = 880;
}

static sengadlit_lookups_funcs_t funcs = {
    sizeof funcs, variation_glyph, glyph_props, substitute, is_mark, position, finish_positions, NULL, NULL};
static sengadlit_lookups_t lookups = {&funcs, &lookup_7};

static sengadlit_shape_plan_t *plan;

/* The text in the buffer, which has only it. */
static void set_text(const char *text)
{
    sengadlit_buffer_clear_contents(world.buffer);
    world.has_positions = 0;
    if (sengadlit_buffer_set_properties(world.buffer, &world.properties) != SENGADLIT_DONE ||
        sengadlit_buffer_add_utf8(world.buffer, text, -1, 0, -1) != SENGADLIT_DONE)
        exit(EXIT_FAILURE);
}

static sengadlit_status_t shape(void)
{
    return sengadlit_substitute_text(plan, &world.font, &lookups, world.buffer);
}

static sengadlit_status_t shape_whole(sengadlit_shape_plan_t *of)
{
    return sengadlit_shape(of, &world.font, &lookups, world.buffer);
}

static int has_glyphs(const uint32_t *codepoints, const uint32_t *clusters, unsigned int wanted)
{
    unsigned int length;
    const sengadlit_glyph_info_t *found = sengadlit_buffer_get_glyph_infos(world.buffer, &length);

    if (length != wanted) return 0;
    for (unsigned int i = 0; i < length; i++)
        if (found[i].glyph_id != codepoints[i] || found[i].cluster != clusters[i]) return 0;
    return 1;
}

/* ---- Plans ---- */

static void refuse_plan(const char *what, const sengadlit_shape_plan_input_t *input, sengadlit_argument_t argument,
                        unsigned int index)
{
    sengadlit_error_t error;

    check(what, sengadlit_shape_plan_create(input, &error) == NULL && sengadlit_shape_plan_create(input, NULL) == NULL);
    check(what, error.status == SENGADLIT_ARGUMENT && error.argument == argument && error.index == index);
}

static void try_plans(void)
{
    static const sengadlit_table_feature_t bad[] = {{SENGADLIT_TAG('p', 'r', 'e', 's'), 1, seven}, {0, 1, NULL}};
    sengadlit_shape_plan_input_t input = khmer();

    refuse_plan("no input", NULL, SENGADLIT_ARGUMENT_INPUT, 0);
    input.direction = SENGADLIT_DIRECTION_INVALID;
    refuse_plan("no direction", &input, SENGADLIT_ARGUMENT_DIRECTION, 0);
    input = khmer();
    input.units_per_em = 65536;
    refuse_plan("a great em", &input, SENGADLIT_ARGUMENT_INPUT, 0);
    input = khmer();
    input.gsub.features = NULL;
    refuse_plan("no features", &input, SENGADLIT_ARGUMENT_FEATURES, 0);
    input = khmer();
    input.gpos.anywhere_length = 1;
    refuse_plan("no features of any script", &input, SENGADLIT_ARGUMENT_FEATURES, 0);
    input = khmer();
    input.user_features_length = 1;
    refuse_plan("no features of the user's", &input, SENGADLIT_ARGUMENT_FEATURES, 0);
    input = khmer();
    input.gsub.required.lookups_length = 1;
    refuse_plan("no lookups of the required feature", &input, SENGADLIT_ARGUMENT_LOOKUPS, 1);
    input = khmer();
    input.gpos.features = bad;
    input.gpos.features_length = 2;
    refuse_plan("no lookups of GPOS", &input, SENGADLIT_ARGUMENT_LOOKUPS, 3);
    sengadlit_shape_plan_destroy(NULL);
}

/* ---- Texts ---- */

/* Each glyph but the last becomes the next number. */
static sengadlit_bool_t count_up(const sengadlit_lookup_t *lookup, sengadlit_buffer_t *buffer)
{
    unsigned int length;
    sengadlit_glyph_info_t *found = sengadlit_buffer_get_glyph_infos(buffer, &length);

    for (unsigned int i = 0; i + 1 < length; i++)
        if (found[i].mask & lookup->mask) found[i].glyph_id++;
    return 1;
}

/* The first two glyphs become one. */
static sengadlit_bool_t join(const sengadlit_lookup_t *lookup, sengadlit_buffer_t *buffer)
{
    unsigned int length;
    sengadlit_glyph_info_t *found;

    (void)lookup;
    check("flagged", sengadlit_buffer_unsafe_to_break(buffer, 0, 2) == SENGADLIT_DONE);
    check("merged", sengadlit_buffer_merge_clusters(buffer, 0, 2) == SENGADLIT_DONE);
    found = sengadlit_buffer_get_glyph_infos(buffer, &length);
    found[0].glyph_id = 0xE000;
    memmove(&found[1], &found[2], (length - 2) * sizeof *found);
    return sengadlit_buffer_set_length(buffer, length - 1) != NULL;
}

static sengadlit_bool_t make_many(const sengadlit_lookup_t *lookup, sengadlit_buffer_t *buffer)
{
    (void)lookup;
    return sengadlit_buffer_set_length(buffer, ROOM + 1) != NULL;
}

static sengadlit_bool_t refuse(const sengadlit_lookup_t *lookup, sengadlit_buffer_t *buffer)
{
    (void)lookup, (void)buffer;
    return 0;
}

static sengadlit_bool_t leave_great_number(const sengadlit_lookup_t *lookup, sengadlit_buffer_t *buffer)
{
    (void)lookup;
    sengadlit_buffer_get_glyph_infos(buffer, NULL)[1].glyph_id = 65536;
    return 1;
}

static sengadlit_bool_t leave_greatest_number(const sengadlit_lookup_t *lookup, sengadlit_buffer_t *buffer)
{
    (void)lookup;
    sengadlit_buffer_get_glyph_infos(buffer, NULL)[1].glyph_id = 65535;
    return 1;
}

static void try_texts(void)
{
    /* KHA, AE and NGO: the vowel sign comes before its letter, in its cluster */
    static const uint32_t clusters[] = {0, 0, 6}, joined[] = {0, 6};

    lookup_7 = count_up;
    set_text("\u1781\u17C2\u1784");
    check("a word", shape() == SENGADLIT_DONE && has_glyphs((const uint32_t[]){0x17C3, 0x1782, 0x1784}, clusters, 3));
    check("the global mask", (glyphs()[0].mask & 1u << 31) != 0 && glyphs()[0].glyph_props == 0);
    lookup_7 = join;
    set_text("\u1781\u17C2\u1784");
    check("a ligature", shape() == SENGADLIT_DONE && has_glyphs((const uint32_t[]){0xE000, 0x1784}, joined, 2));
    lookup_7 = count_up;
    set_text("\u1780\uFE00\u1784");
    check("a variant", shape() == SENGADLIT_DONE && glyphs()[0].glyph_id == 0xF900);
    set_text("");
    check("no text", shape() == SENGADLIT_DONE && has_glyphs(NULL, NULL, 0));
}

/* A text that is refused behind a lookup is as it was. */
static void expect_after(const char *what, sengadlit_bool_t (*lookup)(const sengadlit_lookup_t *, sengadlit_buffer_t *),
                         sengadlit_status_t status)
{
    sengadlit_error_t error;

    lookup_7 = lookup;
    set_text("\u1781\u17C2\u1784");
    keep_text();
    for (int whole = 0; whole < 2; whole++) {
        check(what, (whole ? shape_whole(plan) : shape()) == status);
        sengadlit_buffer_get_error(world.buffer, &error);
        check(what, error.status == status && !text_is_changed());
    }
}

#ifndef LENT /* (there the world's own array is lent) */
/* In an array that is lent the text stands behind each call, and so does one that is refused. */
static void expect_in_array(const char *what, sengadlit_bool_t (*lookup)(const sengadlit_lookup_t *, sengadlit_buffer_t *),
                            sengadlit_status_t status)
{
    static sengadlit_glyph_info_t array[16];
    unsigned int length, room;

    lookup_7 = lookup;
    check(what, sengadlit_buffer_lend(world.buffer, array, 0, 16) == SENGADLIT_DONE);
    set_text("\u1781\u17C2\u1784");
    for (int whole = 0; whole < 2; whole++) {
        check(what, (whole ? shape_whole(plan) : shape()) == status && glyphs() == array);
        set_text("\u1781\u17C2\u1784");
    }
    check(what, sengadlit_buffer_give_back(world.buffer, &length, &room) == array && length == 3 && room == 16);
}
#endif

static void take_message(const char *message, void *user_data)
{
    (void)message;
    ++*(unsigned int *)user_data;
}

static void try_bad_lookups(void)
{
    unsigned int messages = 0;
    sengadlit_error_t error;

    expect_after("memory is refused", refuse, SENGADLIT_MEMORY);
    expect_after("too long", make_many, SENGADLIT_TOO_LONG);
#ifndef LENT
    expect_in_array("lent", count_up, SENGADLIT_DONE);
    expect_in_array("lent, memory is refused", refuse, SENGADLIT_MEMORY);
    expect_in_array("lent, too long", make_many, SENGADLIT_TOO_LONG);
#endif
    sengadlit_set_message_func(take_message, &messages);
    expect_after("a number that no glyph has", leave_great_number, SENGADLIT_ARGUMENT);
    sengadlit_buffer_get_error(world.buffer, &error);
    check("the glyph", error.argument == SENGADLIT_ARGUMENT_GLYPH_ID && error.index == 1);
    sengadlit_set_message_func(NULL, NULL);
    check("no message", messages == 0);
    lookup_7 = leave_greatest_number;
    set_text("\u1781\u17C2\u1784");
    check("the greatest number", shape() == SENGADLIT_DONE && glyphs()[1].glyph_id == 65535);
    lookup_7 = count_up;
    set_text("\u1781\u17C2\u1784");
    check("again", shape() == SENGADLIT_DONE);
}

/* ---- Positions ---- */

static sengadlit_bool_t keep(const sengadlit_lookup_t *lookup, sengadlit_buffer_t *buffer)
{
    (void)lookup, (void)buffer;
    return 1;
}

static sengadlit_bool_t move_first(sengadlit_buffer_t *buffer)
{
    unsigned int length;
    sengadlit_glyph_position_t *found = sengadlit_buffer_get_glyph_positions(buffer, &length);

    check("lent positions", length == 3 && found[0].x_advance == 100 && found[1].x_advance == 100);
    found[0].x_offset = 9;
    return 1;
}

static sengadlit_bool_t refuse_position(sengadlit_buffer_t *buffer)
{
    (void)buffer;
    return 0;
}

static sengadlit_bool_t take_glyph(sengadlit_buffer_t *buffer)
{
    return sengadlit_buffer_set_length(buffer, 2) && sengadlit_buffer_get_glyph_positions(buffer, NULL);
}

static sengadlit_bool_t take_positions(sengadlit_buffer_t *buffer)
{
    return sengadlit_buffer_set_length(buffer, 3) != NULL;
}

static sengadlit_bool_t leave_great_glyph(sengadlit_buffer_t *buffer)
{
    sengadlit_buffer_get_glyph_infos(buffer, NULL)[2].glyph_id = UINT32_MAX;
    return 1;
}

static void try_bad_positions(const char *what, sengadlit_shape_plan_t *placed, sengadlit_bool_t (*lookup)(sengadlit_buffer_t *),
                              sengadlit_argument_t argument, unsigned int index)
{
    sengadlit_error_t error;

    lookup_8 = lookup;
    set_text("x\u0323y");
    keep_text();
    check(what, shape_whole(placed) == SENGADLIT_ARGUMENT);
    sengadlit_buffer_get_error(world.buffer, &error);
    check(what, error.argument == argument && error.index == index && !text_is_changed());
    check(what, sengadlit_buffer_get_glyph_positions(world.buffer, NULL)[0].x_advance == 0);
}

/* A dot below has no advance behind GPOS; without GPOS it hangs over its letter. */
static void try_positions(void)
{
    sengadlit_shape_plan_t *placed = latin(1), *bare = latin(0);
    const sengadlit_glyph_position_t *found;
    unsigned int length, messages = 0;

    lookup_8 = move_first;
    set_text("x\u0323y");
    check("shaped", shape_whole(placed) == SENGADLIT_DONE);
    found = sengadlit_buffer_get_glyph_positions(world.buffer, &length);
    check("placed", length == 3 && found[0].x_offset == 9 && found[0].y_offset == 5 && found[0].x_advance == 100 &&
                        found[1].x_advance == 0 && found[1].x_offset == 0 && found[2].x_advance == 100);
    check("there are positions", shape_whole(placed) == SENGADLIT_ARGUMENT);
    set_text("x\u0323y");
    check("without GPOS", shape_whole(bare) == SENGADLIT_DONE);
    found = sengadlit_buffer_get_glyph_positions(world.buffer, &length);
    check("hung", length == 3 && found[1].x_offset == -100 && found[1].x_advance == 0);
    lookup_8 = refuse_position;
    set_text("x\u0323y");
    keep_text();
    check("memory is refused", shape_whole(placed) == SENGADLIT_MEMORY && !text_is_changed());
    sengadlit_set_message_func(take_message, &messages);
    try_bad_positions("a glyph is gone", placed, take_glyph, SENGADLIT_ARGUMENT_POSITIONS, 0);
    try_bad_positions("the positions are gone", placed, take_positions, SENGADLIT_ARGUMENT_POSITIONS, 0);
    try_bad_positions("a number that no glyph has", placed, leave_great_glyph, SENGADLIT_ARGUMENT_GLYPH_ID, 2);
    check("no message", messages == 0);
    lookup_8 = move_first;
    for (fault_at_end = NUMBER; fault_at_end <= LENGTH; fault_at_end++) {
        set_text("x\u0323y");
        check("a fault at the end", shape_whole(placed) == SENGADLIT_INTERNAL && messages == fault_at_end);
        check("no text", sengadlit_buffer_get_glyph_infos(world.buffer, &length) != NULL && length == 0);
    }
    fault_at_end = NOTHING;
    sengadlit_set_message_func(NULL, NULL);
    funcs.position = NULL;
    set_text("x\u0323y");
    check("nothing to place by", shape_whole(placed) == SENGADLIT_ARGUMENT);
    funcs.position = position;
    sengadlit_shape_plan_destroy(placed);
    sengadlit_shape_plan_destroy(bare);
}

/* What isn't drawn is a space without a width; flags are a cluster's. */
static void try_ignorables(void)
{
    const sengadlit_glyph_position_t *found;
    unsigned int length;

    lookup_7 = keep;
    set_text("\u1781\u200B\u1784");
    check("shaped", shape_whole(plan) == SENGADLIT_DONE && glyphs()[1].glyph_id == 0x20);
    found = sengadlit_buffer_get_glyph_positions(world.buffer, &length);
    check("without a width", length == 3 && found[1].x_advance == 0 && found[2].x_advance == 100);
}

/* ---- The plan's direction, and the length of a text ---- */

/* A plan of Hebrew without tables. */
static sengadlit_shape_plan_t *hebrew(sengadlit_direction_t direction)
{
    sengadlit_shape_plan_input_t input = SENGADLIT_INIT(sengadlit_shape_plan_input_t);

    input.script = SENGADLIT_TAG('H', 'e', 'b', 'r');
    input.direction = direction;
    return sengadlit_shape_plan_create(&input, NULL);
}

/* Puts ALEF, BET and GIMEL into the buffer, whose properties stay. */
static void set_letters(void)
{
    sengadlit_glyph_info_t *found = sengadlit_buffer_set_length(world.buffer, 3);

    (void)sengadlit_buffer_set_content_type(world.buffer, SENGADLIT_BUFFER_CONTENT_TYPE_UNICODE);
    memset(found, 0, 3 * sizeof *found);
    for (unsigned int i = 0; i < 3; i++) {
        found[i].glyph_id = 0x5D0 + i;
        found[i].cluster = i;
    }
}

/* The direction is the plan's, whatever the buffer's is, which stays: each text comes out in the same order. */
static void try_directions(void)
{
    static const uint32_t forward[] = {0x5D0, 0x5D1, 0x5D2}, backward[] = {0x5D2, 0x5D1, 0x5D0};
    static const uint32_t rising[] = {0, 1, 2}, falling[] = {2, 1, 0};
    sengadlit_shape_plan_t *ltr = hebrew(SENGADLIT_DIRECTION_LTR), *rtl = hebrew(SENGADLIT_DIRECTION_RTL);

    set_text("");
    for (unsigned int time = 0; time < 2; time++) {
        set_letters();
        check("turned", sengadlit_substitute_text(ltr, &world.font, &lookups, world.buffer) == SENGADLIT_DONE);
        check("turned", has_glyphs(backward, falling, 3));
        set_letters();
        check("from left to right", shape_whole(ltr) == SENGADLIT_DONE && has_glyphs(forward, rising, 3));
        set_letters();
        check("from right to left", shape_whole(rtl) == SENGADLIT_DONE && has_glyphs(backward, falling, 3));
    }
    world.properties.direction = SENGADLIT_DIRECTION_TTB;
    set_text("");
    set_letters();
    check("along the line", shape_whole(rtl) == SENGADLIT_DONE && has_glyphs(backward, falling, 3));
    world.properties.direction = SENGADLIT_DIRECTION_LTR;
    sengadlit_shape_plan_destroy(ltr);
    sengadlit_shape_plan_destroy(rtl);
}

static int32_t wide_letters(void *user_data, uint32_t glyph)
{
    (void)user_data;
    return glyph == 0x70F ? 1 : 10000000;
}

/* The mark of abbreviation becomes a tile that repeats. */
static sengadlit_bool_t make_tile(void *user_data, const sengadlit_lookup_t *lookup, sengadlit_buffer_t *buffer)
{
    unsigned int length;
    sengadlit_glyph_info_t *found = sengadlit_buffer_get_glyph_infos(buffer, &length);

    (void)user_data, (void)lookup;
    for (unsigned int i = 0; i < length; i++)
        if (found[i].glyph_id == 0x70F) {
            found[i].glyph_props = SENGADLIT_GLYPH_PROPS_MULTIPLIED;
            found[i].lig_props = 1;
        }
    return 1;
}

/* Tiles of 1 under a word of 40,000,000: no length is set, so that five characters become 65536 glyphs at most. */
static void try_stretch(void)
{
    static const sengadlit_table_feature_t stch = {SENGADLIT_TAG('s', 't', 'c', 'h'), 1, seven};
    static const sengadlit_lookups_funcs_t tile_funcs = {.size = sizeof tile_funcs, .substitute = make_tile};
    static const sengadlit_lookups_t tiles = {&tile_funcs, NULL};
    int32_t (*const advances)(void *, uint32_t) = world.font_funcs.glyph_h_advance;
    sengadlit_shape_plan_input_t input = SENGADLIT_INIT(sengadlit_shape_plan_input_t);
    sengadlit_shape_plan_t *syriac;

    input.script = SENGADLIT_TAG('S', 'y', 'r', 'c');
    input.direction = SENGADLIT_DIRECTION_RTL;
    input.gsub.has_table = input.gsub.found_script = 1;
    input.gsub.chosen_script = SENGADLIT_TAG('s', 'y', 'r', 'c');
    input.gsub.features = &stch;
    input.gsub.features_length = 1;
    syriac = sengadlit_shape_plan_create(&input, NULL);
    world.font_funcs.glyph_h_advance = wide_letters;
    limit_length(0);
    set_text("\u070F\u0712\u0713\u0714\u0715");
    keep_text();
    check("a stretch", sengadlit_shape(syriac, &world.font, &tiles, world.buffer) == SENGADLIT_TOO_LONG && !text_is_changed());
    limit_length(ROOM);
    world.font_funcs.glyph_h_advance = advances;
    sengadlit_shape_plan_destroy(syriac);
}

/* A plan of Latin without tables. */
static sengadlit_shape_plan_t *bare_latin(sengadlit_direction_t direction, unsigned int units_per_em)
{
    sengadlit_shape_plan_input_t input = SENGADLIT_INIT(sengadlit_shape_plan_input_t);

    input.script = SENGADLIT_TAG('L', 'a', 't', 'n');
    input.direction = direction;
    input.units_per_em = units_per_em;
    return sengadlit_shape_plan_create(&input, NULL);
}

static sengadlit_bool_t lacks_en_space(void *user_data, uint32_t unicode, uint32_t *glyph)
{
    (void)user_data;
    *glyph = unicode;
    return unicode != 0x2002;
}

/* EN SPACE is half an em, of 1000 units where none are told. */
static void try_spaces(void)
{
    static const unsigned int ems[] = {0, 1000, 2048, 65535};
    static const int32_t widths[] = {500, 500, 1024, 32768};
    sengadlit_bool_t (*const nominal)(void *, uint32_t, uint32_t *) = world.font_funcs.nominal_glyph;
    const sengadlit_glyph_position_t *found;

    world.font_funcs.nominal_glyph = lacks_en_space;
    for (unsigned int i = 0; i < 4; i++) {
        sengadlit_shape_plan_t *spaced = bare_latin(SENGADLIT_DIRECTION_LTR, ems[i]);

        set_text("x\u2002");
        check("spaced", shape_whole(spaced) == SENGADLIT_DONE && glyphs()[1].glyph_id == 0x20);
        found = sengadlit_buffer_get_glyph_positions(world.buffer, NULL);
        check("a space", found[0].x_advance == 100 && found[1].x_advance == widths[i]);
        sengadlit_shape_plan_destroy(spaced);
    }
    world.font_funcs.nominal_glyph = nominal;
}

/* Downwards each glyph has its vertical advance, and its vertical origin is at the pen. Upwards the same functions are wanted. */
static void try_vertical(void)
{
    sengadlit_shape_plan_t *down = bare_latin(SENGADLIT_DIRECTION_TTB, 0), *up = bare_latin(SENGADLIT_DIRECTION_BTT, 0);
    const sengadlit_glyph_position_t *found;

    set_text("xy");
    check("no vertical metrics, upwards", shape_whole(up) == SENGADLIT_ARGUMENT);
    sengadlit_shape_plan_destroy(up);
    world.properties.direction = SENGADLIT_DIRECTION_TTB;
    set_text("xy");
    check("no vertical metrics", shape_whole(down) == SENGADLIT_ARGUMENT);
    funcs.glyph_v_advance = glyph_v_advance;
    check("no origin", shape_whole(down) == SENGADLIT_ARGUMENT);
    funcs.glyph_v_origin = glyph_v_origin;
    check("down", shape_whole(down) == SENGADLIT_DONE);
    found = sengadlit_buffer_get_glyph_positions(world.buffer, NULL);
    check("below", found[1].x_advance == 0 && found[1].y_advance == -1000 && found[1].x_offset == -'y' &&
                       found[1].y_offset == -880);
    world.properties.direction = SENGADLIT_DIRECTION_LTR;
    sengadlit_shape_plan_destroy(down);
}

/* A line broken between DALATH and ALAPH changes the form of ALAPH: flagged where breaks are to be sound. */
static void try_choices(void)
{
    static const sengadlit_table_feature_t forms[] = {{SENGADLIT_TAG('i', 's', 'o', 'l'), 0, NULL},
                                                      {SENGADLIT_TAG('f', 'i', 'n', '2'), 0, NULL},
                                                      {SENGADLIT_TAG('f', 'i', 'n', '3'), 0, NULL}};
    sengadlit_shape_plan_t *const khmer_plan = plan;
    sengadlit_shape_plan_input_t input = SENGADLIT_INIT(sengadlit_shape_plan_input_t);

    input.script = world.properties.script = SENGADLIT_TAG('S', 'y', 'r', 'c');
    input.direction = world.properties.direction = SENGADLIT_DIRECTION_RTL;
    input.gsub.has_table = 1;
    input.gsub.features = forms;
    input.gsub.features_length = 3;
    for (int sound = 0; sound < 2; sound++) {
        input.sound_breaks = sound;
        plan = sengadlit_shape_plan_create(&input, NULL);
        set_text("\u0715\u0710");
        check("joined", shape() == SENGADLIT_DONE);
        check("flagged", ((glyphs()[0].mask | glyphs()[1].mask) & SENGADLIT_GLYPH_FLAG_UNSAFE_TO_BREAK) == (uint32_t)sound);
        sengadlit_shape_plan_destroy(plan);
    }
    world.properties.script = SENGADLIT_TAG('K', 'h', 'm', 'r');
    world.properties.direction = SENGADLIT_DIRECTION_LTR;
    plan = khmer_plan;
}

/* ---- Arguments ---- */

static void refuse_text(const char *what, sengadlit_status_t status, sengadlit_argument_t argument, unsigned int index)
{
    sengadlit_error_t error;

    sengadlit_buffer_get_error(world.buffer, &error);
    check(what, status == SENGADLIT_ARGUMENT && error.argument == argument && error.index == index && !text_is_changed());
}

static void try_arguments(void)
{
    int32_t (*const advances)(void *, uint32_t) = world.font_funcs.glyph_h_advance;
    sengadlit_lookups_funcs_t no_funcs = SENGADLIT_INIT(sengadlit_lookups_funcs_t);
    sengadlit_lookups_t no_lookups = {0};

    set_text("\u1781\u17C2\u1784");
    keep_text();
    refuse_text("no plan", sengadlit_substitute_text(NULL, &world.font, &lookups, world.buffer), SENGADLIT_ARGUMENT_PLAN, 0);
    refuse_text("no font", sengadlit_substitute_text(plan, NULL, &lookups, world.buffer), SENGADLIT_ARGUMENT_FONT, 0);
    refuse_text("null", sengadlit_substitute_text(plan, &world.font, NULL, world.buffer), SENGADLIT_ARGUMENT_LOOKUPS, 0);
    refuse_text("empty", sengadlit_substitute_text(plan, &world.font, &no_lookups, world.buffer), SENGADLIT_ARGUMENT_LOOKUPS, 0);
    no_lookups.funcs = &no_funcs;
    refuse_text("none", sengadlit_substitute_text(plan, &world.font, &no_lookups, world.buffer), SENGADLIT_ARGUMENT_LOOKUPS, 0);
    check("no buffer", sengadlit_substitute_text(plan, &world.font, &lookups, NULL) == SENGADLIT_ARGUMENT);
    check("no buffer", sengadlit_shape(plan, &world.font, &lookups, NULL) == SENGADLIT_ARGUMENT);
    refuse_text("no plan", shape_whole(NULL), SENGADLIT_ARGUMENT_PLAN, 0);
    world.font_funcs.glyph_h_advance = NULL;
    refuse_text("no advances", shape_whole(plan), SENGADLIT_ARGUMENT_FONT, 0);
    world.font_funcs.glyph_h_advance = advances;
    glyphs()[1].glyph_id = 0xD800;
    keep_text();
    refuse_text("no character", shape(), SENGADLIT_ARGUMENT_GLYPH_ID, 1);
    set_text("\u1781\u17C2\u1784");
    (void)positions();
    keep_text();
    refuse_text("positions", shape(), SENGADLIT_ARGUMENT_POSITIONS, 0);
    set_text("\u1781\u17C2\u1784");
    keep_text();
    refuse_text("merge", sengadlit_buffer_merge_clusters(world.buffer, 2, 1), SENGADLIT_ARGUMENT_RANGE, 0);
    refuse_text("merge", sengadlit_buffer_merge_clusters(world.buffer, 0, 4), SENGADLIT_ARGUMENT_RANGE, 0);
    refuse_text("flag", sengadlit_buffer_unsafe_to_break(world.buffer, 2, 1), SENGADLIT_ARGUMENT_RANGE, 0);
    refuse_text("flag", sengadlit_buffer_unsafe_to_break(world.buffer, 0, 4), SENGADLIT_ARGUMENT_RANGE, 0);
    check("null", sengadlit_buffer_merge_clusters(NULL, 0, 0) == SENGADLIT_ARGUMENT);
    check("null", sengadlit_buffer_unsafe_to_break(NULL, 0, 0) == SENGADLIT_ARGUMENT);
    check("flags", sengadlit_buffer_unsafe_to_break(world.buffer, 0, 3) == SENGADLIT_DONE && glyphs()[2].mask & 1);
}

/* A plan without lookups applies none. */
static void try_plan_without_lookups(void)
{
    sengadlit_shape_plan_input_t input = khmer();
    sengadlit_lookups_funcs_t no_funcs = SENGADLIT_INIT(sengadlit_lookups_funcs_t);
    sengadlit_lookups_t none = {&no_funcs, NULL};
    sengadlit_shape_plan_t *bare;

    input.gsub.features_length = 0;
    bare = sengadlit_shape_plan_create(&input, NULL);
    set_text("\u1781\u17C2");
    check("no lookups", sengadlit_substitute_text(bare, &world.font, &none, world.buffer) == SENGADLIT_DONE);
    check("no lookups", glyphs()[0].glyph_id == 0x17C2 && glyphs()[1].glyph_id == 0x1781);
    sengadlit_shape_plan_destroy(bare);
}

/* ---- What is told of a lookup ---- */

static sengadlit_lookup_t told;
static unsigned int times_told;

static sengadlit_bool_t note(void *user_data, const sengadlit_lookup_t *lookup, sengadlit_buffer_t *buffer)
{
    (void)user_data, (void)buffer;
    told = *lookup;
    times_told++;
    return 1;
}

static const sengadlit_lookups_funcs_t noting_funcs = {.size = sizeof noting_funcs, .substitute = note, .position = note};
static const sengadlit_lookups_t noting = {&noting_funcs, NULL};

/* A text with this input calls one lookup, once. */
static void expect_lookup(const char *what, const sengadlit_shape_plan_input_t *input, const char *text, sengadlit_lookup_t wanted)
{
    sengadlit_shape_plan_t *of = sengadlit_shape_plan_create(input, NULL);

    times_told = 0;
    set_text(text);
    check(what, (input->gpos.has_table ? sengadlit_shape(of, &world.font, &noting, world.buffer)
                                       : sengadlit_substitute_text(of, &world.font, &noting, world.buffer)) == SENGADLIT_DONE);
    check(what, times_told == 1 && told.index == wanted.index && (told.mask & wanted.mask) == wanted.mask);
    check(what, told.auto_zwnj == wanted.auto_zwnj && told.auto_zwj == wanted.auto_zwj && told.random == wanted.random &&
                    told.per_syllable == wanted.per_syllable);
    sengadlit_shape_plan_destroy(of);
}

/* Myanmar's `rphf` minds joiners alone and stays within a syllable, `liga` minds nothing, `rand` picks at random. */
static void try_told_lookups(void)
{
    static const sengadlit_table_feature_t rphf = {SENGADLIT_TAG('r', 'p', 'h', 'f'), 1, seven},
                                           liga = {SENGADLIT_TAG('l', 'i', 'g', 'a'), 1, seven},
                                           random = {SENGADLIT_TAG('r', 'a', 'n', 'd'), 1, eight};
    sengadlit_shape_plan_input_t input = SENGADLIT_INIT(sengadlit_shape_plan_input_t);

    input.script = SENGADLIT_TAG('M', 'y', 'm', 'r');
    input.direction = SENGADLIT_DIRECTION_LTR;
    input.gsub.has_table = 1;
    input.gsub.chosen_script = SENGADLIT_TAG('m', 'y', 'm', '2');
    input.gsub.features_length = 1;
    input.gsub.features = &rphf;
    expect_lookup("rphf", &input, "\u1000", (sengadlit_lookup_t){.index = 7, .auto_zwnj = 1, .per_syllable = 1});
    input.script = input.gsub.chosen_script = SENGADLIT_TAG('L', 'a', 't', 'n');
    input.gsub.features = &liga;
    expect_lookup("liga", &input, "x", (sengadlit_lookup_t){.index = 7, .auto_zwnj = 1, .auto_zwj = 1});
    input.gsub.features = &random;
    expect_lookup("rand", &input, "x", (sengadlit_lookup_t){.index = 8, .auto_zwnj = 1, .auto_zwj = 1, .random = 1});
}

/* `vert` of vertical text is taken from any script, and a required feature is on everywhere, in each table for itself. */
static void try_other_features(void)
{
    static const sengadlit_table_feature_t vert = {SENGADLIT_TAG('v', 'e', 'r', 't'), 1, seven},
                                           required = {SENGADLIT_TAG('z', 'z', 'z', 'z'), 1, eight}, none = {0};
    const sengadlit_lookup_t plain = {.index = 8, .mask = 1u << 31, .auto_zwnj = 1, .auto_zwj = 1};
    sengadlit_shape_plan_input_t input = SENGADLIT_INIT(sengadlit_shape_plan_input_t);

    input.script = SENGADLIT_TAG('L', 'a', 't', 'n');
    input.direction = SENGADLIT_DIRECTION_TTB;
    input.gsub.has_table = 1;
    input.gsub.anywhere = &vert;
    input.gsub.anywhere_length = 1;
    expect_lookup("vert", &input, "x", (sengadlit_lookup_t){.index = 7, .auto_zwnj = 1, .auto_zwj = 1});
    input = (sengadlit_shape_plan_input_t)SENGADLIT_INIT(sengadlit_shape_plan_input_t);
    input.script = SENGADLIT_TAG('L', 'a', 't', 'n');
    input.direction = SENGADLIT_DIRECTION_LTR;
    input.gsub.has_table = input.gpos.has_table = 1;
    input.gsub.chosen_script = input.gpos.chosen_script = SENGADLIT_TAG('l', 'a', 't', 'n');
    input.gsub.required = required;
    expect_lookup("required of GSUB", &input, "x", plain);
    input.gsub.required = none;
    input.gpos.required = required;
    expect_lookup("required of GPOS", &input, "x", plain);
}

/* The lookups of a required feature that Khmer requests, `pres`, come in its stage, behind that of `blwf`. */
static void try_required_stage(void)
{
    static const sengadlit_table_feature_t blwf = {SENGADLIT_TAG('b', 'l', 'w', 'f'), 1, eight};
    sengadlit_shape_plan_input_t input = khmer();
    sengadlit_shape_plan_t *of;

    input.gsub.features = &blwf;
    input.gsub.required = pres;
    of = sengadlit_shape_plan_create(&input, NULL);
    times_told = 0;
    set_text("\u1780");
    check("two lookups", sengadlit_substitute_text(of, &world.font, &noting, world.buffer) == SENGADLIT_DONE && times_told == 2);
    check("the required one is the last", told.index == 7 && told.mask == 1u << 31);
    sengadlit_shape_plan_destroy(of);
}

/* Indic asks the font about lookups, unless there are none. KA and I: the vowel sign comes before its letter. */
static void try_indic(void)
{
    static const sengadlit_table_feature_t half = {SENGADLIT_TAG('h', 'a', 'l', 'f'), 1, seven};
    sengadlit_shape_plan_input_t input = SENGADLIT_INIT(sengadlit_shape_plan_input_t);

    input.script = SENGADLIT_TAG('D', 'e', 'v', 'a');
    input.direction = SENGADLIT_DIRECTION_LTR;
    input.gsub.has_table = 1;
    input.gsub.chosen_script = SENGADLIT_TAG('d', 'e', 'v', '2');
    input.gsub.found_script = 1;
    input.gsub.features = &half;
    world.font_funcs.would_substitute = NULL;
    for (unsigned int length = 0; length < 2; length++) {
        const sengadlit_status_t wanted = length == 0 ? SENGADLIT_DONE : SENGADLIT_ARGUMENT;
        sengadlit_shape_plan_t *indic;
        sengadlit_error_t error = {0};

        input.gsub.features_length = length;
        indic = sengadlit_shape_plan_create(&input, NULL);
        set_text("\u0915\u093F");
        check("Indic", sengadlit_substitute_text(indic, &world.font, &lookups, world.buffer) == wanted);
        check("Indic", glyphs()[0].glyph_id == (length == 0 ? 0x093F : 0x0915));
        if (length == 1) sengadlit_buffer_get_error(world.buffer, &error);
        check("the font", length == 0 || error.argument == SENGADLIT_ARGUMENT_FONT);
        set_text("\u0915\u093F");
        check("Indic with positions", shape_whole(indic) == wanted);
        sengadlit_shape_plan_destroy(indic);
    }
}

/* ---- What a callback does ---- */

static sengadlit_bool_t use_all(const sengadlit_lookup_t *lookup, sengadlit_buffer_t *buffer)
{
    sengadlit_buffer_properties_t properties = SENGADLIT_INIT(sengadlit_buffer_properties_t);
    sengadlit_buffer_t *another = sengadlit_buffer_create();
    unsigned int length;

    check("the buffer of the call", shape() == SENGADLIT_IN_CALL && sengadlit_buffer_get_glyph_infos(world.buffer, NULL) == NULL);
    lookup_7 = count_up;
    check("another", sengadlit_buffer_add_utf8(another, "\u1781\u17C2\u1784", -1, 0, -1) == SENGADLIT_DONE &&
                         sengadlit_substitute_text(plan, &world.font, &lookups, another) == SENGADLIT_DONE);
    sengadlit_buffer_destroy(another);
    sengadlit_buffer_destroy(buffer);
    properties.direction = SENGADLIT_DIRECTION_RTL;
    check("properties", sengadlit_buffer_set_properties(buffer, &properties) == SENGADLIT_DONE);
    check("state", (sengadlit_buffer_set_state(buffer, 3), sengadlit_buffer_get_state(buffer) == 3));
    check("positions", sengadlit_buffer_get_glyph_positions(buffer, &length) != NULL && length == 3);
    check("no array", sengadlit_buffer_lend(buffer, NULL, 0, 0) == SENGADLIT_ARGUMENT);
    check("no array", sengadlit_buffer_set_grow_func(buffer, NULL, NULL) == SENGADLIT_ARGUMENT);
    check("no array", sengadlit_buffer_give_back(buffer, NULL, NULL) == NULL);
    check("glyphs", sengadlit_buffer_get_glyph_infos(buffer, &length) != NULL && length == 3);
    return count_up(lookup, buffer);
}

static void try_callbacks(void)
{
    unsigned int length;

    lookup_7 = use_all;
    set_text("\u1781\u17C2\u1784");
    check("what a callback does", shape() == SENGADLIT_DONE && glyphs()[0].glyph_id == 0x17C3);
    check("the state stays", sengadlit_buffer_get_state(world.buffer) == 0);
    check("there are no positions", (keep_text(), sengadlit_buffer_unsafe_to_break(world.buffer, 0, 1) == SENGADLIT_DONE));
    check("the length", sengadlit_buffer_get_glyph_infos(world.buffer, &length) != NULL && length == 3);
}

int main(void)
{
    const sengadlit_shape_plan_input_t input = khmer();

    begin_world(SENGADLIT_SHAPER_KHMER, SENGADLIT_TAG('K', 'h', 'm', 'r'), 0x1780, 1);
    plan = sengadlit_shape_plan_create(&input, NULL);
    try_plans();
    try_texts();
    try_bad_lookups();
    try_positions();
    try_ignorables();
    try_directions();
    try_stretch();
    try_spaces();
    try_vertical();
    try_choices();
    try_arguments();
    try_plan_without_lookups();
    try_callbacks();
    try_told_lookups();
    try_other_features();
    try_required_stage();
    try_indic();
    sengadlit_shape_plan_destroy(plan);
    end_world();
    printf("%u passed, %u failed\n", passed, failed);
    return failed == 0 ? EXIT_SUCCESS : EXIT_FAILURE;
}
