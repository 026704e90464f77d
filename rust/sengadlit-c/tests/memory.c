/* memory FONT: makes each call that wants memory, and prints what it leaves. Where a call is refused memory, nothing may be changed, and
   made again it must succeed: so the program prints the same whichever request is refused. Each refusal is told on
   stderr. */
#define _POSIX_C_SOURCE 200809L
#include "world.h"

#include <fcntl.h>
#include <inttypes.h>
#include <stdio.h>
#include <stdlib.h>
#include <string.h>
#include <unistd.h>

/* ---- Calls ---- */

static unsigned int told;

static void add_feature(void *user_data, sengadlit_tag_t tag, uint32_t flags, uint32_t value)
{
    (void)user_data, (void)tag, (void)flags, (void)value;
    told++;
}

static void add_gsub_pause(void *user_data, sengadlit_pause_t pause)
{
    (void)user_data, (void)pause;
    told++;
}

static const sengadlit_map_funcs_t map_funcs = {sizeof map_funcs, add_feature, add_gsub_pause};
static const sengadlit_map_t map = {&map_funcs, NULL};

/* Nothing is told to the map of a refused list. */
static sengadlit_status_t list(sengadlit_status_t status, const sengadlit_error_t *error)
{
    if (status == SENGADLIT_MEMORY && (told != 0 || error->status != SENGADLIT_MEMORY))
        exit(EXIT_FAILURE);
    return status;
}

static sengadlit_status_t collect(void)
{
    sengadlit_error_t error;

    told = 0;
    return list(sengadlit_collect_features(SENGADLIT_SHAPER_ARABIC, world.properties.script, &world.font, &map, &error), &error);
}

static sengadlit_status_t override(void)
{
    sengadlit_error_t error;

    told = 0;
    return list(sengadlit_override_features(SENGADLIT_SHAPER_KHMER, world.properties.script, &map, &error), &error);
}

static sengadlit_status_t lengthen(void)
{
    return sengadlit_buffer_set_length(world.buffer, 60) ? SENGADLIT_DONE : SENGADLIT_MEMORY;
}

static sengadlit_status_t position(void)
{
    return sengadlit_buffer_get_glyph_positions(world.buffer, NULL) ? SENGADLIT_DONE : SENGADLIT_MEMORY;
}

/* More characters than any text before. */
static sengadlit_status_t add(void)
{
    char text[3 * 60 + 1] = "";

    for (unsigned int i = 0; i < 60; i++)
        strcat(text, "\u1780");
    return sengadlit_buffer_add_utf8(world.buffer, text, -1, 0, -1);
}

static sengadlit_status_t find(void)
{
    unsigned int length;

    return sengadlit_spans(SENGADLIT_SHAPER_KHMER, world.buffer, &length) ? SENGADLIT_DONE : SENGADLIT_MEMORY;
}

static sengadlit_status_t stop(void)
{
    return sengadlit_caret_stops(world.buffer, SENGADLIT_DIRECTION_LTR, NULL) ? SENGADLIT_DONE : SENGADLIT_MEMORY;
}

static sengadlit_status_t setup_found(void)
{
    return sengadlit_setup_syllables_found(world.plan, SENGADLIT_PAUSE_SETUP_SYLLABLES_KHMER, world.buffer);
}

static sengadlit_status_t preprocess(void)
{
    return sengadlit_preprocess_text(world.plan, &world.font, world.buffer, NULL);
}

static sengadlit_status_t masks(void)
{
    return sengadlit_setup_masks(world.plan, &world.tables, world.buffer);
}

static sengadlit_status_t marks(void)
{
    return sengadlit_reorder_marks(world.plan, world.buffer, 0, 3);
}

static sengadlit_status_t setup(void)
{
    static const sengadlit_span_t spans[] = {{3, 0}, {1, 1}};

    return sengadlit_run_pause(world.plan, SENGADLIT_PAUSE_SETUP_SYLLABLES_KHMER, NULL, spans, 2, world.buffer, NULL);
}

static sengadlit_status_t reorder(void)
{
    return sengadlit_run_pause(world.plan, SENGADLIT_PAUSE_REORDER_KHMER, &world.font, NULL, 0, world.buffer, NULL);
}

static sengadlit_status_t record(void)
{
    return sengadlit_run_pause(world.plan, SENGADLIT_PAUSE_RECORD_STCH, NULL, NULL, 0, world.buffer, NULL);
}

static sengadlit_status_t stretch(void)
{
    return sengadlit_postprocess_glyphs(world.plan, &world.font, world.buffer);
}

/* ---- A whole text ---- */

static const uint16_t lookup_0[] = {0};
static const sengadlit_table_feature_t pres = {SENGADLIT_TAG('p', 'r', 'e', 's'), 1, lookup_0};
static const sengadlit_table_feature_t kern = {SENGADLIT_TAG('k', 'e', 'r', 'n'), 1, lookup_0};
static const sengadlit_user_feature_t salt = {SENGADLIT_TAG('s', 'a', 'l', 't'), 1, 0, 3};
static sengadlit_shape_plan_t *whole;

static sengadlit_status_t plan_whole(void)
{
    sengadlit_shape_plan_input_t input = SENGADLIT_INIT(sengadlit_shape_plan_input_t);

    input.script = SENGADLIT_TAG('K', 'h', 'm', 'r');
    input.direction = SENGADLIT_DIRECTION_LTR;
    input.gsub.has_table = input.gpos.has_table = 1;
    input.gsub.features = &pres;
    input.gsub.features_length = 1;
    input.gpos.chosen_script = SENGADLIT_TAG('k', 'h', 'm', 'r');
    input.gpos.features = &kern;
    input.gpos.features_length = 1;
    input.user_features = &salt;
    input.user_features_length = 1;
    whole = sengadlit_shape_plan_create(&input, NULL);
    return whole ? SENGADLIT_DONE : SENGADLIT_MEMORY;
}

static sengadlit_bool_t lengthen_lent(void *user_data, const sengadlit_lookup_t *lookup, sengadlit_buffer_t *buffer)
{
    (void)user_data, (void)lookup;
    return sengadlit_buffer_set_length(buffer, 50) != NULL;
}

static sengadlit_bool_t place_lent(void *user_data, const sengadlit_lookup_t *lookup, sengadlit_buffer_t *buffer)
{
    (void)user_data, (void)lookup;
    sengadlit_buffer_get_glyph_positions(buffer, NULL)[0].x_offset = 7;
    return 1;
}

/* In a buffer of its own, since a refusal leaves the text as the step before did. */
static sengadlit_status_t shape(void)
{
    static const sengadlit_lookups_funcs_t funcs = {.size = sizeof funcs, .substitute = lengthen_lent, .position = place_lent};
    static const sengadlit_lookups_t lookups = {&funcs, NULL};
    sengadlit_buffer_t *buffer = sengadlit_buffer_create();
    sengadlit_status_t status = SENGADLIT_MEMORY;

    if (buffer && sengadlit_buffer_add_utf8(buffer, "\u1780\u17C4\u17D2\u179A", -1, 0, -1) == SENGADLIT_DONE)
        status = sengadlit_shape(whole, &world.font, &lookups, buffer);
    sengadlit_buffer_destroy(buffer);
    return status;
}

static sengadlit_bool_t leave_great_number(void *user_data, const sengadlit_lookup_t *lookup, sengadlit_buffer_t *buffer)
{
    (void)user_data, (void)lookup;
    sengadlit_buffer_get_glyph_infos(buffer, NULL)[0].glyph_id = 65536;
    return 1;
}

static void leave_no_positions(void *user_data, sengadlit_buffer_t *buffer)
{
    (void)user_data;
    (void)sengadlit_buffer_set_length(buffer, 1);
}

static void ignore(const char *message, void *user_data) { (void)message, (void)user_data; }

/* What a callback leaves that is no text of glyphs needs no memory to be refused. */
static sengadlit_status_t leave_fault(const sengadlit_lookups_funcs_t *funcs, sengadlit_status_t wanted)
{
    const sengadlit_lookups_t lookups = {funcs, NULL};
    sengadlit_buffer_t *buffer = sengadlit_buffer_create();
    sengadlit_status_t status = SENGADLIT_MEMORY;

    sengadlit_set_message_func(ignore, NULL);
    if (buffer && sengadlit_buffer_add_utf8(buffer, "\u1780\u17C4\u17D2\u179A", -1, 0, -1) == SENGADLIT_DONE)
        status = sengadlit_shape(whole, &world.font, &lookups, buffer);
    sengadlit_buffer_destroy(buffer);
    sengadlit_set_message_func(NULL, NULL);
    return status == wanted ? SENGADLIT_DONE : status;
}

static sengadlit_status_t shape_by_fault(void)
{
    static const sengadlit_lookups_funcs_t funcs = {
        .size = sizeof funcs, .substitute = leave_great_number, .position = place_lent};

    return leave_fault(&funcs, SENGADLIT_ARGUMENT);
}

static sengadlit_status_t finish_by_fault(void)
{
    static const sengadlit_lookups_funcs_t funcs = {
        .size = sizeof funcs, .substitute = lengthen_lent, .position = place_lent, .finish_positions = leave_no_positions};

    return leave_fault(&funcs, SENGADLIT_INTERNAL);
}

/* ---- By a face ---- */

static unsigned char font[1 << 16];
static size_t font_length;
static sengadlit_face_t *face;
static sengadlit_plan_cache_t *cache;

static sengadlit_status_t make_face(void)
{
    face = sengadlit_face_create(font, font_length, 0, NULL, NULL, NULL);
    return face ? SENGADLIT_DONE : SENGADLIT_MEMORY;
}

/* Where memory is refused there are fewer tables, and texts are shaped as with all. */
static sengadlit_status_t prepare_face(void)
{
    sengadlit_face_prepare(face);
    return SENGADLIT_DONE;
}

static sengadlit_status_t make_cache(void)
{
    cache = sengadlit_plan_cache_create();
    return cache ? SENGADLIT_DONE : SENGADLIT_MEMORY;
}

static sengadlit_status_t shape_by_face(const char *text)
{
    const sengadlit_user_feature_t off = {SENGADLIT_TAG('l', 'i', 'g', 'a'), 0, 0, 2};
    sengadlit_shape_options_t options = SENGADLIT_INIT(sengadlit_shape_options_t);

    options.features = &off;
    options.features_length = 1;
    options.cache = cache;
    return sengadlit_shape_utf8(face, text, -1, &options, world.buffer);
}

static sengadlit_status_t shape_latin(void) { return shape_by_face("fifi"); }
static sengadlit_status_t shape_khmer(void) { return shape_by_face("\u1781\u17D2\u1798\u17C2\u179A"); }
static sengadlit_status_t shape_syllables(void)
{
    return shape_by_face("\u0915\u094D\u0937\u093F\u0928\u094D\u0926\u0940 \u0930\u094D\u0915\u0930\u094D\u0915");
}
static sengadlit_status_t shape_without_cache(void)
{
    return sengadlit_shape_utf8(face, "Tofi", -1, NULL, world.buffer);
}

/* Of the text that was shaped without a cache. */
static sengadlit_status_t reshape_text(void)
{
    return sengadlit_reshape_utf8(face, "Tofi To", -1, 4, 4, 7, NULL, world.buffer, NULL, NULL);
}

static sengadlit_status_t shape_own_text(void)
{
    sengadlit_buffer_t *buffer = sengadlit_buffer_create();
    sengadlit_status_t status = SENGADLIT_MEMORY;

    if (buffer && sengadlit_buffer_add_utf8(buffer, "\u0628\u0628", -1, 0, -1) == SENGADLIT_DONE)
        status = sengadlit_shape_buffer(face, NULL, buffer);
    if (status == SENGADLIT_DONE)
        status = sengadlit_buffer_append(world.buffer, buffer, 0, sengadlit_buffer_get_length(buffer));
    sengadlit_buffer_destroy(buffer);
    return status;
}

/* ---- Arrays ---- */

static sengadlit_glyph_info_t first[4], second[40], third[60];

static sengadlit_status_t lend_first(void) { return sengadlit_buffer_lend(world.buffer, first, 4, 4); }
static sengadlit_status_t lend_second(void) { return sengadlit_buffer_lend(world.buffer, second, 40, 40); }

/* The same from an array that the text has outgrown. */
static sengadlit_status_t lend_third(void) { return sengadlit_buffer_lend(world.buffer, third, 50, 60); }

static sengadlit_bool_t has_jamo_alone(void *user_data, uint32_t unicode, uint32_t *glyph)
{
    (void)user_data;
    *glyph = unicode;
    return unicode < 0xAC00;
}

/* What is given back of a text that its array has no room for. */
static void give_back(void)
{
    unsigned int length, room;
    const sengadlit_glyph_info_t *given = sengadlit_buffer_give_back(world.buffer, &length, &room);

    printf("given back: %u glyphs, room for %u\n", length, room);
    for (unsigned int i = 0; i < length; i++) printf("  %04" PRIX32 "\n", given[i].glyph_id);
}

/* ---- What they leave ---- */

static void print_text(const char *name)
{
    unsigned int length;

    (void)sengadlit_buffer_get_glyph_infos(world.buffer, &length);
    printf("%s: %u glyphs, %u told\n", name, length, told);
    for (unsigned int i = 0; i < length; i++)
        printf("  %04" PRIX32 " %" PRIu32 " %08" PRIX32 " %02X %d\n", glyphs()[i].glyph_id, glyphs()[i].cluster,
               glyphs()[i].mask, glyphs()[i].syllable, world.has_positions ? (int)positions()[i].x_offset : 0);
}

/* Ends the program unless a refusal of memory left all as it was. */
static void must_be_refused(const char *name, sengadlit_status_t status)
{
    if (status == SENGADLIT_MEMORY && !text_is_changed()) {
        fprintf(stderr, "refused: %s\n", name);
        return;
    }
    printf("%s: %s%s\n", name, sengadlit_status_name(status), text_is_changed() ? ", and something changed" : "");
    exit(EXIT_FAILURE);
}

/* Makes a call, again where it is refused memory, and prints what it leaves. */
static void try_call(const char *name, sengadlit_status_t (*call)(void))
{
    sengadlit_status_t status;

    keep_text();
    status = call();
    if (status != SENGADLIT_DONE) {
        must_be_refused(name, status);
        status = call();
    }
    if (status != SENGADLIT_DONE)
        must_be_refused(name, SENGADLIT_INTERNAL);
    print_text(name);
}

/* ---- Texts ---- */

static void try_buffers(void)
{
    begin_world(SENGADLIT_SHAPER_THAI, SENGADLIT_TAG('T', 'h', 'a', 'i'), 0x0E01, 4);
    try_call("set_length", lengthen);
    try_call("get_glyph_positions", position);
    begin_world(SENGADLIT_SHAPER_KHMER, SENGADLIT_TAG('K', 'h', 'm', 'r'), 0x1780, 4);
    try_call("add", add);
}

/* Nine syllables of two jamo: the first eight take no memory. */
static void try_hangul(void)
{
    unsigned int i;

    begin_world(SENGADLIT_SHAPER_HANGUL, SENGADLIT_TAG('H', 'a', 'n', 'g'), 0x1100, 18);
    for (i = 1; i < 18; i += 2)
        glyphs()[i].glyph_id = 0x1161;
    try_call("preprocess Hangul", preprocess);
}

static void try_characters(void)
{
    begin_world(SENGADLIT_SHAPER_THAI, SENGADLIT_TAG('T', 'h', 'a', 'i'), 0x0E01, 4);
    glyphs()[2].glyph_id = 0x0E33;
    try_call("preprocess Thai", preprocess);
    begin_world(SENGADLIT_SHAPER_ARABIC, SENGADLIT_TAG('A', 'r', 'a', 'b'), 0x064B, 3);
    try_call("collect", collect);
    try_call("marks", marks);
    try_call("masks", masks);
}

/* The second syllable is broken, and the font has a dotted circle. */
static void try_khmer(void)
{
    begin_world(SENGADLIT_SHAPER_KHMER, SENGADLIT_TAG('K', 'h', 'm', 'r'), 0x1780, 4);
    world.answers.glyph_of_circle = 7;
    try_call("override", override);
    try_call("spans", find);
    try_call("caret_stops", stop);
    try_call("set up found", setup_found);
    try_call("set up", setup);
    try_call("reorder", reorder);
}

static void try_stretch(void)
{
    begin_word_and_tiles();
    try_call("record", record);
    positions()[0].x_advance = 1000;
    try_call("stretch", stretch);
}

/* SARA AM is taken apart, for which the array has no room, and Hangul's syllable, for which spare glyphs stand in it. */
static void try_lent(void)
{
    begin_world(SENGADLIT_SHAPER_THAI, SENGADLIT_TAG('T', 'h', 'a', 'i'), 0x0E01, 4);
    for (unsigned int i = 0; i < 40; i++) second[i].glyph_id = 0x0E02;
    memcpy(third, second, sizeof second);
    memcpy(first, glyphs(), sizeof first);
    first[2].glyph_id = 0x0E33;
    try_call("lend", lend_first);
    try_call("preprocess lent", preprocess);
    try_call("lend another", lend_second);
    try_call("lend a third", lend_third);
    give_back();
    begin_world(SENGADLIT_SHAPER_HANGUL, SENGADLIT_TAG('H', 'a', 'n', 'g'), 0xAC01, 4);
    world.font_funcs.nominal_glyph = has_jamo_alone;
    memcpy(first, glyphs(), sizeof first);
    try_call("lend", lend_first);
    try_call("preprocess lent Hangul", preprocess);
    try_call("lend from spare glyphs", lend_second);
    memcpy(first, second, sizeof first);
    for (unsigned int i = 0; i < 4; i++) first[i].glyph_id = 0xAC01;
    try_call("lend", lend_first);
    try_call("preprocess lent Hangul", preprocess);
    give_back();
}

static void try_whole(void)
{
    begin_world(SENGADLIT_SHAPER_KHMER, SENGADLIT_TAG('K', 'h', 'm', 'r'), 0x1780, 4);
    try_call("shape plan", plan_whole);
    try_call("shape", shape);
    try_call("shape by a fault", shape_by_fault);
    try_call("finish by a fault", finish_by_fault);
    sengadlit_shape_plan_destroy(whole);
}

static void try_face(const char *path)
{
    const int file = open(path, O_RDONLY);
    const ssize_t length = file < 0 ? 0 : read(file, font, sizeof font);

    font_length = length < 0 ? 0 : (size_t)length;
    begin_world(SENGADLIT_SHAPER_THAI, SENGADLIT_TAG('T', 'h', 'a', 'i'), 0x0E01, 4);
    try_call("face", make_face);
    try_call("prepare", prepare_face);
    try_call("plan cache", make_cache);
    try_call("shape Latin", shape_latin);
    try_call("shape Latin again", shape_latin);
    try_call("shape Khmer", shape_khmer);
    try_call("shape Devanagari", shape_syllables);
    try_call("shape without cache", shape_without_cache);
    try_call("reshape", reshape_text);
    try_call("shape own text", shape_own_text);
    printf("%u plans, complete: %d\n", sengadlit_plan_cache_get_length(cache) > 1, sengadlit_buffer_is_complete(world.buffer));
    sengadlit_plan_cache_destroy(cache);
    sengadlit_face_destroy(face);
}

int main(int argc, char **argv)
{
    static char room[1 << 16]; /* So that printing wants no memory. */

    setvbuf(stdout, room, _IOFBF, sizeof room);
    try_buffers();
    try_characters();
    try_hangul();
    try_khmer();
    try_stretch();
    try_lent();
    try_whole();
    if (argc > 1) try_face(argv[1]);
    end_world();
    return EXIT_SUCCESS;
}
