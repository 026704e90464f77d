/* What a buffer holds: content types, what getters tell of what was set, texts that are joined, turned round and printed, the
   library's own tables, and structs of other sizes. The last line is 'N passed, M failed'. */
#include "world.h"

#include <stdio.h>
#include <stdlib.h>
#include <string.h>

static unsigned int passed, failed;

static void check(const char *what, int holds)
{
    if (holds) {
        passed++;
        return;
    }
    printf("FAILED: %s\n", what);
    failed++;
}

static sengadlit_buffer_t *buffer, *other;

/* The text of a buffer in one line. */
static int is_line(sengadlit_buffer_t *of, const char *wanted)
{
    char text[256];

    if (sengadlit_buffer_serialize(of, NULL, SENGADLIT_SERIALIZE_FORMAT_TEXT, 0, text, sizeof text,
              NULL) != SENGADLIT_DONE) return 0;
    if (strcmp(text, wanted) == 0) return 1;
    printf("%s, not %s\n", text, wanted);
    return 0;
}

static int is_refused(sengadlit_buffer_t *of, sengadlit_status_t status, sengadlit_argument_t argument)
{
    sengadlit_error_t error;

    sengadlit_buffer_get_error(of, &error);
    return status == SENGADLIT_ARGUMENT && error.status == status && error.argument == argument;
}

static sengadlit_buffer_content_type_t content(void) { return sengadlit_buffer_get_content_type(buffer); }

static void set_text(sengadlit_buffer_t *of, const char *text)
{
    sengadlit_buffer_reset(of);
    if (sengadlit_buffer_add_utf8(of, text, -1, 0, -1) != SENGADLIT_DONE) exit(EXIT_FAILURE);
}

/* Glyphs by their numbers, in clusters of two, with positions. */
static void set_glyphs(sengadlit_buffer_t *of, uint32_t first, unsigned int length)
{
    sengadlit_buffer_reset(of);
    sengadlit_glyph_info_t *made = sengadlit_buffer_set_length(of, length);
    for (unsigned int i = 0; i < length; i++) {
        made[i].glyph_id = first + i;
        made[i].cluster = i / 2;
    }
    for (unsigned int i = 0; i < length; i++) sengadlit_buffer_get_glyph_positions(of, NULL)[i].x_advance = (int32_t)(10 * i);
    (void)sengadlit_buffer_set_content_type(of, SENGADLIT_BUFFER_CONTENT_TYPE_GLYPHS);
}

/* ---- Content types ---- */

static void try_content(void)
{
    sengadlit_glyph_info_t array[4] = {{0}};

    check("a new buffer", content() == SENGADLIT_BUFFER_CONTENT_TYPE_INVALID && !sengadlit_buffer_is_complete(buffer));
    set_text(buffer, "ab");
    check("characters", content() == SENGADLIT_BUFFER_CONTENT_TYPE_UNICODE && !sengadlit_buffer_is_complete(buffer));
    (void)sengadlit_buffer_set_length(buffer, 3);
    check("one more", content() == SENGADLIT_BUFFER_CONTENT_TYPE_UNICODE);
    (void)sengadlit_buffer_set_length(buffer, 0);
    check("none", content() == SENGADLIT_BUFFER_CONTENT_TYPE_INVALID);
    set_glyphs(buffer, 7, 2);
    check("glyphs", content() == SENGADLIT_BUFFER_CONTENT_TYPE_GLYPHS);
    check("characters among glyphs", is_refused(buffer, sengadlit_buffer_add_utf8(buffer, "a", -1, 0, -1),
              SENGADLIT_ARGUMENT_CONTENT));
    check("the script of glyphs", is_refused(buffer, sengadlit_buffer_guess_properties(buffer), SENGADLIT_ARGUMENT_CONTENT));
    check("no content", is_refused(buffer, sengadlit_buffer_set_content_type(buffer, (sengadlit_buffer_content_type_t)3),
              SENGADLIT_ARGUMENT_CONTENT));
    check("glyphs still", content() == SENGADLIT_BUFFER_CONTENT_TYPE_GLYPHS && sengadlit_buffer_get_length(buffer) == 2);
    sengadlit_buffer_clear_contents(buffer);
    check("cleared", content() == SENGADLIT_BUFFER_CONTENT_TYPE_INVALID);
    set_glyphs(buffer, 7, 2);
    check("lent", sengadlit_buffer_lend(buffer, array, 2, 4) == SENGADLIT_DONE &&
              content() == SENGADLIT_BUFFER_CONTENT_TYPE_INVALID);
    check("given back", sengadlit_buffer_give_back(buffer, NULL, NULL) == array);
    check("of no buffer", sengadlit_buffer_get_content_type(NULL) == SENGADLIT_BUFFER_CONTENT_TYPE_INVALID &&
                              !sengadlit_buffer_is_complete(NULL) && !sengadlit_buffer_has_all_lookups(NULL) &&
                              sengadlit_buffer_get_length(NULL) == 0);
    check("for no buffer", sengadlit_buffer_set_content_type(NULL, SENGADLIT_BUFFER_CONTENT_TYPE_GLYPHS) == SENGADLIT_ARGUMENT &&
                               sengadlit_buffer_guess_properties(NULL) == SENGADLIT_ARGUMENT);
}

static void try_characters(void)
{
    sengadlit_buffer_reset(buffer);
    check("a character", sengadlit_buffer_add(buffer, 0x0E33, 7) == SENGADLIT_DONE &&
              sengadlit_buffer_add(buffer, 0x10FFFF, 5) == SENGADLIT_DONE);
    check("characters", is_line(buffer, "<U+0E33=7|U+10FFFF=5>") && content() == SENGADLIT_BUFFER_CONTENT_TYPE_UNICODE);
    check("their categories", SENGADLIT_UNICODE_PROPS_GET_GENERAL_CATEGORY(sengadlit_buffer_read_glyphs(buffer,
              NULL)[0].unicode_props) ==
                                  SENGADLIT_UNICODE_GENERAL_CATEGORY_OTHER_LETTER);
    check("no character", is_refused(buffer, sengadlit_buffer_add(buffer, 0xD800, 0), SENGADLIT_ARGUMENT_GLYPH_ID));
    check("beyond Unicode", is_refused(buffer, sengadlit_buffer_add(buffer, 0x110000, 0), SENGADLIT_ARGUMENT_GLYPH_ID));
    check("to no buffer", sengadlit_buffer_add(NULL, 'a', 0) == SENGADLIT_ARGUMENT);
    check("as they were", is_line(buffer, "<U+0E33=7|U+10FFFF=5>"));
    set_glyphs(buffer, 7, 1);
    check("to glyphs", is_refused(buffer, sengadlit_buffer_add(buffer, 'a', 0), SENGADLIT_ARGUMENT_CONTENT));
}

static int is_feature(const char *text, int length, sengadlit_user_feature_t wanted)
{
    sengadlit_user_feature_t found = {0, 0, 0, 0};

    return sengadlit_user_feature_from_string(text, length, &found) && found.tag == wanted.tag && found.value == wanted.value &&
           found.start == wanted.start && found.end == wanted.end;
}

static void try_features(void)
{
    const sengadlit_user_feature_t aalt = {SENGADLIT_TAG('a', 'a', 'l', 't'), 2, 3, 5};
    const sengadlit_user_feature_t liga = {SENGADLIT_TAG('l', 'i', 'g', 'a'), 0, 0, UINT32_MAX};
    char text[16] = "???";

    check("a range", is_feature("aalt[3:5]=2", -1, aalt) && is_feature("aalt[3:5]=2 and more", 11, aalt));
    check("off", is_feature("-liga", -1, liga));
    check("no feature", !sengadlit_user_feature_from_string("ligature", -1, NULL) &&
              !sengadlit_user_feature_from_string("", 0, NULL));
    check("no text", !sengadlit_user_feature_from_string(NULL, -1, NULL) &&
              !sengadlit_user_feature_from_string("liga", -2, NULL));
    check("no UTF-8", !sengadlit_user_feature_from_string("lig\xFF", -1, NULL));
    check("into nothing", sengadlit_user_feature_from_string("liga", -1, NULL));
    sengadlit_user_feature_to_string(&aalt, text, sizeof text);
    check("written", strcmp(text, "aalt[3:5]=2") == 0);
    sengadlit_user_feature_to_string(&aalt, text, 5);
    check("cut", strcmp(text, "aalt") == 0);
    sengadlit_user_feature_to_string(NULL, text, 5);
    check("nothing", strcmp(text, "") == 0);
    sengadlit_user_feature_to_string(&liga, NULL, 5);
    sengadlit_user_feature_to_string(&liga, text, 0);
}

/* A text that is shaped twice would be glyphs taken for characters. */
static void try_shaped_twice(void)
{
    const sengadlit_lookups_funcs_t funcs = SENGADLIT_INIT(sengadlit_lookups_funcs_t);
    const sengadlit_lookups_t lookups = {&funcs, NULL};
    sengadlit_shape_plan_input_t input = SENGADLIT_INIT(sengadlit_shape_plan_input_t);
    sengadlit_shape_plan_t *plan;

    begin_world(SENGADLIT_SHAPER_THAI, SENGADLIT_TAG('T', 'h', 'a', 'i'), 0x0E01, 1);
    input.script = SENGADLIT_TAG('L', 'a', 't', 'n');
    input.direction = SENGADLIT_DIRECTION_LTR;
    plan = sengadlit_shape_plan_create(&input, NULL);
    set_text(buffer, "ab");
    check("once", sengadlit_substitute_text(plan, &world.font, &lookups, buffer) == SENGADLIT_DONE);
    check("glyphs", content() == SENGADLIT_BUFFER_CONTENT_TYPE_GLYPHS && !sengadlit_buffer_is_complete(buffer));
    check("twice", is_refused(buffer, sengadlit_substitute_text(plan, &world.font, &lookups, buffer),
              SENGADLIT_ARGUMENT_CONTENT));
    check("shaped", is_refused(buffer, sengadlit_shape(plan, &world.font, &lookups, buffer), SENGADLIT_ARGUMENT_CONTENT));
    set_text(buffer, "ab");
    check("shaped at once", sengadlit_shape(plan, &world.font, &lookups, buffer) == SENGADLIT_DONE &&
              sengadlit_buffer_is_complete(buffer) && sengadlit_buffer_has_all_lookups(buffer));
    (void)sengadlit_buffer_set_length(buffer, 1);
    check("cut", !sengadlit_buffer_is_complete(buffer) && !sengadlit_buffer_has_all_lookups(buffer));
    /* The flags say what becomes of a character that isn't drawn: it is a space, or as it is, or gone. */
    for (unsigned int i = 0; i < 3; i++) {
        static const uint32_t flags[] = {0, SENGADLIT_BUFFER_FLAG_PRESERVE_DEFAULT_IGNORABLES,
                  SENGADLIT_BUFFER_FLAG_REMOVE_DEFAULT_IGNORABLES};
        static const uint32_t wanted[] = {' ', 0x200B, 'b'};
        const sengadlit_buffer_properties_t properties = {sizeof properties, 0, SENGADLIT_DIRECTION_INVALID,
                                                          SENGADLIT_BUFFER_CLUSTER_LEVEL_MONOTONE_GRAPHEMES, flags[i], 0};
        set_text(buffer, "a\u200Bb");
        check("flags", sengadlit_buffer_set_properties(buffer, &properties) == SENGADLIT_DONE &&
                           sengadlit_shape(plan, &world.font, &lookups, buffer) == SENGADLIT_DONE);
        check("what isn't drawn", sengadlit_buffer_read_glyphs(buffer, NULL)[1].glyph_id == wanted[i]);
    }
    sengadlit_shape_plan_destroy(plan);
    end_world();
}

/* ---- What was set ---- */

static sengadlit_glyph_info_t *grow(void *user_data, sengadlit_glyph_info_t *glyphs, unsigned int wanted, unsigned int *allocated)
{
    return (void)user_data, (void)glyphs, (void)wanted, (void)allocated, NULL;
}

static void receive(const char *message, void *user_data) { (void)message, (void)user_data; }

static int are_properties(const sengadlit_buffer_properties_t *wanted)
{
    sengadlit_buffer_properties_t found = SENGADLIT_INIT(sengadlit_buffer_properties_t);

    return sengadlit_buffer_get_properties(buffer, &found) == SENGADLIT_DONE && found.size == sizeof found &&
           found.script == wanted->script && found.direction == wanted->direction &&
                     found.cluster_level == wanted->cluster_level &&
           found.flags == wanted->flags && found.max_length == wanted->max_length;
}

static void try_properties(void)
{
    sengadlit_buffer_properties_t set = {sizeof set, SENGADLIT_TAG('H', 'e', 'b', 'r'), SENGADLIT_DIRECTION_TTB,
                                         SENGADLIT_BUFFER_CLUSTER_LEVEL_CHARACTERS, 0x8000FFFF, 99};
    sengadlit_buffer_properties_t found = SENGADLIT_INIT(sengadlit_buffer_properties_t);
    sengadlit_buffer_properties_t zero = SENGADLIT_INIT(sengadlit_buffer_properties_t);

    sengadlit_buffer_reset(buffer);
    check("a new buffer's", are_properties(&zero));
    check("set", sengadlit_buffer_set_properties(buffer, &set) == SENGADLIT_DONE);
    check("as they were set", are_properties(&set));
    sengadlit_buffer_clear_contents(buffer);
    set.script = 0;
    set.direction = SENGADLIT_DIRECTION_INVALID;
    check("cleared", are_properties(&set));
    set.cluster_level = SENGADLIT_BUFFER_CLUSTER_LEVEL_GRAPHEMES;
    check("graphemes", sengadlit_buffer_set_properties(buffer, &set) == SENGADLIT_DONE && are_properties(&set));
    check("into nothing", is_refused(buffer, sengadlit_buffer_get_properties(buffer, NULL), SENGADLIT_ARGUMENT_PROPERTIES));
    sengadlit_buffer_reset(buffer);
    check("reset", are_properties(&zero));
    (void)sengadlit_buffer_set_properties(buffer, &set);
    found.size = 8;
    found.flags = set.flags;
    check("into too little", is_refused(buffer, sengadlit_buffer_get_properties(buffer, &found),
              SENGADLIT_ARGUMENT_PROPERTIES) && found.flags == set.flags);
    check("of too little", is_refused(buffer, sengadlit_buffer_set_properties(buffer, &found), SENGADLIT_ARGUMENT_PROPERTIES));
    set_text(buffer, "1\u05D0");
    check("guessed", sengadlit_buffer_guess_properties(buffer) == SENGADLIT_DONE);
    found.size = sizeof found;
    check("Hebrew", sengadlit_buffer_get_properties(buffer, &found) == SENGADLIT_DONE &&
                        found.script == SENGADLIT_TAG('H', 'e', 'b', 'r') && found.direction == SENGADLIT_DIRECTION_RTL);
}

static void try_getters(void)
{
    static const uint32_t before[] = {1, 2, 3, 4, 5, 6}, after[] = {7, 8};
    uint32_t pre[SENGADLIT_CONTEXT_LENGTH], post[SENGADLIT_CONTEXT_LENGTH];
    unsigned int pre_length, post_length;
    void *user_data = &passed;

    sengadlit_buffer_reset(buffer);
    check("a context", sengadlit_buffer_set_context(buffer, before, 6, after, 2) == SENGADLIT_DONE);
    check("the context", sengadlit_buffer_get_context(buffer, pre, &pre_length, post, &post_length) == SENGADLIT_DONE);
    check("before", pre_length == 5 && memcmp(pre, before, sizeof pre) == 0);
    check("after", post_length == 2 && post[0] == 7 && post[1] == 8 && post[2] == 0 && post[4] == 0);
    check("into nothing", sengadlit_buffer_get_context(buffer, NULL, NULL, NULL, NULL) == SENGADLIT_DONE);
    check("of nothing", sengadlit_buffer_get_context(NULL, pre, NULL, NULL, NULL) == SENGADLIT_ARGUMENT);
    check("no function", sengadlit_buffer_get_grow_func(buffer, &user_data) == NULL && user_data == NULL);
    check("a function", sengadlit_buffer_set_grow_func(buffer, grow, &failed) == SENGADLIT_DONE);
    check("the function", sengadlit_buffer_get_grow_func(buffer, &user_data) == grow && user_data == &failed);
    check("no function again", sengadlit_buffer_set_grow_func(buffer, NULL, NULL) == SENGADLIT_DONE);
    check("nobody's", sengadlit_buffer_get_grow_func(NULL, NULL) == NULL);
    check("no messages", sengadlit_get_message_func(&user_data) == NULL && user_data == NULL);
    sengadlit_set_message_func(receive, &passed);
    check("messages", sengadlit_get_message_func(&user_data) == receive && user_data == &passed &&
              sengadlit_get_message_func(NULL) == receive);
    sengadlit_set_message_func(NULL, NULL);
}

static void try_reading(void)
{
    unsigned int length = 9;

    set_text(buffer, "ab");
    check("glyphs", sengadlit_buffer_read_glyphs(buffer, &length)[1].glyph_id == 'b' && length == 2);
    check("no positions", sengadlit_buffer_read_positions(buffer, &length) == NULL && length == 0);
    set_glyphs(buffer, 7, 3);
    check("positions", sengadlit_buffer_read_positions(buffer, &length)[2].x_advance == 20 && length == 3);
    check("without a length", sengadlit_buffer_read_glyphs(buffer, NULL)[0].glyph_id == 7);
    check("of no buffer", sengadlit_buffer_read_glyphs(NULL, &length) == NULL &&
              sengadlit_buffer_read_positions(NULL, NULL) == NULL);
    sengadlit_buffer_reset(buffer);
    check("no glyphs", sengadlit_buffer_read_glyphs(buffer, &length) == NULL && length == 0);
}

/* ---- Texts that are joined ---- */

static void try_append(void)
{
    uint32_t pre[SENGADLIT_CONTEXT_LENGTH], post[SENGADLIT_CONTEXT_LENGTH];
    unsigned int pre_length, post_length;
    const uint32_t x = 'x', y = 'y';

    set_text(other, "abcdefg");
    check("around it", sengadlit_buffer_set_context(other, &x, 1, &y, 1) == SENGADLIT_DONE);
    sengadlit_buffer_reset(buffer);
    check("to nothing", sengadlit_buffer_append(buffer, other, 2, 4) == SENGADLIT_DONE && is_line(buffer, "<U+0063=2|U+0064=3>"));
    check("with a context", sengadlit_buffer_get_context(buffer, pre, &pre_length, post, &post_length) == SENGADLIT_DONE);
    check("before", pre_length == 3 && pre[0] == 'b' && pre[1] == 'a' && pre[2] == 'x');
    check("after", post_length == 4 && post[0] == 'e' && post[2] == 'g' && post[3] == 'y');
    check("to more", sengadlit_buffer_append(buffer, other, 6, 7) == SENGADLIT_DONE &&
              is_line(buffer, "<U+0063=2|U+0064=3|U+0067=6>"));
    check("with its context", sengadlit_buffer_get_context(buffer, pre, &pre_length, post, &post_length) == SENGADLIT_DONE &&
                                  pre_length == 3 && post_length == 1 && post[0] == 'y');
    check("nothing", sengadlit_buffer_append(buffer, other, 7, 7) == SENGADLIT_DONE && sengadlit_buffer_get_length(buffer) == 3);
    check("turned", is_refused(buffer, sengadlit_buffer_append(buffer, other, 2, 1), SENGADLIT_ARGUMENT_RANGE));
    check("beyond", is_refused(buffer, sengadlit_buffer_append(buffer, other, 2, 8), SENGADLIT_ARGUMENT_RANGE));
    check("from nothing", is_refused(buffer, sengadlit_buffer_append(buffer, NULL, 0, 0), SENGADLIT_ARGUMENT_TEXT));
    check("to no buffer", sengadlit_buffer_append(NULL, other, 0, 1) == SENGADLIT_ARGUMENT);
    check("from itself", sengadlit_buffer_append(buffer, buffer, 0, 1) == SENGADLIT_IN_CALL);
    set_glyphs(other, 7, 2);
    check("glyphs to characters", is_refused(buffer, sengadlit_buffer_append(buffer, other, 0, 1), SENGADLIT_ARGUMENT_CONTENT));
    set_glyphs(buffer, 3, 1);
    check("glyphs to glyphs", sengadlit_buffer_append(buffer, other, 0, 2) == SENGADLIT_DONE &&
              is_line(buffer, "[gid3=0+0|gid7=0+0|gid8=0+10]"));
    (void)sengadlit_buffer_set_length(other, 2);
    check("no positions to positions", is_refused(buffer, sengadlit_buffer_append(buffer, other, 0, 1),
              SENGADLIT_ARGUMENT_POSITIONS));
    check("positions to none", is_refused(other, sengadlit_buffer_append(other, buffer, 0, 1), SENGADLIT_ARGUMENT_POSITIONS));
    sengadlit_buffer_reset(other);
    check("positions to nothing", sengadlit_buffer_append(other, buffer, 1, 2) == SENGADLIT_DONE && is_line(other, "[gid7=0+0]"));
    check("all stays", is_line(buffer, "[gid3=0+0|gid7=0+0|gid8=0+10]"));
}

static int is_of(sengadlit_tag_t script, sengadlit_direction_t direction)
{
    sengadlit_buffer_properties_t found = SENGADLIT_INIT(sengadlit_buffer_properties_t);

    return sengadlit_buffer_get_properties(buffer, &found) == SENGADLIT_DONE && found.script == script &&
              found.direction == direction;
}

static void set_segment(sengadlit_buffer_t *of, sengadlit_tag_t script, sengadlit_direction_t direction)
{
    const sengadlit_buffer_properties_t properties = {
        sizeof properties, script, direction, SENGADLIT_BUFFER_CLUSTER_LEVEL_MONOTONE_GRAPHEMES, 0, 0};

    set_text(of, "a");
    (void)sengadlit_buffer_set_properties(of, &properties);
}

/* The other's script counts where the directions agree, as hb_segment_properties_overlay. */
static void try_overlay(void)
{
    const sengadlit_tag_t latin = SENGADLIT_TAG('L', 'a', 't', 'n'), hebrew = SENGADLIT_TAG('H', 'e', 'b', 'r');
    const sengadlit_direction_t ltr = SENGADLIT_DIRECTION_LTR, rtl = SENGADLIT_DIRECTION_RTL, none = SENGADLIT_DIRECTION_INVALID;

    set_segment(other, hebrew, rtl);
    set_segment(buffer, 0, none);
    check("neither set", sengadlit_buffer_append(buffer, other, 0, 1) == SENGADLIT_DONE && is_of(hebrew, rtl));
    set_segment(buffer, 0, ltr);
    check("another direction", sengadlit_buffer_append(buffer, other, 0, 1) == SENGADLIT_DONE && is_of(0, ltr));
    set_segment(buffer, 0, rtl);
    check("no script", sengadlit_buffer_append(buffer, other, 0, 1) == SENGADLIT_DONE && is_of(hebrew, rtl));
    set_segment(buffer, latin, none);
    check("no direction", sengadlit_buffer_append(buffer, other, 0, 1) == SENGADLIT_DONE && is_of(latin, rtl));
}

static void try_reverse(void)
{
    set_glyphs(buffer, 1, 5);
    check("turned", sengadlit_buffer_reverse(buffer) == SENGADLIT_DONE &&
              is_line(buffer, "[gid5=2+40|gid4=1+30|gid3=1+20|gid2=0+10|gid1=0+0]"));
    check("in part", sengadlit_buffer_reverse_range(buffer, 1, 3) == SENGADLIT_DONE &&
              is_line(buffer, "[gid5=2+40|gid3=1+20|gid4=1+30|gid2=0+10|gid1=0+0]"));
    check("nothing", sengadlit_buffer_reverse_range(buffer, 5, 5) == SENGADLIT_DONE);
    check("beyond", is_refused(buffer, sengadlit_buffer_reverse_range(buffer, 0, 6), SENGADLIT_ARGUMENT_RANGE));
    check("no order", is_refused(buffer, sengadlit_buffer_reverse_range(buffer, 3, 2), SENGADLIT_ARGUMENT_RANGE));
    set_glyphs(buffer, 1, 5);
    check("clusters", sengadlit_buffer_reverse_clusters(buffer) == SENGADLIT_DONE &&
              is_line(buffer, "[gid5=2+40|gid3=1+20|gid4=1+30|gid1=0+0|gid2=0+10]"));
    set_text(buffer, "ab");
    check("characters", sengadlit_buffer_reverse(buffer) == SENGADLIT_DONE && is_line(buffer, "<U+0062=1|U+0061=0>"));
    check("no buffer", sengadlit_buffer_reverse(NULL) == SENGADLIT_ARGUMENT &&
              sengadlit_buffer_reverse_clusters(NULL) == SENGADLIT_ARGUMENT &&
                           sengadlit_buffer_reverse_range(NULL, 0, 0) == SENGADLIT_ARGUMENT);
    sengadlit_buffer_reset(buffer);
    check("no text", sengadlit_buffer_reverse(buffer) == SENGADLIT_DONE &&
              sengadlit_buffer_reverse_clusters(buffer) == SENGADLIT_DONE);
}

/* ---- In one line ---- */

static int prints(sengadlit_serialize_format_t format, uint32_t flags, const char *wanted)
{
    char text[256];
    size_t length = 0;
    const int is_done = sengadlit_buffer_serialize(buffer, NULL, format, flags, text, sizeof text, &length) == SENGADLIT_DONE;

    if (is_done && strcmp(text, wanted) == 0 && length == strlen(wanted)) return 1;
    printf("%s, not %s\n", is_done ? text : "refused", wanted);
    return 0;
}

static void try_serialize(void)
{
    const sengadlit_serialize_format_t in_text = SENGADLIT_SERIALIZE_FORMAT_TEXT, in_json = SENGADLIT_SERIALIZE_FORMAT_JSON;
    char text[8] = "????";
    size_t length = 0;

    set_glyphs(buffer, 7, 2);
    sengadlit_buffer_get_glyph_positions(buffer, NULL)[1].y_offset = -3;
    sengadlit_buffer_get_glyph_infos(buffer, NULL)[1].mask = 0x10 | SENGADLIT_GLYPH_FLAG_UNSAFE_TO_BREAK;
    check("glyphs", prints(in_text, 0, "[gid7=0+0|gid8=0@0,-3+10]"));
    check("flags", prints(in_text, SENGADLIT_SERIALIZE_FLAG_GLYPH_FLAGS, "[gid7=0+0|gid8=0@0,-3+10#1]"));
    check("numbers", prints(in_text, SENGADLIT_SERIALIZE_FLAG_NO_GLYPH_NAMES | SENGADLIT_SERIALIZE_FLAG_NO_CLUSTERS,
              "[7+0|8@0,-3+10]"));
    check("no positions", prints(in_text, SENGADLIT_SERIALIZE_FLAG_NO_POSITIONS, "[gid7=0|gid8=0]"));
    check("no advances", prints(in_text, SENGADLIT_SERIALIZE_FLAG_NO_ADVANCES, "[gid7=0|gid8=0@0,-3]"));
    check("objects", prints(in_json, SENGADLIT_SERIALIZE_FLAG_NO_POSITIONS,
              "[{\"g\":\"gid7\",\"cl\":0},{\"g\":\"gid8\",\"cl\":0}]"));
    check("length", sengadlit_buffer_serialize(buffer, NULL, in_text, 0, NULL, 0, &length) == SENGADLIT_DONE && length == 25);
    check("cut", sengadlit_buffer_serialize(buffer, NULL, in_text, 0, text, 4, NULL) == SENGADLIT_DONE &&
              strcmp(text, "[gi") == 0);
    check("no room", sengadlit_buffer_serialize(buffer, NULL, in_text, 0, NULL, 4, &length) == SENGADLIT_DONE && length == 25);
    check("no flag", is_refused(buffer, sengadlit_buffer_serialize(buffer, NULL, in_text, 0x40, text, 4, NULL),
              SENGADLIT_ARGUMENT_OPTIONS));
    check("no format", is_refused(buffer, sengadlit_buffer_serialize(buffer, NULL, (sengadlit_serialize_format_t)0, 0, text, 4,
              NULL), SENGADLIT_ARGUMENT_OPTIONS));
    check("nothing is written", strcmp(text, "[gi") == 0);
    check("no buffer", sengadlit_buffer_serialize(NULL, NULL, in_text, 0, text, 4, NULL) == SENGADLIT_ARGUMENT);
    set_text(buffer, "a\U0001F600");
    check("characters", prints(in_text, 0, "<U+0061=0|U+1F600=1>") &&
              prints(in_text, SENGADLIT_SERIALIZE_FLAG_NO_CLUSTERS, "<U+0061|U+1F600>"));
    check("objects of characters", prints(in_json, 0, "[{\"u\":97,\"cl\":0},{\"u\":128512,\"cl\":1}]"));
    sengadlit_buffer_reset(buffer);
    check("nothing", prints(in_text, 0, "[]"));
}

/* ---- The library's tables ---- */

static void try_tables(void)
{
    const sengadlit_tables_t *tables = sengadlit_tables_default();
    const sengadlit_tables_funcs_t *funcs = tables->funcs;
    uint32_t a = 0, b = 0;

    check("the size", funcs->size == sizeof *funcs && sengadlit_tables_default() == tables);
    check("joining", funcs->joining_type(NULL, 0x0628) == SENGADLIT_JOINING_TYPE_D &&
              funcs->joining_type(NULL, 0xD800) == SENGADLIT_JOINING_TYPE_U);
    check("categories", funcs->general_category(NULL, 'a') == SENGADLIT_UNICODE_GENERAL_CATEGORY_LOWERCASE_LETTER &&
                            funcs->general_category(NULL, 0x110000) == SENGADLIT_UNICODE_GENERAL_CATEGORY_UNASSIGNED);
    check("Indic", (funcs->indic_categories(NULL, 0x0930) & 0xFF) == SENGADLIT_INDIC_CATEGORY_RA);
    check("universal", funcs->use_category(NULL, 0xA984) == SENGADLIT_USE_CATEGORY_B);
    check("composed", funcs->compose(NULL, 'A', 0x300, &a) && a == 0xC0 && !funcs->compose(NULL, 'A', 'A', &a) &&
              !funcs->compose(NULL, 'A', 0xD800, &a));
    check("decomposed", funcs->decompose(NULL, 0xC0, &a, &b) && a == 'A' && b == 0x300 && !funcs->decompose(NULL, 'A', &a, &b));
    begin_world(SENGADLIT_SHAPER_ARABIC, SENGADLIT_TAG('A', 'r', 'a', 'b'), 0x0628, 2);
    check("of a call", sengadlit_setup_masks(world.plan, tables, world.buffer) == SENGADLIT_DONE &&
              glyphs()[0].auxiliary != glyphs()[1].auxiliary);
    end_world();
}

/* ---- Structs of other sizes ---- */

static void try_sizes(void)
{
    struct { sengadlit_font_funcs_t known; void *later; } later;
    struct { sengadlit_plan_data_t known; uint64_t later; } data = {SENGADLIT_INIT(sengadlit_plan_data_t), 7};
    sengadlit_plan_input_t input = SENGADLIT_INIT(sengadlit_plan_input_t);
    sengadlit_shape_plan_input_t whole = SENGADLIT_INIT(sengadlit_shape_plan_input_t);
    sengadlit_shaper_constants_t constants = SENGADLIT_INIT(sengadlit_shaper_constants_t);

    begin_world(SENGADLIT_SHAPER_HEBREW, SENGADLIT_TAG('H', 'e', 'b', 'r'), 0x05D0, 2);
    memset(&later, 0, sizeof later);
    later.known = world.font_funcs;
    later.known.size = sizeof later;
    sengadlit_font_t font = {&later.known, &world.answers};
    begin_world(SENGADLIT_SHAPER_HANGUL, SENGADLIT_TAG('H', 'a', 'n', 'g'), 0x1100, 2);
    check("a later header's functions", sengadlit_preprocess_text(world.plan, &font, world.buffer, NULL) == SENGADLIT_DONE);
    later.later = &later;
    check("its new function", sengadlit_preprocess_text(world.plan, &font, world.buffer, NULL) == SENGADLIT_ARGUMENT);
    later.known.size = 0;
    check("functions without a size", sengadlit_preprocess_text(world.plan, &font, world.buffer, NULL) == SENGADLIT_ARGUMENT);
    data.known.size = sizeof data;
    check("a later header's data", sengadlit_plan_get_data(world.plan, &data.known) == SENGADLIT_DONE && data.later == 0);
    data.known.size = 1;
    check("data without a size", sengadlit_plan_get_data(world.plan, &data.known) == SENGADLIT_ARGUMENT);
    constants.size = 0;
    check("constants without a size", sengadlit_shaper_get_constants(SENGADLIT_SHAPER_THAI,
              &constants) == SENGADLIT_ARGUMENT && constants.hooks == 0);
    input.size = whole.size = 0;
    check("a plan without a size", sengadlit_plan_create(SENGADLIT_SHAPER_THAI, &input, NULL) == NULL);
    whole.direction = SENGADLIT_DIRECTION_LTR;
    check("a shape plan without a size", sengadlit_shape_plan_create(&whole, NULL) == NULL);
    end_world();
}

int main(void)
{
    buffer = sengadlit_buffer_create();
    other = sengadlit_buffer_create();
    try_content();
    try_characters();
    try_features();
    try_shaped_twice();
    try_properties();
    try_getters();
    try_reading();
    try_append();
    try_overlay();
    try_reverse();
    try_serialize();
    try_tables();
    try_sizes();
    sengadlit_buffer_destroy(buffer);
    sengadlit_buffer_destroy(other);
    printf("%u passed, %u failed\n", passed, failed);
    return failed == 0 ? EXIT_SUCCESS : EXIT_FAILURE;
}
