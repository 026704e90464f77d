/* Every function called from within every callback: on the buffer of the call, which is rejected, and on others. The last
   line is 'N passed, M failed'. */
#include "world.h"

#include <stdio.h>
#include <stdlib.h>
#include <string.h>

static unsigned int passed, failed;

static void check(const char *what, int holds)
{
    if (holds) {
        passed++;
        return;
    }
    printf("FAILED: %s\n", what);
    failed++;
}

/* ---- Callbacks ---- */

enum callback {
    NOMINAL_GLYPH, GLYPH_H_ADVANCE, WOULD_SUBSTITUTE, HAS_FEATURE, JOINING_TYPE, GENERAL_CATEGORY, INDIC_CATEGORIES, USE_CATEGORY,
    COMPOSE, DECOMPOSE, ADD_FEATURE, ADD_GSUB_PAUSE, DESTROY, VARIATION_GLYPH, GLYPH_PROPS, SUBSTITUTE, IS_MARK, POSITION,
    FINISH_POSITIONS, GLYPH_V_ADVANCE, GLYPH_V_ORIGIN,
#ifdef LENT
    GROWTH,
#endif
    CALLBACKS
};

static sengadlit_font_funcs_t font_funcs;
static sengadlit_tables_funcs_t tables_funcs;

/* What the callback of this kind does before it returns, the first time. */
static enum callback intruded;
static void (*intrude)(void);
static unsigned int intrusions[CALLBACKS];

static void meet(enum callback callback)
{
    void (*now)(void) = intrude;

    if (callback != intruded || !now) return;
    intrude = NULL;
    intrusions[callback]++;
    now();
}

static sengadlit_bool_t nominal_glyph(void *user_data, uint32_t unicode, uint32_t *glyph)
{
    meet(NOMINAL_GLYPH);
    return font_funcs.nominal_glyph(user_data, unicode, glyph);
}

static int32_t glyph_h_advance(void *user_data, uint32_t glyph)
{
    meet(GLYPH_H_ADVANCE);
    return font_funcs.glyph_h_advance(user_data, glyph);
}

static sengadlit_bool_t would_substitute(void *user_data, const uint16_t *lookups, unsigned int lookups_length,
                                         const uint32_t *numbers, unsigned int length, sengadlit_bool_t zero_context)
{
    meet(WOULD_SUBSTITUTE);
    return font_funcs.would_substitute(user_data, lookups, lookups_length, numbers, length, zero_context);
}

static sengadlit_bool_t has_feature(void *user_data, sengadlit_tag_t tag)
{
    meet(HAS_FEATURE);
    return font_funcs.has_feature(user_data, tag);
}

static uint8_t joining_type(void *user_data, uint32_t unicode)
{
    meet(JOINING_TYPE);
    return tables_funcs.joining_type(user_data, unicode);
}

static uint8_t general_category(void *user_data, uint32_t unicode)
{
    meet(GENERAL_CATEGORY);
    return tables_funcs.general_category(user_data, unicode);
}

static uint16_t indic_categories(void *user_data, uint32_t unicode)
{
    meet(INDIC_CATEGORIES);
    return tables_funcs.indic_categories(user_data, unicode);
}

static uint8_t use_category(void *user_data, uint32_t unicode)
{
    meet(USE_CATEGORY);
    return tables_funcs.use_category(user_data, unicode);
}

static sengadlit_bool_t compose(void *user_data, uint32_t a, uint32_t b, uint32_t *ab)
{
    meet(COMPOSE);
    return tables_funcs.compose(user_data, a, b, ab);
}

static sengadlit_bool_t decompose(void *user_data, uint32_t ab, uint32_t *a, uint32_t *b)
{
    meet(DECOMPOSE);
    return tables_funcs.decompose(user_data, ab, a, b);
}

static void add_feature(void *user_data, sengadlit_tag_t tag, uint32_t flags, uint32_t value)
{
    (void)user_data, (void)tag, (void)flags, (void)value;
    meet(ADD_FEATURE);
}

static void add_gsub_pause(void *user_data, sengadlit_pause_t pause)
{
    (void)user_data, (void)pause;
    meet(ADD_GSUB_PAUSE);
}

static void destroy(void *user_data)
{
    (void)user_data;
    meet(DESTROY);
}

static sengadlit_bool_t variation_glyph(void *user_data, uint32_t unicode, uint32_t selector, uint32_t *glyph)
{
    (void)user_data, (void)selector;
    *glyph = unicode + 1;
    meet(VARIATION_GLYPH);
    return 1;
}

/* The first glyph is another one then, if there is one. */
static sengadlit_bool_t substitute(void *user_data, const sengadlit_lookup_t *lookup, sengadlit_buffer_t *buffer)
{
    unsigned int length;
    sengadlit_glyph_info_t *found = sengadlit_buffer_get_glyph_infos(buffer, &length);

    (void)user_data, (void)lookup;
    meet(SUBSTITUTE);
    if (length > 0) found[0].glyph_id++;
    return 1;
}

static uint16_t glyph_props(void *user_data, const sengadlit_glyph_info_t *glyph)
{
    (void)user_data;
    meet(GLYPH_PROPS);
    return (uint16_t)glyph->glyph_id;
}

static sengadlit_bool_t is_mark(void *user_data, const sengadlit_glyph_info_t *glyph)
{
    (void)user_data;
    meet(IS_MARK);
    return (sengadlit_bool_t)(glyph->glyph_props & 1);
}

/* The first glyph is placed elsewhere then. */
static sengadlit_bool_t position(void *user_data, const sengadlit_lookup_t *lookup, sengadlit_buffer_t *buffer)
{
    unsigned int length;
    sengadlit_glyph_position_t *found = sengadlit_buffer_get_glyph_positions(buffer, &length);

    (void)user_data, (void)lookup;
    meet(POSITION);
    if (length > 0) found[0].x_offset = 7;
    return 1;
}

static void finish_positions(void *user_data, sengadlit_buffer_t *buffer)
{
    unsigned int length;
    sengadlit_glyph_position_t *found = sengadlit_buffer_get_glyph_positions(buffer, &length);

    (void)user_data;
    meet(FINISH_POSITIONS);
    if (length > 0) found[0].y_offset = 8;
}

static int32_t glyph_v_advance(void *user_data, uint32_t glyph)
{
    (void)user_data, (void)glyph;
    meet(GLYPH_V_ADVANCE);
    return -1000;
}

static void glyph_v_origin(void *user_data, uint32_t glyph, int32_t *x, int32_t *y)
{
    (void)user_data, (void)glyph;
    meet(GLYPH_V_ORIGIN);
    *x = 500;
    *y = 800;
}

static const sengadlit_map_funcs_t map_funcs = {sizeof map_funcs, add_feature, add_gsub_pause};
static const sengadlit_map_t map = {&map_funcs, NULL};
static const sengadlit_lookups_funcs_t lookups_funcs = {sizeof lookups_funcs, variation_glyph,  glyph_props,
                                                        substitute,           is_mark,          position,
                                                        finish_positions,     glyph_v_advance,  glyph_v_origin};
static const sengadlit_lookups_t lookups = {&lookups_funcs, NULL};
static sengadlit_shape_plan_t *whole;

static void plan_whole(void)
{
    static const uint16_t zero[] = {0};
    static const sengadlit_table_feature_t ccmp = {SENGADLIT_TAG('c', 'c', 'm', 'p'), 1, zero};
    static const sengadlit_table_feature_t mark = {SENGADLIT_TAG('m', 'a', 'r', 'k'), 1, zero};
    const sengadlit_shape_plan_input_t input = {
        .size = sizeof input, .script = SENGADLIT_TAG('L', 'a', 't', 'n'), .direction = SENGADLIT_DIRECTION_TTB,
        .gsub = {.has_table = 1, .features = &ccmp, .features_length = 1},
        .gpos = {.has_table = 1, .chosen_script = SENGADLIT_TAG('l', 'a', 't', 'n'), .features = &mark, .features_length = 1}};

    whole = sengadlit_shape_plan_create(&input, NULL);
}

/* ---- Calls that call back ---- */

struct scene {
    const char *name;
    void (*begin)(void);
    sengadlit_status_t (*call)(void);
    int is_on_buffer;
};

#ifdef LENT
static void meet_growth(void) { meet(GROWTH); }
#endif

static void begin(sengadlit_shaper_t shaper, sengadlit_tag_t script, uint32_t codepoint)
{
    static const sengadlit_font_funcs_t font = {sizeof font, nominal_glyph, glyph_h_advance, would_substitute, has_feature};
    static const sengadlit_tables_funcs_t tables = {sizeof tables, joining_type, general_category, indic_categories,
                                                    use_category, compose,          decompose};

    begin_world(shaper, script, codepoint, 3);
    font_funcs = world.font_funcs;
    tables_funcs = world.tables_funcs;
    world.font_funcs = font;
    world.tables_funcs = tables;
#ifdef LENT
    world.at_growth = meet_growth;
#endif
}

static sengadlit_status_t preprocess(void) { return sengadlit_preprocess_text(world.plan, &world.font, world.buffer, NULL); }
static sengadlit_status_t masks(void) { return sengadlit_setup_masks(world.plan, &world.tables, world.buffer); }
static sengadlit_status_t postprocess(void) { return sengadlit_postprocess_glyphs(world.plan, &world.font, world.buffer); }

static sengadlit_status_t run(sengadlit_pause_t pause)
{
    return sengadlit_run_pause(world.plan, pause, &world.font, NULL, 0, world.buffer, NULL);
}

static sengadlit_status_t initial(void) { return run(SENGADLIT_PAUSE_INITIAL_REORDERING); }
static sengadlit_status_t reorder(void) { return run(SENGADLIT_PAUSE_REORDER_KHMER); }

/* A tall consonant, a tone and SARA AM. */
static void begin_thai(void)
{
    begin(SENGADLIT_SHAPER_THAI, SENGADLIT_TAG('T', 'h', 'a', 'i'), 0x0E1B);
    glyphs()[1].glyph_id = 0x0E48;
    glyphs()[2].glyph_id = 0x0E33;
}

/* A tone behind a syllable of two jamo. */
static void begin_hangul(void)
{
    begin(SENGADLIT_SHAPER_HANGUL, SENGADLIT_TAG('H', 'a', 'n', 'g'), 0x1100);
    glyphs()[1].glyph_id = 0x1161;
    glyphs()[2].glyph_id = 0x302E;
}

static void begin_arabic(void)
{
    static const uint32_t letter[] = {0x0628};

    begin(SENGADLIT_SHAPER_ARABIC, SENGADLIT_TAG('A', 'r', 'a', 'b'), 0x0628);
    world.answers.joining_type = SENGADLIT_JOINING_TYPE_X;
    (void)sengadlit_buffer_set_context(world.buffer, letter, 1, letter, 1);
}

static void begin_universal(void) { begin(SENGADLIT_SHAPER_UNIVERSAL, SENGADLIT_TAG('S', 'i', 'n', 'h'), 0x0D9A); }
static void begin_hebrew(void) { begin(SENGADLIT_SHAPER_HEBREW, SENGADLIT_TAG('H', 'e', 'b', 'r'), 0x05D0); }

/* A broken syllable, for which the font has a circle. */
static void begin_khmer(void)
{
    static const sengadlit_span_t spans[] = {{1, SENGADLIT_KHMER_SYLLABLE_BROKEN}, {2, SENGADLIT_KHMER_SYLLABLE_CONSONANT}};

    begin(SENGADLIT_SHAPER_KHMER, SENGADLIT_TAG('K', 'h', 'm', 'r'), 0x1780);
    world.answers.glyph_of_circle = 7;
    (void)sengadlit_run_pause(world.plan, SENGADLIT_PAUSE_SETUP_SYLLABLES_KHMER, NULL, spans, 2, world.buffer, NULL);
}

/* RA, VIRAMA, KA: a syllable, and before it in its way a broken one. */
static void begin_indic(void)
{
    static const sengadlit_span_t spans[] = {{3, SENGADLIT_INDIC_SYLLABLE_CONSONANT}};

    begin(SENGADLIT_SHAPER_INDIC, SENGADLIT_TAG('D', 'e', 'v', 'a'), 0x0915);
    glyphs()[0].glyph_id = 0x0930;
    glyphs()[0].category = SENGADLIT_INDIC_CATEGORY_RA;
    glyphs()[1].glyph_id = 0x094D;
    glyphs()[1].category = SENGADLIT_INDIC_CATEGORY_H;
    glyphs()[2].category = SENGADLIT_INDIC_CATEGORY_C;
    (void)sengadlit_run_pause(world.plan, SENGADLIT_PAUSE_SETUP_SYLLABLES_INDIC, NULL, spans, 1, world.buffer, NULL);
    sengadlit_buffer_set_state(world.buffer, SENGADLIT_BUFFER_STATE_HAS_BROKEN_SYLLABLE);
}

static void begin_stretched(void)
{
    begin_word_and_tiles();
    font_funcs = world.font_funcs;
    world.font_funcs.glyph_h_advance = glyph_h_advance;
    (void)run(SENGADLIT_PAUSE_RECORD_STCH);
    positions()[0].x_advance = 1000;
}

/* A letter with a selector, and another. */
static void begin_whole(void)
{
    begin(SENGADLIT_SHAPER_KHMER, SENGADLIT_TAG('K', 'h', 'm', 'r'), 0x1780);
    glyphs()[1].glyph_id = 0xFE00;
    world.properties.direction = SENGADLIT_DIRECTION_TTB;
    (void)sengadlit_buffer_set_properties(world.buffer, &world.properties);
}

static sengadlit_status_t substitute_text(void)
{
    return sengadlit_substitute_text(whole, &world.font, &lookups, world.buffer);
}

static sengadlit_status_t shape(void) { return sengadlit_shape(whole, &world.font, &lookups, world.buffer); }

static sengadlit_status_t collect(void)
{
    return sengadlit_collect_features(SENGADLIT_SHAPER_ARABIC, world.properties.script, &world.font, &map, NULL);
}

static sengadlit_status_t compose_two(void)
{
    uint32_t ab;

    return sengadlit_compose(world.plan, &world.tables, 0x41, 0x300, &ab, NULL);
}

static sengadlit_status_t decompose_one(void)
{
    uint32_t a, b;

    return sengadlit_decompose(world.plan, &world.tables, 0xC0, &a, &b, NULL);
}

static sengadlit_status_t make_and_drop_plan(void)
{
    const sengadlit_plan_input_t input = {.size = sizeof input, .destroy = destroy};

    sengadlit_plan_destroy(sengadlit_plan_create(SENGADLIT_SHAPER_THAI, &input, NULL));
    return SENGADLIT_DONE;
}

static const struct scene scenes[] = {
    {"Thai", begin_thai, preprocess, 1},
    {"Hangul", begin_hangul, preprocess, 1},
    {"Arabic", begin_arabic, masks, 1},
    {"Khmer's masks", begin_khmer, masks, 1},
    {"universal masks", begin_universal, masks, 1},
    {"Khmer", begin_khmer, reorder, 1},
    {"Indic", begin_indic, initial, 1},
    {"stretched marks", begin_stretched, postprocess, 1},
    {"a whole text", begin_whole, substitute_text, 1},
    {"a whole text with positions", begin_whole, shape, 1},
    {"features", begin_arabic, collect, 0},
    {"composition", begin_hebrew, compose_two, 0},
    {"composition by category", begin_khmer, compose_two, 0},
    {"decomposition", begin_khmer, decompose_one, 0},
    {"a plan", begin_thai, make_and_drop_plan, 0},
};

enum { SCENES = sizeof scenes / sizeof *scenes };

/* ---- Every function, as a callback calls it ---- */

static const struct scene *scene;
static const char *made_by;

static void expect(int is_rejected)
{
    sengadlit_error_t error;

    check(made_by, is_rejected == scene->is_on_buffer);
    sengadlit_buffer_get_error(world.buffer, &error);
    check(made_by, !is_rejected || error.status == SENGADLIT_IN_CALL);
}

static void expect_status(sengadlit_status_t status) { expect(status == SENGADLIT_IN_CALL); }

/* On other buffers everything works. */
static void use_another(void)
{
    sengadlit_buffer_t *another = sengadlit_buffer_create();
    unsigned int length = 77;

    check(made_by, sengadlit_buffer_add_utf8(another, "\u0E1B\u0E48\u0E33", -1, 0, -1) == SENGADLIT_DONE);
    check(made_by, sengadlit_preprocess_text(world.plan, &world.font, another, NULL) < SENGADLIT_ARGUMENT);
    check(made_by, sengadlit_buffer_get_glyph_infos(another, &length) != NULL && length >= 3);
    sengadlit_buffer_destroy(another);
}

static void use_plans(void)
{
    sengadlit_shaper_constants_t constants = SENGADLIT_INIT(sengadlit_shaper_constants_t);
    sengadlit_plan_data_t data = SENGADLIT_INIT(sengadlit_plan_data_t);
    sengadlit_shaper_t shaper;

    check(made_by, make_and_drop_plan() == SENGADLIT_DONE && collect() == SENGADLIT_DONE);
    sengadlit_plan_destroy(sengadlit_plan_reference(world.plan));
    check(made_by, sengadlit_plan_get_user_data(world.plan) == NULL);
    check(made_by, sengadlit_plan_get_data(world.plan, &data) == SENGADLIT_DONE);
    check(made_by, sengadlit_shaper_get_constants(data.shaper, &constants) == SENGADLIT_DONE);
    check(made_by, sengadlit_shaper_for_script(0, SENGADLIT_DIRECTION_LTR, 0, &shaper) == SENGADLIT_ABSENT);
    check(made_by, sengadlit_override_features(SENGADLIT_SHAPER_KHMER, 0, &map, NULL) == SENGADLIT_DONE);
    check(made_by, compose_two() != SENGADLIT_IN_CALL && decompose_one() != SENGADLIT_IN_CALL);
    check(made_by, sengadlit_version_string() != NULL && sengadlit_modified_combining_class(0x05B4) == 23);
    sengadlit_set_message_func(NULL, NULL);
}

static void set_length(void) { expect(sengadlit_buffer_set_length(world.buffer, 10000) == NULL); }
static void set_no_length(void) { expect(sengadlit_buffer_set_length(world.buffer, 0) == NULL); }

static void get_glyph_infos(void)
{
    unsigned int length = 77;

    expect(sengadlit_buffer_get_glyph_infos(world.buffer, &length) == NULL && length == 77);
}

static void get_glyph_positions(void)
{
    unsigned int length = 77;

    expect(sengadlit_buffer_get_glyph_positions(world.buffer, &length) == NULL && length == 77);
}

static void add_utf8(void) { expect_status(sengadlit_buffer_add_utf8(world.buffer, "abc", -1, 0, -1)); }

static void add_utf16(void)
{
    static const uint16_t text[] = {0x61, 0};

    expect_status(sengadlit_buffer_add_utf16(world.buffer, text, -1, 0, -1));
}

static void add_utf32(void)
{
    static const uint32_t text[] = {0x61, 0};

    expect_status(sengadlit_buffer_add_utf32(world.buffer, text, -1, 0, -1));
}

static void set_properties(void) { expect_status(sengadlit_buffer_set_properties(world.buffer, &world.properties)); }
static void set_context(void) { expect_status(sengadlit_buffer_set_context(world.buffer, NULL, 0, NULL, 0)); }
static void call_preprocess(void) { expect_status(preprocess()); }
static void call_masks(void) { expect_status(masks()); }
static void call_marks(void) { expect_status(sengadlit_reorder_marks(world.plan, world.buffer, 0, 1)); }
static void call_pause(void) { expect_status(run(SENGADLIT_PAUSE_SYLLABIC_CLEAR_VAR)); }
static void call_postprocess(void) { expect_status(postprocess()); }
static void find_spans(void) { expect(sengadlit_spans(SENGADLIT_SHAPER_KHMER, world.buffer, NULL) == NULL); }

static void setup_found(void)
{
    expect_status(sengadlit_setup_syllables_found(world.plan, SENGADLIT_PAUSE_SETUP_SYLLABLES_KHMER, world.buffer));
}

static void setup_written(void)
{
    expect_status(sengadlit_setup_syllables_written(world.plan, SENGADLIT_PAUSE_SETUP_SYLLABLES_KHMER, world.buffer));
}

static void lend(void) { expect_status(sengadlit_buffer_lend(world.buffer, NULL, 0, 0)); }
static void set_grow_func(void) { expect_status(sengadlit_buffer_set_grow_func(world.buffer, NULL, NULL)); }

static void give_back(void)
{
    unsigned int length = 77, allocated = 77;
    const sengadlit_glyph_info_t *given = sengadlit_buffer_give_back(world.buffer, &length, &allocated);
    sengadlit_error_t error;

    sengadlit_buffer_get_error(world.buffer, &error);
    expect(given == NULL && error.status == SENGADLIT_IN_CALL && length == 77 && allocated == 77);
}

static void read_glyphs(void)
{
    unsigned int length = 77;

    expect(sengadlit_buffer_read_glyphs(world.buffer, &length) == NULL && length == 77);
}

static void read_positions(void)
{
    unsigned int length = 77;

    expect(sengadlit_buffer_read_positions(world.buffer, &length) == NULL && length == 77);
}

static void get_properties(void)
{
    sengadlit_buffer_properties_t found = {.size = sizeof found, .flags = 77};

    expect_status(sengadlit_buffer_get_properties(world.buffer, &found));
    check(made_by, !scene->is_on_buffer || found.flags == 77);
}

static void append_from(void)
{
    sengadlit_buffer_t *another = sengadlit_buffer_create();
    const sengadlit_status_t status = sengadlit_buffer_append(another, world.buffer, 0, 1);

    check(made_by, !scene->is_on_buffer || status == SENGADLIT_IN_CALL);
    check(made_by, !scene->is_on_buffer || sengadlit_buffer_get_length(another) == 0);
    sengadlit_buffer_destroy(another);
}

static void append_to(void)
{
    sengadlit_buffer_t *another = sengadlit_buffer_create();

    expect_status(sengadlit_buffer_append(world.buffer, another, 0, 0));
    sengadlit_buffer_destroy(another);
}

static void serialize(void)
{
    char text[4] = "???";
    size_t length = 77;

    expect_status(sengadlit_buffer_serialize(world.buffer, NULL, SENGADLIT_SERIALIZE_FORMAT_TEXT, 0, text, 4, &length));
    check(made_by, !scene->is_on_buffer || (text[0] == '?' && length == 77));
}

static void add(void) { expect_status(sengadlit_buffer_add(world.buffer, 'a', 0)); }
static void get_context(void) { expect_status(sengadlit_buffer_get_context(world.buffer, NULL, NULL, NULL, NULL)); }
static void set_content(void) { expect_status(sengadlit_buffer_set_content_type(world.buffer,
          SENGADLIT_BUFFER_CONTENT_TYPE_INVALID)); }
static void reverse(void) { expect_status(sengadlit_buffer_reverse(world.buffer)); }
static void reverse_range(void) { expect_status(sengadlit_buffer_reverse_range(world.buffer, 0, 0)); }
static void reverse_clusters(void) { expect_status(sengadlit_buffer_reverse_clusters(world.buffer)); }
static void guess(void) { expect_status(sengadlit_buffer_guess_properties(world.buffer)); }
static void shape_utf8(void) { expect_status(sengadlit_shape_utf8(NULL, "a", -1, NULL, world.buffer)); }
static void shape_utf16(void) { expect_status(sengadlit_shape_utf16(NULL, NULL, 0, NULL, world.buffer)); }
static void shape_utf32(void) { expect_status(sengadlit_shape_utf32(NULL, NULL, 0, NULL, world.buffer)); }
static void reshape_utf8(void) { expect_status(sengadlit_reshape_utf8(NULL, "a", -1, 0, 0, 1, NULL, world.buffer, NULL, NULL)); }
static void reshape_utf16(void) { expect_status(sengadlit_reshape_utf16(NULL, NULL, 0, 0, 0, 0, NULL, world.buffer, NULL, NULL)); }
static void reshape_utf32(void) { expect_status(sengadlit_reshape_utf32(NULL, NULL, 0, 0, 0, 0, NULL, world.buffer, NULL, NULL)); }
static void shape_buffer(void) { expect_status(sengadlit_shape_buffer(NULL, NULL, world.buffer)); }

static void get_numbers(void)
{
    if (!scene->is_on_buffer) return;
    check(made_by, sengadlit_buffer_get_length(world.buffer) == 0 && !sengadlit_buffer_is_complete(world.buffer));
    check(made_by, sengadlit_buffer_get_content_type(world.buffer) == SENGADLIT_BUFFER_CONTENT_TYPE_INVALID);
    check(made_by, sengadlit_buffer_get_grow_func(world.buffer, NULL) == NULL);
}

static void stop_carets(void) { expect(sengadlit_caret_stops(world.buffer, SENGADLIT_DIRECTION_LTR, NULL) == NULL); }
static void merge_clusters(void) { expect_status(sengadlit_buffer_merge_clusters(world.buffer, 0, 1)); }
static void flag_unsafe_to_break(void) { expect_status(sengadlit_buffer_unsafe_to_break(world.buffer, 0, 1)); }
static void call_substitute_text(void) { expect_status(substitute_text()); }
static void call_shape(void) { expect_status(shape()); }
static void clear_contents(void) { sengadlit_buffer_clear_contents(world.buffer); }
static void reset(void) { sengadlit_buffer_reset(world.buffer); }
static void set_state(void) { sengadlit_buffer_set_state(world.buffer, 0); }
static void get_state(void) { check(made_by, !scene->is_on_buffer || sengadlit_buffer_get_state(world.buffer) == 0); }

static void destroy_buffer(void)
{
    sengadlit_buffer_destroy(world.buffer);
    if (scene->is_on_buffer) sengadlit_buffer_destroy(world.buffer);
}

static const struct intruder {
    const char *name;
    void (*call)(void);
    int destroys;
} intruders[] = {
    {"another buffer", use_another, 0},
    {"plans", use_plans, 0},
    {"set_length", set_length, 0},
    {"set_length to 0", set_no_length, 0},
    {"get_glyph_infos", get_glyph_infos, 0},
    {"get_glyph_positions", get_glyph_positions, 0},
    {"add_utf8", add_utf8, 0},
    {"add_utf16", add_utf16, 0},
    {"add_utf32", add_utf32, 0},
    {"set_properties", set_properties, 0},
    {"set_context", set_context, 0},
    {"preprocess_text", call_preprocess, 0},
    {"setup_masks", call_masks, 0},
    {"reorder_marks", call_marks, 0},
    {"run_pause", call_pause, 0},
    {"postprocess_glyphs", call_postprocess, 0},
    {"spans", find_spans, 0},
    {"setup_syllables_found", setup_found, 0},
    {"setup_syllables_written", setup_written, 0},
    {"lend", lend, 0},
    {"set_grow_func", set_grow_func, 0},
    {"give_back", give_back, 0},
    {"add", add, 0},
    {"read_glyphs", read_glyphs, 0},
    {"read_positions", read_positions, 0},
    {"get_properties", get_properties, 0},
    {"append from", append_from, 0},
    {"append to", append_to, 0},
    {"serialize", serialize, 0},
    {"get_context", get_context, 0},
    {"set_content_type", set_content, 0},
    {"reverse", reverse, 0},
    {"reverse_range", reverse_range, 0},
    {"reverse_clusters", reverse_clusters, 0},
    {"guess_properties", guess, 0},
    {"shape_utf8", shape_utf8, 0},
    {"shape_utf16", shape_utf16, 0},
    {"shape_utf32", shape_utf32, 0},
    {"reshape_utf8", reshape_utf8, 0},
    {"reshape_utf16", reshape_utf16, 0},
    {"reshape_utf32", reshape_utf32, 0},
    {"shape_buffer", shape_buffer, 0},
    {"getters of numbers", get_numbers, 0},
    {"caret_stops", stop_carets, 0},
    {"merge_clusters", merge_clusters, 0},
    {"unsafe_to_break", flag_unsafe_to_break, 0},
    {"substitute_text", call_substitute_text, 0},
    {"shape", call_shape, 0},
    {"clear_contents", clear_contents, 0},
    {"reset", reset, 0},
    {"set_state", set_state, 0},
    {"get_state", get_state, 0},
    {"destroy", destroy_buffer, 1},
};

enum { INTRUDERS = sizeof intruders / sizeof *intruders };

/* A call one of whose callbacks makes another is done as ever. */
static void try_intruder(enum callback callback, const struct intruder *intruder)
{
    sengadlit_status_t status;

    made_by = intruder->name;
    intrude = NULL;
    scene->begin();
    status = scene->call();
    if (scene->is_on_buffer) keep_text();
    scene->begin();
    intruded = callback;
    intrude = intruder->call;
    check(scene->name, scene->call() == status);
    if (intruder->destroys && !intrude) world.buffer = NULL;
    else if (scene->is_on_buffer) check(intruder->name, !text_is_changed());
    intrude = NULL;
    end_world();
}

static void intrude_everywhere(void)
{
    for (unsigned int i = 0; i < SCENES * CALLBACKS * INTRUDERS; i++) {
        scene = &scenes[i % SCENES];
        try_intruder((enum callback)(i / SCENES % CALLBACKS), &intruders[i / SCENES / CALLBACKS]);
    }
    for (unsigned int callback = 0; callback < CALLBACKS; callback++)
        check("each callback is met by each call", intrusions[callback] >= INTRUDERS);
}

int main(void)
{
    plan_whole();
    intrude_everywhere();
    sengadlit_shape_plan_destroy(whole);
    printf("%u passed, %u failed\n", passed, failed);
    return failed == 0 ? EXIT_SUCCESS : EXIT_FAILURE;
}
