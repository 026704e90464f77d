/* What each call refuses, by which status, argument and place, and that a call that refuses changes nothing. The last line
   is 'N passed, M failed'. */
#include "world.h"

#include <limits.h>
#include <stdio.h>
#include <stdlib.h>
#include <string.h>

enum { NO_SHAPER = 9, NO_PAUSE = 15, UNTOUCHED = 77 };

static unsigned int passed, failed;

static void check(const char *what, int holds)
{
    if (holds) {
        passed++;
        return;
    }
    printf("FAILED: %s\n", what);
    failed++;
}

/* ---- Expectations ---- */

static void expect(const char *what, sengadlit_status_t status, sengadlit_status_t wanted)
{
    if (status != wanted)
        printf("%s: %s in place of %s\n", what, sengadlit_status_name(status), sengadlit_status_name(wanted));
    check(what, status == wanted);
}

static void expect_error(const char *what, sengadlit_error_t error, sengadlit_status_t status, sengadlit_argument_t argument,
                         unsigned int index)
{
    int holds = error.status == status && error.argument == argument && error.index == index;

    if (!holds)
        printf("%s: %s, %s, %u\n", what, sengadlit_status_name(error.status), sengadlit_argument_name(error.argument),
               error.index);
    check(what, holds);
}

/* The call on the buffer failed in this way, and nothing changed since keep_text. */
static void expect_failed(const char *what, sengadlit_status_t status, sengadlit_status_t wanted,
                          sengadlit_argument_t argument, unsigned int index)
{
    sengadlit_error_t error;

    expect(what, status, wanted);
    sengadlit_buffer_get_error(world.buffer, &error);
    expect_error(what, error, wanted, argument, index);
    check(what, !text_is_changed());
}

#define FAILS(what, call, wanted, argument, index) (keep_text(), expect_failed(what, call, wanted, argument, index))
#define REFUSES(what, call, argument, index) FAILS(what, call, SENGADLIT_ARGUMENT, SENGADLIT_ARGUMENT_##argument, index)

/* ---- Worlds and calls ---- */

#define THAI SENGADLIT_TAG('T', 'h', 'a', 'i')
#define HANG SENGADLIT_TAG('H', 'a', 'n', 'g')
#define ARAB SENGADLIT_TAG('A', 'r', 'a', 'b')
#define HEBR SENGADLIT_TAG('H', 'e', 'b', 'r')
#define KHMR SENGADLIT_TAG('K', 'h', 'm', 'r')
#define DEVA SENGADLIT_TAG('D', 'e', 'v', 'a')
#define MYMR SENGADLIT_TAG('M', 'y', 'm', 'r')
#define MONG SENGADLIT_TAG('M', 'o', 'n', 'g')

static void begin_thai(void) { begin_world(SENGADLIT_SHAPER_THAI, THAI, 0x0E01, 3); }
static void begin_hangul(void) { begin_world(SENGADLIT_SHAPER_HANGUL, HANG, 0x1100, 3); }
static void begin_arabic(void) { begin_world(SENGADLIT_SHAPER_ARABIC, ARAB, 0x0628, 3); }
static void begin_hebrew(void) { begin_world(SENGADLIT_SHAPER_HEBREW, HEBR, 0x05D0, 3); }
static void begin_khmer(void) { begin_world(SENGADLIT_SHAPER_KHMER, KHMR, 0x1780, 3); }
static void begin_indic(void) { begin_world(SENGADLIT_SHAPER_INDIC, DEVA, 0x0915, 3); }
static void begin_myanmar(void) { begin_world(SENGADLIT_SHAPER_MYANMAR, MYMR, 0x1000, 3); }
static void begin_mongolian(void) { begin_world(SENGADLIT_SHAPER_UNIVERSAL, MONG, 0x1820, 3); }

static sengadlit_status_t preprocess(void)
{
    return sengadlit_preprocess_text(world.plan, &world.font, world.buffer, NULL);
}

static sengadlit_status_t masks(void)
{
    return sengadlit_setup_masks(world.plan, &world.tables, world.buffer);
}

static sengadlit_status_t marks(unsigned int start, unsigned int end)
{
    return sengadlit_reorder_marks(world.plan, world.buffer, start, end);
}

static sengadlit_status_t run(unsigned int pause)
{
    return sengadlit_run_pause(world.plan, (sengadlit_pause_t)pause, &world.font, NULL, 0, world.buffer, NULL);
}

static sengadlit_status_t setup(sengadlit_pause_t pause, const sengadlit_span_t *spans, unsigned int length)
{
    return sengadlit_run_pause(world.plan, pause, NULL, spans, length, world.buffer, NULL);
}

static sengadlit_status_t postprocess(void)
{
    return sengadlit_postprocess_glyphs(world.plan, &world.font, world.buffer);
}

/* ---- Names and versions ---- */

static void names_and_versions(void)
{
    unsigned int major = UNTOUCHED, minor = UNTOUCHED, micro = UNTOUCHED;

    sengadlit_version(&major, &minor, &micro);
    check("the numbers of the version", major == SENGADLIT_VERSION_MAJOR && minor == SENGADLIT_VERSION_MINOR &&
                                            micro == SENGADLIT_VERSION_MICRO);
    sengadlit_version(NULL, NULL, NULL);
    check("the version", strcmp(sengadlit_version_string(), SENGADLIT_VERSION_STRING) == 0);
    check("a later version", SENGADLIT_VERSION_ATLEAST(0, 2, 0) && !SENGADLIT_VERSION_ATLEAST(99, 0, 0));
    check("this version", sengadlit_version_atleast(major, minor, micro) == 1 && sengadlit_version_atleast(0, 0, UINT_MAX) == 1);
    check("a later micro", !sengadlit_version_atleast(major, minor, micro + 1));
    check("a later minor", !sengadlit_version_atleast(major, minor + 1, 0));
    check("a later major", !sengadlit_version_atleast(major + 1, 0, 0));
    check("a status", strcmp(sengadlit_status_name(SENGADLIT_INTERNAL), "SENGADLIT_INTERNAL") == 0);
    check("the last status", strcmp(sengadlit_status_name(SENGADLIT_IN_CALL), "SENGADLIT_IN_CALL") == 0);
    check("no status", strcmp(sengadlit_status_name((sengadlit_status_t)11), "unknown") == 0);
    check("an argument", strcmp(sengadlit_argument_name(SENGADLIT_ARGUMENT_TEXT), "SENGADLIT_ARGUMENT_TEXT") == 0);
    check("the last argument", strcmp(sengadlit_argument_name(SENGADLIT_ARGUMENT_LANGUAGE), "SENGADLIT_ARGUMENT_LANGUAGE") == 0);
    check("no argument", strcmp(sengadlit_argument_name((sengadlit_argument_t)28), "unknown") == 0);
}

/* Numbers of HarfBuzz's that are others here, and parts of numbers. */
static void numbers_of_harfbuzz(void)
{
    check("a component", SENGADLIT_LIG_PROPS_COMPONENT(0xEF) == 15 && SENGADLIT_LIG_PROPS_COMPONENT(0x23) == 3);
    check("of a ligature", SENGADLIT_LIG_PROPS_COMPONENT(0x33) == 0);
    check("properties", SENGADLIT_UNICODE_PROPS(SENGADLIT_UNICODE_GENERAL_CATEGORY_NON_SPACING_MARK, 230) == 0xE60C);
    check("a category", SENGADLIT_UNICODE_PROPS_GET_GENERAL_CATEGORY(0xE6EC) == 12);
    for (unsigned int number = 0; number < 32; number++)
        check("a class of all but two", SENGADLIT_UNICODE_PROPS_GET_COMBINING_CLASS(0xE6E0 | number) ==
                                            (number == 1 || number == 29 ? 0 : 230));
    check("a consonant syllable of Myanmar",
          SENGADLIT_MYANMAR_SYLLABLE_FROM_HARFBUZZ(0) == SENGADLIT_MYANMAR_SYLLABLE_CONSONANT);
    check("a broken one", SENGADLIT_MYANMAR_SYLLABLE_FROM_HARFBUZZ(1) == SENGADLIT_MYANMAR_SYLLABLE_BROKEN);
    check("another cluster", SENGADLIT_MYANMAR_SYLLABLE_FROM_HARFBUZZ(2) == SENGADLIT_MYANMAR_SYLLABLE_NON_MYANMAR);
}

/* ---- Shapers and features ---- */

static void shapers_that_are_none(void)
{
    sengadlit_shaper_constants_t constants = {sizeof constants, UNTOUCHED, 0, SENGADLIT_NORMALIZATION_MODE_NONE,
                                              SENGADLIT_ZERO_WIDTH_MARKS_NONE, 0};

    expect("constants of no shaper", sengadlit_shaper_get_constants((sengadlit_shaper_t)NO_SHAPER, &constants),
           SENGADLIT_ARGUMENT);
    expect("constants nowhere", sengadlit_shaper_get_constants(SENGADLIT_SHAPER_ARABIC, NULL), SENGADLIT_ARGUMENT);
    check("constants are untouched", constants.hooks == UNTOUCHED);
    expect("constants", sengadlit_shaper_get_constants(SENGADLIT_SHAPER_HEBREW, &constants), SENGADLIT_DONE);
    check("constants of Hebrew", constants.gpos_tag == SENGADLIT_TAG('h', 'e', 'b', 'r') && constants.fallback_position == 1);
}

/* Of each shaper, as HarfBuzz has them: normalization, marks without a width, fallback positions, and the tag of GPOS. */
static void constants_of_shapers(void)
{
    enum { NONE = SENGADLIT_NORMALIZATION_MODE_NONE, AUTO = SENGADLIT_NORMALIZATION_MODE_AUTO,
           DIACRITICS = SENGADLIT_NORMALIZATION_MODE_COMPOSED_DIACRITICS_NO_SHORT_CIRCUIT,
           STAY = SENGADLIT_ZERO_WIDTH_MARKS_NONE, EARLY = SENGADLIT_ZERO_WIDTH_MARKS_BY_GDEF_EARLY,
           LATE = SENGADLIT_ZERO_WIDTH_MARKS_BY_GDEF_LATE };
    static const struct { unsigned int normalization, marks, fallback; } wanted[NO_SHAPER] = {
        [SENGADLIT_SHAPER_ARABIC] = {AUTO, LATE, 1},      [SENGADLIT_SHAPER_HANGUL] = {NONE, STAY, 0},
        [SENGADLIT_SHAPER_HEBREW] = {AUTO, LATE, 1},      [SENGADLIT_SHAPER_INDIC] = {DIACRITICS, STAY, 0},
        [SENGADLIT_SHAPER_KHMER] = {DIACRITICS, STAY, 0}, [SENGADLIT_SHAPER_MYANMAR] = {DIACRITICS, EARLY, 0},
        [SENGADLIT_SHAPER_MYANMAR_ZAWGYI] = {NONE, STAY, 0}, [SENGADLIT_SHAPER_THAI] = {AUTO, LATE, 0},
        [SENGADLIT_SHAPER_UNIVERSAL] = {DIACRITICS, EARLY, 0}};

    for (unsigned int shaper = 0; shaper < NO_SHAPER; shaper++) {
        sengadlit_shaper_constants_t constants = SENGADLIT_INIT(sengadlit_shaper_constants_t);

        expect("constants", sengadlit_shaper_get_constants((sengadlit_shaper_t)shaper, &constants), SENGADLIT_DONE);
        check("normalization", constants.normalization_preference == wanted[shaper].normalization);
        check("marks", constants.zero_width_marks == wanted[shaper].marks);
        check("fallback positions", constants.fallback_position == (sengadlit_bool_t)wanted[shaper].fallback);
        check("the tag of GPOS",
              constants.gpos_tag == (shaper == SENGADLIT_SHAPER_HEBREW ? SENGADLIT_TAG('h', 'e', 'b', 'r') : 0));
    }
}

static unsigned int features_told, pauses_told;

static void add_feature(void *user_data, sengadlit_tag_t tag, uint32_t flags, uint32_t value)
{
    (void)user_data, (void)tag, (void)flags, (void)value;
    features_told++;
}

static void add_gsub_pause(void *user_data, sengadlit_pause_t pause)
{
    (void)user_data, (void)pause;
    pauses_told++;
}

/* Both lists, with the same arguments. */
static void expect_features(const char *what, unsigned int shaper, const sengadlit_font_t *font, const sengadlit_map_t *map,
                            sengadlit_argument_t argument)
{
    sengadlit_error_t error = {SENGADLIT_DONE, SENGADLIT_ARGUMENT_NONE, 0};

    features_told = pauses_told = 0;
    expect(what, sengadlit_collect_features((sengadlit_shaper_t)shaper, ARAB, font, map, &error), SENGADLIT_ARGUMENT);
    expect_error(what, error, SENGADLIT_ARGUMENT, argument, 0);
    expect(what, sengadlit_collect_features((sengadlit_shaper_t)shaper, ARAB, font, map, NULL), SENGADLIT_ARGUMENT);
    if (argument != SENGADLIT_ARGUMENT_FONT) {
        error.status = SENGADLIT_DONE;
        expect(what, sengadlit_override_features((sengadlit_shaper_t)shaper, ARAB, map, &error), SENGADLIT_ARGUMENT);
        expect_error(what, error, SENGADLIT_ARGUMENT, argument, 0);
    }
    check(what, features_told + pauses_told == 0);
}

static void features_without_arguments(void)
{
    static const sengadlit_map_funcs_t funcs = {sizeof funcs, add_feature, add_gsub_pause}, no_pause = {sizeof no_pause, add_feature, NULL},
                                       no_feature = {sizeof no_feature, NULL, add_gsub_pause};
    const sengadlit_map_t map = {&funcs, NULL}, without_pause = {&no_pause, NULL}, without_feature = {&no_feature, NULL},
                          without_funcs = {NULL, NULL};
    const sengadlit_font_t no_font = {NULL, NULL};

    begin_arabic();
    expect_features("features of no shaper", NO_SHAPER, &world.font, &map, SENGADLIT_ARGUMENT_SHAPER);
    expect_features("features into no map", SENGADLIT_SHAPER_ARABIC, &world.font, NULL, SENGADLIT_ARGUMENT_MAP);
    expect_features("features into no functions", SENGADLIT_SHAPER_ARABIC, &world.font, &without_funcs, SENGADLIT_ARGUMENT_MAP);
    expect_features("a map without pauses", SENGADLIT_SHAPER_KHMER, &world.font, &without_pause, SENGADLIT_ARGUMENT_MAP);
    expect_features("a map without features", SENGADLIT_SHAPER_KHMER, &world.font, &without_feature, SENGADLIT_ARGUMENT_MAP);
    expect_features("no map for no features", SENGADLIT_SHAPER_THAI, NULL, NULL, SENGADLIT_ARGUMENT_MAP);
    expect_features("no font", SENGADLIT_SHAPER_ARABIC, NULL, &map, SENGADLIT_ARGUMENT_FONT);
    expect_features("a font without functions", SENGADLIT_SHAPER_ARABIC, &no_font, &map, SENGADLIT_ARGUMENT_FONT);
    world.font_funcs.has_feature = NULL;
    expect_features("a font without features", SENGADLIT_SHAPER_ARABIC, &world.font, &map, SENGADLIT_ARGUMENT_FONT);
    expect("features of Khmer", sengadlit_collect_features(SENGADLIT_SHAPER_KHMER, KHMR, NULL, &map, NULL), SENGADLIT_DONE);
    check("Khmer told of features and pauses", features_told == 11 && pauses_told == 3);
    expect("features after all of Khmer", sengadlit_override_features(SENGADLIT_SHAPER_KHMER, KHMR, &map, NULL), SENGADLIT_DONE);
    expect("features of Thai", sengadlit_collect_features(SENGADLIT_SHAPER_THAI, THAI, NULL, &map, NULL), SENGADLIT_ABSENT);
    expect("features after all of Thai", sengadlit_override_features(SENGADLIT_SHAPER_THAI, THAI, &map, NULL), SENGADLIT_ABSENT);
}

/* A hook is absent exactly where the constants say so. */
static void expect_hook(const char *what, uint32_t hooks, unsigned int hook, sengadlit_status_t status)
{
    check(what, (status == SENGADLIT_ABSENT) == ((hooks & hook) == 0));
    check(what, status == SENGADLIT_ABSENT || status == SENGADLIT_DONE || status == SENGADLIT_NOT_FOUND);
}

static void hooks_of(sengadlit_shaper_t shaper)
{
    static const sengadlit_map_funcs_t funcs = {sizeof funcs, add_feature, add_gsub_pause};
    const sengadlit_map_t map = {&funcs, NULL};
    sengadlit_shaper_constants_t constants = SENGADLIT_INIT(sengadlit_shaper_constants_t);
    uint32_t hooks, a, b;

    begin_world(shaper, ARAB, 0x0628, 3);
    expect("constants", sengadlit_shaper_get_constants(shaper, &constants), SENGADLIT_DONE);
    hooks = constants.hooks;
    expect_hook("collect", hooks, SENGADLIT_HOOK_COLLECT_FEATURES,
                sengadlit_collect_features(shaper, ARAB, &world.font, &map, NULL));
    expect_hook("override", hooks, SENGADLIT_HOOK_OVERRIDE_FEATURES, sengadlit_override_features(shaper, ARAB, &map, NULL));
    expect_hook("preprocess", hooks, SENGADLIT_HOOK_PREPROCESS_TEXT, preprocess());
    expect_hook("decompose", hooks, SENGADLIT_HOOK_DECOMPOSE,
                sengadlit_decompose(world.plan, &world.tables, 0x41, &a, &b, NULL));
    expect_hook("compose", hooks, SENGADLIT_HOOK_COMPOSE,
                sengadlit_compose(world.plan, &world.tables, 0x41, 0x42, &a, NULL));
    expect_hook("masks", hooks, SENGADLIT_HOOK_SETUP_MASKS, masks());
    expect_hook("marks", hooks, SENGADLIT_HOOK_REORDER_MARKS, marks(0, 1));
    (void)positions();
    expect_hook("postprocess", hooks, SENGADLIT_HOOK_POSTPROCESS_GLYPHS, postprocess());
}

static void hooks_of_all(void)
{
    for (unsigned int shaper = 0; shaper < NO_SHAPER; shaper++)
        hooks_of((sengadlit_shaper_t)shaper);
}

/* ---- Plans ---- */

static unsigned int destroyed;

static void destroy(void *user_data)
{
    destroyed += *(unsigned int *)user_data;
}

static unsigned int one = 1;

static sengadlit_plan_input_t input_of_two(void)
{
    static sengadlit_feature_t features[2] = {{SENGADLIT_TAG('i', 's', 'o', 'l'), 8, 0}, {SENGADLIT_TAG('i', 'n', 'i', 't'), 16, 1}};
    static const sengadlit_stage_t stages[2] = {{0, 1}, {1, 2}};
    static const uint16_t lookups[2] = {3, 4};
    sengadlit_plan_input_t input = SENGADLIT_INIT(sengadlit_plan_input_t);

    input.features = features;
    input.features_length = 2;
    input.stages = stages;
    input.stages_length = 2;
    input.lookups = lookups;
    input.lookups_length = 2;
    input.user_data = &one;
    input.destroy = destroy;
    return input;
}

/* A plan is refused, and its user data destroyed once. */
static void expect_no_plan(const char *what, unsigned int shaper, const sengadlit_plan_input_t *input,
                           sengadlit_argument_t argument, unsigned int index)
{
    sengadlit_error_t error = {SENGADLIT_DONE, SENGADLIT_ARGUMENT_NONE, 0};

    destroyed = 0;
    check(what, sengadlit_plan_create((sengadlit_shaper_t)shaper, input, &error) == NULL);
    expect_error(what, error, SENGADLIT_ARGUMENT, argument, index);
    check(what, destroyed == (input ? 1 : 0));
    check(what, sengadlit_plan_create((sengadlit_shaper_t)shaper, input, NULL) == NULL);
}

static void plans_of_missing_arrays(void)
{
    sengadlit_plan_input_t input = input_of_two();

    expect_no_plan("a plan of no shaper", NO_SHAPER, &input, SENGADLIT_ARGUMENT_SHAPER, 0);
    expect_no_plan("a plan of nothing", SENGADLIT_SHAPER_KHMER, NULL, SENGADLIT_ARGUMENT_INPUT, 0);
    input.features = NULL;
    expect_no_plan("a plan without features", SENGADLIT_SHAPER_KHMER, &input, SENGADLIT_ARGUMENT_FEATURES, 0);
    input = input_of_two();
    input.stages = NULL;
    expect_no_plan("a plan without stages", SENGADLIT_SHAPER_KHMER, &input, SENGADLIT_ARGUMENT_STAGES, 0);
    input = input_of_two();
    input.lookups = NULL;
    expect_no_plan("a plan without lookups", SENGADLIT_SHAPER_KHMER, &input, SENGADLIT_ARGUMENT_LOOKUPS, 0);
}

static void plans_of_wrong_arrays(void)
{
    static const sengadlit_stage_t backwards[2] = {{0, 1}, {2, 1}}, beyond[2] = {{0, 3}, {1, 2}}, huge[2] = {{0, 1}, {0, UINT32_MAX}};
    sengadlit_feature_t flagged[2] = {{1, 8, 0}, {2, 20, 0}};
    sengadlit_plan_input_t input = input_of_two();

    input.features = flagged;
    expect_no_plan("a mask with a glyph flag", SENGADLIT_SHAPER_KHMER, &input, SENGADLIT_ARGUMENT_FEATURES, 1);
    flagged[0].mask = 1;
    expect_no_plan("two such masks", SENGADLIT_SHAPER_KHMER, &input, SENGADLIT_ARGUMENT_FEATURES, 0);
    input = input_of_two();
    input.stages = backwards;
    expect_no_plan("a stage that ends before it starts", SENGADLIT_SHAPER_KHMER, &input, SENGADLIT_ARGUMENT_STAGES, 1);
    input.stages = beyond;
    expect_no_plan("a stage beyond the lookups", SENGADLIT_SHAPER_KHMER, &input, SENGADLIT_ARGUMENT_STAGES, 0);
    input.stages = huge;
    expect_no_plan("a stage far beyond the lookups", SENGADLIT_SHAPER_KHMER, &input, SENGADLIT_ARGUMENT_STAGES, 1);
}

static void plans_with_references(void)
{
    sengadlit_plan_input_t input = input_of_two();
    sengadlit_plan_t *plan = sengadlit_plan_create(SENGADLIT_SHAPER_ARABIC, &input, NULL);
    sengadlit_plan_data_t data = SENGADLIT_INIT(sengadlit_plan_data_t);

    data.rphf_mask = UNTOUCHED;
    destroyed = 0;
    check("a reference is the plan", sengadlit_plan_reference(plan) == plan);
    check("user data are kept", sengadlit_plan_get_user_data(plan) == &one);
    sengadlit_plan_destroy(plan);
    check("a plan with a reference stays", destroyed == 0);
    expect("data", sengadlit_plan_get_data(plan, &data), SENGADLIT_DONE);
    check("data of Arabic", data.shaper == SENGADLIT_SHAPER_ARABIC && data.joins == 1 && data.masks[0] == 8 && data.masks[6] == 16);
    sengadlit_plan_destroy(plan);
    check("user data are destroyed once", destroyed == 1);
    data.rphf_mask = UNTOUCHED;
    expect("data of no plan", sengadlit_plan_get_data(NULL, &data), SENGADLIT_ARGUMENT);
    check("data are untouched", data.rphf_mask == UNTOUCHED);
    begin_arabic();
    expect("data nowhere", sengadlit_plan_get_data(world.plan, NULL), SENGADLIT_ARGUMENT);
    check("user data of a plan without", sengadlit_plan_get_user_data(world.plan) == NULL);
    check("no plan", sengadlit_plan_reference(NULL) == NULL && sengadlit_plan_get_user_data(NULL) == NULL);
    sengadlit_plan_destroy(NULL);
}

/* The masks of these features in the plan's data. */
static void expect_masks(sengadlit_shaper_t shaper, const char *tags, const uint32_t *wanted)
{
    sengadlit_feature_t features[9];
    sengadlit_plan_input_t input = {.size = sizeof input, .features = features};
    sengadlit_plan_data_t data = SENGADLIT_INIT(sengadlit_plan_data_t);
    sengadlit_plan_t *plan;

    for (; tags[4 * input.features_length] != 0; input.features_length++) {
        const char *tag = &tags[4 * input.features_length];
        features[input.features_length] =
            (sengadlit_feature_t){SENGADLIT_TAG(tag[0], tag[1], tag[2], tag[3]), 8u << input.features_length, 0};
    }
    plan = sengadlit_plan_create(shaper, &input, NULL);
    expect("data", sengadlit_plan_get_data(plan, &data), SENGADLIT_DONE);
    check("the masks", data.shaper == shaper && memcmp(data.masks, wanted, sizeof data.masks) == 0);
    check("nothing of others", data.joins == 0 && data.has_stch == 0 && data.rphf_mask == 0);
    sengadlit_plan_destroy(plan);
}

/* Features that are on everywhere have no mask of their own. */
static void masks_of_plans(void)
{
    static const uint32_t of_khmer[9] = {0x08, 0x10, 0x20, 0x40, 0x80}, of_hangul[9] = {0, 0x08, 0x10, 0x20};

    expect_masks(SENGADLIT_SHAPER_KHMER, "prefblwfabvfpstfcfarpresblwsabvspsts", of_khmer);
    expect_masks(SENGADLIT_SHAPER_HANGUL, "ljmovjmotjmo", of_hangul);
}

/* ---- Buffers ---- */

static void buffers_that_are_none(void)
{
    static const uint32_t characters[1] = {0x41};
    unsigned int length = UNTOUCHED;
    sengadlit_error_t error = {SENGADLIT_INTERNAL, SENGADLIT_ARGUMENT_NONE, 0};

    begin_thai();
    sengadlit_buffer_destroy(NULL);
    check("a length of no buffer", sengadlit_buffer_set_length(NULL, 3) == NULL);
    check("glyphs of no buffer", sengadlit_buffer_get_glyph_infos(NULL, &length) == NULL && length == UNTOUCHED);
    check("positions of no buffer", sengadlit_buffer_get_glyph_positions(NULL, &length) == NULL && length == UNTOUCHED);
    expect("properties of no buffer", sengadlit_buffer_set_properties(NULL, &world.properties), SENGADLIT_ARGUMENT);
    expect("a context of no buffer", sengadlit_buffer_set_context(NULL, characters, 1, NULL, 0), SENGADLIT_ARGUMENT);
    sengadlit_buffer_set_state(NULL, 1);
    sengadlit_buffer_clear_contents(NULL);
    sengadlit_buffer_reset(NULL);
    check("a state of no buffer", sengadlit_buffer_get_state(NULL) == 0);
    sengadlit_buffer_get_error(NULL, &error);
    expect_error("an error of no buffer", error, SENGADLIT_DONE, SENGADLIT_ARGUMENT_NONE, 0);
    sengadlit_buffer_get_error(world.buffer, NULL);
    expect("preprocessing of no buffer", sengadlit_preprocess_text(world.plan, &world.font, NULL, NULL), SENGADLIT_ARGUMENT);
    expect("marks of no buffer", sengadlit_reorder_marks(world.plan, NULL, 0, 0), SENGADLIT_ARGUMENT);
    expect("masks of no buffer", sengadlit_setup_masks(world.plan, &world.tables, NULL), SENGADLIT_ARGUMENT);
    expect("a pause of no buffer",
           sengadlit_run_pause(world.plan, SENGADLIT_PAUSE_RECORD_PREF, &world.font, NULL, 0, NULL, NULL), SENGADLIT_ARGUMENT);
    expect("postprocessing of no buffer", sengadlit_postprocess_glyphs(world.plan, &world.font, NULL), SENGADLIT_ARGUMENT);
}

/* The place of the glyphs and that of the positions hold while both are asked for, and the error and the state. */
static void pointers_that_hold(void)
{
    sengadlit_glyph_info_t *const of_glyphs = sengadlit_buffer_get_glyph_infos(world.buffer, NULL);
    sengadlit_glyph_position_t *const of_positions = sengadlit_buffer_get_glyph_positions(world.buffer, NULL);
    sengadlit_error_t error;

    sengadlit_buffer_get_error(world.buffer, &error);
    sengadlit_buffer_set_state(world.buffer, sengadlit_buffer_get_state(world.buffer));
    of_glyphs[1].mask = 8;
    of_positions[1].y_offset = 9;
    check("the glyphs hold", sengadlit_buffer_get_glyph_infos(world.buffer, NULL) == of_glyphs);
    check("the positions hold", sengadlit_buffer_get_glyph_positions(world.buffer, NULL) == of_positions);
    check("as written", of_glyphs[1].mask == 8 && of_positions[1].y_offset == 9);
    of_glyphs[1].mask = 0;
    of_positions[1].y_offset = 0;
}

static void lengths_and_positions(void)
{
    unsigned int length = UNTOUCHED;

    begin_thai();
    check("an empty buffer has an address", sengadlit_buffer_set_length(world.buffer, 0) != NULL);
    check("an empty buffer has positions", sengadlit_buffer_get_glyph_positions(world.buffer, &length) != NULL && length == 0);
    begin_thai();
    check("longer", sengadlit_buffer_set_length(world.buffer, 5) == sengadlit_buffer_get_glyph_infos(world.buffer, &length));
    check("five", length == 5 && glyphs()[2].glyph_id == 0x0E01 && glyphs()[2].cluster == 2);
    check("new ones are zero", glyphs()[3].glyph_id == 0 && glyphs()[4].unicode_props == 0 && glyphs()[4].glyph_props == 0);
    check("positions", sengadlit_buffer_get_glyph_positions(world.buffer, &length) != NULL && length == 5);
    positions()[4].x_offset = UNTOUCHED;
    check("positions stay", positions()[4].x_offset == UNTOUCHED && positions()[3].x_offset == 0);
    pointers_that_hold();
    REFUSES("a hook with positions", preprocess(), POSITIONS, 0);
    check("shorter", sengadlit_buffer_set_length(world.buffer, 3) != NULL);
    world.has_positions = 0;
    expect("positions are gone", preprocess(), SENGADLIT_DONE);
    sengadlit_buffer_set_state(world.buffer, ~0u);
    check("a state", sengadlit_buffer_get_state(world.buffer) == 3);
}

static void properties_that_are_none(void)
{
    static const unsigned int directions[] = {1, 2, 3, 8, 0x104, UINT32_MAX}, levels[] = {4, 0x100, UINT32_MAX};

    begin_thai();
    REFUSES("no properties", sengadlit_buffer_set_properties(world.buffer, NULL), PROPERTIES, 0);
    for (size_t i = 0; i < sizeof directions / sizeof *directions; i++) {
        world.properties.direction = (sengadlit_direction_t)directions[i];
        REFUSES("no direction", sengadlit_buffer_set_properties(world.buffer, &world.properties), DIRECTION, 0);
    }
    world.properties.direction = SENGADLIT_DIRECTION_BTT;
    for (size_t i = 0; i < sizeof levels / sizeof *levels; i++) {
        world.properties.cluster_level = (sengadlit_buffer_cluster_level_t)levels[i];
        REFUSES("no level", sengadlit_buffer_set_properties(world.buffer, &world.properties), CLUSTER_LEVEL, 0);
    }
    world.properties.cluster_level = SENGADLIT_BUFFER_CLUSTER_LEVEL_CHARACTERS;
    world.properties.flags = UINT32_MAX;
    expect("all flags", sengadlit_buffer_set_properties(world.buffer, &world.properties), SENGADLIT_DONE);
}

/* Properties that are all zero set no length, after one that is too short. */
static void properties_that_are_zero(void)
{
    static const sengadlit_buffer_properties_t zero = SENGADLIT_INIT(sengadlit_buffer_properties_t);

    begin_thai();
    glyphs()[1].glyph_id = 0x0E33;
    limit_length(3);
    FAILS("a longer result", preprocess(), SENGADLIT_TOO_LONG, SENGADLIT_ARGUMENT_NONE, 0);
    expect("no properties", sengadlit_buffer_set_properties(world.buffer, &zero), SENGADLIT_DONE);
    expect("any length", preprocess(), SENGADLIT_DONE);
    limit_length(1);
    FAILS("another length", preprocess(), SENGADLIT_TOO_LONG, SENGADLIT_ARGUMENT_NONE, 0);
}

static void contexts_that_are_none(void)
{
    static const uint32_t plain[7] = {0x628, 0x628, 0x628, 0x628, 0x628, 0xD800, 0xD800},
                          torn[3] = {0x628, 0x628, 0xDFFF}, beyond[2] = {0x110000, 0x628};

    begin_arabic();
    REFUSES("no characters before", sengadlit_buffer_set_context(world.buffer, NULL, 1, plain, 1), CONTEXT, 0);
    REFUSES("no characters after", sengadlit_buffer_set_context(world.buffer, plain, 1, NULL, 1), CONTEXT, 0);
    REFUSES("a surrogate before", sengadlit_buffer_set_context(world.buffer, torn, 3, plain, 1), CONTEXT, 2);
    REFUSES("beyond Unicode after", sengadlit_buffer_set_context(world.buffer, plain, 5, beyond, 2), CONTEXT, 5);
    expect("five count", sengadlit_buffer_set_context(world.buffer, plain, 7, plain, 7), SENGADLIT_DONE);
    expect("no context", sengadlit_buffer_set_context(world.buffer, NULL, 0, NULL, 0), SENGADLIT_DONE);
}

/* Clearing, and resetting. */
static void expect_empty(const char *what)
{
    unsigned int length = UNTOUCHED;

    check(what, sengadlit_buffer_get_state(world.buffer) == 0);
    check(what, sengadlit_buffer_get_glyph_infos(world.buffer, &length) != NULL && length == 0);
    check(what, sengadlit_buffer_get_glyph_positions(world.buffer, &length) != NULL && length == 0);
    check(what, sengadlit_buffer_set_length(world.buffer, 1) != NULL && glyphs()->glyph_id == 0);
    glyphs()->glyph_id = 0x0628;
    expect(what, masks(), SENGADLIT_DONE);
    check("alone, since the context is gone", glyphs()->mask == 0x10);
}

/* BEH, which joins on both sides, between two others, and all else that a buffer holds. */
static void begin_full(void)
{
    static const uint32_t letter[] = {0x0628};

    begin_arabic();
    world.properties.direction = SENGADLIT_DIRECTION_RTL;
    limit_length(1);
    (void)sengadlit_buffer_set_context(world.buffer, letter, 1, letter, 1);
    sengadlit_buffer_set_state(world.buffer, ~0u);
    glyphs()[0].unicode_props = 0xFFFF;
    (void)sengadlit_buffer_get_glyph_positions(world.buffer, NULL);
}

static void buffers_made_empty(void)
{
    begin_full();
    sengadlit_buffer_clear_contents(world.buffer);
    expect_empty("cleared");
    check("the greatest length stays", sengadlit_buffer_set_length(world.buffer, 2) != NULL);
    expect("the greatest length stays", masks(), SENGADLIT_TOO_LONG);
    begin_full();
    sengadlit_buffer_reset(world.buffer);
    expect_empty("reset");
    check("any length", sengadlit_buffer_set_length(world.buffer, 2) != NULL);
    expect("any length", masks(), SENGADLIT_DONE);
}

/* A broken syllable leaves its state to the next text, unless the buffer is cleared. */
static void texts_after_a_broken_one(void)
{
    static const sengadlit_span_t broken[] = {{1, SENGADLIT_KHMER_SYLLABLE_BROKEN}}, whole[] = {{1, 0}};
    sengadlit_bool_t circles = UNTOUCHED;

    for (int clears = 0; clears < 2; clears++) {
        begin_khmer();
        world.answers.glyph_of_circle = 7;
        check("a text", sengadlit_buffer_set_length(world.buffer, 1) != NULL);
        expect("broken", setup(SENGADLIT_PAUSE_SETUP_SYLLABLES_KHMER, broken, 1), SENGADLIT_DONE);
        if (clears) sengadlit_buffer_clear_contents(world.buffer);
        check("another", sengadlit_buffer_set_length(world.buffer, 1) != NULL);
        expect("whole", setup(SENGADLIT_PAUSE_SETUP_SYLLABLES_KHMER, whole, 1), SENGADLIT_DONE);
        expect("reordered",
               sengadlit_run_pause(world.plan, SENGADLIT_PAUSE_REORDER_KHMER, &world.font, NULL, 0, world.buffer, &circles),
               SENGADLIT_DONE);
        check("circles", circles == !clears);
    }
}

/* ---- What all hooks refuse ---- */

/* The pauses of each shaper, which are those that HarfBuzz's adds to the map, as bits. */
#define PAUSE_BIT(name) (1u << SENGADLIT_PAUSE_##name)
static const unsigned int pauses_of[NO_SHAPER] = {
    [SENGADLIT_SHAPER_ARABIC] = PAUSE_BIT(RECORD_STCH) | PAUSE_BIT(ARABIC_FALLBACK_SHAPE),
    [SENGADLIT_SHAPER_INDIC] = PAUSE_BIT(SETUP_SYLLABLES_INDIC) | PAUSE_BIT(INITIAL_REORDERING) |
                               PAUSE_BIT(FINAL_REORDERING) | PAUSE_BIT(SYLLABIC_CLEAR_VAR),
    [SENGADLIT_SHAPER_KHMER] = PAUSE_BIT(SETUP_SYLLABLES_KHMER) | PAUSE_BIT(REORDER_KHMER) | PAUSE_BIT(SYLLABIC_CLEAR_VAR),
    [SENGADLIT_SHAPER_MYANMAR] = PAUSE_BIT(SETUP_SYLLABLES_MYANMAR) | PAUSE_BIT(REORDER_MYANMAR) |
                                 PAUSE_BIT(SYLLABIC_CLEAR_VAR),
    [SENGADLIT_SHAPER_UNIVERSAL] = PAUSE_BIT(SETUP_SYLLABLES_USE) | PAUSE_BIT(CLEAR_SUBSTITUTION_FLAGS) |
                                   PAUSE_BIT(RECORD_RPHF) | PAUSE_BIT(RECORD_PREF) | PAUSE_BIT(REORDER_USE) |
                                   PAUSE_BIT(SYLLABIC_CLEAR_VAR)};

static void every_hook_refuses(const char *what, sengadlit_shaper_t shaper, sengadlit_argument_t argument, unsigned int index)
{
    FAILS(what, preprocess(), SENGADLIT_ARGUMENT, argument, index);
    FAILS(what, masks(), SENGADLIT_ARGUMENT, argument, index);
    FAILS(what, marks(0, 1), SENGADLIT_ARGUMENT, argument, index);
    for (unsigned int pause = 0; pause < NO_PAUSE; pause++)
        if (pauses_of[shaper] & 1u << pause) FAILS(what, run(pause), SENGADLIT_ARGUMENT, argument, index);
}

static void texts_that_are_none(void)
{
    for (unsigned int shaper = 0; shaper < NO_SHAPER; shaper++) {
        begin_world((sengadlit_shaper_t)shaper, ARAB, 0x0628, 3);
        (void)positions();
        every_hook_refuses("positions", (sengadlit_shaper_t)shaper, SENGADLIT_ARGUMENT_POSITIONS, 0);
    }
}

static void plans_that_are_none(void)
{
    uint32_t a = UNTOUCHED, b = UNTOUCHED;

    begin_arabic();
    sengadlit_plan_destroy(world.plan);
    world.plan = NULL;
    every_hook_refuses("no plan", SENGADLIT_SHAPER_ARABIC, SENGADLIT_ARGUMENT_PLAN, 0);
    REFUSES("no plan at last", postprocess(), PLAN, 0);
    expect("compose without a plan", sengadlit_compose(NULL, &world.tables, 0x41, 0x300, &a, NULL), SENGADLIT_ARGUMENT);
    expect("decompose without a plan", sengadlit_decompose(NULL, &world.tables, 0xC0, &a, &b, NULL), SENGADLIT_ARGUMENT);
    check("nothing is written", a == UNTOUCHED && b == UNTOUCHED);
}

static void texts_that_are_long(void)
{
    begin_thai();
    limit_length(2);
    FAILS("a text longer than its greatest length", preprocess(), SENGADLIT_TOO_LONG, SENGADLIT_ARGUMENT_NONE, 0);
    begin_khmer();
    limit_length(2);
    FAILS("the same for a pause", run(SENGADLIT_PAUSE_SYLLABIC_CLEAR_VAR), SENGADLIT_TOO_LONG, SENGADLIT_ARGUMENT_NONE, 0);
    begin_thai();
    limit_length(3);
    glyphs()[1].glyph_id = 0x0E33;
    FAILS("a longer result", preprocess(), SENGADLIT_TOO_LONG, SENGADLIT_ARGUMENT_NONE, 0);
    limit_length(4);
    expect("a result that fits", preprocess(), SENGADLIT_DONE);
}

/* ---- Hooks on characters ---- */

/* Thai takes the forms of the Private Use Area of the font only if GSUB doesn't have the script, and Lao never. */
static void fonts_that_are_not_called(void)
{
    sengadlit_plan_input_t input = SENGADLIT_INIT(sengadlit_plan_input_t);

    begin_world(SENGADLIT_SHAPER_THAI, SENGADLIT_TAG('L', 'a', 'o', 'o'), 0x0E81, 3);
    expect("Lao without a font", sengadlit_preprocess_text(world.plan, NULL, world.buffer, NULL), SENGADLIT_DONE);
    begin_thai();
    sengadlit_plan_destroy(world.plan);
    input.script = THAI;
    input.found_script = 1;
    world.plan = sengadlit_plan_create(SENGADLIT_SHAPER_THAI, &input, NULL);
    glyphs()[1].glyph_id = 0x0E33;
    expect("Thai of GSUB without a font", sengadlit_preprocess_text(world.plan, NULL, world.buffer, NULL), SENGADLIT_DONE);
    check("SARA AM is taken apart", glyphs()[1].glyph_id == 0x0E4D && glyphs()[2].glyph_id == 0x0E32);
}

static void fonts_that_are_none(void)
{
    sengadlit_bool_t asked = UNTOUCHED;

    begin_thai();
    REFUSES("Thai without a font", sengadlit_preprocess_text(world.plan, NULL, world.buffer, &asked), FONT, 0);
    world.font.funcs = NULL;
    REFUSES("Thai without functions", sengadlit_preprocess_text(world.plan, &world.font, world.buffer, &asked), FONT, 0);
    begin_thai();
    world.font_funcs.nominal_glyph = NULL;
    REFUSES("Thai without glyphs", sengadlit_preprocess_text(world.plan, &world.font, world.buffer, &asked), FONT, 0);
    begin_hangul();
    world.font_funcs.glyph_h_advance = NULL;
    REFUSES("Hangul without advances", sengadlit_preprocess_text(world.plan, &world.font, world.buffer, &asked), FONT, 0);
    check("nothing is asked of the caller", asked == UNTOUCHED);
    begin_khmer();
    expect("Khmer has no such hook", sengadlit_preprocess_text(world.plan, NULL, world.buffer, &asked), SENGADLIT_ABSENT);
    begin_indic();
    expect("Indic", sengadlit_preprocess_text(world.plan, NULL, world.buffer, &asked), SENGADLIT_DONE);
    check("Indic asks for vowel constraints", asked == 1);
    begin_thai();
    expect("Thai", sengadlit_preprocess_text(world.plan, &world.font, world.buffer, &asked), SENGADLIT_DONE);
    check("Thai doesn't", asked == 0);
}

/* Both, with the same argument wrong. */
static void expect_no_pair(const char *what, const sengadlit_plan_t *plan, const sengadlit_tables_t *tables, uint32_t a,
                           uint32_t *to, sengadlit_argument_t argument)
{
    sengadlit_error_t error = {SENGADLIT_DONE, SENGADLIT_ARGUMENT_NONE, 0};
    uint32_t other = UNTOUCHED;

    expect(what, sengadlit_compose(plan, tables, a, 0x300, to, &error), SENGADLIT_ARGUMENT);
    expect_error(what, error, SENGADLIT_ARGUMENT, argument, 0);
    error.status = SENGADLIT_DONE;
    expect(what, sengadlit_decompose(plan, tables, a, &other, to, &error), SENGADLIT_ARGUMENT);
    expect_error(what, error, SENGADLIT_ARGUMENT, argument, 0);
    check(what, other == UNTOUCHED);
}

static void pairs_of_wrong_arguments(void)
{
    uint32_t to = UNTOUCHED;

    begin_khmer();
    expect_no_pair("no plan", NULL, &world.tables, 0x41, &to, SENGADLIT_ARGUMENT_PLAN);
    world.tables.funcs = NULL;
    expect_no_pair("tables without functions", world.plan, &world.tables, 0x41, &to, SENGADLIT_ARGUMENT_TABLES);
    begin_khmer();
    expect_no_pair("nowhere", world.plan, &world.tables, 0x41, NULL, SENGADLIT_ARGUMENT_RESULT);
    expect_no_pair("a surrogate", world.plan, &world.tables, 0xD800, &to, SENGADLIT_ARGUMENT_GLYPH_ID);
    check("nothing is written", to == UNTOUCHED);
}

/* ALEF and PATAH are one character where GPOS doesn't place marks. */
static void compositions_of_hebrew(void)
{
    for (int has_gpos_mark = 0; has_gpos_mark < 2; has_gpos_mark++) {
        const sengadlit_plan_input_t input = {.size = sizeof input, .script = HEBR, .has_gpos_mark = has_gpos_mark};
        uint32_t ab = UNTOUCHED;

        begin_hebrew();
        sengadlit_plan_destroy(world.plan);
        world.plan = sengadlit_plan_create(SENGADLIT_SHAPER_HEBREW, &input, NULL);
        expect("a pair of Hebrew", sengadlit_compose(world.plan, &world.tables, 0x05D0, 0x05B7, &ab, NULL),
               has_gpos_mark ? SENGADLIT_NOT_FOUND : SENGADLIT_DONE);
        check("the pair", ab == (has_gpos_mark ? UNTOUCHED : 0xFB2E));
    }
}

static void compositions(void)
{
    uint32_t ab = UNTOUCHED;

    begin_hebrew();
    expect("a pair nowhere", sengadlit_compose(world.plan, &world.tables, 0x41, 0x300, NULL, NULL), SENGADLIT_ARGUMENT);
    expect("a surrogate first", sengadlit_compose(world.plan, &world.tables, 0xDFFF, 0x300, &ab, NULL), SENGADLIT_ARGUMENT);
    expect("a surrogate second", sengadlit_compose(world.plan, &world.tables, 0x41, 0xD800, &ab, NULL), SENGADLIT_ARGUMENT);
    expect("beyond Unicode", sengadlit_compose(world.plan, &world.tables, 0x41, 0x110000, &ab, NULL), SENGADLIT_ARGUMENT);
    expect("no pair", sengadlit_compose(world.plan, &world.tables, 0x41, 0x301, &ab, NULL), SENGADLIT_NOT_FOUND);
    begin_khmer();
    world.tables_funcs.general_category = NULL;
    expect("no categories", sengadlit_compose(world.plan, &world.tables, 0x41, 0x300, &ab, NULL), SENGADLIT_ARGUMENT);
    begin_khmer();
    world.tables_funcs.compose = NULL;
    expect("no pairs", sengadlit_compose(world.plan, &world.tables, 0x41, 0x300, &ab, NULL), SENGADLIT_ARGUMENT);
    begin_thai();
    expect("no hook", sengadlit_compose(world.plan, NULL, 0x41, 0x300, &ab, NULL), SENGADLIT_ABSENT);
    expect("a surrogate and no hook", sengadlit_compose(world.plan, NULL, 0xD800, 0x300, &ab, NULL), SENGADLIT_ARGUMENT);
    check("nothing is written", ab == UNTOUCHED);
    begin_indic();
    expect("a pair", sengadlit_compose(world.plan, &world.tables, 0x41, 0x300, &ab, NULL), SENGADLIT_DONE);
    check("the pair", ab == 0xC0);
}

static void decompositions(void)
{
    uint32_t a = UNTOUCHED, b = UNTOUCHED;

    begin_khmer();
    expect("parts nowhere", sengadlit_decompose(world.plan, &world.tables, 0xC0, NULL, &b, NULL), SENGADLIT_ARGUMENT);
    expect("a part nowhere", sengadlit_decompose(world.plan, &world.tables, 0xC0, &a, NULL, NULL), SENGADLIT_ARGUMENT);
    expect("a surrogate", sengadlit_decompose(world.plan, &world.tables, 0xD800, &a, &b, NULL), SENGADLIT_ARGUMENT);
    expect("no parts", sengadlit_decompose(world.plan, &world.tables, 0xC1, &a, &b, NULL), SENGADLIT_NOT_FOUND);
    world.tables_funcs.decompose = NULL;
    expect("no function", sengadlit_decompose(world.plan, &world.tables, 0xC0, &a, &b, NULL), SENGADLIT_ARGUMENT);
    begin_arabic();
    expect("no hook", sengadlit_decompose(world.plan, NULL, 0xC0, &a, &b, NULL), SENGADLIT_ABSENT);
    check("nothing is written", a == UNTOUCHED && b == UNTOUCHED);
    begin_indic();
    expect("parts", sengadlit_decompose(world.plan, &world.tables, 0xC0, &a, &b, NULL), SENGADLIT_DONE);
    check("the parts", a == 0x41 && b == 0x300);
}

static void places_that_are_none(void)
{
    begin_world(SENGADLIT_SHAPER_ARABIC, ARAB, 0x064B, 40);
    REFUSES("33 marks of Arabic", marks(0, 33), RANGE, 0);
    expect("32 marks of Arabic", marks(8, 40), SENGADLIT_DONE);
    REFUSES("the end before the start", marks(2, 1), RANGE, 0);
    REFUSES("far beyond", marks(UINT32_MAX, UINT32_MAX), RANGE, 0);
    begin_world(SENGADLIT_SHAPER_HEBREW, HEBR, 0x05B4, 40);
    expect("40 marks of Hebrew", marks(0, 40), SENGADLIT_DONE);
    REFUSES("beyond the end", marks(40, 41), RANGE, 0);
    expect("none at the end", marks(40, 40), SENGADLIT_DONE);
    begin_khmer();
    REFUSES("no such places of an absent hook", marks(3, 4), RANGE, 0);
    expect("an absent hook", marks(0, 3), SENGADLIT_ABSENT);
}

static void masks_refuse_tables(const char *what)
{
    REFUSES(what, masks(), TABLES, 0);
    expect("Unicode's tables lack nothing", sengadlit_setup_masks(world.plan, NULL, world.buffer), SENGADLIT_DONE);
}

static void tables_that_are_none(void)
{
    begin_arabic();
    world.tables_funcs.joining_type = NULL;
    masks_refuse_tables("Arabic without joining types");
    begin_arabic();
    world.tables_funcs.general_category = NULL;
    masks_refuse_tables("Arabic without categories");
    begin_mongolian();
    world.tables_funcs.joining_type = NULL;
    masks_refuse_tables("Mongolian without joining types");
    begin_mongolian();
    world.tables_funcs.use_category = NULL;
    masks_refuse_tables("Mongolian without categories");
    begin_khmer();
    world.tables_funcs.indic_categories = NULL;
    masks_refuse_tables("Khmer without categories");
    begin_indic();
    world.tables.funcs = NULL;
    masks_refuse_tables("Indic without functions");
    begin_myanmar();
    world.tables_funcs.indic_categories = NULL;
    masks_refuse_tables("Myanmar without categories");
    begin_hangul();
    expect("Hangul asks no tables", sengadlit_setup_masks(world.plan, NULL, world.buffer), SENGADLIT_DONE);
    begin_hebrew();
    expect("Hebrew has no masks", sengadlit_setup_masks(world.plan, NULL, world.buffer), SENGADLIT_ABSENT);
}

static void letters_that_are_none(void)
{
    begin_arabic();
    glyphs()[1].glyph_id = 0xD800;
    glyphs()[2].glyph_id = 0x110000;
    REFUSES("a letter that is a surrogate", masks(), GLYPH_ID, 1);
    begin_mongolian();
    glyphs()[2].glyph_id = 0x110000;
    REFUSES("a letter beyond Unicode", masks(), GLYPH_ID, 2);
    begin_world(SENGADLIT_SHAPER_UNIVERSAL, SENGADLIT_TAG('T', 'i', 'b', 't'), 0xD800, 3);
    expect("letters that don't join may be any", masks(), SENGADLIT_DONE);
}

/* ---- Pauses ---- */

/* A pause, on one syllable of the text. */
static sengadlit_status_t run_on_syllable(unsigned int pause)
{
    static const sengadlit_span_t whole = {3, 0};

    return sengadlit_run_pause(world.plan, (sengadlit_pause_t)pause, &world.font, &whole, 1, world.buffer, NULL);
}

static void pauses_that_are_none(void)
{
    begin_khmer();
    REFUSES("no pause", run(NO_PAUSE), PAUSE, 0);
    REFUSES("the pause that does nothing", run(SENGADLIT_PAUSE_NONE), PAUSE, 0);
    REFUSES("no pause by far", run(0x100), PAUSE, 0);
    for (unsigned int i = 0; i < NO_SHAPER * NO_PAUSE; i++) {
        const unsigned int shaper = i / NO_PAUSE, pause = i % NO_PAUSE;
        const sengadlit_pause_t number = (sengadlit_pause_t)pause;

        begin_world((sengadlit_shaper_t)shaper, ARAB, 0x1780, 3);
        if (pauses_of[shaper] & 1u << pause) {
            expect("a pause of the shaper", run_on_syllable(pause), SENGADLIT_DONE);
            continue;
        }
        REFUSES("a pause of another shaper", run_on_syllable(pause), PAUSE, 0);
        REFUSES("syllables that it finds", sengadlit_setup_syllables_found(world.plan, number, world.buffer), PAUSE, 0);
        REFUSES("syllables that are written", sengadlit_setup_syllables_written(world.plan, number, world.buffer), PAUSE, 0);
    }
}

static void pause_refuses_font(const char *what, sengadlit_pause_t pause)
{
    REFUSES(what, run(pause), FONT, 0);
    REFUSES(what, sengadlit_run_pause(world.plan, pause, NULL, NULL, 0, world.buffer, NULL), FONT, 0);
}

/* A plan of Indic whose features have no lookup. */
static void plan_without_lookups(void)
{
    static const sengadlit_feature_t rphf = {SENGADLIT_TAG('r', 'p', 'h', 'f'), 8, 0};
    static const sengadlit_stage_t none = {0, 0};
    sengadlit_plan_input_t input = SENGADLIT_INIT(sengadlit_plan_input_t);

    input.script = DEVA;
    input.features = &rphf;
    input.features_length = 1;
    input.stages = &none;
    input.stages_length = 1;
    sengadlit_plan_destroy(world.plan);
    world.plan = sengadlit_plan_create(SENGADLIT_SHAPER_INDIC, &input, NULL);
}

static void pauses_without_fonts(void)
{
    begin_khmer();
    world.font_funcs.nominal_glyph = NULL;
    pause_refuses_font("Khmer without glyphs", SENGADLIT_PAUSE_REORDER_KHMER);
    begin_myanmar();
    world.font_funcs.nominal_glyph = NULL;
    pause_refuses_font("Myanmar without glyphs", SENGADLIT_PAUSE_REORDER_MYANMAR);
    begin_mongolian();
    world.font_funcs.nominal_glyph = NULL;
    pause_refuses_font("the universal one without glyphs", SENGADLIT_PAUSE_REORDER_USE);
    begin_indic();
    world.font_funcs.nominal_glyph = NULL;
    pause_refuses_font("Indic without glyphs", SENGADLIT_PAUSE_INITIAL_REORDERING);
    pause_refuses_font("final Indic without glyphs", SENGADLIT_PAUSE_FINAL_REORDERING);
    begin_indic();
    world.font_funcs.would_substitute = NULL;
    pause_refuses_font("Indic without lookups", SENGADLIT_PAUSE_INITIAL_REORDERING);
    expect("final Indic asks for no lookup", run(SENGADLIT_PAUSE_FINAL_REORDERING), SENGADLIT_DONE);
    plan_without_lookups();
    expect("nothing to ask the font about", run(SENGADLIT_PAUSE_INITIAL_REORDERING), SENGADLIT_DONE);
    world.font_funcs.nominal_glyph = NULL;
    pause_refuses_font("without glyphs still", SENGADLIT_PAUSE_INITIAL_REORDERING);
    begin_indic();
    glyphs()[2].glyph_id = 0x10000;
    REFUSES("a glyph that is no font's", run(SENGADLIT_PAUSE_INITIAL_REORDERING), GLYPH_ID, 2);
}

static void spans_that_are_none(void)
{
    const sengadlit_pause_t pause = SENGADLIT_PAUSE_SETUP_SYLLABLES_KHMER;
    sengadlit_span_t spans[3] = {{1, 0}, {1, 0}, {1, 0}};

    begin_khmer();
    FAILS("no spans", setup(pause, NULL, 0), SENGADLIT_SPANS_DONT_COVER, SENGADLIT_ARGUMENT_NONE, 0);
    FAILS("too few spans", setup(pause, spans, 2), SENGADLIT_SPANS_DONT_COVER, SENGADLIT_ARGUMENT_NONE, 0);
    REFUSES("spans nowhere", setup(pause, NULL, 3), SPANS, 0);
    spans[2].kind = 16;
    REFUSES("a span of kind 16", setup(pause, spans, 3), SPANS, 2);
    spans[2].kind = 0;
    spans[0].length = 2;
    FAILS("too long spans", setup(pause, spans, 3), SENGADLIT_SPANS_DONT_COVER, SENGADLIT_ARGUMENT_NONE, 0);
    spans[1].length = 0;
    FAILS("an empty span", setup(pause, spans, 3), SENGADLIT_SPANS_DONT_COVER, SENGADLIT_ARGUMENT_NONE, 0);
    spans[0].length = SIZE_MAX;
    spans[1].length = 3;
    FAILS("spans beyond any length", setup(pause, spans, 3), SENGADLIT_SPANS_DONT_COVER, SENGADLIT_ARGUMENT_NONE, 0);
    check("no spans of an empty text", sengadlit_buffer_set_length(world.buffer, 0) != NULL);
    expect("no spans of an empty text", setup(pause, NULL, 0), SENGADLIT_DONE);
}

static void syllables_that_are_none(void)
{
    static const sengadlit_span_t spans[3] = {{1, 0}, {1, 1}, {1, 9}};
    sengadlit_bool_t circles = UNTOUCHED;

    begin_khmer();
    expect("a span of kind 9", setup(SENGADLIT_PAUSE_SETUP_SYLLABLES_KHMER, spans, 3), SENGADLIT_DONE);
    check("a broken syllable", sengadlit_buffer_get_state(world.buffer) == SENGADLIT_BUFFER_STATE_HAS_BROKEN_SYLLABLE);
    FAILS("a syllable of kind 9",
          sengadlit_run_pause(world.plan, SENGADLIT_PAUSE_REORDER_KHMER, &world.font, NULL, 0, world.buffer, &circles),
          SENGADLIT_UNKNOWN_SYLLABLE, SENGADLIT_ARGUMENT_NONE, 2);
    check("circles are untouched", circles == UNTOUCHED);
    glyphs()[2].syllable = 0;
    world.answers.glyph_of_circle = 7;
    limit_length(3);
    FAILS("a circle without room", run(SENGADLIT_PAUSE_REORDER_KHMER), SENGADLIT_TOO_LONG, SENGADLIT_ARGUMENT_NONE, 0);
    limit_length(4);
    expect("a circle with room",
           sengadlit_run_pause(world.plan, SENGADLIT_PAUSE_REORDER_KHMER, &world.font, NULL, 0, world.buffer, &circles),
           SENGADLIT_DONE);
    check("the circle", circles == 1 && glyphs()[1].glyph_id == 7 && glyphs()[1].glyph_props == 0);
}

/* ---- Stretched marks ---- */

static void begin_stretched(void)
{
    begin_word_and_tiles();
    expect("tiles are recorded", run(SENGADLIT_PAUSE_RECORD_STCH), SENGADLIT_DONE);
    check("they stretch", sengadlit_buffer_get_state(world.buffer) == SENGADLIT_BUFFER_STATE_HAS_STCH);
    positions()[0].x_advance = 1000;
}

static void stretches_that_are_none(void)
{
    begin_word_and_tiles();
    REFUSES("no positions", postprocess(), POSITIONS, 0);
    begin_stretched();
    REFUSES("no font", sengadlit_postprocess_glyphs(world.plan, NULL, world.buffer), FONT, 0);
    glyphs()[2].glyph_id = 0x10000;
    REFUSES("a glyph that is no font's", postprocess(), GLYPH_ID, 2);
    begin_stretched();
    limit_length(4);
    FAILS("copies beyond the greatest length", postprocess(), SENGADLIT_TOO_LONG, SENGADLIT_ARGUMENT_NONE, 0);
    limit_length(ROOM);
    expect("copies", postprocess(), SENGADLIT_DONE);
    begin_stretched();
    for (unsigned int i = 1; i < 3; i++)
        glyphs()[i].auxiliary = 8;
    world.answers.advance = INT32_MAX;
    FAILS("tiles wider than 32 bits", postprocess(), SENGADLIT_STRETCH_OVERFLOW, SENGADLIT_ARGUMENT_NONE, 0);
    world.font_funcs.glyph_h_advance = NULL;
    REFUSES("no advances", postprocess(), FONT, 0);
    begin_khmer();
    (void)positions();
    expect("an absent hook", sengadlit_postprocess_glyphs(world.plan, NULL, world.buffer), SENGADLIT_ABSENT);
}

int main(void)
{
    names_and_versions();
    numbers_of_harfbuzz();
    shapers_that_are_none();
    constants_of_shapers();
    features_without_arguments();
    hooks_of_all();
    plans_of_missing_arrays();
    plans_of_wrong_arrays();
    plans_with_references();
    masks_of_plans();
    buffers_that_are_none();
    lengths_and_positions();
    properties_that_are_none();
    properties_that_are_zero();
    contexts_that_are_none();
    buffers_made_empty();
    texts_after_a_broken_one();
    texts_that_are_none();
    plans_that_are_none();
    texts_that_are_long();
    fonts_that_are_not_called();
    fonts_that_are_none();
    pairs_of_wrong_arguments();
    compositions();
    compositions_of_hebrew();
    decompositions();
    places_that_are_none();
    tables_that_are_none();
    letters_that_are_none();
    pauses_that_are_none();
    pauses_without_fonts();
    spans_that_are_none();
    syllables_that_are_none();
    stretches_that_are_none();
    end_world();
    printf("%u passed, %u failed\n", passed, failed);
    return failed == 0 ? EXIT_SUCCESS : EXIT_FAILURE;
}
