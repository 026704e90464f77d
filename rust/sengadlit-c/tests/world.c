#include "world.h"

#include <stdio.h>
#include <stdlib.h>
#include <string.h>

struct world world;

static struct {
    unsigned int length, state;
    sengadlit_glyph_info_t glyphs[ROOM];
    sengadlit_glyph_position_t positions[ROOM];
} kept;

/* ---- Callbacks ---- */

static struct answers *asked(void *user_data)
{
    struct answers *answers = user_data;

    answers->questions++;
    return answers;
}

static sengadlit_bool_t nominal_glyph(void *user_data, uint32_t unicode, uint32_t *glyph)
{
    *glyph = unicode == 0x25CC ? asked(user_data)->glyph_of_circle : unicode & 0xFFFF;
    return *glyph != 0;
}

static int32_t glyph_h_advance(void *user_data, uint32_t glyph)
{
    (void)glyph;
    return asked(user_data)->advance;
}

static sengadlit_bool_t would_substitute(void *user_data, const uint16_t *lookups, unsigned int lookups_length,
                                         const uint32_t *numbers, unsigned int numbers_length, sengadlit_bool_t zero_context)
{
    (void)lookups, (void)lookups_length, (void)numbers, (void)numbers_length, (void)zero_context;
    return asked(user_data)->would;
}

static sengadlit_bool_t has_feature(void *user_data, sengadlit_tag_t tag)
{
    (void)tag;
    return asked(user_data)->has_feature;
}

static uint8_t joining_type(void *user_data, uint32_t unicode)
{
    (void)unicode;
    return asked(user_data)->joining_type;
}

static uint8_t general_category(void *user_data, uint32_t unicode)
{
    (void)unicode;
    return asked(user_data)->general_category;
}

static uint16_t indic_categories(void *user_data, uint32_t unicode)
{
    (void)unicode;
    return asked(user_data)->indic_categories;
}

static uint8_t use_category(void *user_data, uint32_t unicode)
{
    (void)unicode;
    return asked(user_data)->use_category;
}

/* A and GRAVE are À, and nothing else composes. */
static sengadlit_bool_t compose(void *user_data, uint32_t a, uint32_t b, uint32_t *ab)
{
    (void)asked(user_data);
    *ab = 0xC0;
    return a == 0x41 && b == 0x300;
}

static sengadlit_bool_t decompose(void *user_data, uint32_t ab, uint32_t *a, uint32_t *b)
{
    (void)asked(user_data);
    *a = 0x41;
    *b = 0x300;
    return ab == 0xC0;
}

/* ---- The world ---- */

static int is_there(const void *thing, const char *call)
{
    if (thing == NULL)
        fprintf(stderr, "refused: %s\n", call);
    return thing != NULL;
}

static sengadlit_plan_t *create_plan(sengadlit_shaper_t shaper, sengadlit_tag_t script)
{
    static const sengadlit_feature_t features[] = {
        {SENGADLIT_TAG('s', 't', 'c', 'h'), 0x08, 0},
        {SENGADLIT_TAG('i', 's', 'o', 'l'), 0x10, 1},
        {SENGADLIT_TAG('r', 'p', 'h', 'f'), 0x20, 2},
        {SENGADLIT_TAG('p', 'r', 'e', 'f'), 0x40, 3},
    };
    static const sengadlit_stage_t stages[] = {{0, 1}, {1, 2}, {2, 3}, {3, 4}};
    static const uint16_t lookups[] = {7, 8, 9, 10};
    sengadlit_plan_input_t input = SENGADLIT_INIT(sengadlit_plan_input_t);

    input.script = script;
    input.features = features;
    input.features_length = 4;
    input.stages = stages;
    input.stages_length = 4;
    input.lookups = lookups;
    input.lookups_length = 4;
    return sengadlit_plan_create(shaper, &input, NULL);
}

static void set_answers(void)
{
    static const sengadlit_font_funcs_t font_funcs = {sizeof font_funcs, nominal_glyph, glyph_h_advance, would_substitute,
                                                      has_feature};
    static const sengadlit_tables_funcs_t tables_funcs = {sizeof tables_funcs, joining_type, general_category, indic_categories,
                                                          use_category, compose,          decompose};

    world.font_funcs = font_funcs;
    world.tables_funcs = tables_funcs;
    world.font.funcs = &world.font_funcs;
    world.font.user_data = &world.answers;
    world.tables.funcs = &world.tables_funcs;
    world.tables.user_data = &world.answers;
    world.answers.advance = 100;
    world.answers.general_category = SENGADLIT_UNICODE_GENERAL_CATEGORY_OTHER_LETTER;
    world.answers.joining_type = SENGADLIT_JOINING_TYPE_D;
    world.answers.indic_categories = 1 | 14 << 8;
    world.answers.use_category = 1;
}

/* A plan, a buffer and its glyphs; whether memory was there for them. */
static int create_objects(sengadlit_shaper_t shaper, sengadlit_tag_t script, unsigned int length)
{
    world.plan = create_plan(shaper, script);
    world.buffer = sengadlit_buffer_create();
    return is_there(world.plan, "sengadlit_plan_create") && is_there(world.buffer, "sengadlit_buffer_create") &&
           is_there(sengadlit_buffer_set_length(world.buffer, length), "sengadlit_buffer_set_length");
}

/* The array that the buffer is lent. */
static sengadlit_glyph_info_t *array;

#ifdef LENT
static sengadlit_glyph_info_t *grow(void *user_data, sengadlit_glyph_info_t *old, unsigned int wanted, unsigned int *allocated)
{
    sengadlit_glyph_info_t *moved = malloc(wanted * sizeof *moved);

    if (user_data != &world || moved == NULL)
        exit(EXIT_FAILURE);
    if (old != array && *allocated != 0)
        exit(EXIT_FAILURE);
    if (world.at_growth)
        world.at_growth();
    if (*allocated != 0)
        memcpy(moved, old, *allocated * sizeof *moved);
    free(array);
    *allocated = wanted;
    return array = moved;
}

static void lend_text(unsigned int length)
{
    array = length == 0 ? NULL : calloc(length, sizeof *array);
    if (sengadlit_buffer_set_grow_func(world.buffer, grow, &world) != SENGADLIT_DONE ||
        sengadlit_buffer_lend(world.buffer, array, length, length) != SENGADLIT_DONE)
        exit(EXIT_FAILURE);
}
#endif

void begin_world(sengadlit_shaper_t shaper, sengadlit_tag_t script, uint32_t codepoint, unsigned int length)
{
    end_world();
    if (!create_objects(shaper, script, length)) { /* Of the tests one refuses memory, once. */
        end_world();
        if (!create_objects(shaper, script, length))
            exit(EXIT_FAILURE);
    }
#ifdef LENT
    lend_text(length);
#endif
    set_answers();
    world.properties.size = sizeof world.properties;
    world.properties.script = script;
    world.properties.direction = SENGADLIT_DIRECTION_LTR;
    limit_length(ROOM);
    for (unsigned int i = 0; i < length; i++) {
        glyphs()[i].glyph_id = codepoint;
        glyphs()[i].cluster = i;
        glyphs()[i].unicode_props = SENGADLIT_UNICODE_GENERAL_CATEGORY_OTHER_LETTER;
    }
}

void begin_word_and_tiles(void)
{
    begin_world(SENGADLIT_SHAPER_ARABIC, SENGADLIT_TAG('S', 'y', 'r', 'c'), 1, 3);
    world.properties.direction = SENGADLIT_DIRECTION_RTL;
    limit_length(ROOM);
    for (unsigned int i = 1; i < 3; i++) {
        glyphs()[i].glyph_id = i + 1;
        glyphs()[i].glyph_props = SENGADLIT_GLYPH_PROPS_MULTIPLIED;
        glyphs()[i].lig_props = (uint8_t)(i + 1);
    }
}

void end_world(void)
{
    sengadlit_buffer_destroy(world.buffer);
    sengadlit_plan_destroy(world.plan);
    free(array);
    array = NULL;
    memset(&world, 0, sizeof world);
}

sengadlit_glyph_info_t *glyphs(void)
{
    return sengadlit_buffer_get_glyph_infos(world.buffer, NULL);
}

sengadlit_glyph_position_t *positions(void)
{
    sengadlit_glyph_position_t *found = sengadlit_buffer_get_glyph_positions(world.buffer, NULL);

    if (!is_there(found, "sengadlit_buffer_get_glyph_positions"))
        found = sengadlit_buffer_get_glyph_positions(world.buffer, NULL);
    world.has_positions = 1;
    return found;
}

void limit_length(uint32_t max_length)
{
    world.properties.max_length = max_length;
    if (sengadlit_buffer_set_properties(world.buffer, &world.properties) != SENGADLIT_DONE)
        exit(EXIT_FAILURE);
}

/* ---- What stands in the buffer ---- */

void keep_text(void)
{
    const sengadlit_glyph_info_t *now = sengadlit_buffer_get_glyph_infos(world.buffer, &kept.length);

    kept.state = sengadlit_buffer_get_state(world.buffer);
    memcpy(kept.glyphs, now, kept.length * sizeof *now);
    if (world.has_positions)
        memcpy(kept.positions, positions(), kept.length * sizeof *kept.positions);
}

int text_is_changed(void)
{
    unsigned int length;
    const sengadlit_glyph_info_t *now = sengadlit_buffer_get_glyph_infos(world.buffer, &length);

    if (length != kept.length || sengadlit_buffer_get_state(world.buffer) != kept.state)
        return 1;
    if (memcmp(now, kept.glyphs, length * sizeof *now) != 0)
        return 1;
    return world.has_positions && memcmp(kept.positions, positions(), length * sizeof *kept.positions) != 0;
}
