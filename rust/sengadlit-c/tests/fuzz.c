/* Bytes that drive every function of the header, for libFuzzer, or with -DRANDOM for bytes at random. The font and the tables
   answer anything, and where the bytes say so another thing each time. The program aborts where a call breaks what the header
   says: a failed call that changed the text, an internal error that left some, a status that is none, and where the answers
   don't change, an internal error at all. */
#include <sengadlit.h>

#include <stdio.h>
#include <stdlib.h>
#include <string.h>

enum { MOST = 24, CALLS = 24, ROOM = 512 };

/* ---- The input ---- */

static const uint8_t *bytes;
static size_t left;

static uint8_t next(void)
{
    if (left == 0) return 0;
    left--;
    return *bytes++;
}

static uint32_t next_word(void)
{
    uint32_t word = next();

    word = word << 8 | next();
    word = word << 8 | next();
    return word << 8 | next();
}

/* ---- Callbacks: the result depends on the arguments, or also on how many calls there were ---- */

static uint32_t salt, asked;
static int changes;

static uint32_t answer(uint32_t a, uint32_t b)
{
    uint32_t x = salt ^ a * 0x9E3779B1u ^ b * 0x85EBCA77u;

    if (changes) x += ++asked * 0xC2B2AE3Du;
    x ^= x >> 15;
    x *= 0x2C1B3C6Du;
    return x ^ x >> 13;
}

static sengadlit_bool_t nominal_glyph(void *user_data, uint32_t unicode, uint32_t *glyph)
{
    uint32_t a = answer(unicode, 1);

    (void)user_data;
    *glyph = a % 16 == 0 ? a : a & 0xFFFF;
    return a % 5 != 0;
}

static int32_t glyph_h_advance(void *user_data, uint32_t glyph)
{
    uint32_t a = answer(glyph, 2);

    (void)user_data;
    return a % 32 == 0 ? (int32_t)a : (int32_t)(a % 1024);
}

static sengadlit_bool_t would_substitute(void *user_data, const uint16_t *lookups, unsigned int lookups_length,
                                         const uint32_t *glyphs, unsigned int glyphs_length, sengadlit_bool_t zero_context)
{
    uint32_t all = (uint32_t)zero_context;

    (void)user_data;
    if (lookups_length == 0 || glyphs_length == 0 || glyphs_length > 3) abort();
    for (unsigned int i = 0; i < lookups_length; i++) all = all * 31 + lookups[i];
    for (unsigned int i = 0; i < glyphs_length; i++) all = all * 31 + glyphs[i];
    return answer(all, 3) % 3 == 0 ? 2 : 0;
}

static sengadlit_bool_t has_feature(void *user_data, sengadlit_tag_t tag)
{
    (void)user_data;
    return (sengadlit_bool_t)(answer(tag, 4) & 1);
}

static uint8_t joining_type(void *user_data, uint32_t u) { (void)user_data; return (uint8_t)(answer(u, 5) % 12); }
static uint8_t general_category(void *user_data, uint32_t u) { (void)user_data; return (uint8_t)(answer(u, 6) % 36); }
static uint16_t indic_categories(void *user_data, uint32_t u) { (void)user_data; return (uint16_t)(answer(u, 7) & 0x1F3F); }
static uint8_t use_category(void *user_data, uint32_t u) { (void)user_data; return (uint8_t)(answer(u, 8) & 0x3F); }

static sengadlit_bool_t compose(void *user_data, uint32_t a, uint32_t b, uint32_t *ab)
{
    (void)user_data;
    *ab = answer(a, b) & 0x1FFFFF;
    return (sengadlit_bool_t)(*ab & 1);
}

static sengadlit_bool_t decompose(void *user_data, uint32_t ab, uint32_t *a, uint32_t *b)
{
    (void)user_data;
    *a = answer(ab, 9) & 0x1FFFFF;
    *b = answer(ab, 10) & 0xFFFF;
    return (sengadlit_bool_t)(*b & 1);
}

static void add_feature(void *user_data, sengadlit_tag_t tag, uint32_t flags, uint32_t value)
{
    *(unsigned int *)user_data += (tag != 0) + flags + value;
}

static void add_gsub_pause(void *user_data, sengadlit_pause_t pause) { *(unsigned int *)user_data += pause; }

static void destroy(void *user_data) { ++*(unsigned int *)user_data; }

/* Now and then a function or the table is missing. */
static sengadlit_font_funcs_t font_funcs;
static sengadlit_tables_funcs_t tables_funcs;

static void choose_functions(void)
{
    static const sengadlit_font_funcs_t font = {sizeof font, nominal_glyph, glyph_h_advance, would_substitute, has_feature};
    static const sengadlit_tables_funcs_t tables = {sizeof tables, joining_type, general_category, indic_categories,
                                                    use_category, compose,          decompose};
    uint8_t missing = next();

    font_funcs = font;
    tables_funcs = tables;
    if (missing == 1) font_funcs.nominal_glyph = NULL;
    if (missing == 2) font_funcs.glyph_h_advance = NULL;
    if (missing == 3) font_funcs.would_substitute = NULL;
    if (missing == 4) tables_funcs.joining_type = NULL;
    if (missing == 5) tables_funcs.indic_categories = NULL;
    if (missing == 6) tables_funcs.general_category = NULL;
}

/* ---- Plans ---- */

static const uint32_t scripts[] = {
    SENGADLIT_TAG('A', 'r', 'a', 'b'), SENGADLIT_TAG('S', 'y', 'r', 'c'), SENGADLIT_TAG('H', 'a', 'n', 'g'),
    SENGADLIT_TAG('H', 'e', 'b', 'r'), SENGADLIT_TAG('D', 'e', 'v', 'a'), SENGADLIT_TAG('M', 'l', 'y', 'm'),
    SENGADLIT_TAG('T', 'a', 'm', 'l'), SENGADLIT_TAG('K', 'h', 'm', 'r'), SENGADLIT_TAG('M', 'y', 'm', 'r'),
    SENGADLIT_TAG('T', 'h', 'a', 'i'), SENGADLIT_TAG('L', 'a', 'o', 'o'), SENGADLIT_TAG('M', 'o', 'n', 'g'),
    SENGADLIT_TAG('J', 'a', 'v', 'a'), SENGADLIT_TAG('K', 'n', 'd', 'a'), SENGADLIT_TAG('B', 'e', 'n', 'g'), 0};
static const uint32_t firsts[] = {0x620, 0x710, 0x1100, 0x5B0, 0x900, 0xD00, 0xB80, 0x1780,
                                  0x1000, 0xE30, 0xEB0, 0x1820, 0xA980, 0xC80, 0x980, 0};

static unsigned int place; /* The script's, in the lists. */
static unsigned int shaper_number;

static sengadlit_plan_t *make_plan(unsigned int *destroyed)
{
    static const char tags[][5] = {"isol", "fina", "medi", "init", "stch", "rphf", "pref", "blwf", "pstf", "vatu",
                                   "ljmo", "vjmo", "tjmo", "half", "abvf", "cfar", "fin2", "med2", "blws", "psts"};
    sengadlit_feature_t features[8];
    sengadlit_stage_t stages[4];
    uint16_t lookups[4];
    sengadlit_plan_input_t input = SENGADLIT_INIT(sengadlit_plan_input_t);
    sengadlit_error_t error;
    uint8_t settings = next();

    for (unsigned int i = 0; i < 8; i++) {
        const char *tag = tags[next() % 20];
        features[i].tag = SENGADLIT_TAG(tag[0], tag[1], tag[2], tag[3]);
        features[i].mask = (uint32_t)next() << 3 | (next() == 1);
        features[i].stage = next() % 5;
    }
    for (unsigned int i = 0; i < 4; i++) {
        lookups[i] = next();
        stages[i].start = i;
        stages[i].end = next() == 1 ? next() : i + 1;
    }
    shaper_number = next() % 10;
    place = next() % 16;
    input.script = scripts[place];
    input.chosen_script = settings & 1 ? SENGADLIT_TAG('d', 'e', 'v', settings & 2 ? '2' : 'a') : 0;
    input.found_script = settings & 4;
    input.has_gpos_mark = settings & 8;
    input.centres_stretch = settings & 16;
    input.sound_breaks = settings & 64;
    input.searches_medials = settings & 128;
    input.new_spec_zero_context = settings & 16;
    input.global_mask = next();
    input.features = features;
    input.features_length = 8;
    input.stages = settings & 32 && next() == 1 ? NULL : stages;
    input.stages_length = 4;
    input.lookups = lookups;
    input.lookups_length = 4;
    input.user_data = destroyed;
    input.destroy = destroy;
    *destroyed = 0;
    sengadlit_plan_t *plan = sengadlit_plan_create((sengadlit_shaper_t)shaper_number, &input, &error);
    if (!plan && (error.status != SENGADLIT_ARGUMENT || *destroyed != 1)) abort();
    return plan;
}

/* ---- Texts ---- */

/* The array that is lent, if any, to a buffer that makes it grow, or keeps what it has no room for. */
static sengadlit_glyph_info_t *array;
static int is_lent, grows;

static void write_glyph(sengadlit_glyph_info_t *glyph, uint32_t cluster)
{
    uint8_t kind = next();

    glyph->glyph_id = kind < 240 ? firsts[place] + next() % 128 : kind < 250 ? next() * 257u : next_word();
    glyph->cluster = kind & 1 ? cluster : next();
    glyph->mask = kind & 2 ? 0 : next_word();
    glyph->syllable = next();
    glyph->category = kind & 4 ? next() % 64 : next();
    glyph->auxiliary = next() % 24;
    glyph->unicode_props = (uint16_t)(next() << 8 | next());
    glyph->lig_props = next();
    glyph->glyph_props = (uint16_t)(next() << 8 | next());
}

/* Part of a text whose units are anything. */
static void add_text(sengadlit_buffer_t *buffer)
{
    uint32_t wide[MOST];
    uint16_t units[MOST];
    char text[MOST];
    unsigned int start = next() % 8, before, length;
    int item = next() % (MOST - 7);
    sengadlit_status_t status;

    for (unsigned int i = 0; i < MOST; i++) {
        uint8_t byte = next();
        text[i] = (char)byte;
        units[i] = (uint16_t)(byte < 128 ? firsts[place] + byte : 0xD700u + 9u * byte);
        wide[i] = byte < 200 ? firsts[place] + byte : next_word();
    }
    (void)sengadlit_buffer_get_glyph_infos(buffer, &before);
    switch (next() % 3) {
    case 0: status = sengadlit_buffer_add_utf8(buffer, text, MOST, start, item); break;
    case 1: status = sengadlit_buffer_add_utf16(buffer, units, MOST, start, item); break;
    default: status = sengadlit_buffer_add_utf32(buffer, wide, MOST, start, item);
    }
    const sengadlit_glyph_info_t *glyphs = sengadlit_buffer_get_glyph_infos(buffer, &length);
    if (status == SENGADLIT_MEMORY && is_lent) return;
    if (status != SENGADLIT_DONE || length < before || length - before > (unsigned int)item) abort();
    for (unsigned int i = before; i < length; i++)
        if (glyphs[i].cluster < start || glyphs[i].cluster >= start + (unsigned int)item || glyphs[i].glyph_id > 0x10FFFF ||
            SENGADLIT_UNICODE_PROPS_GET_GENERAL_CATEGORY(glyphs[i].unicode_props) > 29)
            abort();
}

static void write_text(sengadlit_buffer_t *buffer)
{
    unsigned int length = next() % (MOST + 1);
    sengadlit_glyph_info_t *glyphs = sengadlit_buffer_set_length(buffer, length);

    if (!glyphs && !is_lent) abort();
    if (!glyphs) return;
    (void)sengadlit_buffer_set_content_type(buffer, SENGADLIT_BUFFER_CONTENT_TYPE_INVALID);
    for (unsigned int i = 0; i < length; i++) write_glyph(&glyphs[i], i);
    if (next() % 4 == 1) add_text(buffer);
}

static void write_settings(sengadlit_buffer_t *buffer)
{
    static const unsigned int directions[] = {4, 5, 6, 7, 0, 3, 4, 5};
    sengadlit_buffer_properties_t properties = {sizeof properties, 0, SENGADLIT_DIRECTION_RTL,
                                                SENGADLIT_BUFFER_CLUSTER_LEVEL_CHARACTERS, 0, ROOM};
    uint32_t context[6];
    uint8_t settings = next();

    if (sengadlit_buffer_set_properties(buffer, &properties) != SENGADLIT_DONE) abort();
    properties.script = scripts[place];
    properties.direction = (sengadlit_direction_t)directions[settings % 8];
    properties.cluster_level = (sengadlit_buffer_cluster_level_t)(settings >> 3 & 3);
    properties.flags = next();
    properties.max_length = settings & 32 ? next() + 1u : ROOM;
    (void)sengadlit_buffer_set_properties(buffer, &properties);
    for (unsigned int i = 0; i < 6; i++) context[i] = firsts[place] + (settings & 64 ? next_word() : next() % 64);
    (void)sengadlit_buffer_set_context(buffer, context, next() % 7, context, next() % 7);
    sengadlit_buffer_set_state(buffer, next());
}

/* ---- Calls ---- */

static const sengadlit_font_t font = {&font_funcs, NULL};
static const sengadlit_tables_t tables = {&tables_funcs, NULL};

static sengadlit_status_t run_pause(const sengadlit_plan_t *plan, sengadlit_buffer_t *buffer)
{
    sengadlit_span_t spans[MOST];
    unsigned int length, count = 0, sum = 0;
    sengadlit_bool_t circles;
    unsigned int pause = next() % 17;

    (void)sengadlit_buffer_get_glyph_infos(buffer, &length);
    while (pause < 4 && sum < length && count < MOST) {
        spans[count].kind = next() % 17;
        spans[count].length = next() % 6 + (next() != 1);
        if (spans[count].length > length - sum && next() != 1) spans[count].length = length - sum;
        sum += (unsigned int)spans[count++].length;
    }
    return sengadlit_run_pause(plan, (sengadlit_pause_t)pause, next() == 1 ? NULL : &font, spans, count, buffer, &circles);
}

/* A pause on the syllables that the library finds, by either way. */
static sengadlit_status_t run_found(const sengadlit_plan_t *plan, sengadlit_buffer_t *buffer)
{
    sengadlit_pause_t pause = (sengadlit_pause_t)(next() % 5);
    unsigned int length;

    switch (next() % 3) {
    case 0: return sengadlit_setup_syllables_found(plan, pause, buffer);
    case 1: return sengadlit_setup_syllables_written(plan, pause, buffer);
    default: break;
    }
    const sengadlit_span_t *spans = sengadlit_spans((sengadlit_shaper_t)shaper_number, buffer, &length);
    if (!spans) return sengadlit_setup_syllables_found(plan, pause, buffer);
    return sengadlit_run_pause(plan, pause, &font, spans, length, buffer, NULL);
}

/* Stops rise, and each is a glyph's cluster. */
static sengadlit_status_t stop_carets(sengadlit_buffer_t *buffer)
{
    unsigned int count, length, glyph;
    sengadlit_error_t error;
    const uint32_t *stops = sengadlit_caret_stops(buffer, (sengadlit_direction_t)(next() % 9), &count);
    const sengadlit_glyph_info_t *glyphs = sengadlit_buffer_get_glyph_infos(buffer, &length);

    sengadlit_buffer_get_error(buffer, &error);
    if (!stops) return error.status;
    for (unsigned int i = 0; i < count; i++) {
        for (glyph = 0; glyph < length && glyphs[glyph].cluster != stops[i];) glyph++;
        if (glyph == length || (i > 0 && stops[i] <= stops[i - 1])) abort();
    }
    return SENGADLIT_DONE;
}

/* What an edit leaves is no more than what stands outside of it. */
static void edit(void)
{
    sengadlit_span_t spans[2][4];
    unsigned int before = next() % 5, after = next() % 5, front = next() % 9, back = next() % 9;
    sengadlit_unaffected_t left;

    for (unsigned int i = 0; i < 8; i++) spans[i / 4][i % 4] = (sengadlit_span_t){next() % 4, next() % 3};
    if (sengadlit_affected(spans[0], before, spans[1], after, front, back, &left, NULL) != SENGADLIT_DONE) return;
    if (left.front > front || left.back > back) abort();
}

/* ---- Faces: the font of which SENGADLIT_FONT is the file's name, with some bytes spoilt; without it bytes of the input ---- */

static unsigned char font_bytes[1 << 16];
static size_t font_length;

static void read_font(void)
{
    const char *path = getenv("SENGADLIT_FONT");
    FILE *file = path && font_length == 0 ? fopen(path, "rb") : NULL;

    if (!file) return;
    font_length = fread(font_bytes, 1, sizeof font_bytes, file);
    fclose(file);
}

static void count_destroyed(void *user_data) { ++*(unsigned int *)user_data; }

static sengadlit_face_t *make_face(unsigned int *destroyed)
{
    static unsigned char spoilt[sizeof font_bytes];
    size_t length = font_length;
    sengadlit_error_t error;

    read_font();
    memcpy(spoilt, font_bytes, font_length);
    for (unsigned int i = next() % 8; i > 0 && font_length > 0; i--) spoilt[next_word() % font_length] = next();
    while (font_length == 0 && length < 64) spoilt[length++] = next();
    *destroyed = 0;
    sengadlit_face_t *face = sengadlit_face_create(spoilt, length, 0, destroyed, count_destroyed, &error);
    if (!face && (error.status != SENGADLIT_ARGUMENT || error.argument != SENGADLIT_ARGUMENT_DATA || *destroyed != 1)) abort();
    if (face && sengadlit_face_count(spoilt, length) == 0) abort();
    return face;
}

static void ask_face(const sengadlit_face_t *face)
{
    sengadlit_glyph_extents_t box;
    char name[9];
    uint32_t glyph = next_word() % 70000;

    (void)sengadlit_face_get_nominal_glyph(face, firsts[place] + next(), &glyph);
    (void)sengadlit_face_get_variation_glyph(face, firsts[place] + next(), 0xFE00 + next() % 16, &glyph);
    (void)sengadlit_face_get_glyph_h_advance(face, glyph);
    (void)sengadlit_face_get_glyph_extents(face, glyph, &box);
    if (sengadlit_face_get_glyph_name(face, glyph, name, sizeof name) && strlen(name) >= sizeof name) abort();
    if (face && sengadlit_face_get_font(face)->funcs->would_substitute((void *)(uintptr_t)face, (uint16_t[]){next()}, 1,
              &glyph, 1, 0) > 1)
        abort();
}

static sengadlit_status_t shape_by_face(sengadlit_buffer_t *buffer, const sengadlit_font_t *own)
{
    static const char *const texts[] = {"Tofi", "\u0644\u0627\u0628", "\u0915\u094D\u0937\u093F", "\u1781\u17D2\u1798\u17C2",
              "\u0E1B\u0E48\u0E33", ""};
    sengadlit_shape_options_t options = SENGADLIT_INIT(sengadlit_shape_options_t);
    unsigned int destroyed;
    uint8_t how = next();
    sengadlit_face_t *face = make_face(&destroyed);
    sengadlit_user_feature_t feature = {SENGADLIT_TAG('l', 'i', 'g', 'a'), next() % 3, next() % 8, next() % 16};

    ask_face(face);
    options.direction = (sengadlit_direction_t)(how % 9);
    options.language = next() % 4 == 0 ? "x-hbscarab-hbotabcd" : NULL;
    options.features = &feature;
    options.features_length = how >> 4 & 1;
    options.not_found_glyph = next() % 16;
    options.font = how & 32 ? own : NULL;
    options.cache = how & 64 ? sengadlit_plan_cache_create() : NULL;
    sengadlit_status_t status = how & 128 ? sengadlit_shape_buffer(face, &options, buffer)
                                          : sengadlit_shape_utf8(face, texts[next() % 6], -1, &options, buffer);
    if (status == SENGADLIT_DONE && next() % 2 == 0) {
        unsigned int start = next() % 9, old_end = start + next() % 5, new_end = start + next() % 5;
        const char *text = texts[next() % 6];
        unsigned int from = 0, to = 0;
        sengadlit_status_t again = sengadlit_reshape_utf8(face, text, -1, start, old_end, new_end, &options, buffer, &from, &to);
        if (from > to || to > strlen(text)) abort();
        if (again == SENGADLIT_INTERNAL) status = again;
    }
    if (sengadlit_plan_cache_get_length(options.cache) > 2) abort(); /* A text without a script may be edited to have one. */
    sengadlit_plan_cache_destroy(options.cache);
    sengadlit_face_destroy(face);
    if (face && destroyed != 1) abort();
    return status;
}

/* What changes a text as a whole, or tells of it. */
static sengadlit_status_t change_text(sengadlit_buffer_t *buffer)
{
    static char text[4096];
    unsigned int start = next() % 8, end = next() % 12;
    size_t length;
    sengadlit_buffer_properties_t properties = SENGADLIT_INIT(sengadlit_buffer_properties_t);

    switch (next() % 8) {
    case 0: return sengadlit_buffer_reverse_range(buffer, start, end);
    case 1: return sengadlit_buffer_reverse_clusters(buffer);
    case 2: return start & 1 ? sengadlit_buffer_guess_properties(buffer) : sengadlit_buffer_add(buffer, next_word() % 0x120000,
              end);
    case 3: return sengadlit_buffer_set_content_type(buffer, (sengadlit_buffer_content_type_t)(next() % 4));
    case 4: return sengadlit_buffer_get_properties(buffer, &properties);
    case 5: {
        sengadlit_buffer_t *other = sengadlit_buffer_create();
        (void)sengadlit_buffer_append(other, buffer, end / 3, start);
        if (sengadlit_buffer_get_content_type(other) != SENGADLIT_BUFFER_CONTENT_TYPE_INVALID)
            (void)sengadlit_buffer_set_content_type(buffer, sengadlit_buffer_get_content_type(other));
        sengadlit_status_t status = sengadlit_buffer_append(buffer, other, 0, sengadlit_buffer_get_length(other));
        sengadlit_buffer_destroy(other);
        return status;
    }
    case 6: {
        sengadlit_status_t status = sengadlit_buffer_serialize(buffer, NULL,
                  start & 1 ? SENGADLIT_SERIALIZE_FORMAT_JSON : SENGADLIT_SERIALIZE_FORMAT_TEXT,
                                                               next(), text, end, &length);
        if (status == SENGADLIT_DONE && end != 0 && strlen(text) != (length < end ? length : end - 1)) abort();
        return status;
    }
    default: return sengadlit_buffer_reverse(buffer);
    }
}

static sengadlit_status_t run_hook(const sengadlit_plan_t *plan, sengadlit_buffer_t *buffer)
{
    sengadlit_bool_t constraints;
    unsigned int start = next() % 33;

    switch (next() % 12) {
    case 0: return sengadlit_preprocess_text(plan, &font, buffer, &constraints);
    case 1: return sengadlit_setup_masks(plan, start == 1 ? NULL : &tables, buffer);
    case 5: return run_found(plan, buffer);
    case 2: return sengadlit_reorder_marks(plan, buffer, start, start + next() % 40);
    case 3: (void)sengadlit_buffer_get_glyph_positions(buffer, NULL); /* fall through */
    case 4: return sengadlit_postprocess_glyphs(plan, &font, buffer);
    case 6: return stop_carets(buffer);
    case 7: return change_text(buffer);
    case 8: return shape_by_face(buffer, &font);
    default: return run_pause(plan, buffer);
    }
}

struct text {
    unsigned int length, state;
    sengadlit_glyph_info_t glyphs[ROOM];
};

static struct text before, after;

static void keep(sengadlit_buffer_t *buffer, struct text *text)
{
    const sengadlit_glyph_info_t *glyphs = sengadlit_buffer_get_glyph_infos(buffer, &text->length);

    text->state = sengadlit_buffer_get_state(buffer);
    if (text->length > ROOM) abort();
    memcpy(text->glyphs, glyphs, text->length * sizeof *glyphs);
}

static unsigned long internal, done;

/* A call, and what the header says of its end. */
static void make_call(const sengadlit_plan_t *plan, sengadlit_buffer_t *buffer)
{
    sengadlit_error_t error;

    keep(buffer, &before);
    sengadlit_status_t status = run_hook(plan, buffer);
    sengadlit_buffer_get_error(buffer, &error);
    keep(buffer, &after);
    if (status == SENGADLIT_DONE) {
        done++;
        return;
    }
    if (status != SENGADLIT_ABSENT && error.status != status) abort();
    if (status == SENGADLIT_INTERNAL) {
        internal++;
        if (after.length != 0 || !changes) abort();
        return;
    }
    if (status < SENGADLIT_DONE || status > SENGADLIT_STRETCH_OVERFLOW) abort();
    if (after.length != before.length || after.state != before.state ||
        memcmp(after.glyphs, before.glyphs, after.length * sizeof *after.glyphs) != 0)
        abort();
}

/* ---- A whole text ---- */

/* Whether a lookup has left what is no text of glyphs, or the function behind the last of them has. */
static enum { NO_FAULT, LOOKUP, END } faulty;

static sengadlit_bool_t variation_glyph(void *user_data, uint32_t unicode, uint32_t selector, uint32_t *glyph)
{
    (void)user_data;
    *glyph = answer(unicode, selector) & 0x1FFFF;
    return *glyph % 3 == 0;
}

/* Does anything to the buffer that it is lent. */
static sengadlit_bool_t substitute(void *user_data, const sengadlit_lookup_t *lookup, sengadlit_buffer_t *lent)
{
    uint8_t what = next(), start = next() % 8, end = start + next() % 8;
    unsigned int length;
    sengadlit_glyph_info_t *glyphs = sengadlit_buffer_get_glyph_infos(lent, &length);

    if (sengadlit_buffer_get_glyph_infos(user_data, NULL) || lookup->mask == 0) abort();
    for (unsigned int i = start; i < end && i < length; i++) {
        glyphs[i].glyph_id = answer(glyphs[i].glyph_id, lookup->index) & 0xFFFF;
        glyphs[i].glyph_props ^= (uint16_t)((what & 7) << 4);
        if (what & 32) glyphs[i].syllable = what;
    }
    if (what % 64 == 7 && length > start) {
        faulty = LOOKUP;
        glyphs[start].glyph_id |= 0x10000;
    }
    switch (what % 8) {
    case 0: (void)sengadlit_buffer_set_length(lent, length + end); break;
    case 1: (void)sengadlit_buffer_set_length(lent, start); break;
    case 2: (void)sengadlit_buffer_merge_clusters(lent, start, end); break;
    case 3: (void)sengadlit_buffer_unsafe_to_break(lent, start, end); break;
    case 4: (void)sengadlit_buffer_get_glyph_positions(lent, NULL); break;
    case 5: sengadlit_buffer_set_state(lent, what); break;
    case 6: sengadlit_buffer_destroy(lent); break;
    default: break;
    }
    return what != 8;
}

static uint16_t glyph_props(void *user_data, const sengadlit_glyph_info_t *glyph)
{
    if (sengadlit_buffer_get_glyph_infos(user_data, NULL)) abort();
    return (uint16_t)answer(glyph->glyph_id, 11);
}

static sengadlit_bool_t is_mark(void *user_data, const sengadlit_glyph_info_t *glyph)
{
    if (sengadlit_buffer_get_glyph_infos(user_data, NULL)) abort();
    return (sengadlit_bool_t)(glyph->glyph_props & 4);
}

static void move_glyphs(void *user_data, sengadlit_buffer_t *lent, int fault)
{
    uint8_t what = next();
    unsigned int length, count;
    sengadlit_glyph_info_t *glyphs = sengadlit_buffer_get_glyph_infos(lent, &length);

    if (sengadlit_buffer_get_glyph_infos(user_data, NULL)) abort();
    sengadlit_glyph_position_t *positions = sengadlit_buffer_get_glyph_positions(lent, &count);
    if (count != length) abort();
    for (unsigned int i = 0; i < count; i++) {
        positions[i].x_offset = (int32_t)next_word();
        glyphs[i].glyph_props = what;
    }
    /* (an array that is lent may refuse to grow) */
    if (what % 64 == 7 && length > 0 && sengadlit_buffer_set_length(lent, length - 1 + (what & 64) / 32)) faulty = fault;
}

static void finish_positions(void *user_data, sengadlit_buffer_t *lent) { move_glyphs(user_data, lent, END); }

static sengadlit_bool_t position(void *user_data, const sengadlit_lookup_t *lookup, sengadlit_buffer_t *lent)
{
    if (lookup->mask == 0) abort();
    move_glyphs(user_data, lent, LOOKUP);
    return next() != 1;
}

static int32_t glyph_v_advance(void *user_data, uint32_t glyph)
{
    if (sengadlit_buffer_get_glyph_infos(user_data, NULL)) abort();
    return (int32_t)answer(glyph, 12);
}

static void glyph_v_origin(void *user_data, uint32_t glyph, int32_t *x, int32_t *y)
{
    if (sengadlit_buffer_get_glyph_infos(user_data, NULL)) abort();
    *x = (int32_t)answer(glyph, 13);
    *y = (int32_t)answer(glyph, 14);
}

static sengadlit_shape_plan_t *make_shape_plan(void)
{
    static const char tags[][5] = {"ccmp", "rphf", "pref", "blwf", "half", "pres", "init", "medi", "liga", "mark"};
    sengadlit_table_feature_t features[4];
    sengadlit_user_feature_t user;
    sengadlit_shape_plan_input_t input = SENGADLIT_INIT(sengadlit_shape_plan_input_t);
    static uint16_t lookups[8];
    sengadlit_error_t error;
    uint8_t settings = next();

    for (unsigned int i = 0; i < 8; i++) lookups[i] = next();
    for (unsigned int i = 0; i < 4; i++) {
        const char *tag = tags[next() % 10];
        features[i].tag = SENGADLIT_TAG(tag[0], tag[1], tag[2], tag[3]);
        features[i].lookups_length = next() % 3;
        features[i].lookups = next() == 1 ? NULL : &lookups[2 * i];
    }
    user = (sengadlit_user_feature_t){features[0].tag, next(), next() % 16, settings & 4 ? UINT32_MAX : next() % 16};
    input.script = scripts[place];
    input.direction = (sengadlit_direction_t)(4 + settings % 4);
    input.gsub.has_table = settings & 32;
    input.gsub.chosen_script = settings & 8 ? SENGADLIT_TAG('d', 'e', 'v', '2') : 0;
    input.gsub.found_script = settings & 16;
    input.gsub.features = features;
    input.gsub.features_length = 4;
    input.gsub.required = features[settings >> 6];
    input.gpos = input.gsub;
    input.user_features = &user;
    input.user_features_length = settings & 32 ? 1 : 0;
    input.units_per_em = settings & 1 ? 1u << settings % 16 : 0;
    input.centres_stretch = settings & 2;
    input.sound_breaks = settings & 8;
    input.searches_medials = settings & 16;
    input.new_spec_zero_context = settings & 32;
    sengadlit_shape_plan_t *plan = sengadlit_shape_plan_create(&input, &error);
    if (!plan && (error.status != SENGADLIT_ARGUMENT || error.argument != SENGADLIT_ARGUMENT_LOOKUPS)) abort();
    return plan;
}

static void shape_whole(sengadlit_buffer_t *buffer)
{
    static const sengadlit_lookups_funcs_t funcs = {sizeof funcs, variation_glyph, glyph_props, substitute, is_mark, position,
                                                    finish_positions, glyph_v_advance, glyph_v_origin};
    const sengadlit_lookups_t lookups = {&funcs, buffer};
    sengadlit_shape_plan_t *plan = make_shape_plan();

    faulty = NO_FAULT;
    keep(buffer, &before);
    sengadlit_status_t status = next() & 1 ? sengadlit_shape(plan, &font, &lookups, buffer)
                                           : sengadlit_substitute_text(plan, &font, &lookups, buffer);
    keep(buffer, &after);
    sengadlit_shape_plan_destroy(plan);
    if (status == SENGADLIT_DONE) done++;
    else if (status == SENGADLIT_INTERNAL) internal++;
    else if (status > SENGADLIT_STRETCH_OVERFLOW) abort();
    if (status == SENGADLIT_INTERNAL ? after.length != 0 || (!changes && faulty != END) : faulty == END) abort();
    if (faulty == LOOKUP && status != SENGADLIT_ARGUMENT) abort();
    if (faulty == NO_FAULT && status == SENGADLIT_ARGUMENT && (after.length != before.length ||
        memcmp(after.glyphs, before.glyphs, after.length * sizeof *after.glyphs) != 0))
        abort();
}

/* The functions that no buffer is given. */
static void call_others(sengadlit_plan_t *plan)
{
    static const sengadlit_map_funcs_t funcs = {sizeof funcs, add_feature, add_gsub_pause};
    unsigned int sum = 0;
    const sengadlit_map_t map = {&funcs, &sum};
    sengadlit_shaper_constants_t constants = SENGADLIT_INIT(sengadlit_shaper_constants_t);
    sengadlit_plan_data_t data = SENGADLIT_INIT(sengadlit_plan_data_t);
    sengadlit_shaper_t found;
    uint32_t a = next_word() % 0x120000, b = firsts[place] + next() % 128, c, d;

    (void)sengadlit_shaper_get_constants((sengadlit_shaper_t)shaper_number, &constants);
    (void)sengadlit_collect_features((sengadlit_shaper_t)shaper_number, scripts[place], &font, &map, NULL);
    (void)sengadlit_override_features((sengadlit_shaper_t)shaper_number, scripts[place], &map, NULL);
    (void)sengadlit_plan_get_data(plan, &data);
    (void)sengadlit_compose(plan, next() == 1 ? NULL : &tables, b, a, &c, NULL);
    (void)sengadlit_decompose(plan, next() == 1 ? NULL : &tables, next() & 1 ? a : b, &c, &d, NULL);
    (void)sengadlit_shaper_for_script(scripts[place], (sengadlit_direction_t)(next() % 9), next() == 1 ? a : 0, &found);
    (void)sengadlit_modified_combining_class(a);
    edit();
    (void)sengadlit_version_atleast(a, b, 0);
    (void)sengadlit_status_name((sengadlit_status_t)a);
    (void)sengadlit_argument_name((sengadlit_argument_t)(a % 32));
    sengadlit_plan_destroy(sengadlit_plan_reference(plan));
}

static sengadlit_glyph_info_t *grow(void *user_data, sengadlit_glyph_info_t *glyphs, unsigned int wanted,
                                    unsigned int *allocated)
{
    sengadlit_glyph_info_t *moved;

    if (sengadlit_buffer_get_glyph_infos(user_data, NULL) || wanted <= *allocated) abort();
    if (wanted > ROOM || next() == 7) return NULL;
    moved = malloc(wanted * sizeof *moved);
    if (!moved) abort();
    if (*allocated != 0) memcpy(moved, glyphs, *allocated * sizeof *moved);
    free(array);
    *allocated = wanted;
    return array = moved;
}

static void lend(sengadlit_buffer_t *buffer)
{
    unsigned int length, room;
    const sengadlit_glyph_info_t *glyphs = sengadlit_buffer_get_glyph_infos(buffer, &length);

    if (is_lent || length > ROOM) return;
    room = length + next() % 4;
    array = room == 0 ? NULL : malloc(room * sizeof *array);
    if (room != 0) memcpy(array, glyphs, length * sizeof *array);
    grows = next() & 1;
    if (sengadlit_buffer_set_grow_func(buffer, grows ? grow : NULL, buffer) != SENGADLIT_DONE ||
        sengadlit_buffer_lend(buffer, array, length, room) != SENGADLIT_DONE ||
        sengadlit_buffer_lend(buffer, array, length, room) != SENGADLIT_DONE)
        abort();
    is_lent = 1;
}

/* Takes the array back, and copies the text into the buffer again. */
static void take_back(sengadlit_buffer_t *buffer)
{
    static sengadlit_glyph_info_t copy[ROOM];
    unsigned int length, allocated;
    const sengadlit_glyph_info_t *given = sengadlit_buffer_give_back(buffer, &length, &allocated);

    if (!is_lent && given) abort();
    if (!is_lent) return;
    if (grows ? given != array : !given && (array || length != 0)) abort();
    if (length > allocated && (grows || allocated != 0)) abort();
    if (length > ROOM) length = ROOM;
    if (length != 0) memcpy(copy, given, length * sizeof *given);
    free(array);
    array = NULL;
    is_lent = 0;
    memcpy(sengadlit_buffer_set_length(buffer, length), copy, length * sizeof *copy);
}

/* Another text, in a buffer that may have been cleared. */
static void begin_another(sengadlit_buffer_t *buffer)
{
    unsigned int length;

    switch (next() % 4) {
    case 0: sengadlit_buffer_clear_contents(buffer); break;
    case 1: sengadlit_buffer_reset(buffer); break;
    default: write_text(buffer); return;
    }
    (void)sengadlit_buffer_get_glyph_infos(buffer, &length);
    if (length != 0 || sengadlit_buffer_get_state(buffer) != 0) abort();
    write_settings(buffer);
    write_text(buffer);
}

int LLVMFuzzerTestOneInput(const uint8_t *data, size_t size)
{
    unsigned int destroyed;

    bytes = data;
    left = size;
    salt = next();
    asked = 0;
    changes = next() % 4 == 1;
    choose_functions();
    sengadlit_plan_t *plan = make_plan(&destroyed);
    sengadlit_buffer_t *buffer = sengadlit_buffer_create();
    if (!buffer) abort();
    call_others(plan);
    write_settings(buffer);
    write_text(buffer);
    for (unsigned int i = 0; i < CALLS && left != 0; i++) {
        if (next() % 16 == 1) begin_another(buffer);
        if (next() % 4 == 1) lend(buffer);
        make_call(plan, buffer);
        if (next() % 8 == 1) take_back(buffer);
    }
    begin_another(buffer);
    lend(buffer);
    shape_whole(buffer);
    if (next() & 1) take_back(buffer);
    sengadlit_buffer_destroy(buffer);
    free(array);
    array = NULL;
    is_lent = 0;
    sengadlit_plan_destroy(plan);
    if (destroyed != 1) abort();
    return 0;
}

#ifdef RANDOM
int main(int argc, char **argv)
{
    unsigned long rounds = argc > 1 ? strtoul(argv[1], NULL, 10) : 1000;
    uint64_t x = 0x9E3779B97F4A7C15u;
    static uint8_t input[2048];

    for (unsigned long round = 0; round < rounds; round++) {
        for (size_t i = 0; i < sizeof input; i++) {
            x ^= x << 13;
            x ^= x >> 7;
            x ^= x << 17;
            input[i] = (uint8_t)(x >> 32);
        }
        (void)LLVMFuzzerTestOneInput(input, sizeof input);
    }
    printf("%lu rounds, %lu calls done, %lu internal errors\n", rounds, done, internal);
    return 0;
}
#endif
