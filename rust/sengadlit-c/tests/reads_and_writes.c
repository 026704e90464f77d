/* The header's list of what each hook reads and writes of a glyph, tried on random texts. Two texts that differ in what isn't
   read have equal results; what isn't written stays. And the list says no more than is true: texts that differ in one field
   that is read have, now and then, other results, and each field that is written changes now and then. listed.h is made of the
   header by listed.awk. The second text of a pair is lent, the first one copied. The first argument is the number of rounds of each row; few ones don't test the latter. The last line
   is 'N passed, M failed'. */
#include <sengadlit.h>

#include <stdio.h>
#include <stdlib.h>
#include <string.h>

enum { MOST = 13, ROOM = 1024, FLAGS = 7, TAGS = 19, FEW = 5000 };

static unsigned int passed, failed;

/* ---- The list ---- */

enum field {
    NUMBER, MASK, SYLLABLE, CATEGORY, AUXILIARY, GENERAL_CATEGORY, CLASS, UNICODE_PROPS, LIG_PROPS, GLYPH_PROPS, FIELDS
};

static const char *const names[FIELDS] = {"glyph_id", "mask", "syllable", "category", "auxiliary", "general_category",
                                          "combining_class", "unicode_props", "lig_props", "glyph_props"};

/* The bits of `glyph_props` that have no name, in which a text has its places. */
enum { PLACES = 7, NAMED = (1 << PLACES) - 1 };

struct row {
    const char *hook, *of, *reads, *writes;
};

#define ROW(hook, of, reads, writes) {hook, of, reads, writes},
static const struct row rows[] = {
#include "listed.h"
};

/* The fields that a list names, as bits. */
static unsigned int fields_of(const char *list)
{
    unsigned int bits = 0;
    char words[256];

    snprintf(words, sizeof words, "%s", list);
    for (char *word = strtok(words, " "); word; word = strtok(NULL, " ")) {
        unsigned int field = 0;
        while (field < FIELDS && strcmp(names[field], word) != 0) field++;
        if (field < FIELDS) bits |= 1u << field;
        else if (strcmp(word, "-") != 0) exit(EXIT_FAILURE);
    }
    return bits;
}

/* Every hook and pause that changes a glyph or may, each in one row. */
enum kind { PREPROCESS, MARKS_OF_RUN, MASKS, SPANS, PAUSE, POSTPROCESS };

struct call {
    const char *hook, *of;
    enum kind kind;
    sengadlit_shaper_t shaper;
    sengadlit_tag_t script;
    unsigned int pause;
};

#define TAG(a) SENGADLIT_TAG((a)[0], (a)[1], (a)[2], (a)[3])
#define CALL(hook, of, kind, shaper, script) \
    {hook, of, kind, SENGADLIT_SHAPER_##shaper, SENGADLIT_TAG script, SENGADLIT_PAUSE_NONE},
#define RUN(of, pause, shaper, script) \
    {"run_pause", of, PAUSE, SENGADLIT_SHAPER_##shaper, SENGADLIT_TAG script, SENGADLIT_PAUSE_##pause},
#define ARAB ('A', 'r', 'a', 'b')
#define DEVA ('D', 'e', 'v', 'a')
#define HANG ('H', 'a', 'n', 'g')
#define HEBR ('H', 'e', 'b', 'r')
#define KHMR ('K', 'h', 'm', 'r')
#define MONG ('M', 'o', 'n', 'g')
#define MYMR ('M', 'y', 'm', 'r')
#define SINH ('S', 'i', 'n', 'h')
#define THAI ('T', 'h', 'a', 'i')

static const struct call calls[] = {
    CALL("preprocess_text", "THAI", PREPROCESS, THAI, THAI)
    CALL("preprocess_text", "HANGUL", PREPROCESS, HANGUL, HANG)
    CALL("preprocess_text", "INDIC", PREPROCESS, INDIC, DEVA)
    CALL("preprocess_text", "UNIVERSAL", PREPROCESS, UNIVERSAL, SINH)
    CALL("reorder_marks", "ARABIC", MARKS_OF_RUN, ARABIC, ARAB)
    CALL("reorder_marks", "HEBREW", MARKS_OF_RUN, HEBREW, HEBR)
    CALL("setup_masks", "ARABIC", MASKS, ARABIC, ARAB)
    CALL("setup_masks", "HANGUL", MASKS, HANGUL, HANG)
    CALL("setup_masks", "INDIC", MASKS, INDIC, DEVA)
    CALL("setup_masks", "KHMER", MASKS, KHMER, KHMR)
    CALL("setup_masks", "MYANMAR", MASKS, MYANMAR, MYMR)
    CALL("setup_masks", "UNIVERSAL", MASKS, UNIVERSAL, SINH)
    CALL("setup_masks", "UNIVERSAL(joins)", MASKS, UNIVERSAL, MONG)
    CALL("spans", "INDIC", SPANS, INDIC, DEVA)
    CALL("spans", "KHMER", SPANS, KHMER, KHMR)
    CALL("spans", "MYANMAR", SPANS, MYANMAR, MYMR)
    CALL("spans", "UNIVERSAL", SPANS, UNIVERSAL, SINH)
    RUN("SETUP_SYLLABLES_INDIC", SETUP_SYLLABLES_INDIC, INDIC, DEVA)
    RUN("SETUP_SYLLABLES_KHMER", SETUP_SYLLABLES_KHMER, KHMER, KHMR)
    RUN("SETUP_SYLLABLES_MYANMAR", SETUP_SYLLABLES_MYANMAR, MYANMAR, MYMR)
    RUN("SETUP_SYLLABLES_USE", SETUP_SYLLABLES_USE, UNIVERSAL, SINH)
    RUN("SETUP_SYLLABLES_USE(joins)", SETUP_SYLLABLES_USE, UNIVERSAL, MONG)
    RUN("INITIAL_REORDERING", INITIAL_REORDERING, INDIC, DEVA)
    RUN("REORDER_KHMER", REORDER_KHMER, KHMER, KHMR)
    RUN("REORDER_MYANMAR", REORDER_MYANMAR, MYANMAR, MYMR)
    RUN("REORDER_USE", REORDER_USE, UNIVERSAL, SINH)
    RUN("FINAL_REORDERING", FINAL_REORDERING, INDIC, DEVA)
    RUN("RECORD_STCH", RECORD_STCH, ARABIC, ARAB)
    RUN("RECORD_RPHF", RECORD_RPHF, UNIVERSAL, SINH)
    RUN("RECORD_PREF", RECORD_PREF, UNIVERSAL, SINH)
    RUN("SYLLABIC_CLEAR_VAR", SYLLABIC_CLEAR_VAR, KHMER, KHMR)
    RUN("CLEAR_SUBSTITUTION_FLAGS", CLEAR_SUBSTITUTION_FLAGS, UNIVERSAL, SINH)
    RUN("ARABIC_FALLBACK_SHAPE", ARABIC_FALLBACK_SHAPE, ARABIC, ARAB)
    CALL("postprocess_glyphs", "ARABIC", POSTPROCESS, ARABIC, ARAB)
};

enum { ROWS = sizeof rows / sizeof *rows, CALLS = sizeof calls / sizeof *calls };

/* The row of a call, which is the only one. */
static const struct row *row_of(const struct call *call)
{
    const struct row *found = NULL;

    for (unsigned int i = 0; i < ROWS; i++) {
        if (strcmp(rows[i].hook, call->hook) != 0 || strcmp(rows[i].of, call->of) != 0) continue;
        if (found) return NULL;
        found = &rows[i];
    }
    return found;
}

/* ---- Chance, and results that only depend on the question ---- */

static uint64_t chance = 0x9E3779B97F4A7C15u;
static uint32_t salt;

static uint32_t any(void)
{
    chance ^= chance << 13;
    chance ^= chance >> 7;
    chance ^= chance << 17;
    return (uint32_t)(chance >> 16);
}

static uint32_t below(uint32_t limit) { return any() % limit; }

static uint32_t answer(uint32_t question, uint32_t a)
{
    uint32_t x = (salt ^ question * 0x9E3779B1u) + a * 0x85EBCA6Bu;

    x = (x ^ x >> 15) * 0xC2B2AE35u;
    x = (x ^ x >> 13) * 0x27D4EB2Fu;
    return x ^ x >> 16;
}

static sengadlit_bool_t nominal_glyph(void *user_data, uint32_t unicode, uint32_t *glyph)
{
    (void)user_data;
    *glyph = unicode & 0xFFFF;
    return answer(1, unicode) % 8 != 0;
}

static int32_t glyph_h_advance(void *user_data, uint32_t glyph)
{
    (void)user_data;
    return (int32_t)(answer(2, glyph) % 700);
}

static sengadlit_bool_t would_substitute(void *user_data, const uint16_t *lookups, unsigned int lookups_length,
                                         const uint32_t *glyphs, unsigned int glyphs_length, sengadlit_bool_t zero_context)
{
    (void)user_data, (void)lookups_length, (void)zero_context;
    return (sengadlit_bool_t)(answer(3, lookups[0] + 31 * glyphs[0] + (glyphs_length > 1 ? 7 * glyphs[1] : 0)) & 1);
}

static uint8_t joining_type(void *user_data, uint32_t unicode)
{
    static const uint8_t types[] = {0, 1, 2, 3, 3, 3, 4, 5, 7, 8};

    (void)user_data;
    return types[answer(5, unicode) % sizeof types];
}

static uint8_t general_category(void *user_data, uint32_t unicode)
{
    (void)user_data;
    return (uint8_t)(answer(6, unicode) % 30);
}

/* A category that the rules of a shaper name. */
static uint8_t some_category(sengadlit_shaper_t shaper)
{
    static const uint8_t categories[] = {0,  1,  1,  1,  2,  3,  4,  4,  4,  5,  6,  7,  7,  8,  9,
                                         10, 11, 13, 14, 15, 15, 16, 18, 20, 21, 22, 22, 23, 32, 36},
                         universal[] = {1, 1, 12, 12, 12, 14, 18, 18, 22, 22, 23, 28, 34, 39, 44, 53};

    return shaper == SENGADLIT_SHAPER_UNIVERSAL ? universal[below(sizeof universal)] : categories[below(sizeof categories)];
}

static uint16_t indic_categories(void *user_data, uint32_t unicode)
{
    (void)user_data;
    return (uint16_t)(answer(7, unicode) % 42 | (answer(8, unicode) % 15) << 8);
}

static uint8_t use_category(void *user_data, uint32_t unicode)
{
    (void)user_data;
    return (uint8_t)(answer(9, unicode) % 57);
}

static const sengadlit_font_funcs_t font_funcs = {sizeof font_funcs, nominal_glyph, glyph_h_advance, would_substitute, NULL};
static const sengadlit_font_t font = {&font_funcs, NULL};
static const sengadlit_tables_funcs_t tables_funcs = {sizeof tables_funcs, joining_type, general_category, indic_categories,
                                                      use_category, NULL,             NULL};
static const sengadlit_tables_t tables = {&tables_funcs, NULL};

static sengadlit_plan_t *make_plan(const struct call *call)
{
    static const char *const tags[TAGS] = {"isol", "fina", "fin2", "fin3", "medi", "med2", "init", "stch", "rphf", "pref",
                                           "blwf", "abvf", "pstf", "cfar", "half", "vatu", "ljmo", "vjmo", "tjmo"};
    static uint16_t lookups[TAGS + 1];
    sengadlit_feature_t features[TAGS];
    sengadlit_stage_t stages[TAGS];
    sengadlit_plan_input_t input = SENGADLIT_INIT(sengadlit_plan_input_t);

    for (unsigned int i = 0; i < TAGS; i++) {
        const sengadlit_feature_t feature = {TAG(tags[i]), 8u << i, i};
        if (below(4) != 0) features[input.features_length++] = feature;
        stages[i].start = i;
        stages[i].end = i + below(2);
        lookups[i] = (uint16_t)i;
    }
    input.script = call->script;
    input.chosen_script = SENGADLIT_TAG('d', 'e', 'v', below(2) ? '2' : 'a');
    input.found_script = (sengadlit_bool_t)below(2);
    input.sound_breaks = (sengadlit_bool_t)below(2);
    input.features = features;
    input.stages = stages;
    input.stages_length = TAGS;
    input.lookups = lookups;
    input.lookups_length = TAGS + 1;
    return sengadlit_plan_create(call->shaper, &input, NULL);
}

/* ---- Texts ---- */

struct text {
    unsigned int length, state, spans_length;
    sengadlit_status_t status;
    sengadlit_bool_t told;
    sengadlit_glyph_info_t glyphs[ROOM];
    sengadlit_glyph_position_t positions[ROOM];
    sengadlit_span_t spans[MOST];
};

static uint32_t get(const sengadlit_glyph_info_t *glyph, enum field field)
{
    switch (field) {
    case NUMBER: return glyph->glyph_id;
    case MASK: return glyph->mask & ~(uint32_t)FLAGS;
    case SYLLABLE: return glyph->syllable;
    case CATEGORY: return glyph->category;
    case AUXILIARY: return glyph->auxiliary;
    case GENERAL_CATEGORY: return glyph->unicode_props & SENGADLIT_UNICODE_PROPS_GENERAL_CATEGORY;
    case CLASS: return (uint32_t)glyph->unicode_props >> 8;
    case UNICODE_PROPS: return glyph->unicode_props & 0xE0;
    case LIG_PROPS: return glyph->lig_props;
    default: return glyph->glyph_props & NAMED;
    }
}

static uint32_t a_codepoint(const struct call *call)
{
    static const uint32_t firsts[] = {0x620, 0x1100, 0x5D0, 0x915, 0x1780, 0x1000, 0x1000, 0xE01, 0xD80};
    static const uint32_t hangul[] = {0x1100, 0x1161, 0x11A8, 0xAC00, 0xAC01, 0x302E, 0x302F, 0x1113};

    if (call->shaper == SENGADLIT_SHAPER_HANGUL) return hangul[below(8)] + (below(2) ? 0 : below(20));
    if (call->shaper == SENGADLIT_SHAPER_THAI && below(2)) return below(2) ? 0x0E33 : 0x0E48 + below(6);
    if (call->kind == MARKS_OF_RUN) return 0x0654 + below(2) + (below(4) ? 0 : below(0x10));
    if (call->kind == PAUSE && below(4) == 0) return 0x0930;
    return firsts[call->shaper] + below(0x60);
}

static uint8_t a_general_category(const struct call *call)
{
    const int is_mark = call->kind == MARKS_OF_RUN && below(4);

    return (uint8_t)(is_mark ? SENGADLIT_UNICODE_GENERAL_CATEGORY_SPACING_MARK + below(3) : below(32));
}

/* Gives some bits of a number, which begin at this place, another value. */
static void set_bits(uint16_t *number, unsigned int bits, unsigned int place, uint32_t value)
{
    *number = (uint16_t)((*number & ~bits) | (value << place & bits));
}

/* Gives a field another value, any that hooks take. */
static void change(const struct call *call, sengadlit_glyph_info_t *glyph, enum field field, int is_read)
{
    static const uint8_t classes[] = {20, 21, 22, 23, 25, 220, 230, 27, 28}, hebrew[] = {20, 21, 23, 25, 220};
    const uint8_t class = call->shaper == SENGADLIT_SHAPER_HEBREW ? hebrew[below(sizeof hebrew)] : classes[below(sizeof classes)];

    switch (field) {
    case NUMBER: glyph->glyph_id = is_read ? a_codepoint(call) : any(); break;
    case MASK: glyph->mask = (glyph->mask & FLAGS) | (any() & ~(uint32_t)FLAGS); break;
    case SYLLABLE: glyph->syllable = (uint8_t)(is_read ? (glyph->syllable & 0x0F) | below(16) << 4 : any()); break;
    case CATEGORY: glyph->category = is_read && below(8) ? some_category(call->shaper) : (uint8_t)below(57); break;
    case AUXILIARY: glyph->auxiliary = (uint8_t)below(call->shaper == SENGADLIT_SHAPER_HANGUL ? 4 : 15); break;
    case GENERAL_CATEGORY: set_bits(&glyph->unicode_props, 0x1F, 0, a_general_category(call)); break;
    case CLASS: set_bits(&glyph->unicode_props, 0xFF00, 8, class); break;
    case UNICODE_PROPS: set_bits(&glyph->unicode_props, 0xE0, 5, below(8)); break;
    case LIG_PROPS: glyph->lig_props = (uint8_t)any(); break;
    default: set_bits(&glyph->glyph_props, NAMED, 0, below(3) ? below(NAMED + 1) : SENGADLIT_GLYPH_PROPS_SUBSTITUTED);
    }
}

/* Syllables of up to five glyphs, of the kinds that the shaper has. */
static void divide(const struct call *call, struct text *text)
{
    static const uint8_t kinds[] = {1, 1, 1, 6, 3, 4, 1, 1, 9};
    uint8_t serial = 1;

    for (unsigned int i = 0; i < text->length; serial = serial == 15 ? 1 : (uint8_t)(serial + 1)) {
        sengadlit_span_t *span = &text->spans[text->spans_length++];
        span->length = 1 + below(text->length - i < 6 ? text->length - i : 6);
        span->kind = (uint8_t)(below(2) ? 0 : below(kinds[call->shaper]));
        for (size_t end = i + span->length; i < end; i++)
            text->glyphs[i].syllable = (uint8_t)(serial << 4 | span->kind);
    }
}

/* The place of the glyph that one was made of, from 1; 0 for a dotted circle. */
static unsigned int place_of(const sengadlit_glyph_info_t *glyph)
{
    return glyph->glyph_props >> PLACES;
}

/* A text, whose glyphs have their places. */
static void write_text(const struct call *call, struct text *text)
{
    uint32_t cluster = 0;

    memset(text, 0, sizeof *text);
    text->length = below(MOST + 1);
    text->state = below(4);
    for (unsigned int i = 0; i < text->length; i++) {
        sengadlit_glyph_info_t *glyph = &text->glyphs[i];
        for (unsigned int field = 0; field < FIELDS; field++) change(call, glyph, (enum field)field, 1);
        glyph->mask |= below(8) ? 0 : below(8);
        glyph->cluster = cluster += below(2);
        set_bits(&glyph->glyph_props, 0xFFFF & ~NAMED, PLACES, i + 1);
        text->positions[i].x_advance = (int32_t)below(2000);
        text->positions[i].x_offset = (int32_t)below(50);
    }
    divide(call, text);
    for (unsigned int i = 0; i < text->length && call->pause <= SENGADLIT_PAUSE_SETUP_SYLLABLES_USE; i++)
        text->glyphs[i].syllable = (uint8_t)any();
}

/* ---- Calls ---- */

static sengadlit_status_t run(const struct call *call, const sengadlit_plan_t *plan, sengadlit_buffer_t *buffer,
                              struct text *text, uint32_t range)
{
    const unsigned int start = range % (text->length + 1), end = start + (range >> 8) % (text->length + 1 - start);
    const sengadlit_span_t *found;

    switch (call->kind) {
    case PREPROCESS: return sengadlit_preprocess_text(plan, &font, buffer, &text->told);
    case MARKS_OF_RUN: return sengadlit_reorder_marks(plan, buffer, start, end);
    case MASKS: return sengadlit_setup_masks(plan, &tables, buffer);
    case POSTPROCESS:
        memcpy(sengadlit_buffer_get_glyph_positions(buffer, NULL), text->positions, text->length * sizeof *text->positions);
        return sengadlit_postprocess_glyphs(plan, &font, buffer);
    case SPANS:
        found = sengadlit_spans(call->shaper, buffer, &text->spans_length);
        if (!found) return SENGADLIT_INTERNAL;
        memcpy(text->spans, found, text->spans_length * sizeof *found);
        return SENGADLIT_DONE;
    default:
        return sengadlit_run_pause(plan, (sengadlit_pause_t)call->pause, &font, text->spans, text->spans_length, buffer,
                                   &text->told);
    }
}

static sengadlit_glyph_info_t *grow(void *user_data, sengadlit_glyph_info_t *glyphs, unsigned int wanted,
                                    unsigned int *allocated)
{
    (void)user_data;
    *allocated = wanted;
    return realloc(glyphs, wanted * sizeof *glyphs);
}

/* Gives a buffer the text, as a copy or lent. */
static void give(sengadlit_buffer_t *buffer, const struct text *text, int is_lent)
{
    const size_t size = text->length * sizeof *text->glyphs;
    sengadlit_glyph_info_t *array;

    if (!is_lent) {
        memcpy(sengadlit_buffer_set_length(buffer, text->length), text->glyphs, size);
        return;
    }
    array = malloc(size);
    memcpy(array, text->glyphs, size);
    if (sengadlit_buffer_set_grow_func(buffer, grow, NULL) != SENGADLIT_DONE ||
        sengadlit_buffer_lend(buffer, array, text->length, text->length) != SENGADLIT_DONE)
        exit(EXIT_FAILURE);
}

/* Takes the glyphs, and the array if it is lent. */
static void take(sengadlit_buffer_t *buffer, struct text *text, int is_lent)
{
    unsigned int allocated = ROOM;
    sengadlit_glyph_info_t *made = is_lent ? sengadlit_buffer_give_back(buffer, &text->length, &allocated)
                                           : sengadlit_buffer_get_glyph_infos(buffer, &text->length);

    if (text->length > ROOM || text->length > allocated) exit(EXIT_FAILURE);
    memcpy(text->glyphs, made, text->length * sizeof *made);
    if (is_lent) free(made); /* (it grows, so that no text leaves it) */
}

/* Makes a call on a text, which is then what the call made of it. */
static void shape(const struct call *call, const sengadlit_plan_t *plan, const sengadlit_buffer_properties_t *properties,
                  uint32_t range, struct text *text, int is_lent)
{
    sengadlit_buffer_t *buffer = sengadlit_buffer_create();
    const sengadlit_glyph_position_t *positions;
    unsigned int length;

    if (sengadlit_buffer_set_properties(buffer, properties) != SENGADLIT_DONE) exit(EXIT_FAILURE);
    give(buffer, text, is_lent);
    sengadlit_buffer_set_state(buffer, text->state);
    text->status = run(call, plan, buffer, text, range);
    if (call->kind == POSTPROCESS) {
        positions = sengadlit_buffer_get_glyph_positions(buffer, &length);
        if (length > ROOM) exit(EXIT_FAILURE);
        memcpy(text->positions, positions, length * sizeof *positions);
    }
    text->state = sengadlit_buffer_get_state(buffer);
    take(buffer, text, is_lent);
    sengadlit_buffer_destroy(buffer);
}

/* ---- What is compared ---- */

static struct text first, second, first_made, second_made;

static int differ_in_spans(const struct text *a, const struct text *b)
{
    if (a->spans_length != b->spans_length) return 1;
    for (unsigned int i = 0; i < a->spans_length; i++)
        if (a->spans[i].length != b->spans[i].length || a->spans[i].kind != b->spans[i].kind) return 1;
    return 0;
}

/* Which part of a result besides the listed fields differs, if any. */
static const char *differ(const struct text *a, const struct text *b)
{
    if (a->status != b->status) return "the status";
    if (a->state != b->state) return "the state";
    if (a->told != b->told) return "what is told";
    if (a->length != b->length) return "the length";
    if (differ_in_spans(a, b)) return "the spans";
    for (unsigned int i = 0; i < a->length; i++) {
        if (place_of(&a->glyphs[i]) != place_of(&b->glyphs[i])) return "the order";
        if (a->glyphs[i].cluster != b->glyphs[i].cluster) return "a cluster";
        if ((a->glyphs[i].mask & FLAGS) != (b->glyphs[i].mask & FLAGS)) return "a flag";
        if (memcmp(&a->positions[i], &b->positions[i], sizeof *a->positions) != 0) return "a position";
    }
    return NULL;
}

/* What a field of two glyphs became, which were equal in it if it is read; NULL where that is as it has to be. */
static const char *wrong_field(enum field field, unsigned int reads, unsigned int writes, uint32_t a, uint32_t b,
                               uint32_t old_a, uint32_t old_b)
{
    const unsigned int bit = 1u << field;

    if (!(writes & bit)) return a == old_a && b == old_b ? NULL : "is written";
    if (reads & bit) return a == b ? NULL : "depends on more than what is read";
    if (field == MASK || field == UNICODE_PROPS || field == GLYPH_PROPS) /* Each bit is set, cleared or as it was. */
        return ((a ^ b) & ((a ^ old_a) | (b ^ old_b))) == 0 ? NULL : "depends on what isn't read";
    return a == b || (a == old_a && b == old_b) ? NULL : "depends on what isn't read";
}

/* How often each field was written in a row, and each that is read mattered; and how often a bit of a feature was cleared. */
static unsigned int written[FIELDS], mattered[FIELDS], cleared;

/* What a glyph of a text was before the call. */
static uint32_t old(const struct text *text, const sengadlit_glyph_info_t *glyph, unsigned int field)
{
    return get(&text->glyphs[place_of(glyph) - 1], (enum field)field);
}

/* A glyph that was made of one of the text, in both texts: the first field that is wrong, and how. */
static const char *wrong_glyph(const sengadlit_glyph_info_t *a, const sengadlit_glyph_info_t *b, unsigned int reads,
                               unsigned int writes, const char **name)
{
    for (unsigned int field = 0; field < FIELDS; field++) {
        const uint32_t new_a = get(a, (enum field)field), old_a = old(&first, a, field);
        const char *wrong = wrong_field((enum field)field, reads, writes, new_a, get(b, (enum field)field), old_a,
                                        old(&second, b, field));
        written[field] += new_a != old_a;
        cleared += field == MASK && (old_a & ~new_a) != 0;
        *name = names[field];
        if (wrong) return wrong;
    }
    return NULL;
}

static int are_fields_right(const struct row *row, unsigned int reads, unsigned int writes)
{
    for (unsigned int i = 0; i < first_made.length; i++) {
        const char *name = NULL, *wrong = NULL;
        if (place_of(&first_made.glyphs[i]) != 0)
            wrong = wrong_glyph(&first_made.glyphs[i], &second_made.glyphs[i], reads, writes, &name);
        if (!wrong) continue;
        printf("FAILED: %s %s: %s %s\n", row->hook, row->of, name, wrong);
        return 0;
    }
    return 1;
}

/* Whether the results of two texts differ, in a field that is written or otherwise. */
static int differ_at_all(unsigned int writes)
{
    if (differ(&first_made, &second_made)) return 1;
    for (unsigned int i = 0; i < first_made.length; i++) {
        const sengadlit_glyph_info_t *a = &first_made.glyphs[i], *b = &second_made.glyphs[i];
        for (unsigned int field = 0; place_of(a) != 0 && field < FIELDS; field++)
            if (writes & 1u << field &&
                (get(a, (enum field)field) ^ old(&first, a, field)) != (get(b, (enum field)field) ^ old(&second, b, field)))
                return 1;
    }
    return 0;
}

static void vary(const struct call *call, unsigned int fields, int is_read)
{
    second = first;
    for (unsigned int i = 0; i < second.length; i++)
        for (unsigned int field = 0; field < FIELDS; field++)
            if (fields & 1u << field) change(call, &second.glyphs[i], (enum field)field, is_read);
}

static void shape_both(const struct call *call, const sengadlit_plan_t *plan)
{
    const sengadlit_buffer_properties_t properties = {
        sizeof properties, call->script, below(2) ? SENGADLIT_DIRECTION_LTR : SENGADLIT_DIRECTION_RTL,
        (sengadlit_buffer_cluster_level_t)below(3), below(8) ? below(4) << 6 : 0x10, ROOM};
    const uint32_t range = any();

    first_made = first;
    second_made = second;
    shape(call, plan, &properties, range, &first_made, 0);
    shape(call, plan, &properties, range, &second_made, 1);
}

/* One round of a row: whether all is as it is listed. */
static int is_as_listed(const struct call *call, const struct row *row, unsigned int reads, unsigned int writes)
{
    sengadlit_plan_t *plan = make_plan(call);
    const unsigned int field = below(FIELDS);
    const char *difference;
    int holds;

    salt = any();
    write_text(call, &first);
    vary(call, ~reads, 0);
    shape_both(call, plan);
    difference = differ(&first_made, &second_made);
    if (difference) printf("FAILED: %s %s: %s differs\n", row->hook, row->of, difference);
    holds = !difference && are_fields_right(row, reads, writes);
    if (reads & 1u << field) {
        vary(call, 1u << field, 1);
        shape_both(call, plan);
        mattered[field] += (unsigned int)differ_at_all(writes);
    }
    sengadlit_plan_destroy(plan);
    return holds;
}

/* Bits of features are or-ed, but by two pauses. */
static void expect_cleared(const struct call *call)
{
    const int clears = strcmp(call->of, "INITIAL_REORDERING") == 0 || strcmp(call->of, "SETUP_SYLLABLES_USE") == 0;

    if (clears == (cleared > 0)) return;
    printf("FAILED: %s %s cleared features %u times\n", call->hook, call->of, cleared);
    failed++;
}

static void try_row(const struct call *call, unsigned long rounds)
{
    const struct row *row = row_of(call);
    unsigned int reads, writes;

    if (!row) {
        printf("FAILED: %s %s has no row, or two\n", call->hook, call->of);
        failed++;
        return;
    }
    reads = fields_of(row->reads);
    writes = fields_of(row->writes);
    memset(written, 0, sizeof written);
    memset(mattered, 0, sizeof mattered);
    cleared = 0;
    for (unsigned long round = 0; round < rounds; round++)
        if (!is_as_listed(call, row, reads, writes)) {
            failed++;
            return;
        }
    passed++;
    if (rounds < FEW) return;
    expect_cleared(call);
    for (unsigned int field = 0; field < FIELDS; field++) {
        const unsigned int bit = 1u << field;
        if ((!(reads & bit) || mattered[field]) && (!(writes & bit) || written[field])) continue;
        printf("FAILED: %s %s: %s doesn't matter, or never changes\n", call->hook, call->of, names[field]);
        failed++;
    }
}

int main(int argc, char **argv)
{
    const unsigned long rounds = argc > 1 ? strtoul(argv[1], NULL, 10) : FEW;

    if (ROWS != CALLS) {
        printf("FAILED: %u rows for %u calls\n", (unsigned int)ROWS, (unsigned int)CALLS);
        failed++;
    }
    for (unsigned int i = 0; i < CALLS; i++) try_row(&calls[i], rounds);
    printf("%u passed, %u failed\n", passed, failed);
    return failed == 0 ? EXIT_SUCCESS : EXIT_FAILURE;
}
