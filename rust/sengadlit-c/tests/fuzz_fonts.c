/* Bytes that spoil a font, or are one, and a text that is shaped with it, for libFuzzer. The font is the file that the variable
   SENGADLIT_FONT of the environment names. The program aborts where a call breaks what the header says: an internal error, as a
   panic becomes, a failed call that changed the text, a glyph that the font doesn't have or a cluster that the text doesn't have,
   or another result by a plan that was kept. */
#include <sengadlit.h>

#include <stdio.h>
#include <stdlib.h>
#include <string.h>

/* An input is a byte that says what its end is, a font or edits of one; CHOICES bytes for the text and its options; and that end.
   Of a text come at most MOST glyphs: fonts can make them many, and then take their time. */
enum { CHOICES = 64, LETTERS = 16, MOST = 400, FEATURES = 3, NAME = 64 };

/* ---- The input ---- */

static const uint8_t *bytes;
static size_t left;

static uint8_t next(void)
{
    if (left == 0) return 0;
    left--;
    return *bytes++;
}

static uint32_t next_number(unsigned int length)
{
    uint32_t number = 0;

    while (length-- > 0) number = number << 8 | next();
    return number;
}

/* ---- The font ---- */

static uint8_t *whole, *spoilt;
static size_t whole_length;

int LLVMFuzzerInitialize(int *argc, char ***argv)
{
    const char *path = getenv("SENGADLIT_FONT");
    FILE *file = path ? fopen(path, "rb") : NULL;

    (void)argc;
    (void)argv;
    if (!file || fseek(file, 0, SEEK_END) != 0) {
        fputs("SENGADLIT_FONT names no file\n", stderr);
        exit(2);
    }
    whole_length = (size_t)ftell(file);
    rewind(file);
    whole = malloc(whole_length);
    spoilt = malloc(whole_length);
    if (!whole || !spoilt || fread(whole, 1, whole_length, file) != whole_length) exit(2);
    fclose(file);
    return 0;
}

/* What is left of the input as edits of the font: a place, and one, two or four bytes that are written there. Half of the places
   are near the beginning of a table, where its counts and offsets are. */
static void spoil(void)
{
    memcpy(spoilt, whole, whole_length);
    while (left >= 4) {
        uint8_t kind = next();
        size_t at = next_number(kind & 4 ? 3 : 1), length = kind & 1 ? 1 : (kind & 2 ? 2 : 4);
        unsigned int tables = (unsigned int)whole[4] << 8 | whole[5];

        if (!(kind & 4) && tables > 0) {
            const uint8_t *record = whole + 12 + 16 * (kind >> 3) % (16 * tables);
            at += (size_t)record[8] << 24 | (size_t)record[9] << 16 | (size_t)record[10] << 8 | record[11];
        }
        for (size_t i = 0; i < length && left > 0; i++) spoilt[(at + i) % whole_length] = next();
    }
}

/* ---- The text ---- */

static uint32_t text[LETTERS];
static unsigned int length;

/* Letters of the scripts that the font has, marks, joiners and selectors, or any number. */
static uint32_t letter(void)
{
    static const uint32_t first[] = {0x20, 0x41, 0x300, 0x620, 0x640, 0x900, 0x93C, 0xE00, 0x1780, 0x17B6, 0x17D2, 0x2000};
    uint8_t kind = next();

    switch (kind % 16) {
    case 12: return 0x200C + next() % 4;
    case 13: return 0xFE00 + next() % 16;
    case 14: return 0xE0100 + next() % 4;
    case 15: return next_number(3);
    default: return first[kind % 16] + next() % 64;
    }
}

static void choose_text(void)
{
    length = next() % (LETTERS + 1);
    for (unsigned int i = 0; i < length; i++) text[i] = letter();
}

static void choose_options(sengadlit_shape_options_t *options, sengadlit_user_feature_t *features)
{
    static const sengadlit_tag_t tags[] = {
        SENGADLIT_TAG('k', 'e', 'r', 'n'), SENGADLIT_TAG('l', 'i', 'g', 'a'), SENGADLIT_TAG('r', 'l', 'i', 'g'),
        SENGADLIT_TAG('m', 'a', 'r', 'k'), SENGADLIT_TAG('c', 'c', 'm', 'p'), SENGADLIT_TAG('v', 'e', 'r', 't')};
    static const sengadlit_direction_t directions[] = {
        SENGADLIT_DIRECTION_INVALID, SENGADLIT_DIRECTION_LTR, SENGADLIT_DIRECTION_RTL, SENGADLIT_DIRECTION_TTB,
        SENGADLIT_DIRECTION_BTT};
    static const char *const languages[] = {NULL, "en", "sr-Latn", "ar-x-hbotabcd", "zh-Hant-HK"};
    uint8_t choices = next();

    options->direction = directions[choices % 5];
    options->language = languages[next() % 5];
    options->not_found_glyph = next();
    options->sound_breaks = choices >> 5 & 1;
    options->skips_medials = choices >> 6 & 1;
    options->normalizes_always = choices >> 7 & 1;
    options->features = features;
    options->features_length = next() % (FEATURES + 1);
    for (unsigned int i = 0; i < options->features_length; i++)
        features[i] = (sengadlit_user_feature_t){tags[next() % 6], next() % 4, next() % 8, next() % 2 ? UINT32_MAX : next()};
}

static void choose_properties(sengadlit_buffer_t *buffer)
{
    sengadlit_buffer_properties_t properties = SENGADLIT_INIT(sengadlit_buffer_properties_t);

    properties.cluster_level = (sengadlit_buffer_cluster_level_t)(next() % 3);
    properties.flags = next();
    properties.max_length = MOST;
    if (sengadlit_buffer_set_properties(buffer, &properties) != SENGADLIT_DONE) abort();
}

/* ---- The calls ---- */

/* Whatever is looked up comes to an end, and glyphs have 16 bits. */
static void look_up(const sengadlit_face_t *face)
{
    char name[NAME];
    uint32_t glyph, count = sengadlit_face_get_glyph_count(face);

    if (count > 0xFFFF || sengadlit_face_get_units_per_em(face) < 16) abort();
    for (unsigned int i = 0; i < length; i++) {
        if (sengadlit_face_get_nominal_glyph(face, text[i], &glyph) && glyph > 0xFFFF) abort();
        if (sengadlit_face_get_variation_glyph(face, text[i], 0xFE00 + i % 16, &glyph) && glyph > 0xFFFF) abort();
        (void)sengadlit_face_get_glyph_h_advance(face, text[i]);
        if (sengadlit_face_get_glyph_name(face, text[i] & 0x3FF, name, sizeof name) && strlen(name) >= sizeof name) abort();
    }
}

struct shaped {
    unsigned int length;
    sengadlit_glyph_info_t glyphs[MOST];
    sengadlit_glyph_position_t positions[MOST];
};

/* Shapes the text, and keeps what comes of it. A call that fails leaves the buffer empty, as it was. */
static sengadlit_status_t shape(const sengadlit_face_t *face, const sengadlit_shape_options_t *options,
                                sengadlit_buffer_t *buffer, struct shaped *shaped)
{
    sengadlit_buffer_clear_contents(buffer);
    sengadlit_status_t status = sengadlit_shape_utf32(face, text, (int)length, options, buffer);
    const sengadlit_glyph_info_t *glyphs = sengadlit_buffer_read_glyphs(buffer, &shaped->length);
    const sengadlit_glyph_position_t *positions = sengadlit_buffer_read_positions(buffer, NULL);

    if (status != SENGADLIT_DONE) {
        if ((status != SENGADLIT_TOO_LONG && status != SENGADLIT_STRETCH_OVERFLOW) || shaped->length != 0) abort();
        return status;
    }
    if (shaped->length > MOST || (shaped->length > 0 && !positions)) abort();
    for (unsigned int i = 0; i < shaped->length; i++) {
        if (glyphs[i].glyph_id > 0xFFFF || glyphs[i].cluster >= length) abort();
        shaped->glyphs[i] = glyphs[i];
        shaped->positions[i] = positions[i];
    }
    return status;
}

static void same(const struct shaped *one, const struct shaped *other)
{
    if (one->length != other->length) abort();
    for (unsigned int i = 0; i < one->length; i++) {
        const sengadlit_glyph_info_t *a = &one->glyphs[i], *b = &other->glyphs[i];
        const sengadlit_glyph_position_t *p = &one->positions[i], *q = &other->positions[i];

        if (a->glyph_id != b->glyph_id || a->cluster != b->cluster || a->mask != b->mask) abort();
        if (p->x_advance != q->x_advance || p->y_advance != q->y_advance || p->x_offset != q->x_offset ||
            p->y_offset != q->y_offset)
            abort();
    }
}

/* By a plan of the call's own, by one that is kept, and by that again. */
static void shape_all(const sengadlit_face_t *face)
{
    static struct shaped alone, kept, again;
    sengadlit_user_feature_t features[FEATURES];
    sengadlit_shape_options_t options = SENGADLIT_INIT(sengadlit_shape_options_t);
    sengadlit_buffer_t *buffer = sengadlit_buffer_create();
    sengadlit_plan_cache_t *cache = sengadlit_plan_cache_create();

    if (!buffer || !cache) abort();
    choose_options(&options, features);
    choose_properties(buffer);
    sengadlit_status_t status = shape(face, &options, buffer, &alone);
    (void)sengadlit_buffer_serialize(buffer, face, SENGADLIT_SERIALIZE_FORMAT_TEXT, 0, NULL, 0, NULL);
    options.cache = cache;
    if (shape(face, &options, buffer, &kept) != status || shape(face, &options, buffer, &again) != status) abort();
    if (status == SENGADLIT_DONE) {
        same(&alone, &kept);
        same(&kept, &again);
    }
    sengadlit_plan_cache_destroy(cache);
    sengadlit_buffer_destroy(buffer);
}

int LLVMFuzzerTestOneInput(const uint8_t *data, size_t size)
{
    sengadlit_error_t error;
    const uint8_t *font;
    size_t font_length;

    if (size < CHOICES + 1) return 0;
    bytes = data + 1 + CHOICES;
    left = size - 1 - CHOICES;
    if (data[0] % 4 == 0) {
        font = bytes;
        font_length = left;
    } else {
        spoil();
        font = spoilt;
        font_length = whole_length;
    }
    bytes = data + 1;
    left = CHOICES;
    unsigned int count = sengadlit_face_count(font, font_length);
    sengadlit_face_t *face = sengadlit_face_create(font, font_length, count ? data[0] / 4 % count : 0, NULL, NULL, &error);
    if (!face) {
        if (error.status != SENGADLIT_ARGUMENT) abort();
        return 0;
    }
    choose_text();
    look_up(face);
    shape_all(face);
    sengadlit_face_destroy(face);
    return 0;
}
