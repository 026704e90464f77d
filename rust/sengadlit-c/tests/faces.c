/* faces FONT WORDS: faces, and texts that are shaped in one call, by the repository's sample font and the words beside it, which
   have hb-shape's answers. The last line is 'N passed, M failed'. */
#include "world.h"

#include <stddef.h>
#include <stdio.h>
#include <stdlib.h>
#include <string.h>

static unsigned int passed, failed;

static void check(const char *what, int holds)
{
    if (holds) {
        passed++;
        return;
    }
    printf("FAILED: %s\n", what);
    failed++;
}

/* ---- The font and the words ---- */

enum { LONGEST_LINE = 4096, MOST_WORDS = 256 };

static unsigned char *font_bytes;
static size_t font_length;
static struct { char text[256], wanted[LONGEST_LINE]; } words[MOST_WORDS];
static unsigned int words_length;

static void read_font(const char *path)
{
    FILE *file = fopen(path, "rb");

    font_bytes = malloc(1 << 20);
    if (!file || !font_bytes) exit(EXIT_FAILURE);
    font_length = fread(font_bytes, 1, 1 << 20, file);
    fclose(file);
}

static void read_words(const char *path)
{
    static char line[LONGEST_LINE];
    FILE *file = fopen(path, "r");

    if (!file) exit(EXIT_FAILURE);
    while (words_length < MOST_WORDS && fgets(line, sizeof line, file)) {
        const char *behind = strchr(line, ';');
        if (line[0] == '#' || !behind) continue;
        snprintf(words[words_length].text, sizeof words[0].text, "%.*s", (int)(behind - line), line);
        snprintf(words[words_length++].wanted, sizeof words[0].wanted, "%.*s", (int)strcspn(behind + 1, "\n"), behind + 1);
    }
    fclose(file);
    check("there are words", words_length > 40);
}

/* ---- What is used below ---- */

static sengadlit_face_t *face;
static sengadlit_buffer_t *buffer;
static sengadlit_plan_cache_t *cache;

static sengadlit_shape_options_t no_options(void)
{
    sengadlit_shape_options_t options = SENGADLIT_INIT(sengadlit_shape_options_t);

    return options;
}

static const char *line(void)
{
    static char text[LONGEST_LINE];

    if (sengadlit_buffer_serialize(buffer, face, SENGADLIT_SERIALIZE_FORMAT_TEXT, 0, text, sizeof text, NULL) != SENGADLIT_DONE)
        return "refused";
    return text;
}

static int is_line(const char *wanted)
{
    if (strcmp(line(), wanted) == 0) return 1;
    printf("%s, not %s\n", line(), wanted);
    return 0;
}

/* ---- Faces ---- */

static unsigned int destroyed;

static void destroy(void *user_data) { ++*(unsigned int *)user_data; }

static void refuse_face(const char *what, const void *data, size_t length, unsigned int index, sengadlit_argument_t argument)
{
    sengadlit_error_t error = {SENGADLIT_DONE, SENGADLIT_ARGUMENT_NONE, 7};
    unsigned int count = 0;

    check(what, sengadlit_face_create(data, length, index, &count, destroy, &error) == NULL && count == 1);
    check(what, error.status == SENGADLIT_ARGUMENT && error.argument == argument && error.index == 0);
    check(what, sengadlit_face_create(data, length, index, NULL, NULL, NULL) == NULL);
}

static void try_refused_faces(void)
{
    static const char other[] = "this is no font at all";

    refuse_face("no bytes", NULL, 4, 0, SENGADLIT_ARGUMENT_DATA);
    refuse_face("null, and no bytes", NULL, 0, 0, SENGADLIT_ARGUMENT_DATA);
    refuse_face("a length beyond memory", font_bytes, SIZE_MAX, 0, SENGADLIT_ARGUMENT_DATA);
    refuse_face("no font", other, sizeof other, 0, SENGADLIT_ARGUMENT_DATA);
    refuse_face("a font's first bytes", font_bytes, 40, 0, SENGADLIT_ARGUMENT_DATA);
    refuse_face("a second font", font_bytes, font_length, 1, SENGADLIT_ARGUMENT_INDEX);
    check("fonts in a font", sengadlit_face_count(font_bytes, font_length) == 1);
    check("fonts in nothing", sengadlit_face_count(NULL, 0) + sengadlit_face_count(NULL, 9) + sengadlit_face_count(font_bytes,
              0) == 0);
    check("fonts in no font", sengadlit_face_count(other, sizeof other) == 0);
}

/* Two fonts of one file are the same one here. */
static void try_collections(void)
{
    unsigned char *file = calloc(1, font_length + 32);
    sengadlit_face_t *second;
    uint32_t glyph = 0;

    if (!file) exit(EXIT_FAILURE);
    memcpy(file, "ttcf\0\1\0\0\0\0\0\2\0\0\0\40\0\0\0\40", 20);
    memcpy(file + 32, font_bytes, font_length);
    for (unsigned int i = 0; i < file[32 + 5]; i++) { /* Offsets are from the beginning of the file. */
        unsigned char *offset = file + 32 + 12 + 16 * i + 8;
        uint32_t moved = ((uint32_t)offset[0] << 24 | offset[1] << 16 | offset[2] << 8 | offset[3]) + 32;
        for (unsigned int j = 0; j < 4; j++) offset[j] = (unsigned char)(moved >> (24 - 8 * j));
    }
    check("fonts in a collection", sengadlit_face_count(file, font_length + 32) == 2);
    check("a third one", sengadlit_face_create(file, font_length + 32, 2, NULL, NULL, NULL) == NULL);
    second = sengadlit_face_create(file, font_length + 32, 1, NULL, NULL, NULL);
    check("the second one", second && sengadlit_face_get_nominal_glyph(second, 'T', &glyph) && glyph != 0);
    sengadlit_face_destroy(second);
    free(file);
}

static void try_references(void)
{
    sengadlit_face_t *other = sengadlit_face_create(font_bytes, font_length, 0, &destroyed, destroy, NULL);

    check("a reference", sengadlit_face_reference(other) == other && sengadlit_face_reference(NULL) == NULL);
    check("user data", sengadlit_face_get_user_data(other) == &destroyed && sengadlit_face_get_user_data(NULL) == NULL);
    sengadlit_face_destroy(other);
    check("there is one reference", destroyed == 0);
    sengadlit_face_destroy(other);
    check("there is none", destroyed == 1);
    sengadlit_face_destroy(NULL);
}

/* Without a function that destroys them, the bytes are copied. */
static void try_copies(void)
{
    unsigned char *bytes = malloc(font_length);

    if (!bytes) exit(EXIT_FAILURE);
    memcpy(bytes, font_bytes, font_length);
    face = sengadlit_face_create(bytes, font_length, 0, NULL, NULL, NULL);
    memset(bytes, 0, font_length);
    free(bytes);
    check("a copy", face && sengadlit_face_get_glyph_count(face) > 200 && sengadlit_face_get_units_per_em(face) == 1000);
    check("no axes", !sengadlit_face_is_variable(face) && !sengadlit_face_is_variable(NULL));
}

static void try_glyphs(void)
{
    const sengadlit_font_t *font = sengadlit_face_get_font(face);
    sengadlit_glyph_extents_t box = {0, 0, 0, 0};
    uint32_t glyph = 0, other = 0;
    char name[8] = "???????";

    check("a glyph", sengadlit_face_get_nominal_glyph(face, 'T', &glyph) && glyph != 0);
    check("no glyph", !sengadlit_face_get_nominal_glyph(face, 0x1F600, &other) && other == 0);
    check("beyond Unicode", !sengadlit_face_get_nominal_glyph(face, UINT32_MAX, &other) && other == 0);
    check("no selector", !sengadlit_face_get_variation_glyph(face, 'T', 0xFE00, &other));
    check("into nothing", sengadlit_face_get_nominal_glyph(face, 'T', NULL));
    check("an advance", sengadlit_face_get_glyph_h_advance(face, glyph) == 580);
    check("no advance", sengadlit_face_get_glyph_h_advance(face, 65536) == 0 && sengadlit_face_get_glyph_h_advance(NULL, 1) == 0);
    check("a box", sengadlit_face_get_glyph_extents(face, glyph, &box) && box.width > 0 && box.height < 0 && box.y_bearing > 0);
    check("no box", !sengadlit_face_get_glyph_extents(face, 65536, &box) && !sengadlit_face_get_glyph_extents(NULL, 1, NULL));
    check("a name", sengadlit_face_get_glyph_name(face, glyph, name, sizeof name) && strcmp(name, "T") == 0);
    check("a name's beginning", sengadlit_face_get_nominal_glyph(face, 0x0628, &other) &&
                                    sengadlit_face_get_glyph_name(face, other, name, 4) && strcmp(name, "beh") == 0 &&
                                              name[4] == '?');
    check("no room", sengadlit_face_get_glyph_name(face, glyph, name, 0) && strcmp(name, "beh") == 0);
    check("into no room", sengadlit_face_get_glyph_name(face, glyph, NULL, 9) &&
              !sengadlit_face_get_glyph_name(NULL, 1, name, 8));
    check("no name", !sengadlit_face_get_glyph_name(face, 65535, name, sizeof name));
    check("nobody's", sengadlit_face_get_units_per_em(NULL) + sengadlit_face_get_glyph_count(NULL) == 0);
    check("nobody's glyph", !sengadlit_face_get_nominal_glyph(NULL, 'T', &other) && sengadlit_face_get_font(NULL) == NULL);
    check("its font", font->funcs->nominal_glyph(font->user_data, 'T', &other) && other == glyph);
    check("its widths", font->funcs->glyph_h_advance(font->user_data, glyph) == 580);
    check("its features", font->funcs->has_feature(font->user_data, SENGADLIT_TAG('z', 'z', 'z', 'z')) == 0);
    check("would a lookup", font->funcs->would_substitute(font->user_data, (uint16_t[]){9999}, 1, &glyph, 1, 0) == 0);
}

/* ---- Words ---- */

static void try_words(void)
{
    sengadlit_shape_options_t options = no_options();

    options.cache = cache;
    for (unsigned int i = 0; i < words_length; i++) {
        check(words[i].text, sengadlit_shape_utf8(face, words[i].text, -1, &options, buffer) == SENGADLIT_DONE);
        check(words[i].text, is_line(words[i].wanted) && sengadlit_buffer_is_complete(buffer));
        check(words[i].text, sengadlit_shape_utf8(face, words[i].text, (int)strlen(words[i].text), NULL,
                  buffer) == SENGADLIT_DONE);
        check(words[i].text, is_line(words[i].wanted));
        sengadlit_buffer_reset(buffer);
        check(words[i].text, sengadlit_buffer_add_utf8(buffer, words[i].text, -1, 0, -1) == SENGADLIT_DONE);
        check(words[i].text, sengadlit_shape_buffer(face, &options, buffer) == SENGADLIT_DONE && is_line(words[i].wanted));
    }
    check("plans of five scripts and more", sengadlit_plan_cache_get_length(cache) >= 5);
}

/* A face with tables shapes each word as it did without; a second call, or none of a face, does nothing. */
static void try_prepared(void)
{
    sengadlit_face_prepare(NULL);
    sengadlit_face_prepare(face);
    try_words();
    sengadlit_face_prepare(face);
    try_words();
}

static void try_encodings(void)
{
    static const uint16_t in_16[] = {'T', 'o', 'f', 'i', 0xD800, 0};
    static const uint32_t in_32[] = {'T', 'o', 'f', 'i', 0x110000, 0};
    static const char wanted[] = "[T=0+490|o=1+560|fi=2+520]";

    check("UTF-16", sengadlit_shape_utf16(face, in_16, 4, NULL, buffer) == SENGADLIT_DONE && is_line(wanted));
    check("UTF-32", sengadlit_shape_utf32(face, in_32, 4, NULL, buffer) == SENGADLIT_DONE && is_line(wanted));
    check("UTF-16 to a zero", sengadlit_shape_utf16(face, in_16, -1, NULL, buffer) == SENGADLIT_DONE);
    check("what is no character", sengadlit_buffer_get_length(buffer) == 4);
    check("UTF-32 to a zero", sengadlit_shape_utf32(face, in_32, -1, NULL, buffer) == SENGADLIT_DONE);
    check("nothing", sengadlit_shape_utf8(face, NULL, 0, NULL, buffer) == SENGADLIT_DONE && is_line("[]"));
    check("nothing to read", sengadlit_buffer_get_length(buffer) == 0);
}

/* ---- Properties ---- */

static int has_properties(sengadlit_tag_t script, sengadlit_direction_t direction)
{
    sengadlit_buffer_properties_t found = SENGADLIT_INIT(sengadlit_buffer_properties_t);

    return sengadlit_buffer_get_properties(buffer, &found) == SENGADLIT_DONE && found.script == script &&
              found.direction == direction;
}

static void try_properties(void)
{
    const sengadlit_tag_t latin = SENGADLIT_TAG('L', 'a', 't', 'n'), arabic = SENGADLIT_TAG('A', 'r', 'a', 'b');
    sengadlit_buffer_properties_t properties = SENGADLIT_INIT(sengadlit_buffer_properties_t);
    sengadlit_shape_options_t options = no_options();
    unsigned int length;

    check("Latin", sengadlit_shape_utf8(face, "12 Tof", -1, NULL, buffer) == SENGADLIT_DONE);
    check("Latin is found", has_properties(latin, SENGADLIT_DIRECTION_LTR));
    check("Arabic", sengadlit_shape_utf8(face, "\u0628", -1, NULL, buffer) == SENGADLIT_DONE);
    check("Arabic is found", has_properties(arabic, SENGADLIT_DIRECTION_RTL));
    check("neither", sengadlit_shape_utf8(face, "12", -1, NULL, buffer) == SENGADLIT_DONE);
    check("neither is found", has_properties(0, SENGADLIT_DIRECTION_LTR));
    options.direction = SENGADLIT_DIRECTION_RTL;
    check("turned", sengadlit_shape_utf8(face, "Tu", -1, &options, buffer) == SENGADLIT_DONE && is_line("[u=1+560|T=0+580]"));
    check("turned, as chosen", has_properties(latin, SENGADLIT_DIRECTION_RTL));
    options.direction = SENGADLIT_DIRECTION_INVALID;
    options.script = arabic;
    check("of a script", sengadlit_shape_utf8(face, "Tu", -1, &options, buffer) == SENGADLIT_DONE);
    check("of a script, as chosen", has_properties(arabic, SENGADLIT_DIRECTION_RTL));
    /* Of the buffer: what its text is shaped by, but not the next text. */
    sengadlit_buffer_reset(buffer);
    properties.direction = SENGADLIT_DIRECTION_RTL;
    properties.flags = SENGADLIT_BUFFER_FLAG_PRESERVE_DEFAULT_IGNORABLES;
    check("the buffer's", sengadlit_buffer_set_properties(buffer, &properties) == SENGADLIT_DONE &&
                              sengadlit_buffer_add_utf8(buffer, "T\u200Bu", -1, 0, -1) == SENGADLIT_DONE);
    check("the buffer's, shaped", sengadlit_shape_buffer(face, NULL, buffer) == SENGADLIT_DONE);
    check("the buffer's, kept", has_properties(latin, SENGADLIT_DIRECTION_RTL) && sengadlit_buffer_get_length(buffer) == 3);
    check("the next text's", sengadlit_shape_utf8(face, "T\u200Bu", -1, NULL, buffer) == SENGADLIT_DONE);
    check("the next text's direction", has_properties(latin, SENGADLIT_DIRECTION_LTR));
    (void)sengadlit_buffer_read_positions(buffer, &length);
    check("flags stay", length == 3 && sengadlit_buffer_read_glyphs(buffer, NULL)[1].glyph_id == 0);
    sengadlit_buffer_reset(buffer);
    check("a new buffer's", has_properties(0, SENGADLIT_DIRECTION_INVALID));
}

/* What the options choose comes before what the buffer has. */
static void try_precedence(void)
{
    const sengadlit_buffer_properties_t properties = {sizeof properties, SENGADLIT_TAG('L', 'a', 't', 'n'),
              SENGADLIT_DIRECTION_RTL,
                                                      SENGADLIT_BUFFER_CLUSTER_LEVEL_MONOTONE_GRAPHEMES, 0, 0};
    sengadlit_shape_options_t options = no_options();

    options.direction = SENGADLIT_DIRECTION_LTR;
    options.script = SENGADLIT_TAG('A', 'r', 'a', 'b');
    sengadlit_buffer_reset(buffer);
    check("the buffer's", sengadlit_buffer_set_properties(buffer, &properties) == SENGADLIT_DONE &&
                              sengadlit_buffer_add_utf8(buffer, "fi", -1, 0, -1) == SENGADLIT_DONE);
    check("the options'", sengadlit_shape_buffer(face, &options, buffer) == SENGADLIT_DONE && is_line("[f=0+340|i=1+220]"));
    check("the options', kept", has_properties(options.script, options.direction));
}

/* A context joins: BEH at the end of a word. */
static void try_context(void)
{
    const uint32_t beh = 0x0628;

    sengadlit_buffer_reset(buffer);
    check("BEH", sengadlit_buffer_add_utf8(buffer, "\u0628\u0628", -1, 2, 2) == SENGADLIT_DONE);
    check("BEH, shaped", sengadlit_shape_buffer(face, NULL, buffer) == SENGADLIT_DONE && is_line("[beh-ar.fina=2+760]"));
    sengadlit_buffer_reset(buffer);
    check("a context", sengadlit_buffer_add_utf8(buffer, "\u0628", -1, 0, -1) == SENGADLIT_DONE &&
                           sengadlit_buffer_set_context(buffer, NULL, 0, &beh, 1) == SENGADLIT_DONE);
    check("BEH, begun", sengadlit_shape_buffer(face, NULL, buffer) == SENGADLIT_DONE && is_line("[beh-ar.init=0+280]"));
    sengadlit_buffer_reset(buffer);
    check("a context that goes", sengadlit_buffer_set_context(buffer, NULL, 0, &beh, 1) == SENGADLIT_DONE &&
                                     sengadlit_shape_utf8(face, "\u0628", -1, NULL, buffer) == SENGADLIT_DONE);
    check("BEH alone", is_line("[beh-ar=0+720]"));
    unsigned int before = 7, after = 7;
    check("no context", sengadlit_buffer_get_context(buffer, NULL, &before, NULL, &after) == SENGADLIT_DONE &&
              before + after == 0);
    sengadlit_buffer_set_state(buffer, SENGADLIT_BUFFER_STATE_HAS_BROKEN_SYLLABLE);
    check("no state", sengadlit_shape_utf8(face, "T", -1, NULL, buffer) == SENGADLIT_DONE &&
              sengadlit_buffer_get_state(buffer) == 0);
}

/* What the buffer's level says of the clusters of a letter and a mark. */
static void try_levels(void)
{
    sengadlit_buffer_properties_t properties = SENGADLIT_INIT(sengadlit_buffer_properties_t);

    sengadlit_buffer_reset(buffer);
    check("graphemes", sengadlit_shape_utf8(face, "u\u0323", -1, NULL, buffer) == SENGADLIT_DONE &&
                           sengadlit_buffer_read_glyphs(buffer, NULL)[1].cluster == 0);
    properties.cluster_level = SENGADLIT_BUFFER_CLUSTER_LEVEL_CHARACTERS;
    check("a level", sengadlit_buffer_set_properties(buffer, &properties) == SENGADLIT_DONE);
    check("characters", sengadlit_shape_utf8(face, "u\u0323", -1, NULL, buffer) == SENGADLIT_DONE &&
                            sengadlit_buffer_read_glyphs(buffer, NULL)[1].cluster == 1);
    /* The vowel sign stands before its letters, which keep their clusters: they don't rise. */
    check("Khmer", sengadlit_shape_utf8(face, "\u1781\u17D2\u1798\u17C2", -1, NULL, buffer) == SENGADLIT_DONE);
    check("characters of it", sengadlit_buffer_read_glyphs(buffer, NULL)[0].cluster == 9);
    properties.cluster_level = SENGADLIT_BUFFER_CLUSTER_LEVEL_GRAPHEMES;
    check("another level", sengadlit_buffer_set_properties(buffer, &properties) == SENGADLIT_DONE);
    check("graphemes in any order", sengadlit_shape_utf8(face, "u\u0323", -1, NULL, buffer) == SENGADLIT_DONE &&
                                        sengadlit_buffer_read_glyphs(buffer, NULL)[1].cluster == 0);
}

/* ---- Options ---- */

static int32_t seven(void *user_data, uint32_t glyph) { return (void)user_data, (void)glyph, 7; }

static sengadlit_bool_t first_glyphs(void *user_data, uint32_t unicode, uint32_t *glyph)
{
    (void)user_data;
    *glyph = unicode - 'A';
    return unicode >= 'A' && unicode <= 'Z';
}

/* Shapes a text in the same cache while the call has a plan of it. */
static sengadlit_bool_t shapes_another(void *user_data, uint32_t unicode, uint32_t *glyph)
{
    sengadlit_buffer_t *other = sengadlit_buffer_create();
    sengadlit_shape_options_t options = no_options();

    options.cache = user_data;
    check("another text", sengadlit_shape_utf8(face, "To", -1, &options, other) == SENGADLIT_DONE);
    check("its own text", sengadlit_shape_utf8(face, "To", -1, &options, buffer) == SENGADLIT_IN_CALL);
    sengadlit_buffer_destroy(other);
    return sengadlit_face_get_nominal_glyph(face, unicode, glyph);
}

static void try_fonts(void)
{
    sengadlit_font_funcs_t funcs = SENGADLIT_INIT(sengadlit_font_funcs_t);
    const sengadlit_font_t font = {&funcs, NULL}, none = {NULL, NULL}, of_cache = {&funcs, cache};
    sengadlit_shape_options_t options = no_options();

    options.font = &none;
    check("no functions", sengadlit_shape_utf8(face, "Tu", -1, &options, buffer) == SENGADLIT_DONE &&
              is_line("[T=0+580|u=1+560]"));
    options.font = &font;
    check("none of them", sengadlit_shape_utf8(face, "Tu", -1, &options, buffer) == SENGADLIT_DONE &&
              is_line("[T=0+580|u=1+560]"));
    funcs.glyph_h_advance = seven;
    check("other widths", sengadlit_shape_utf8(face, "Tu", -1, &options, buffer) == SENGADLIT_DONE && is_line("[T=0+7|u=1+7]"));
    check("lookups are the face's", sengadlit_shape_utf8(face, "fi", -1, &options, buffer) == SENGADLIT_DONE &&
              is_line("[fi=0+7]"));
    funcs.glyph_h_advance = NULL;
    funcs.nominal_glyph = first_glyphs;
    check("other glyphs", sengadlit_shape_utf8(face, "B", -1, &options, buffer) == SENGADLIT_DONE &&
                              sengadlit_buffer_read_glyphs(buffer, NULL)[0].glyph_id == 1);
    funcs.nominal_glyph = shapes_another;
    options.font = &of_cache;
    options.cache = cache;
    check("called back", sengadlit_shape_utf8(face, "Tofi", -1, &options, buffer) == SENGADLIT_DONE);
    check("called back, shaped", is_line("[T=0+490|o=1+560|fi=2+520]"));
}

/* A glyph of vertical text stands in the middle of the width that is used. */
static void try_vertical(void)
{
    sengadlit_font_funcs_t funcs = SENGADLIT_INIT(sengadlit_font_funcs_t);
    const sengadlit_font_t font = {&funcs, NULL};
    sengadlit_shape_options_t options = no_options();

    options.direction = SENGADLIT_DIRECTION_TTB;
    check("downwards", sengadlit_shape_utf8(face, "T", -1, &options, buffer) == SENGADLIT_DONE);
    check("in the middle", sengadlit_buffer_read_positions(buffer, NULL)[0].x_offset == -290);
    check("a step downwards", sengadlit_buffer_read_positions(buffer, NULL)[0].y_advance < 0);
    funcs.glyph_h_advance = seven;
    options.font = &font;
    check("by another width", sengadlit_shape_utf8(face, "T", -1, &options, buffer) == SENGADLIT_DONE);
    check("in its middle", sengadlit_buffer_read_positions(buffer, NULL)[0].x_offset == -3);
}

/* Letters of Syriac join, also in a font that has none of them. */
static void try_sound_breaks(void)
{
    sengadlit_shape_options_t options = no_options();

    check("as HarfBuzz", sengadlit_shape_utf8(face, "\u0759\u0710", -1, &options, buffer) == SENGADLIT_DONE &&
                             (sengadlit_buffer_read_glyphs(buffer, NULL)[0].mask & SENGADLIT_GLYPH_FLAG_UNSAFE_TO_BREAK) == 0);
    options.sound_breaks = 1;
    check("sound", sengadlit_shape_utf8(face, "\u0759\u0710", -1, &options, buffer) == SENGADLIT_DONE &&
                       (sengadlit_buffer_read_glyphs(buffer, NULL)[0].mask & SENGADLIT_GLYPH_FLAG_UNSAFE_TO_BREAK) != 0);
}

static void try_features(void)
{
    const sengadlit_user_feature_t no_ligature = {SENGADLIT_TAG('l', 'i', 'g', 'a'), 0, 0, UINT32_MAX};
    const sengadlit_user_feature_t of_first = {SENGADLIT_TAG('l', 'i', 'g', 'a'), 0, 0, 2};
    sengadlit_shape_options_t options = no_options();

    options.features = &no_ligature;
    options.features_length = 1;
    check("no ligature", sengadlit_shape_utf8(face, "fifi", -1, &options, buffer) == SENGADLIT_DONE &&
              sengadlit_buffer_get_length(buffer) == 4);
    options.features = &of_first;
    check("one ligature", sengadlit_shape_utf8(face, "fifi", -1, &options, buffer) == SENGADLIT_DONE &&
              sengadlit_buffer_get_length(buffer) == 3);
}

/* The private part of a tag names the script of which a font's features are taken: that of Arabic has no ligature of f and i. */
static void try_languages(void)
{
    sengadlit_shape_options_t options = no_options();

    options.cache = cache;
    sengadlit_plan_cache_clear(cache);
    options.language = "sr_RS.UTF-8";
    check("Serbian", sengadlit_shape_utf8(face, "fi", -1, &options, buffer) == SENGADLIT_DONE && is_line("[fi=0+520]"));
    options.language = "sr-RS\xFF";
    check("the same", sengadlit_shape_utf8(face, "fi", -1, &options, buffer) == SENGADLIT_DONE && is_line("[fi=0+520]"));
    check("by one plan", sengadlit_plan_cache_get_length(cache) == 1);
    options.language = "x-hbscarab";
    check("of a script", sengadlit_shape_utf8(face, "fi", -1, &options, buffer) == SENGADLIT_DONE &&
              is_line("[f=0+340|i=1+220]"));
    check("by another plan", sengadlit_plan_cache_get_length(cache) == 2);
}

static void try_replaced_glyphs(void)
{
    sengadlit_shape_options_t options = no_options();

    options.not_found_glyph = 5;
    options.invisible_glyph = 6;
    options.not_found_selector_glyph = 7;
    check("replaced", sengadlit_shape_utf8(face, "\U0001F600\u200BT\uFE00", -1, &options, buffer) == SENGADLIT_DONE);
    const sengadlit_glyph_info_t *found = sengadlit_buffer_read_glyphs(buffer, NULL);
    check("by these", sengadlit_buffer_get_length(buffer) == 4 && found[0].glyph_id == 5 && found[1].glyph_id == 6 &&
              found[3].glyph_id == 7);
}

static void try_cache(void)
{
    sengadlit_user_feature_t feature = {SENGADLIT_TAG('s', 's', '0', '1'), 1, 0, UINT32_MAX};
    sengadlit_shape_options_t options = no_options();
    sengadlit_face_t *other = sengadlit_face_create(font_bytes, font_length, 0, NULL, NULL, NULL);

    sengadlit_plan_cache_clear(cache);
    options.cache = cache;
    for (unsigned int i = 0; i < 3; i++)
        check("a plan", sengadlit_shape_utf8(face, "To", -1, &options, buffer) == SENGADLIT_DONE &&
                  sengadlit_plan_cache_get_length(cache) == 1);
    check("another face's", sengadlit_shape_utf8(other, "To", -1, &options, buffer) == SENGADLIT_DONE &&
              sengadlit_plan_cache_get_length(cache) == 2);
    sengadlit_face_destroy(other);
    options.sound_breaks = 1;
    check("another choice's", sengadlit_shape_utf8(face, "To", -1, &options, buffer) == SENGADLIT_DONE &&
              sengadlit_plan_cache_get_length(cache) == 3);
    options.features = &feature;
    options.features_length = 1;
    for (feature.value = 1; feature.value <= 70; feature.value++)
        check("many plans", sengadlit_shape_utf8(face, "To", -1, &options, buffer) == SENGADLIT_DONE &&
                  is_line("[T=0+490|o=1+560]"));
    check("as many as are kept", sengadlit_plan_cache_get_length(cache) == 64);
    sengadlit_plan_cache_clear(cache);
    check("none", sengadlit_plan_cache_get_length(cache) == 0 && sengadlit_plan_cache_get_length(NULL) == 0);
    sengadlit_plan_cache_clear(NULL);
    sengadlit_plan_cache_destroy(NULL);
}

/* ---- What is refused leaves the buffer as it was ---- */

static void refuse(const char *what, sengadlit_status_t found, sengadlit_status_t status, sengadlit_argument_t argument)
{
    sengadlit_error_t error;

    sengadlit_buffer_get_error(buffer, &error);
    check(what, found == status && error.status == status && error.argument == argument);
    check(what, is_line("[T=0+490|o=1+560|fi=2+520]") &&
              has_properties(SENGADLIT_TAG('L', 'a', 't', 'n'), SENGADLIT_DIRECTION_LTR));
    check(what, sengadlit_buffer_get_content_type(buffer) == SENGADLIT_BUFFER_CONTENT_TYPE_GLYPHS &&
              sengadlit_buffer_is_complete(buffer));
}

#define REFUSES(what, argument) \
    refuse(what, sengadlit_shape_utf8(face, "x", -1, &options, buffer), SENGADLIT_ARGUMENT, SENGADLIT_ARGUMENT_##argument)

static void try_refusals(void)
{
    struct { sengadlit_shape_options_t known; uint64_t later; } later = {no_options(), 0};
    sengadlit_font_funcs_t funcs = {0, NULL, seven, NULL, NULL};
    const sengadlit_font_t font = {&funcs, NULL};
    sengadlit_shape_options_t options = no_options();
    sengadlit_buffer_properties_t properties = SENGADLIT_INIT(sengadlit_buffer_properties_t);

    sengadlit_buffer_reset(buffer);
    properties.max_length = 4;
    check("a greatest length", sengadlit_buffer_set_properties(buffer, &properties) == SENGADLIT_DONE);
    check("a text", sengadlit_shape_utf8(face, "Tofi", -1, NULL, buffer) == SENGADLIT_DONE);
    refuse("too long", sengadlit_shape_utf8(face, "Tofix", -1, NULL, buffer), SENGADLIT_TOO_LONG, SENGADLIT_ARGUMENT_NONE);
    refuse("no face", sengadlit_shape_utf8(NULL, "x", -1, NULL, buffer), SENGADLIT_ARGUMENT, SENGADLIT_ARGUMENT_FACE);
    refuse("no text", sengadlit_shape_utf8(face, NULL, -1, NULL, buffer), SENGADLIT_ARGUMENT, SENGADLIT_ARGUMENT_TEXT);
    refuse("no text of a length", sengadlit_shape_utf16(face, NULL, 3, NULL, buffer), SENGADLIT_ARGUMENT,
              SENGADLIT_ARGUMENT_TEXT);
    refuse("no length", sengadlit_shape_utf32(face, NULL, -2, NULL, buffer), SENGADLIT_ARGUMENT, SENGADLIT_ARGUMENT_RANGE);
    refuse("glyphs", sengadlit_shape_buffer(face, NULL, buffer), SENGADLIT_ARGUMENT, SENGADLIT_ARGUMENT_CONTENT);
    refuse("glyphs, and no face", sengadlit_shape_buffer(NULL, NULL, buffer), SENGADLIT_ARGUMENT, SENGADLIT_ARGUMENT_FACE);
    check("no buffer", sengadlit_shape_utf8(face, "x", -1, NULL, NULL) == SENGADLIT_ARGUMENT &&
                           sengadlit_shape_buffer(face, NULL, NULL) == SENGADLIT_ARGUMENT);
    options.size = 0;
    REFUSES("no size", OPTIONS);
    options.size = offsetof(sengadlit_shape_options_t, old_spec_zero_context) - 1;
    REFUSES("a size of none", OPTIONS);
    options.size = offsetof(sengadlit_shape_options_t, old_spec_zero_context);
    options.old_spec_zero_context = 1;
    check("an earlier header", sengadlit_shape_utf8(face, "Tofi", -1, &options, buffer) == SENGADLIT_DONE);
    options = no_options();
    options.direction = (sengadlit_direction_t)3;
    REFUSES("no direction", DIRECTION);
    options = no_options();
    options.language = "";
    REFUSES("a language without a character", LANGUAGE);
    options.language = "\xFFsr";
    REFUSES("no language", LANGUAGE);
    options.language = "a-language-of-more-than-sixty-three-characters-which-is-too-many-xx";
    REFUSES("a long language", LANGUAGE);
    options = no_options();
    options.features_length = 1;
    REFUSES("no features", FEATURES);
    options = no_options();
    options.font = &font;
    REFUSES("functions without a size", FONT);
    options = no_options();
    options.invisible_glyph = 65536;
    REFUSES("no invisible glyph", OPTIONS);
    options = no_options();
    options.not_found_glyph = 65536;
    REFUSES("no glyph for what isn't found", OPTIONS);
    options = no_options();
    options.not_found_selector_glyph = UINT32_MAX;
    REFUSES("no glyph for selectors", OPTIONS);
    later.known.size = sizeof later;
    later.later = 1;
    refuse("what only a later header has", sengadlit_shape_utf8(face, "x", -1, &later.known, buffer), SENGADLIT_ARGUMENT,
           SENGADLIT_ARGUMENT_OPTIONS);
    later.later = 0;
    check("a later header", sengadlit_shape_utf8(face, "T", -1, &later.known, buffer) == SENGADLIT_DONE && is_line("[T=0+580]"));
    sengadlit_buffer_reset(buffer);
    check("positions", sengadlit_buffer_add_utf8(buffer, "To", -1, 0, -1) == SENGADLIT_DONE &&
              sengadlit_buffer_get_glyph_positions(buffer, NULL));
    check("positions are refused", sengadlit_shape_buffer(face, NULL, buffer) == SENGADLIT_ARGUMENT);
    sengadlit_buffer_set_length(buffer, 3)[2].glyph_id = 0xD800;
    check("no character", sengadlit_shape_buffer(face, NULL, buffer) == SENGADLIT_ARGUMENT);
}

/* ---- Edits ---- */

/* What the buffer has, with flags. */
static void keep_line(char *to)
{
    check("flags", sengadlit_buffer_serialize(buffer, face, SENGADLIT_SERIALIZE_FORMAT_TEXT, SENGADLIT_SERIALIZE_FLAG_GLYPH_FLAGS, to,
                                              LONGEST_LINE, NULL) == SENGADLIT_DONE);
}

/* A text, and what an edit makes of it: the glyphs are those of the new text, shaped whole. */
static void expect_edit(const char *before, const char *after, unsigned int start, unsigned int old_end, unsigned int new_end)
{
    static char found[LONGEST_LINE], wanted[LONGEST_LINE];
    sengadlit_shape_options_t options = no_options();
    unsigned int again_start = 77, again_end = 77;

    options.normalizes_always = 1;
    options.cache = cache;
    check(after, sengadlit_shape_utf8(face, before, -1, &options, buffer) == SENGADLIT_DONE);
    check(after, sengadlit_reshape_utf8(face, after, -1, start, old_end, new_end, &options, buffer, &again_start,
                                        &again_end) == SENGADLIT_DONE);
    check(after, again_start <= start && new_end <= again_end && again_end <= strlen(after));
    check(after, sengadlit_buffer_is_complete(buffer));
    keep_line(found);
    check(after, sengadlit_shape_utf8(face, after, -1, &options, buffer) == SENGADLIT_DONE);
    keep_line(wanted);
    check(after, strcmp(found, wanted) == 0);
}

/* Each word behind the word before it, and typed into the middle of a line. */
static void try_edits(void)
{
    static char line_before[1024], line_after[1024];

    sengadlit_buffer_reset(buffer);
    for (unsigned int i = 1; i < words_length; i++) {
        unsigned int length = (unsigned int)strlen(words[i].text), front = (unsigned int)strlen(words[i - 1].text) + 1;
        snprintf(line_before, sizeof line_before, "%s %s %s", words[i - 1].text, words[i].text, words[i - 1].text);
        snprintf(line_after, sizeof line_after, "%s %s%s %s", words[i - 1].text, words[i].text, words[i].text, words[i - 1].text);
        expect_edit(line_before, line_after, front, front, front + length);
        expect_edit(line_after, line_before, front, front + length, front);
    }
    expect_edit("", "Tofi", 0, 0, 4);
    expect_edit("12", "1\u06282", 1, 1, 3);
    expect_edit("Tofi", "", 0, 4, 0);
}

static void try_edits_of_units(void)
{
    static const uint16_t wide[] = {'T', 'o', 'f', 'f', 'i', ' ', 'T', 'o', 0xD83D, 0xDE00, 'T', 0};
    static const uint32_t widest[] = {0x628, 0x20, 0x628, 0x628, 0};
    sengadlit_buffer_properties_t properties = SENGADLIT_INIT(sengadlit_buffer_properties_t);
    static char found[LONGEST_LINE], wanted[LONGEST_LINE];
    unsigned int start, end;

    check("units of 16 bits", sengadlit_shape_utf16(face, wide, 10, NULL, buffer) == SENGADLIT_DONE &&
              sengadlit_reshape_utf16(face, wide, -1, 10, 10, 11, NULL, buffer, &start, &end) == SENGADLIT_DONE);
    keep_line(found);
    check("units of 16 bits", end == 11 && sengadlit_shape_utf16(face, wide, -1, NULL, buffer) == SENGADLIT_DONE);
    keep_line(wanted);
    check("units of 16 bits", strcmp(found, wanted) == 0);
    /* In a context, which stays. */
    sengadlit_buffer_clear_contents(buffer);
    check("an item", sengadlit_buffer_add_utf8(buffer, "\u0628\u0628\u0628", 6, 2, 2) == SENGADLIT_DONE);
    properties.script = SENGADLIT_TAG('A', 'r', 'a', 'b');
    properties.direction = SENGADLIT_DIRECTION_RTL;
    check("an item's properties", sengadlit_buffer_set_properties(buffer, &properties) == SENGADLIT_DONE);
    sengadlit_buffer_get_glyph_infos(buffer, NULL)[0].cluster = 0;
    check("an item, shaped", sengadlit_shape_buffer(face, NULL, buffer) == SENGADLIT_DONE && is_line("[beh-ar.medi=0+320]"));
    check("an item's edit", sengadlit_reshape_utf32(face, widest, -1, 1, 1, 4, NULL, buffer, NULL, NULL) == SENGADLIT_DONE);
    check("the context counts", is_line("[beh-ar.medi=3+320|beh-ar.init=2+280|space=1+250|beh-ar.fina=0+760]"));
    /* Clusters in any order. */
    sengadlit_buffer_reset(buffer);
    properties = (sengadlit_buffer_properties_t)SENGADLIT_INIT(sengadlit_buffer_properties_t);
    properties.cluster_level = SENGADLIT_BUFFER_CLUSTER_LEVEL_CHARACTERS;
    check("a level", sengadlit_buffer_set_properties(buffer, &properties) == SENGADLIT_DONE);
    check("any order", sengadlit_shape_utf8(face, "Tofi Tofi Tofi Tofi", -1, NULL, buffer) == SENGADLIT_DONE &&
              sengadlit_reshape_utf8(face, "Tofi Tofi Tofi Tof", -1, 18, 19, 18, NULL, buffer, &start, &end) == SENGADLIT_DONE &&
              start == 0 && end == 18);
}

#define REFUSES_EDIT(what, text, start, old_end, new_end, argument) \
    refuse(what, sengadlit_reshape_utf8(face, text, -1, start, old_end, new_end, &options, buffer, NULL, NULL), SENGADLIT_ARGUMENT, \
           SENGADLIT_ARGUMENT_##argument)

static void try_refused_edits(void)
{
    sengadlit_shape_options_t options = no_options();
    sengadlit_buffer_properties_t properties = SENGADLIT_INIT(sengadlit_buffer_properties_t);
    unsigned int start = 77, end = 77;

    sengadlit_buffer_reset(buffer);
    properties.max_length = 4;
    check("a greatest length", sengadlit_buffer_set_properties(buffer, &properties) == SENGADLIT_DONE);
    check("no text of glyphs", sengadlit_reshape_utf8(face, "x", -1, 0, 0, 1, NULL, buffer, NULL, NULL) == SENGADLIT_ARGUMENT);
    check("a text", sengadlit_shape_utf8(face, "Tofi", -1, NULL, buffer) == SENGADLIT_DONE);
    REFUSES_EDIT("an end before the start", "Tofix", 4, 3, 5, RANGE);
    REFUSES_EDIT("a new end before the start", "Tofix", 4, 4, 3, RANGE);
    REFUSES_EDIT("an end behind the text", "Tofix", 4, 4, 6, RANGE);
    REFUSES_EDIT("no text", NULL, 0, 0, 0, TEXT);
    options.direction = SENGADLIT_DIRECTION_RTL;
    REFUSES_EDIT("another direction", "Tofx", 3, 4, 4, OPTIONS);
    options = no_options();
    options.script = SENGADLIT_TAG('C', 'y', 'r', 'l');
    REFUSES_EDIT("another script", "Tofx", 3, 4, 4, OPTIONS);
    options.size = 0;
    REFUSES_EDIT("no size", "Tofix", 4, 4, 5, OPTIONS);
    refuse("no face", sengadlit_reshape_utf8(NULL, "Tofix", -1, 4, 4, 5, NULL, buffer, NULL, NULL), SENGADLIT_ARGUMENT,
           SENGADLIT_ARGUMENT_FACE);
    refuse("too long", sengadlit_reshape_utf8(face, "Tofixxx", -1, 4, 4, 7, NULL, buffer, &start, &end), SENGADLIT_TOO_LONG,
           SENGADLIT_ARGUMENT_NONE);
    check("nothing is told", start == 77 && end == 77);
    check("no buffer", sengadlit_reshape_utf8(face, "x", -1, 0, 0, 1, NULL, NULL, NULL, NULL) == SENGADLIT_ARGUMENT);
    sengadlit_buffer_reset(buffer);
}

/* ---- In an array that is lent ---- */

static sengadlit_glyph_info_t array[8];

static void try_lent(void)
{
    unsigned int length, room;

    sengadlit_buffer_reset(buffer);
    check("lent", sengadlit_buffer_lend(buffer, array, 0, 8) == SENGADLIT_DONE);
    check("lent, shaped", sengadlit_shape_utf8(face, "Tofi", -1, NULL, buffer) == SENGADLIT_DONE &&
              is_line("[T=0+490|o=1+560|fi=2+520]"));
    check("in the array", sengadlit_buffer_read_glyphs(buffer, NULL) == array);
    check("edited", sengadlit_reshape_utf8(face, "TofiTo", -1, 4, 4, 6, NULL, buffer, NULL, NULL) == SENGADLIT_DONE &&
              is_line("[T=0+490|o=1+560|fi=2+520|T=4+490|o=5+560]"));
    check("edited in the array", sengadlit_buffer_read_glyphs(buffer, NULL) == array);
    check("edited beyond the array", sengadlit_reshape_utf8(face, "TofiToTTTTT", -1, 6, 6, 11, NULL, buffer, NULL,
              NULL) == SENGADLIT_DONE && sengadlit_buffer_get_length(buffer) == 10);
    check("longer than the array", sengadlit_shape_utf8(face, "TTTTTTTTT", -1, NULL, buffer) == SENGADLIT_DONE &&
              sengadlit_buffer_get_length(buffer) == 9);
    check("given back", sengadlit_buffer_give_back(buffer, &length, &room) != array && length == 9 && room == 0);
    check("lent again", sengadlit_buffer_lend(buffer, array, 0, 8) == SENGADLIT_DONE &&
                            sengadlit_shape_utf8(face, "To", -1, NULL, buffer) == SENGADLIT_DONE);
    check("given back again", sengadlit_buffer_give_back(buffer, &length, &room) == array && length == 2 && room == 8);
    check("what is given back", array[0].cluster == 0 && array[1].cluster == 1);
}

/* ---- Spoilt fonts ---- */

static uint32_t at_random(uint32_t *state)
{
    *state = *state * 1664525 + 1013904223;
    return *state >> 8;
}

static int may_end(sengadlit_status_t status)
{
    return status == SENGADLIT_DONE || status == SENGADLIT_TOO_LONG || status == SENGADLIT_STRETCH_OVERFLOW;
}

static void try_spoilt(unsigned int rounds)
{
    unsigned char *bytes = malloc(font_length);
    unsigned int made = 0;
    uint32_t state = 1;

    if (!bytes) exit(EXIT_FAILURE);
    for (unsigned int i = 0; i < rounds; i++) {
        memcpy(bytes, font_bytes, font_length);
        for (unsigned int j = at_random(&state) % 40 + 1; j > 0; j--)
            bytes[at_random(&state) % font_length] = (unsigned char)(at_random(&state) % 4 == 0 ? 0xFF : at_random(&state));
        sengadlit_face_t *spoilt = sengadlit_face_create(bytes, i % 10 == 0 ? at_random(&state) % font_length : font_length, 0,
                                                         &destroyed, destroy, NULL);
        for (unsigned int j = 0; spoilt && j < 5; j++) {
            if (j == 2) sengadlit_face_prepare(spoilt);
            const char *text = words[at_random(&state) % words_length].text;
            check("a spoilt font", may_end(sengadlit_shape_utf8(spoilt, text, -1, NULL, buffer)));
        }
        made += spoilt != NULL;
        sengadlit_face_destroy(spoilt);
    }
    check("most spoilt fonts are fonts", made > rounds / 2);
    free(bytes);
}

int main(int argc, char **argv)
{
    if (argc < 3) return EXIT_FAILURE;
    read_font(argv[1]);
    read_words(argv[2]);
    buffer = sengadlit_buffer_create();
    cache = sengadlit_plan_cache_create();
    try_refused_faces();
    try_collections();
    try_references();
    try_copies();
    try_glyphs();
    try_words();
    try_prepared();
    try_encodings();
    try_properties();
    try_precedence();
    try_context();
    try_levels();
    try_fonts();
    try_vertical();
    try_sound_breaks();
    try_features();
    try_languages();
    try_replaced_glyphs();
    try_cache();
    try_refusals();
    try_edits();
    try_edits_of_units();
    try_refused_edits();
    try_lent();
    try_spoilt(argc > 3 ? (unsigned int)atoi(argv[3]) : 300);
    sengadlit_plan_cache_destroy(cache);
    sengadlit_buffer_destroy(buffer);
    sengadlit_face_destroy(face);
    free(font_bytes);
    printf("%u passed, %u failed\n", passed, failed);
    return failed == 0 ? EXIT_SUCCESS : EXIT_FAILURE;
}
