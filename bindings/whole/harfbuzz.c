/* Shapes the lines of a file with HarfBuzz: harfbuzz FONT TEXTS TIMES HOW SCRIPT DIRECTION. */
#include <hb.h>
#include <limits.h>
#include <stdio.h>
#include <stdlib.h>
#include <string.h>

static char *read_texts(const char *path)
{
    FILE *file = fopen(path, "rb");
    if (!file || fseek(file, 0, SEEK_END))
        return NULL;
    long size = ftell(file);
    char *text = size < 0 ? NULL : calloc((size_t)size + 1, 1);
    rewind(file);
    if (text && fread(text, 1, (size_t)size, file) != (size_t)size)
        text = NULL;
    fclose(file);
    return text;
}

static const char *shapers[] = {"ot", NULL};

/* What the texts are shaped with, and how. */
struct shaping {
    const char *how;
    hb_segment_properties_t properties;
    hb_font_t *font;
    hb_shape_plan_t *plan;
    hb_buffer_t *buffer;
};

/* Shapes a buffer with the plan that is kept, with one that HarfBuzz keeps, or with a new one. */
static void shape(struct shaping *with)
{
    if (!strcmp(with->how, "kept")) {
        hb_shape_plan_execute(with->plan, with->font, with->buffer, NULL, 0);
    } else if (!strcmp(with->how, "anew")) {
        hb_face_t *face = hb_font_get_face(with->font);
        hb_shape_plan_t *own = hb_shape_plan_create(face, &with->properties, NULL, 0, shapers);
        hb_shape_plan_execute(own, with->font, with->buffer, NULL, 0);
        hb_shape_plan_destroy(own);
    } else {
        hb_shape_full(with->font, with->buffer, NULL, 0, shapers);
    }
}

/* Adds up the numbers of the glyphs of so many lines. */
static unsigned long long shape_lines(struct shaping *with, const char *texts, int lines)
{
    unsigned long long sum = 0;
    for (const char *line = texts; *line && lines > 0; lines--) {
        size_t length = strcspn(line, "\n");
        if (strcmp(with->how, "kept")) {
            hb_buffer_destroy(with->buffer);
            with->buffer = hb_buffer_create();
        }
        hb_buffer_clear_contents(with->buffer);
        hb_buffer_set_segment_properties(with->buffer, &with->properties);
        hb_buffer_add_utf8(with->buffer, line, (int)length, 0, (int)length);
        shape(with);
        unsigned count;
        hb_glyph_info_t *glyphs = hb_buffer_get_glyph_infos(with->buffer, &count);
        for (unsigned i = 0; i < count; i++)
            sum += glyphs[i].codepoint;
        line += length + (line[length] == '\n');
    }
    return sum;
}

/* Makes the font of these bytes. */
static void open_font(struct shaping *with, hb_blob_t *blob)
{
    hb_face_t *face = hb_face_create(blob, 0);
    with->font = hb_font_create(face);
    hb_face_destroy(face);
}

int main(int argc, char **argv)
{
    if (argc != 7) {
        fputs("usage: harfbuzz FONT TEXTS TIMES anew|cache|first|kept SCRIPT ltr|rtl\n", stderr);
        return 2;
    }
    hb_blob_t *blob = hb_blob_create_from_file(argv[1]);
    char *texts = read_texts(argv[2]);
    if (!texts)
        return 2;
    struct shaping with = {.how = argv[4], .properties = HB_SEGMENT_PROPERTIES_DEFAULT};
    with.properties.script = hb_script_from_string(argv[5], -1);
    with.properties.direction = hb_direction_from_string(argv[6], -1);
    with.buffer = hb_buffer_create();
    unsigned long long sum = 0;
    if (!strcmp(with.how, "first")) {
        for (int time = 0; time < atoi(argv[3]); time++) {
            open_font(&with, blob);
            sum += shape_lines(&with, texts, 10);
            hb_font_destroy(with.font);
        }
    } else {
        open_font(&with, blob);
        with.plan = hb_shape_plan_create(hb_font_get_face(with.font), &with.properties, NULL, 0, shapers);
        for (int time = 0; time < atoi(argv[3]); time++)
            sum += shape_lines(&with, texts, INT_MAX);
    }
    printf("%llu\n", sum);
    return 0;
}
