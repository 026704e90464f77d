/* What HarfBuzz says of a font, for checks/fonts: `fonts_harfbuzz FONT INDEX` writes words of 32 bits, in the machine's
   order, to standard output.

       version, a word for each of its three numbers; how many fonts the file has; 0 where it is no font, and nothing follows
       units of an em, how many glyphs
       the ascender and the descender of a line
       the glyph of each character from 0 to 10FFFF, NONE where there is none
       for each selector: the selector, how far apart its characters are, and the glyph of each with it
       NONE
       whether boxes, whether vertical origins, and whether names can be compared
       for each glyph, its number, and: both advances, both numbers of its vertical origin, its class, whether it has a box and
       the box's four numbers, and its name: how many bytes, and four of them in a word
       NONE

   Origins and boxes are compared where the outlines are those of `glyf` alone: no bitmaps and no colours. */

#include <hb-ot.h>
#include <hb.h>
#include <stdbool.h>
#include <stdint.h>
#include <stdio.h>
#include <stdlib.h>
#include <string.h>

#define NONE UINT32_MAX
#define CHARACTERS 0x110000u
#define GLYPHS 0x10000u
/* Of a selector that the font doesn't have, one character of so many is tried. */
#define APART 251u

static void put(uint32_t word) {
    if (fwrite(&word, sizeof word, 1, stdout) != 1) {
        perror("standard output");
        exit(2);
    }
}

static bool has_table(hb_face_t *face, hb_tag_t tag) {
    hb_blob_t *table = hb_face_reference_table(face, tag);
    bool has = hb_blob_get_length(table) > 0;
    hb_blob_destroy(table);
    return has;
}

/* Whether `post` is of format 1 or 2: HarfBuzz takes names from other tables too. */
static bool has_names(hb_face_t *face) {
    hb_blob_t *post = hb_face_reference_table(face, HB_TAG('p', 'o', 's', 't'));
    unsigned int length;
    const char *bytes = hb_blob_get_data(post, &length);
    bool has = length >= 32 && (memcmp(bytes, "\0\1\0\0", 4) == 0 || memcmp(bytes, "\0\2\0\0", 4) == 0);
    hb_blob_destroy(post);
    return has;
}

static void put_characters(hb_font_t *font) {
    for (hb_codepoint_t c = 0; c < CHARACTERS; c++) {
        hb_codepoint_t glyph;
        put(hb_font_get_nominal_glyph(font, c, &glyph) ? glyph : NONE);
    }
}

static void put_selector(hb_font_t *font, hb_codepoint_t selector, uint32_t apart) {
    put(selector);
    put(apart);
    for (hb_codepoint_t c = 0; c < CHARACTERS; c += apart) {
        hb_codepoint_t glyph;
        put(hb_font_get_variation_glyph(font, c, selector, &glyph) ? glyph : NONE);
    }
}

/* Each selector that the font has with all characters, and Unicode's others with some. */
static void put_selectors(hb_font_t *font) {
    hb_set_t *selectors = hb_set_create();
    hb_face_collect_variation_selectors(hb_font_get_face(font), selectors);
    hb_codepoint_t selector = HB_SET_VALUE_INVALID;
    while (hb_set_next(selectors, &selector))
        put_selector(font, selector, 1);
    const hb_codepoint_t ranges[][2] = {{0x180B, 0x180F}, {0xFE00, 0xFE0F}, {0xE0100, 0xE01EF}};
    for (size_t i = 0; i < sizeof ranges / sizeof *ranges; i++)
        for (selector = ranges[i][0]; selector <= ranges[i][1]; selector++)
            if (!hb_set_has(selectors, selector))
                put_selector(font, selector, APART);
    put(NONE);
    hb_set_destroy(selectors);
}

static void put_box(hb_font_t *font, hb_codepoint_t glyph) {
    hb_glyph_extents_t box = {0, 0, 0, 0};
    put(hb_font_get_glyph_extents(font, glyph, &box));
    put((uint32_t)box.x_bearing);
    put((uint32_t)box.y_bearing);
    put((uint32_t)box.width);
    put((uint32_t)box.height);
}

static void put_name(hb_font_t *font, hb_codepoint_t glyph) {
    char name[256] = {0};
    if (!hb_font_get_glyph_name(font, glyph, name, sizeof name))
        name[0] = 0;
    size_t length = strlen(name);
    put((uint32_t)length);
    if (length > 0 && fwrite(name, 4, (length + 3) / 4, stdout) != (length + 3) / 4)
        exit(2);
}

static void put_glyph(hb_font_t *font, hb_codepoint_t glyph, bool boxes, bool names) {
    hb_position_t x, y;
    put(glyph);
    put((uint32_t)hb_font_get_glyph_h_advance(font, glyph));
    put((uint32_t)hb_font_get_glyph_v_advance(font, glyph));
    hb_font_get_glyph_v_origin(font, glyph, &x, &y);
    put((uint32_t)x);
    put((uint32_t)y);
    put(hb_ot_layout_get_glyph_class(hb_font_get_face(font), glyph));
    if (boxes)
        put_box(font, glyph);
    if (names)
        put_name(font, glyph);
}

static void put_glyphs(hb_font_t *font) {
    hb_face_t *face = hb_font_get_face(font);
    bool boxes = has_table(face, HB_TAG('g', 'l', 'y', 'f')) && !has_table(face, HB_TAG('s', 'b', 'i', 'x')) &&
                 !has_table(face, HB_TAG('C', 'B', 'D', 'T')) && !has_table(face, HB_TAG('C', 'O', 'L', 'R'));
    bool names = has_names(face);
    put(boxes);
    put(boxes || has_table(face, HB_TAG('V', 'O', 'R', 'G')));
    put(names);
    unsigned int count = hb_face_get_glyph_count(face);
    for (hb_codepoint_t glyph = 0; glyph < count && glyph < GLYPHS; glyph++)
        put_glyph(font, glyph, boxes, names);
    /* Those that the font doesn't have. */
    for (hb_codepoint_t glyph = count; glyph < GLYPHS; glyph = glyph * 2 + 1)
        put_glyph(font, glyph, boxes, names);
    put(NONE);
}

int main(int count, char **words) {
    unsigned int major, minor, micro;
    if (count != 3) {
        fputs("usage: fonts_harfbuzz FONT INDEX\n", stderr);
        return 2;
    }
    hb_version(&major, &minor, &micro);
    put(major);
    put(minor);
    put(micro);
    hb_blob_t *blob = hb_blob_create_from_file_or_fail(words[1]);
    if (!blob) {
        fprintf(stderr, "%s can't be read\n", words[1]);
        return 2;
    }
    put(hb_face_count(blob));
    hb_face_t *face = hb_face_create_or_fail(blob, (unsigned int)strtoul(words[2], NULL, 10));
    if (!face)
        return 0;
    hb_font_t *font = hb_font_create(face);
    put(hb_face_get_upem(face));
    put(hb_face_get_glyph_count(face));
    hb_font_extents_t line;
    hb_font_get_extents_for_direction(font, HB_DIRECTION_LTR, &line);
    put((uint32_t)line.ascender);
    put((uint32_t)line.descender);
    put_characters(font);
    put_selectors(font);
    put_glyphs(font);
    hb_font_destroy(font);
    hb_face_destroy(face);
    hb_blob_destroy(blob);
    return fflush(stdout) == 0 ? 0 : 2;
}
