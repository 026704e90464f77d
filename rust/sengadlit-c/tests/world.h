/* What the tests call with: a plan, a buffer, a font and tables with all functions. */
#ifndef WORLD_H
#define WORLD_H

#include <sengadlit.h>

enum { ROOM = 64 };

/* What the callbacks return, and how often each is called. */
struct answers {
    uint32_t glyph_of_circle;        /* 0: the font has none. Every other character has its own number as a glyph. */
    int32_t advance;
    sengadlit_bool_t would;
    sengadlit_bool_t has_feature;
    uint8_t joining_type, general_category, use_category;
    uint16_t indic_categories;
    unsigned int questions;
};

struct world {
    sengadlit_plan_t *plan;
    sengadlit_buffer_t *buffer;
    sengadlit_buffer_properties_t properties;
    struct answers answers;
    sengadlit_font_funcs_t font_funcs;
    sengadlit_tables_funcs_t tables_funcs;
    sengadlit_font_t font;
    sengadlit_tables_t tables;
    int has_positions;
    void (*at_growth)(void);         /* Called where the array of the text grows, if it isn't null. */
};

extern struct world world;

/* Compiled with LENT, the texts stand in an array that the buffer is lent, which has no room to spare and moves as it grows. */

/* A plan of the features stch, isol, rphf and pref, with a lookup each, and a text of one letter, so many times. Where memory
   is refused it says so on stderr and tries again, once. */
void begin_world(sengadlit_shaper_t shaper, sengadlit_tag_t script, uint32_t codepoint, unsigned int length);
/* The same of Syriac: a word of one glyph before two tiles, a fixed and a repeating one. */
void begin_word_and_tiles(void);
void end_world(void);

/* The glyphs of the buffer. */
sengadlit_glyph_info_t *glyphs(void);
/* The positions, which are there from now on. */
sengadlit_glyph_position_t *positions(void);
/* Sets the greatest length of the text. */
void limit_length(uint32_t max_length);

/* Keeps a copy of the text, and says whether anything in it differs from that copy. */
void keep_text(void);
int text_is_changed(void);

#endif
