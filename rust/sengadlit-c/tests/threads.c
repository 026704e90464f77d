/* Two threads share a plan, each with a buffer of its own, and take and drop references meanwhile; what they make is the
   same. For helgrind. */
#define _POSIX_C_SOURCE 200809L
#include "world.h"

#include <pthread.h>
#include <stdio.h>
#include <stdlib.h>
#include <string.h>

enum { ROUNDS = 50, LENGTH = 5, MADE = 6 };

static sengadlit_bool_t nominal_glyph(void *user_data, uint32_t unicode, uint32_t *glyph)
{
    (void)user_data;
    *glyph = unicode & 0xFFFF;
    return 1;
}

static const sengadlit_font_funcs_t font_funcs = {sizeof font_funcs, nominal_glyph, NULL, NULL, NULL};
static const sengadlit_font_t font = {&font_funcs, NULL};

struct made {
    sengadlit_plan_t *plan;
    unsigned int failed;
    uint32_t codepoints[MADE];
};

/* A text of which the last glyph is a broken syllable. */
static void shape(struct made *made, sengadlit_buffer_t *buffer)
{
    static const sengadlit_span_t spans[] = {{4, 0}, {1, 1}};
    sengadlit_glyph_info_t *text = sengadlit_buffer_set_length(buffer, LENGTH);
    unsigned int length;

    memset(text, 0, LENGTH * sizeof *text);
    for (unsigned int i = 0; i < LENGTH; i++)
        text[i].glyph_id = 0x1780 + i;
    text[3].category = 22;
    if (sengadlit_run_pause(made->plan, SENGADLIT_PAUSE_SETUP_SYLLABLES_KHMER, NULL, spans, 2, buffer, NULL) != SENGADLIT_DONE ||
        sengadlit_run_pause(made->plan, SENGADLIT_PAUSE_REORDER_KHMER, &font, NULL, 0, buffer, NULL) != SENGADLIT_DONE)
        made->failed++;
    text = sengadlit_buffer_get_glyph_infos(buffer, &length);
    if (length != MADE)
        made->failed++;
    for (unsigned int i = 0; i < length && i < MADE; i++)
        made->codepoints[i] = text[i].glyph_id;
}

static void *run(void *data)
{
    struct made *made = data;
    sengadlit_buffer_t *buffer = sengadlit_buffer_create();

    for (unsigned int i = 0; i < ROUNDS; i++) {
        sengadlit_plan_t *mine = sengadlit_plan_reference(made->plan);
        shape(made, buffer);
        sengadlit_plan_destroy(mine);
    }
    sengadlit_buffer_destroy(buffer);
    return NULL;
}

int main(void)
{
    struct made first = {0}, second = {0};
    pthread_t thread;

    begin_world(SENGADLIT_SHAPER_KHMER, SENGADLIT_TAG('K', 'h', 'm', 'r'), 0x1780, 1);
    first.plan = second.plan = world.plan;
    if (pthread_create(&thread, NULL, run, &second) != 0)
        return EXIT_FAILURE;
    run(&first);
    pthread_join(thread, NULL);
    end_world();
    if (first.failed + second.failed != 0 || memcmp(first.codepoints, second.codepoints, sizeof first.codepoints) != 0 ||
        first.codepoints[0] != 0x1783 || first.codepoints[4] != 0x25CC) {
        printf("FAILED: %u and %u, %X %X\n", first.failed, second.failed, (unsigned)first.codepoints[0],
               (unsigned)first.codepoints[4]);
        return EXIT_FAILURE;
    }
    printf("%d rounds of two threads\n", ROUNDS);
    return EXIT_SUCCESS;
}
