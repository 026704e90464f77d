/* Where the message of an internal error goes. The last line is 'N passed, M failed'. */
#define _POSIX_C_SOURCE 200809L
#include "world.h"

#include <stdio.h>
#include <stdlib.h>
#include <string.h>
#include <unistd.h>

static unsigned int passed, failed, received;
static uint32_t random_state;
static FILE *instead_of_stderr;

static void check(const char *what, int holds)
{
    if (holds) {
        passed++;
        return;
    }
    printf("FAILED: %s\n", what);
    failed++;
}

static void receive(const char *message, void *user_data)
{
    received++;
    check("the user data", user_data == &received);
    check("the place in the library", strstr(message, "rust/sengadlit/src/") != NULL && strstr(message, "/..") == NULL);
}

static int32_t changing_advance(void *user_data, uint32_t glyph)
{
    (void)user_data, (void)glyph;
    random_state = random_state * 1664525u + 1013904223u;
    return (int32_t)(random_state >> 22);
}

/* Stretches marks over words by advances that change, until that is an internal error. */
static void meet_an_internal_error(void)
{
    for (uint32_t seed = 0; seed < 3000; seed++) {
        begin_word_and_tiles();
        random_state = seed;
        world.font_funcs.glyph_h_advance = changing_advance;
        (void)sengadlit_run_pause(world.plan, SENGADLIT_PAUSE_RECORD_STCH, NULL, NULL, 0, world.buffer, NULL);
        positions()[0].x_advance = 1000;
        if (sengadlit_postprocess_glyphs(world.plan, &world.font, world.buffer) == SENGADLIT_INTERNAL) {
            check("no state is left", sengadlit_buffer_get_state(world.buffer) == 0);
            return;
        }
    }
    check("an internal error", 0);
}

/* Whether something went to standard error since the last time. */
static int is_written(void)
{
    int is_longer = lseek(fileno(instead_of_stderr), 0, SEEK_END) > 0;

    check("the file is emptied", ftruncate(fileno(instead_of_stderr), 0) == 0);
    (void)lseek(fileno(instead_of_stderr), 0, SEEK_SET);
    return is_longer;
}

int main(void)
{
    instead_of_stderr = tmpfile();
    if (!instead_of_stderr || dup2(fileno(instead_of_stderr), STDERR_FILENO) < 0)
        return EXIT_FAILURE;
    meet_an_internal_error();
    check("a message goes to standard error", is_written());
    sengadlit_set_message_func(receive, &received);
    meet_an_internal_error();
    check("a message is received", received == 1);
    check("and nothing is written", !is_written());
    sengadlit_set_message_func(NULL, NULL);
    meet_an_internal_error();
    check("a message isn't received any more", received == 1);
    check("but written", is_written());
    sengadlit_set_message_func(receive, &received);
    meet_an_internal_error();
    check("the next one is received", received == 2);
    check("and not written", !is_written());
    end_world();
    fclose(instead_of_stderr);
    printf("%u passed, %u failed\n", passed, failed);
    return failed == 0 ? EXIT_SUCCESS : EXIT_FAILURE;
}
