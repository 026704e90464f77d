/* words FILE LINE: two threads shape the words of a line with one prepared face, each word with what stands around it.
   Prints how wide each is, in thousandths of an em as in PDF. */
#include <sengadlit.h>

#include <pthread.h>
#include <stdio.h>
#include <stdlib.h>
#include <string.h>

enum { THREADS = 2, WORDS = 100 };

/* What the threads share; each width is written by one of them. */
static const sengadlit_face_t *face;
static const char *line;
static double widths[WORDS];
/* What became of each thread's words. */
static sengadlit_status_t status[THREADS];

/* The width of the word that begins at this byte and has so many. */
static sengadlit_status_t measure(size_t start, size_t length, const sengadlit_shape_options_t *options,
                                  sengadlit_buffer_t *buffer, double *width)
{
    sengadlit_buffer_clear_contents(buffer);
    sengadlit_status_t done = sengadlit_buffer_add_utf8(buffer, line, -1, (unsigned int)start, (int)length);
    if (done == SENGADLIT_DONE)
        done = sengadlit_shape_buffer(face, options, buffer);
    unsigned int count = 0;
    const sengadlit_glyph_position_t *at = sengadlit_buffer_read_positions(buffer, &count);
    for (unsigned int i = 0; done == SENGADLIT_DONE && i < count; i++)
        *width += 1000.0 * at[i].x_advance / sengadlit_face_get_units_per_em(face);
    return done;
}

/* A buffer and a cache of plans belong to one thread: they are made and destroyed here. */
static void *run(void *number)
{
    size_t thread = (size_t)number, word = 0;
    sengadlit_buffer_t *buffer = sengadlit_buffer_create();
    sengadlit_shape_options_t options = SENGADLIT_INIT(sengadlit_shape_options_t);
    options.cache = sengadlit_plan_cache_create();
    status[thread] = buffer && options.cache ? SENGADLIT_DONE : SENGADLIT_MEMORY;
    for (const char *text = line + strspn(line, " "); *text && word < WORDS && status[thread] == SENGADLIT_DONE; word++) {
        size_t length = strcspn(text, " ");
        if (word % THREADS == thread)
            status[thread] = measure((size_t)(text - line), length, &options, buffer, &widths[word]);
        text += length + strspn(text + length, " ");
    }
    sengadlit_plan_cache_destroy(options.cache);
    sengadlit_buffer_destroy(buffer);
    return NULL;
}

int main(int argc, char **argv)
{
    static unsigned char data[1 << 24];
    FILE *file = argc == 3 ? fopen(argv[1], "rb") : NULL;
    if (!file)
        return fprintf(stderr, "usage: words FILE LINE\n"), EXIT_FAILURE;
    size_t length = fread(data, 1, sizeof data, file);
    fclose(file);

    sengadlit_face_t *made = sengadlit_face_create(data, length, 0, NULL, NULL, NULL);
    sengadlit_face_prepare(made);
    face = made, line = argv[2];
    pthread_t threads[THREADS];
    size_t started = 0;
    while (started < THREADS && pthread_create(&threads[started], NULL, run, (void *)started) == 0)
        started++;
    int is_done = started == THREADS;
    for (size_t i = 0; i < started; i++)
        is_done &= pthread_join(threads[i], NULL) == 0 && status[i] == SENGADLIT_DONE;
    if (!is_done)
        fprintf(stderr, "%s: %s\n", argv[1], sengadlit_status_name(status[0]));
    for (size_t word = 0; is_done && word < WORDS && widths[word] > 0; word++)
        printf("%g\n", widths[word]);
    sengadlit_face_destroy(made);
    return is_done ? EXIT_SUCCESS : EXIT_FAILURE;
}
