/* shared_face FONT WORDS: eight threads share a face, each with a buffer, a cache of plans and references of its own,
          and shape the
   words beside the font at the same time; what they make is what hb-shape made. For helgrind. */
#include "world.h"

#include <pthread.h>
#include <stdio.h>
#include <stdlib.h>
#include <string.h>

enum { THREADS = 8, ROUNDS = 3, MOST_WORDS = 256, LONGEST_LINE = 1024 };

static unsigned char font[1 << 20];
static struct { char text[256], wanted[LONGEST_LINE]; } words[MOST_WORDS];
static unsigned int words_length, destroyed;

static void read_words(const char *path)
{
    static char line[LONGEST_LINE];
    FILE *file = fopen(path, "r");

    while (file && words_length < MOST_WORDS && fgets(line, sizeof line, file)) {
        const char *behind = strchr(line, ';');
        if (line[0] == '#' || !behind) continue;
        snprintf(words[words_length].text, sizeof words[0].text, "%.*s", (int)(behind - line), line);
        snprintf(words[words_length++].wanted, sizeof words[0].wanted, "%.*s", (int)strcspn(behind + 1, "\n"), behind + 1);
    }
    if (file) fclose(file);
}

struct work {
    sengadlit_face_t *face;
    unsigned int failed;
};

static void *run(void *data)
{
    struct work *work = data;
    sengadlit_buffer_t *buffer = sengadlit_buffer_create();
    sengadlit_shape_options_t options = SENGADLIT_INIT(sengadlit_shape_options_t);
    char line[LONGEST_LINE];

    options.cache = sengadlit_plan_cache_create();
    for (unsigned int i = 0; i < ROUNDS * words_length; i++) {
        sengadlit_face_t *mine = sengadlit_face_reference(work->face);
        if (sengadlit_shape_utf8(mine, words[i % words_length].text, -1, &options, buffer) != SENGADLIT_DONE ||
            sengadlit_buffer_serialize(buffer, mine, SENGADLIT_SERIALIZE_FORMAT_TEXT, 0, line, sizeof line,
                      NULL) != SENGADLIT_DONE ||
            strcmp(line, words[i % words_length].wanted) != 0)
            work->failed++;
        sengadlit_face_destroy(mine);
    }
    sengadlit_plan_cache_destroy(options.cache);
    sengadlit_buffer_destroy(buffer);
    sengadlit_face_destroy(work->face);
    return NULL;
}

static void destroy(void *user_data) { ++*(unsigned int *)user_data; }

/* Threads shape with a face; returns how many words failed. A face with tables is destroyed behind the threads: helgrind and drd
   don't know that the count of references orders what each read before what the last one frees. */
static unsigned int share(sengadlit_face_t *face, int is_prepared)
{
    struct work work[THREADS] = {{0}};
    pthread_t threads[THREADS];
    unsigned int failed = 0;

    if (is_prepared) sengadlit_face_prepare(face);
    for (unsigned int i = 0; i < THREADS; i++) {
        work[i].face = sengadlit_face_reference(face);
        if (pthread_create(&threads[i], NULL, run, &work[i]) != 0) exit(EXIT_FAILURE);
    }
    if (!is_prepared) sengadlit_face_destroy(face);
    for (unsigned int i = 0; i < THREADS; i++) {
        pthread_join(threads[i], NULL);
        failed += work[i].failed;
    }
    if (is_prepared) sengadlit_face_destroy(face);
    return failed;
}

int main(int argc, char **argv)
{
    FILE *file = argc == 3 ? fopen(argv[1], "rb") : NULL;
    unsigned int failed = 0;

    if (!file) return EXIT_FAILURE;
    size_t length = fread(font, 1, sizeof font, file);
    fclose(file);
    read_words(argv[2]);
    for (int is_prepared = 0; is_prepared < 2; is_prepared++)
        failed += share(sengadlit_face_create(font, length, 0, &destroyed, destroy, NULL), is_prepared);
    printf("%u threads, %u words, %u failed, destroyed %u times\n", THREADS, words_length, failed, destroyed);
    return failed == 0 && words_length > 40 && destroyed == 2 ? EXIT_SUCCESS : EXIT_FAILURE;
}
