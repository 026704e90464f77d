/* font FILE TEXT: shapes a text with a font file, and prints its glyphs as hb-shape does. */
#include <sengadlit.h>

#include <stdio.h>
#include <stdlib.h>

int main(int argc, char **argv)
{
    static unsigned char data[1 << 24];
    static char line[1 << 16];
    FILE *file = argc == 3 ? fopen(argv[1], "rb") : NULL;
    if (!file)
        return fprintf(stderr, "usage: font FILE TEXT\n"), EXIT_FAILURE;
    size_t length = fread(data, 1, sizeof data, file);
    fclose(file);

    sengadlit_error_t error = {SENGADLIT_MEMORY, SENGADLIT_ARGUMENT_NONE, 0};
    sengadlit_face_t *face = sengadlit_face_create(data, length, 0, NULL, NULL, &error);
    sengadlit_buffer_t *buffer = sengadlit_buffer_create();
    if (face && buffer)
        error.status = sengadlit_shape_utf8(face, argv[2], -1, NULL, buffer);
    if (error.status == SENGADLIT_DONE) {
        sengadlit_buffer_serialize(buffer, face, SENGADLIT_SERIALIZE_FORMAT_TEXT, 0, line, sizeof line, NULL);
        puts(line);
    } else
        fprintf(stderr, "%s: %s\n", argv[1], sengadlit_status_name(error.status));
    sengadlit_buffer_destroy(buffer);
    sengadlit_face_destroy(face);
    return error.status == SENGADLIT_DONE ? EXIT_SUCCESS : EXIT_FAILURE;
}
