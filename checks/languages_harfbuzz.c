// What HarfBuzz says of languages: for each line of the input the line, the tags of OpenType for its script, and its own.
#include <hb-ot.h>
#include <hb.h>
#include <stdio.h>
#include <string.h>

enum { MOST_TAGS = 3 };

static void print(const hb_tag_t *tags, unsigned int count) {
    printf("; ");
    for (unsigned int i = 0; i < count; i++) {
        printf("%08x ", (unsigned int)tags[i]);
    }
}

int main(void) {
    char line[128];
    while (fgets(line, sizeof line, stdin) != NULL) {
        hb_tag_t scripts[MOST_TAGS], languages[MOST_TAGS];
        unsigned int script_count = MOST_TAGS, language_count = MOST_TAGS;
        line[strcspn(line, "\n")] = '\0';
        hb_language_t language = hb_language_from_string(line, -1);
        hb_ot_tags_from_script_and_language(HB_SCRIPT_INVALID, language, &script_count, scripts, &language_count, languages);
        printf("%s ", line);
        print(scripts, script_count);
        print(languages, language_count);
        printf("\n");
    }
    return ferror(stdin) || fflush(stdout) != 0;
}
