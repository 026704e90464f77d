/* Texts in UTF-8, UTF-16 and UTF-32, what Unicode's tables say of them, their syllables, and where carets stand in them. The
   last line is 'N passed, M failed'. What bad sequences become is what HarfBuzz's documentation of hb_buffer_add_utf8 and its decoders says. */
#include <sengadlit.h>

#include <limits.h>
#include <stdio.h>
#include <stdlib.h>
#include <string.h>

static unsigned int passed, failed;
static sengadlit_buffer_t *buffer;

static void check(const char *what, int holds)
{
    if (holds) {
        passed++;
        return;
    }
    printf("FAILED: %s\n", what);
    failed++;
}

static void begin(void)
{
    sengadlit_buffer_destroy(buffer);
    buffer = sengadlit_buffer_create();
    if (!buffer)
        exit(EXIT_FAILURE);
}

static sengadlit_glyph_info_t *glyphs(unsigned int *length)
{
    return sengadlit_buffer_get_glyph_infos(buffer, length);
}

/* The buffer has these characters with these clusters, which a 0 ends. */
struct letter {
    uint32_t character, cluster;
};

static void expect_text(const char *what, const struct letter *letters)
{
    unsigned int length, count = 0;
    const sengadlit_glyph_info_t *found = glyphs(&length);

    while (letters[count].character != 0)
        count++;
    check(what, length == count);
    for (unsigned int i = 0; i < length && i < count; i++)
        check(what, found[i].glyph_id == letters[i].character && found[i].cluster == letters[i].cluster);
}

/* ---- Encodings ---- */

static void expect_utf8(const char *what, const char *text, const struct letter *letters)
{
    begin();
    check(what, sengadlit_buffer_add_utf8(buffer, text, -1, 0, -1) == SENGADLIT_DONE);
    expect_text(what, letters);
    begin();
    check(what, sengadlit_buffer_add_utf8(buffer, text, (int)strlen(text), 0, (int)strlen(text)) == SENGADLIT_DONE);
    expect_text(what, letters);
}

#define LETTERS(...) ((const struct letter[]){__VA_ARGS__, {0, 0}})
#define BAD 0xFFFD

static void utf8(void)
{
    expect_utf8("one to four bytes", "a\u00E9\u1780\U0001F600b",
                LETTERS({0x61, 0}, {0xE9, 1}, {0x1780, 3}, {0x1F600, 6}, {0x62, 10}));
    expect_utf8("the last of each length", "\x7F\xDF\xBF\xEF\xBF\xBF\xF4\x8F\xBF\xBF",
                LETTERS({0x7F, 0}, {0x7FF, 1}, {0xFFFF, 3}, {0x10FFFF, 6}));
    expect_utf8("the first of each length", "\xC2\x80\xE0\xA0\x80\xF0\x90\x80\x80",
                LETTERS({0x80, 0}, {0x800, 2}, {0x10000, 5}));
    expect_utf8("beside the surrogates", "\xED\x9F\xBF\xEE\x80\x80", LETTERS({0xD7FF, 0}, {0xE000, 3}));
    expect_utf8("overlong, of two bytes", "\xC1\xBF", LETTERS({BAD, 0}, {BAD, 1}));
    expect_utf8("overlong, of three", "\xE0\x9F\xBF", LETTERS({BAD, 0}, {BAD, 1}, {BAD, 2}));
    expect_utf8("overlong, of four", "\xF0\x8F\xBF\xBF", LETTERS({BAD, 0}, {BAD, 1}, {BAD, 2}, {BAD, 3}));
    expect_utf8("surrogates", "\xED\xA0\x80\xED\xBF\xBF",
                LETTERS({BAD, 0}, {BAD, 1}, {BAD, 2}, {BAD, 3}, {BAD, 4}, {BAD, 5}));
    expect_utf8("beyond Unicode", "\xF4\x90\x80\x80\xF5", LETTERS({BAD, 0}, {BAD, 1}, {BAD, 2}, {BAD, 3}, {BAD, 4}));
    expect_utf8("cut short", "\xE1\x9E" "a\xF0\x9F\x98", LETTERS({BAD, 0}, {BAD, 1}, {0x61, 2}, {BAD, 3}, {BAD, 4}, {BAD, 5}));
    expect_utf8("a byte alone", "a\x80\xFF" "b", LETTERS({0x61, 0}, {BAD, 1}, {BAD, 2}, {0x62, 3}));
    expect_utf8("a first byte before a sequence", "\xE1\xC3\xA9", LETTERS({BAD, 0}, {0xE9, 1}));
    expect_utf8("nothing", "", LETTERS({0, 0}));
    begin();
    check("a zero within a length", sengadlit_buffer_add_utf8(buffer, "a\0b", 3, 0, 3) == SENGADLIT_DONE);
    unsigned int length;
    check("a zero within a length", glyphs(&length)[1].glyph_id == 0 && length == 3);
}

static void utf16(void)
{
    static const uint16_t text[] = {0x61, 0xD83D, 0xDE00, 0x1780, 0xDC00, 0xD800, 0xD800, 0xDFFF, 0xDBFF, 0};
    const struct letter *letters = LETTERS({0x61, 0}, {0x1F600, 1}, {0x1780, 3}, {BAD, 4}, {BAD, 5}, {0x103FF, 6}, {BAD, 8});

    begin();
    check("UTF-16", sengadlit_buffer_add_utf16(buffer, text, -1, 0, -1) == SENGADLIT_DONE);
    expect_text("UTF-16", letters);
    begin();
    check("UTF-16", sengadlit_buffer_add_utf16(buffer, text, 9, 0, 9) == SENGADLIT_DONE);
    expect_text("UTF-16", letters);
    begin();
    check("an item cuts a pair", sengadlit_buffer_add_utf16(buffer, text, 9, 0, 2) == SENGADLIT_DONE);
    expect_text("an item cuts a pair", LETTERS({0x61, 0}, {BAD, 1}));
}

static void utf32(void)
{
    static const uint32_t text[] = {0x61, 0x10FFFF, 0x110000, 0xD7FF, 0xD800, 0xDFFF, 0xE000, 0xFFFFFFFF, 0};

    begin();
    check("UTF-32", sengadlit_buffer_add_utf32(buffer, text, -1, 0, -1) == SENGADLIT_DONE);
    expect_text("UTF-32", LETTERS({0x61, 0}, {0x10FFFF, 1}, {BAD, 2}, {0xD7FF, 3}, {BAD, 4}, {BAD, 5}, {0xE000, 6}, {BAD, 7}));
}

/* ---- Items ---- */

static void items(void)
{
    begin();
    check("an item", sengadlit_buffer_add_utf8(buffer, "ab\u1780cd", -1, 1, 4) == SENGADLIT_DONE);
    expect_text("an item", LETTERS({0x62, 1}, {0x1780, 2}));
    check("an item more", sengadlit_buffer_add_utf8(buffer, "ab\u1780cd", 7, 5, -1) == SENGADLIT_DONE);
    expect_text("an item more", LETTERS({0x62, 1}, {0x1780, 2}, {0x63, 5}, {0x64, 6}));
    check("an empty one", sengadlit_buffer_add_utf8(buffer, "ab", -1, 2, -1) == SENGADLIT_DONE);
    check("none of none", sengadlit_buffer_add_utf8(buffer, NULL, 0, 0, -1) == SENGADLIT_DONE);
    expect_text("what was there stays", LETTERS({0x62, 1}, {0x1780, 2}, {0x63, 5}, {0x64, 6}));
    begin();
    check("an item cuts a character", sengadlit_buffer_add_utf8(buffer, "\u1780\u1780", -1, 1, 4) == SENGADLIT_DONE);
    expect_text("an item cuts a character", LETTERS({BAD, 1}, {BAD, 2}, {BAD, 3}, {BAD, 4}));
}

static void expect_refused(const char *what, sengadlit_status_t status, sengadlit_argument_t argument)
{
    sengadlit_error_t error;
    unsigned int length;

    sengadlit_buffer_get_error(buffer, &error);
    check(what, status == SENGADLIT_ARGUMENT && error.status == status && error.argument == argument && error.index == 0);
    check(what, glyphs(&length)[0].glyph_id == 0x61 && length == 1);
}

static void items_that_are_none(void)
{
    static const uint16_t units[] = {0x62, 0};
    static const uint32_t wide[] = {0x62, 0};

    begin();
    (void)sengadlit_buffer_add_utf8(buffer, "a", -1, 0, -1);
    expect_refused("no text", sengadlit_buffer_add_utf8(buffer, NULL, 1, 0, 1), SENGADLIT_ARGUMENT_TEXT);
    expect_refused("no text with a zero", sengadlit_buffer_add_utf8(buffer, NULL, -1, 0, 0), SENGADLIT_ARGUMENT_TEXT);
    expect_refused("no UTF-16", sengadlit_buffer_add_utf16(buffer, NULL, -1, 0, 0), SENGADLIT_ARGUMENT_TEXT);
    expect_refused("no UTF-32", sengadlit_buffer_add_utf32(buffer, NULL, 1, 0, 0), SENGADLIT_ARGUMENT_TEXT);
    expect_refused("a length of -2", sengadlit_buffer_add_utf8(buffer, "b", -2, 0, 1), SENGADLIT_ARGUMENT_RANGE);
    expect_refused("the least length", sengadlit_buffer_add_utf16(buffer, units, INT_MIN, 0, 1), SENGADLIT_ARGUMENT_RANGE);
    expect_refused("an item of -2", sengadlit_buffer_add_utf8(buffer, "b", 1, 0, -2), SENGADLIT_ARGUMENT_RANGE);
    expect_refused("the least item", sengadlit_buffer_add_utf32(buffer, wide, 1, 0, INT_MIN), SENGADLIT_ARGUMENT_RANGE);
    expect_refused("an offset past the end", sengadlit_buffer_add_utf8(buffer, "b", 1, 2, -1), SENGADLIT_ARGUMENT_RANGE);
    expect_refused("an offset far past it", sengadlit_buffer_add_utf16(buffer, units, -1, UINT_MAX, 0), SENGADLIT_ARGUMENT_RANGE);
    expect_refused("an item past the end", sengadlit_buffer_add_utf8(buffer, "bc", 2, 1, 2), SENGADLIT_ARGUMENT_RANGE);
    expect_refused("an item far past it", sengadlit_buffer_add_utf32(buffer, wide, -1, 1, INT_MAX), SENGADLIT_ARGUMENT_RANGE);
    check("no buffer", sengadlit_buffer_add_utf8(NULL, "a", 1, 0, 1) == SENGADLIT_ARGUMENT);
    check("no buffer", sengadlit_buffer_add_utf16(NULL, units, 1, 0, 1) == SENGADLIT_ARGUMENT);
    check("no buffer", sengadlit_buffer_add_utf32(NULL, wide, 1, 0, 1) == SENGADLIT_ARGUMENT);
}

static void lengths(void)
{
    const sengadlit_buffer_properties_t one = {sizeof one, 0, SENGADLIT_DIRECTION_LTR,
                                               SENGADLIT_BUFFER_CLUSTER_LEVEL_CHARACTERS, 0, 1};
    unsigned int length;

    begin();
    sengadlit_glyph_info_t *first = sengadlit_buffer_set_length(buffer, 1);
    first->glyph_id = 0x61;
    first->unicode_props = 0xFFFF;
    check("a greatest length", sengadlit_buffer_set_properties(buffer, &one) == SENGADLIT_DONE);
    check("positions", sengadlit_buffer_get_glyph_positions(buffer, NULL) != NULL);
    check("text behind them", sengadlit_buffer_add_utf8(buffer, "bc", -1, 0, -1) == SENGADLIT_DONE);
    expect_text("text behind them", LETTERS({0x61, 0}, {0x62, 0}, {0x63, 1}));
    check("what was there stays", glyphs(&length)[0].unicode_props == 0xFFFF && length == 3);
    check("hooks are still limited", sengadlit_spans(SENGADLIT_SHAPER_KHMER, buffer, NULL) == NULL);
    check("a shorter one", sengadlit_buffer_set_length(buffer, 1) != NULL);
    check("a shorter one", sengadlit_spans(SENGADLIT_SHAPER_KHMER, buffer, NULL) != NULL);
}

/* ---- What Unicode says ---- */

static void properties(void)
{
    unsigned int length;

    begin();
    /* ALEF, SHADDA, ZWJ, CGJ, a vowel sign of Devanagari */
    (void)sengadlit_buffer_add_utf8(buffer, "\u0627\u0651\u200D\u034F\u093E", -1, 0, -1);
    const sengadlit_glyph_info_t *found = glyphs(&length);
    static const uint8_t wanted[5][3] = {
        {SENGADLIT_UNICODE_GENERAL_CATEGORY_OTHER_LETTER, 0, 0},
        {SENGADLIT_UNICODE_GENERAL_CATEGORY_NON_SPACING_MARK, 27, SENGADLIT_UNICODE_PROPS_CONTINUATION},
        {SENGADLIT_UNICODE_GENERAL_CATEGORY_FORMAT, 0, SENGADLIT_UNICODE_PROPS_IGNORABLE},
        {SENGADLIT_UNICODE_GENERAL_CATEGORY_NON_SPACING_MARK, 0,
         SENGADLIT_UNICODE_PROPS_IGNORABLE | SENGADLIT_UNICODE_PROPS_CONTINUATION},
        {SENGADLIT_UNICODE_GENERAL_CATEGORY_SPACING_MARK, 0, SENGADLIT_UNICODE_PROPS_CONTINUATION}};
    for (unsigned int i = 0; i < 5; i++) {
        const unsigned int props = found[i].unicode_props;
        check("properties", props == (SENGADLIT_UNICODE_PROPS(wanted[i][0], wanted[i][1]) | wanted[i][2]));
        check("category", SENGADLIT_UNICODE_PROPS_GET_GENERAL_CATEGORY(props) == wanted[i][0]);
        check("class", SENGADLIT_UNICODE_PROPS_GET_COMBINING_CLASS(props) == wanted[i][1]);
        check("all else is zero", found[i].mask == 0 && found[i].glyph_props == 0 && found[i].lig_props == 0 &&
                                      found[i].syllable == 0 && found[i].category == 0 && found[i].auxiliary == 0);
    }
}

static sengadlit_plan_t *plan_of(sengadlit_shaper_t shaper, sengadlit_tag_t script)
{
    static const sengadlit_feature_t features[] = {
        {SENGADLIT_TAG('i', 's', 'o', 'l'), 0x08, 0}, {SENGADLIT_TAG('f', 'i', 'n', 'a'), 0x10, 0},
        {SENGADLIT_TAG('m', 'e', 'd', 'i'), 0x20, 0}, {SENGADLIT_TAG('i', 'n', 'i', 't'), 0x40, 0},
        {SENGADLIT_TAG('p', 'r', 'e', 'f'), 0x80, 0}};
    const sengadlit_plan_input_t input = {.size = sizeof input, .script = script, .features = features, .features_length = 5};
    sengadlit_plan_t *plan = sengadlit_plan_create(shaper, &input, NULL);

    if (!plan)
        exit(EXIT_FAILURE);
    return plan;
}

/* The feature of the only letter of an item, BEH, which joins on both sides. */
static uint32_t mask_of_item(const sengadlit_plan_t *plan)
{
    unsigned int length;

    check("masks of Unicode's tables", sengadlit_setup_masks(plan, NULL, buffer) == SENGADLIT_DONE);
    return glyphs(&length)[0].mask & ~7u;
}

static void contexts(void)
{
    static const uint16_t text[] = {0x628, 0x64B, 0x64B, 0x64B, 0x64B, 0x628, 0x628, 0};
    sengadlit_plan_t *plan = plan_of(SENGADLIT_SHAPER_ARABIC, SENGADLIT_TAG('A', 'r', 'a', 'b'));

    begin();
    (void)sengadlit_buffer_add_utf8(buffer, "\u0628", -1, 0, -1);
    check("alone", mask_of_item(plan) == 0x08);
    begin();
    (void)sengadlit_buffer_add_utf8(buffer, "\u0628\u0628", -1, 2, -1);
    check("a letter before", mask_of_item(plan) == 0x10);
    begin();
    (void)sengadlit_buffer_add_utf8(buffer, "\u0628\u0628", -1, 0, 2);
    check("a letter after", mask_of_item(plan) == 0x40);
    begin();
    (void)sengadlit_buffer_add_utf16(buffer, text, -1, 5, 1);
    check("the fifth before, and one after", mask_of_item(plan) == 0x20);
    begin();
    (void)sengadlit_buffer_add_utf16(buffer, text, -1, 6, 1);
    (void)sengadlit_buffer_set_length(buffer, 0);
    (void)sengadlit_buffer_add_utf8(buffer, "\u0628", -1, 0, -1);
    check("the context before stays where there is none", mask_of_item(plan) == 0x10);
    begin();
    (void)sengadlit_buffer_add_utf8(buffer, "\u0628a\u0628\u0628", -1, 0, 2);
    (void)sengadlit_buffer_add_utf8(buffer, "\u0628\u0628", -1, 2, -1);
    check("the context of a second item is after it alone", mask_of_item(plan) == 0x40);
    begin();
    (void)sengadlit_buffer_add_utf8(buffer, "\u0628\u0628", -1, 0, 2);
    (void)sengadlit_buffer_set_length(buffer, 0);
    (void)sengadlit_buffer_add_utf8(buffer, "\u0628", -1, 0, -1);
    check("nothing stands after an item that ends its text", mask_of_item(plan) == 0x08);
    sengadlit_plan_destroy(plan);
}

/* A letter of no syllable, VOWEL SIGN Y without a consonant, KA, COENG, RO. */
static void syllables(void)
{
    sengadlit_plan_t *plan = plan_of(SENGADLIT_SHAPER_KHMER, SENGADLIT_TAG('K', 'h', 'm', 'r'));
    const sengadlit_pause_t pause = SENGADLIT_PAUSE_SETUP_SYLLABLES_KHMER;
    unsigned int length = 77;

    begin();
    (void)sengadlit_buffer_add_utf8(buffer, "a\u17B9\u1780\u17D2\u179A", -1, 0, -1);
    check("masks", sengadlit_setup_masks(plan, NULL, buffer) == SENGADLIT_DONE);
    const sengadlit_span_t *spans = sengadlit_spans(SENGADLIT_SHAPER_KHMER, buffer, &length);
    check("three syllables", length == 3);
    check("no syllable of Khmer", spans[0].length == 1 && spans[0].kind == SENGADLIT_KHMER_SYLLABLE_NON_KHMER);
    check("a broken one", spans[1].length == 1 && spans[1].kind == SENGADLIT_KHMER_SYLLABLE_BROKEN);
    check("a consonant's", spans[2].length == 3 && spans[2].kind == SENGADLIT_KHMER_SYLLABLE_CONSONANT);
    check("spans of the buffer's own", sengadlit_run_pause(plan, pause, NULL, spans, length, buffer, NULL) == SENGADLIT_DONE);
    sengadlit_glyph_info_t *found = glyphs(&length);
    check("bytes", found[0].syllable == 0x12 && found[1].syllable == 0x21 && found[4].syllable == 0x30);
    for (unsigned int i = 0; i < 5; i++)
        found[i].syllable = 0;
    sengadlit_buffer_set_state(buffer, 0);
    check("in one pass", sengadlit_setup_syllables_found(plan, pause, buffer) == SENGADLIT_DONE);
    found = glyphs(&length);
    check("the same bytes", found[0].syllable == 0x12 && found[1].syllable == 0x21 && found[4].syllable == 0x30);
    check("the same state", sengadlit_buffer_get_state(buffer) == SENGADLIT_BUFFER_STATE_HAS_BROKEN_SYLLABLE);
    check("no set-up", sengadlit_setup_syllables_found(plan, SENGADLIT_PAUSE_REORDER_KHMER, buffer) == SENGADLIT_ABSENT);
    found[0].syllable = 0x52;
    found[1].syllable = 0xA1;
    found[2].syllable = found[3].syllable = found[4].syllable = 0xF0;
    sengadlit_buffer_set_state(buffer, 0);
    check("as written", sengadlit_setup_syllables_written(plan, pause, buffer) == SENGADLIT_DONE);
    found = glyphs(&length);
    check("bytes that stay", found[0].syllable == 0x52 && found[1].syllable == 0xA1 && found[4].syllable == 0xF0);
    check("the same state", sengadlit_buffer_get_state(buffer) == SENGADLIT_BUFFER_STATE_HAS_BROKEN_SYLLABLE);
    check("no set-up", sengadlit_setup_syllables_written(plan, SENGADLIT_PAUSE_REORDER_KHMER, buffer) == SENGADLIT_ABSENT);
    length = 77;
    check("no grammar", sengadlit_spans(SENGADLIT_SHAPER_THAI, buffer, &length) != NULL && length == 0);
    begin();
    check("no text", sengadlit_spans(SENGADLIT_SHAPER_UNIVERSAL, buffer, &length) != NULL && length == 0);
    sengadlit_plan_destroy(plan);
}

static void syllables_that_are_none(void)
{
    sengadlit_plan_t *plan = plan_of(SENGADLIT_SHAPER_KHMER, SENGADLIT_TAG('K', 'h', 'm', 'r'));
    const sengadlit_pause_t khmer = SENGADLIT_PAUSE_SETUP_SYLLABLES_KHMER, other = SENGADLIT_PAUSE_SETUP_SYLLABLES_USE;

    begin();
    (void)sengadlit_buffer_add_utf8(buffer, "a", -1, 0, -1);
    check("no shaper", sengadlit_spans((sengadlit_shaper_t)9, buffer, NULL) == NULL);
    expect_refused("no shaper", SENGADLIT_ARGUMENT, SENGADLIT_ARGUMENT_SHAPER);
    check("no buffer", sengadlit_spans(SENGADLIT_SHAPER_KHMER, NULL, NULL) == NULL);
    expect_refused("no plan", sengadlit_setup_syllables_found(NULL, khmer, buffer), SENGADLIT_ARGUMENT_PLAN);
    expect_refused("a pause of others", sengadlit_setup_syllables_found(plan, other, buffer), SENGADLIT_ARGUMENT_PAUSE);
    expect_refused("no pause", sengadlit_setup_syllables_found(plan, SENGADLIT_PAUSE_NONE, buffer), SENGADLIT_ARGUMENT_PAUSE);
    check("no buffer", sengadlit_setup_syllables_found(plan, khmer, NULL) == SENGADLIT_ARGUMENT);
    expect_refused("no plan", sengadlit_setup_syllables_written(NULL, khmer, buffer), SENGADLIT_ARGUMENT_PLAN);
    expect_refused("a pause of others", sengadlit_setup_syllables_written(plan, other, buffer), SENGADLIT_ARGUMENT_PAUSE);
    check("no buffer", sengadlit_setup_syllables_written(plan, khmer, NULL) == SENGADLIT_ARGUMENT);
    (void)sengadlit_buffer_get_glyph_positions(buffer, NULL);
    expect_refused("positions", sengadlit_setup_syllables_found(plan, khmer, buffer), SENGADLIT_ARGUMENT_POSITIONS);
    expect_refused("positions", sengadlit_setup_syllables_written(plan, khmer, buffer), SENGADLIT_ARGUMENT_POSITIONS);
    sengadlit_plan_destroy(plan);
}

/* ---- Carets and edits ---- */

/* The places that the library finds in a text of these clusters, none of which is 99. */
static void expect_stops(const char *what, sengadlit_direction_t direction, const uint32_t *clusters, const uint32_t *wanted)
{
    unsigned int length = 0, count = 0, found;

    while (clusters[length] != 99) length++;
    while (wanted[count] != 99) count++;
    begin();
    sengadlit_glyph_info_t *first = sengadlit_buffer_set_length(buffer, length);
    for (unsigned int i = 0; i < length; i++) first[i].cluster = clusters[i];
    const uint32_t *stops = sengadlit_caret_stops(buffer, direction, &found);
    check(what, stops && found == count && memcmp(stops, wanted, count * sizeof *stops) == 0);
}

#define NUMBERS(...) (const uint32_t[]){__VA_ARGS__, 99}
#define NO_NUMBER (const uint32_t[]){99}

static void carets(void)
{
    const sengadlit_direction_t ltr = SENGADLIT_DIRECTION_LTR, rtl = SENGADLIT_DIRECTION_RTL;

    expect_stops("no text", ltr, NO_NUMBER, NO_NUMBER);
    expect_stops("no text", rtl, NO_NUMBER, NO_NUMBER);
    expect_stops("a glyph each", ltr, NUMBERS(0, 1, 3), NUMBERS(0, 1, 3));
    expect_stops("glyphs of one cluster", ltr, NUMBERS(0, 0, 6, 6, 9), NUMBERS(0, 6, 9));
    expect_stops("the same backward", rtl, NUMBERS(9, 6, 6, 0, 0), NUMBERS(0, 6, 9));
    expect_stops("not in the order of the text", ltr, NUMBERS(0, 1, 2, 0, 0), NUMBERS(0));
    expect_stops("the same backward", rtl, NUMBERS(0, 0, 2, 1, 0), NUMBERS(0));
    expect_stops("clusters that fall", ltr, NUMBERS(2, 1, 4), NUMBERS(1, 4));
    expect_stops("another first cluster", ltr, NUMBERS(7, 8), NUMBERS(7, 8));
    expect_stops("downward", SENGADLIT_DIRECTION_TTB, NUMBERS(0, 1), NUMBERS(0, 1));
    expect_stops("upward", SENGADLIT_DIRECTION_BTT, NUMBERS(1, 0), NUMBERS(0, 1));
    expect_stops("no direction yet", SENGADLIT_DIRECTION_INVALID, NUMBERS(0, 1), NUMBERS(0, 1));
}

static void expect_no_stops(const char *what, unsigned int direction, sengadlit_argument_t argument)
{
    unsigned int length = 77;

    check(what, sengadlit_caret_stops(buffer, (sengadlit_direction_t)direction, &length) == NULL && length == 77);
    expect_refused(what, SENGADLIT_ARGUMENT, argument);
}

static void carets_that_are_none(void)
{
    const sengadlit_buffer_properties_t one = {.size = sizeof one, .max_length = 1};
    sengadlit_error_t error;

    begin();
    (void)sengadlit_buffer_add_utf8(buffer, "a", -1, 0, -1);
    check("with positions", sengadlit_buffer_get_glyph_positions(buffer, NULL) != NULL);
    check("with positions", sengadlit_caret_stops(buffer, SENGADLIT_DIRECTION_LTR, NULL) != NULL);
    expect_no_stops("no direction", 3, SENGADLIT_ARGUMENT_DIRECTION);
    expect_no_stops("no direction", 0x104, SENGADLIT_ARGUMENT_DIRECTION);
    check("no buffer", sengadlit_caret_stops(NULL, SENGADLIT_DIRECTION_LTR, NULL) == NULL);
    check("a greatest length", sengadlit_buffer_set_properties(buffer, &one) == SENGADLIT_DONE);
    check("longer", sengadlit_buffer_set_length(buffer, 2) != NULL);
    check("longer", sengadlit_caret_stops(buffer, SENGADLIT_DIRECTION_LTR, NULL) == NULL);
    sengadlit_buffer_get_error(buffer, &error);
    check("longer", error.status == SENGADLIT_TOO_LONG);
}

/* The third of five glyphs is replaced, and takes the second into its syllable. */
static const sengadlit_span_t spans_before[] = {{1, 0}, {1, 0}, {1, 8}, {2, 0}}, spans_after[] = {{1, 0}, {2, 0}, {2, 0}};

static void expect_unaffected(const char *what, unsigned int before, unsigned int after, unsigned int front, unsigned int back,
                              unsigned int front_left, unsigned int back_left)
{
    sengadlit_error_t error = {SENGADLIT_MEMORY, SENGADLIT_ARGUMENT_NONE, 7};
    sengadlit_unaffected_t left = {77, 77};

    check(what, sengadlit_affected(spans_before, before, spans_after, after, front, back, &left, &error) == SENGADLIT_DONE);
    check(what, left.front == front_left && left.back == back_left && error.index == 7);
}

static void refuse_edit(const char *what, const sengadlit_span_t *before, const sengadlit_span_t *after, unsigned int front,
                        unsigned int back, sengadlit_argument_t argument)
{
    sengadlit_error_t error = {0};
    sengadlit_unaffected_t left = {77, 77};

    check(what, sengadlit_affected(before, 4, after, 3, front, back, &left, &error) == SENGADLIT_ARGUMENT);
    check(what, error.status == SENGADLIT_ARGUMENT && error.argument == argument && left.front == 77 && left.back == 77);
    check(what, sengadlit_affected(before, 4, after, 3, front, back, &left, NULL) == SENGADLIT_ARGUMENT);
}

static void edits(void)
{
    const sengadlit_span_t huge[] = {{SIZE_MAX, 0}, {SIZE_MAX, 1}};
    sengadlit_unaffected_t left;
    sengadlit_error_t error;

    expect_unaffected("the syllable in front meets the edit", 4, 3, 2, 2, 1, 2);
    expect_unaffected("nothing in front", 4, 3, 0, 2, 0, 2);
    expect_unaffected("a part of a syllable behind", 4, 3, 2, 1, 1, 0);
    expect_unaffected("no text before", 0, 3, 0, 0, 0, 0);
    expect_unaffected("no text after", 4, 0, 0, 0, 0, 0);
    check("lists may be null", sengadlit_affected(NULL, 0, NULL, 0, 0, 0, &left, NULL) == SENGADLIT_DONE && left.back == 0);
    check("long spans", sengadlit_affected(huge, 2, huge, 2, UINT_MAX, 1, &left, NULL) == SENGADLIT_DONE && left.front == 0);
    refuse_edit("no spans", NULL, spans_after, 2, 2, SENGADLIT_ARGUMENT_SPANS);
    refuse_edit("no spans", spans_before, NULL, 2, 2, SENGADLIT_ARGUMENT_SPANS);
    refuse_edit("more than there are", spans_before, spans_after, 3, 3, SENGADLIT_ARGUMENT_RANGE);
    refuse_edit("far more", spans_before, spans_after, UINT_MAX, UINT_MAX, SENGADLIT_ARGUMENT_RANGE);
    check("no result", sengadlit_affected(spans_before, 4, spans_after, 3, 2, 2, NULL, &error) == SENGADLIT_ARGUMENT &&
                           error.argument == SENGADLIT_ARGUMENT_RESULT);
}

/* ---- Shapers ---- */

static void expect_shaper(const char *script, unsigned int direction, const char *chosen, unsigned int wanted)
{
    sengadlit_shaper_t shaper = (sengadlit_shaper_t)99;
    sengadlit_tag_t tag = SENGADLIT_TAG(script[0], script[1], script[2], script[3]);
    sengadlit_tag_t found = chosen ? SENGADLIT_TAG(chosen[0], chosen[1], chosen[2], chosen[3]) : 0;
    sengadlit_status_t status = sengadlit_shaper_for_script(tag, (sengadlit_direction_t)direction, found, &shaper);

    check(script, shaper == (sengadlit_shaper_t)wanted);
    check(script, status == (wanted == 99 ? SENGADLIT_ABSENT : SENGADLIT_DONE));
}

static void shapers(void)
{
    sengadlit_shaper_t shaper = (sengadlit_shaper_t)99;

    expect_shaper("Arab", SENGADLIT_DIRECTION_RTL, "DFLT", SENGADLIT_SHAPER_ARABIC);
    expect_shaper("Arab", SENGADLIT_DIRECTION_TTB, NULL, 99);
    expect_shaper("Syrc", SENGADLIT_DIRECTION_RTL, "DFLT", 99);
    expect_shaper("Hang", SENGADLIT_DIRECTION_LTR, NULL, SENGADLIT_SHAPER_HANGUL);
    expect_shaper("Hebr", SENGADLIT_DIRECTION_RTL, NULL, SENGADLIT_SHAPER_HEBREW);
    expect_shaper("Deva", SENGADLIT_DIRECTION_LTR, "dev2", SENGADLIT_SHAPER_INDIC);
    expect_shaper("Deva", SENGADLIT_DIRECTION_LTR, "dev3", SENGADLIT_SHAPER_UNIVERSAL);
    expect_shaper("Deva", SENGADLIT_DIRECTION_LTR, "latn", 99);
    expect_shaper("Khmr", SENGADLIT_DIRECTION_LTR, "DFLT", SENGADLIT_SHAPER_KHMER);
    expect_shaper("Mymr", SENGADLIT_DIRECTION_LTR, "mym2", SENGADLIT_SHAPER_MYANMAR);
    expect_shaper("Mymr", SENGADLIT_DIRECTION_LTR, "mymr", 99);
    expect_shaper("Qaag", SENGADLIT_DIRECTION_LTR, NULL, SENGADLIT_SHAPER_MYANMAR_ZAWGYI);
    expect_shaper("Laoo", SENGADLIT_DIRECTION_LTR, NULL, SENGADLIT_SHAPER_THAI);
    expect_shaper("Mong", SENGADLIT_DIRECTION_TTB, NULL, SENGADLIT_SHAPER_UNIVERSAL);
    expect_shaper("Latn", SENGADLIT_DIRECTION_LTR, NULL, 99);
    check("no script", sengadlit_shaper_for_script(0, SENGADLIT_DIRECTION_LTR, 0, &shaper) == SENGADLIT_ABSENT);
    check("no direction", sengadlit_shaper_for_script(SENGADLIT_TAG('T', 'h', 'a', 'i'), (sengadlit_direction_t)3, 0, &shaper) ==
                              SENGADLIT_ARGUMENT);
    check("nowhere", sengadlit_shaper_for_script(SENGADLIT_TAG('T', 'h', 'a', 'i'), SENGADLIT_DIRECTION_LTR, 0, NULL) ==
                         SENGADLIT_ARGUMENT);
    check("nothing is written", shaper == (sengadlit_shaper_t)99);
}

/* ---- Unicode's pairs ---- */

static void pairs(void)
{
    sengadlit_plan_t *plan = plan_of(SENGADLIT_SHAPER_INDIC, SENGADLIT_TAG('B', 'e', 'n', 'g'));
    uint32_t a = 0, b = 0;

    check("a pair", sengadlit_compose(plan, NULL, 0x41, 0x30A, &a, NULL) == SENGADLIT_DONE && a == 0xC5);
    check("no pair", sengadlit_compose(plan, NULL, 0x41, 0x41, &a, NULL) == SENGADLIT_NOT_FOUND);
    check("a mark composes with nothing", sengadlit_compose(plan, NULL, 0x9C7, 0x9BE, &a, NULL) == SENGADLIT_NOT_FOUND);
    check("parts", sengadlit_decompose(plan, NULL, 0x9CB, &a, &b, NULL) == SENGADLIT_DONE && a == 0x9C7 && b == 0x9BE);
    check("no parts", sengadlit_decompose(plan, NULL, 0x995, &a, &b, NULL) == SENGADLIT_NOT_FOUND);
    sengadlit_plan_destroy(plan);
}

/* MAI EK has 107, as in HarfBuzz, and SHEVA 22; what is no character has none, whatever its low bits are. */
static void classes(void)
{
    check("MAI EK", sengadlit_modified_combining_class(0x0E48) == 107);
    check("SHEVA", sengadlit_modified_combining_class(0x05B0) == 22);
    check("a letter", sengadlit_modified_combining_class(0x0E01) == 0);
    check("a surrogate", sengadlit_modified_combining_class(0xD800) == 0);
    check("beyond Unicode", sengadlit_modified_combining_class(0x110000) == 0 &&
                                sengadlit_modified_combining_class(0x200E48) == 0 &&
                                sengadlit_modified_combining_class(0x80000E48) == 0);
}

int main(void)
{
    utf8();
    utf16();
    utf32();
    items();
    items_that_are_none();
    lengths();
    properties();
    contexts();
    syllables();
    syllables_that_are_none();
    carets();
    carets_that_are_none();
    edits();
    shapers();
    pairs();
    classes();
    sengadlit_buffer_destroy(buffer);
    printf("%u passed, %u failed\n", passed, failed);
    return failed == 0 ? EXIT_SUCCESS : EXIT_FAILURE;
}
