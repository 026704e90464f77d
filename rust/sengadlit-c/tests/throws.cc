// throws FONT: an exception that leaves a callback ends the program, with a message on standard error: each callback throws in a
// process of its own. The last line is 'N passed, M failed'.
#include <sengadlit.h>

#include <csignal>
#include <cstdio>
#include <cstdlib>
#include <cstring>
#include <stdexcept>
#include <sys/resource.h>
#include <sys/wait.h>
#include <unistd.h>

static const char *thrower;

// Throws in the callback that is to throw.
static void meet(const char *callback)
{
    if (std::strcmp(callback, thrower) == 0) throw std::runtime_error(callback);
}

static sengadlit_bool_t nominal_glyph(void *, uint32_t unicode, uint32_t *glyph)
{
    meet("nominal_glyph");
    *glyph = unicode & 0xFFFF;
    return 1;
}

static uint32_t random_state;

static int32_t glyph_h_advance(void *, uint32_t)
{
    meet("glyph_h_advance");
    random_state = random_state * 1664525u + 1013904223u;
    return static_cast<int32_t>(random_state >> 22);
}

static sengadlit_bool_t would_substitute(void *, const uint16_t *, unsigned int, const uint32_t *, unsigned int, sengadlit_bool_t)
{
    meet("would_substitute");
    return 1;
}

static sengadlit_bool_t has_feature(void *, sengadlit_tag_t)
{
    meet("has_feature");
    return 1;
}

static uint8_t joining_type(void *, uint32_t)
{
    meet("joining_type");
    return SENGADLIT_JOINING_TYPE_X;
}

static uint8_t general_category(void *, uint32_t)
{
    meet("general_category");
    return SENGADLIT_UNICODE_GENERAL_CATEGORY_OTHER_LETTER;
}

static uint16_t indic_categories(void *, uint32_t)
{
    meet("indic_categories");
    return SENGADLIT_INDIC_CATEGORY_C;
}

static uint8_t use_category(void *, uint32_t)
{
    meet("use_category");
    return SENGADLIT_USE_CATEGORY_B;
}

static sengadlit_bool_t compose(void *, uint32_t, uint32_t, uint32_t *)
{
    meet("compose");
    return 0;
}

static sengadlit_bool_t decompose(void *, uint32_t, uint32_t *, uint32_t *)
{
    meet("decompose");
    return 0;
}

static sengadlit_bool_t variation_glyph(void *, uint32_t, uint32_t, uint32_t *)
{
    meet("variation_glyph");
    return 0;
}

static uint16_t glyph_props(void *, const sengadlit_glyph_info_t *)
{
    meet("glyph_props");
    return 0;
}

static sengadlit_bool_t substitute(void *, const sengadlit_lookup_t *, sengadlit_buffer_t *)
{
    meet("substitute");
    return 1;
}

static sengadlit_bool_t is_mark(void *, const sengadlit_glyph_info_t *)
{
    meet("is_mark");
    return 0;
}

static sengadlit_bool_t position(void *, const sengadlit_lookup_t *, sengadlit_buffer_t *)
{
    meet("position");
    return 1;
}

static void finish_positions(void *, sengadlit_buffer_t *) { meet("finish_positions"); }

static int32_t glyph_v_advance(void *, uint32_t)
{
    meet("glyph_v_advance");
    return -1000;
}

static void glyph_v_origin(void *, uint32_t, int32_t *x, int32_t *y)
{
    *x = *y = 0;
    meet("glyph_v_origin");
}

static void add_feature(void *, sengadlit_tag_t, uint32_t, uint32_t) { meet("add_feature"); }
static void add_gsub_pause(void *, sengadlit_pause_t) { meet("add_gsub_pause"); }
static void destroy(void *) { meet("destroy"); }
static void receive(const char *, void *) { meet("message"); }

static const sengadlit_font_funcs_t font_funcs = {sizeof font_funcs, nominal_glyph, glyph_h_advance, would_substitute,
                                                  has_feature};
static const sengadlit_font_t font = {&font_funcs, nullptr};
static const sengadlit_tables_funcs_t tables_funcs = {sizeof tables_funcs, joining_type, general_category, indic_categories,
                                                      use_category, compose,          decompose};
static const sengadlit_tables_t tables = {&tables_funcs, nullptr};
static const sengadlit_map_funcs_t map_funcs = {sizeof map_funcs, add_feature, add_gsub_pause};
static const sengadlit_map_t map = {&map_funcs, nullptr};

static sengadlit_plan_t *plan_of(sengadlit_shaper_t shaper, sengadlit_tag_t script)
{
    static const sengadlit_feature_t features[] = {{SENGADLIT_TAG('r', 'p', 'h', 'f'), 8, 0},
                                                   {SENGADLIT_TAG('s', 't', 'c', 'h'), 16, 0}};
    static const sengadlit_stage_t stage = {0, 1};
    static const uint16_t lookup = 0;
    sengadlit_plan_input_t input = SENGADLIT_INIT(sengadlit_plan_input_t);

    input.script = script;
    input.features = features;
    input.features_length = 2;
    input.stages = &stage;
    input.stages_length = 1;
    input.lookups = &lookup;
    input.lookups_length = 1;
    input.destroy = destroy;
    return sengadlit_plan_create(shaper, &input, nullptr);
}

static sengadlit_buffer_t *buffer_of(const char *text)
{
    sengadlit_buffer_t *buffer = sengadlit_buffer_create();

    if (sengadlit_buffer_add_utf8(buffer, text, -1, 2, -1) != SENGADLIT_DONE) std::exit(EXIT_FAILURE);
    return buffer;
}

// Two tiles behind a word, by advances that change: an internal error, now and then.
static void stretch()
{
    sengadlit_plan_t *plan = plan_of(SENGADLIT_SHAPER_ARABIC, SENGADLIT_TAG('S', 'y', 'r', 'c'));
    sengadlit_buffer_t *buffer = sengadlit_buffer_create();
    const sengadlit_buffer_properties_t properties = {sizeof properties, SENGADLIT_TAG('S', 'y', 'r', 'c'),
                                                      SENGADLIT_DIRECTION_RTL, SENGADLIT_BUFFER_CLUSTER_LEVEL_CHARACTERS, 0, 64};

    (void)sengadlit_buffer_set_properties(buffer, &properties);
    sengadlit_glyph_info_t *glyphs = sengadlit_buffer_set_length(buffer, 3);
    for (unsigned int i = 0; i < 3; i++) {
        glyphs[i].glyph_id = i + 1;
        glyphs[i].unicode_props = SENGADLIT_UNICODE_GENERAL_CATEGORY_OTHER_LETTER;
    }
    glyphs[1].auxiliary = 8;
    glyphs[2].auxiliary = 9;
    sengadlit_buffer_set_state(buffer, SENGADLIT_BUFFER_STATE_HAS_STCH);
    sengadlit_buffer_get_glyph_positions(buffer, nullptr)[0].x_advance = 1000;
    (void)sengadlit_postprocess_glyphs(plan, &font, buffer);
    sengadlit_buffer_destroy(buffer);
    sengadlit_plan_destroy(plan);
}

// A letter with a selector, by a plan with a lookup.
static void shape_whole()
{
    static const uint16_t zero = 0;
    static const sengadlit_table_feature_t mark = {SENGADLIT_TAG('m', 'a', 'r', 'k'), 1, &zero};
    static const sengadlit_lookups_funcs_t funcs = {sizeof funcs, variation_glyph, glyph_props, substitute, is_mark, position,
                                                    finish_positions, glyph_v_advance, glyph_v_origin};
    static const sengadlit_lookups_t lookups = {&funcs, nullptr};
    sengadlit_shape_plan_input_t input = SENGADLIT_INIT(sengadlit_shape_plan_input_t);

    input.script = SENGADLIT_TAG('L', 'a', 't', 'n');
    input.direction = SENGADLIT_DIRECTION_TTB;
    input.gsub.has_table = 1;
    input.gsub.features = &mark;
    input.gsub.features_length = 1;
    input.gpos = input.gsub;
    input.gpos.chosen_script = SENGADLIT_TAG('l', 'a', 't', 'n');
    const sengadlit_buffer_properties_t properties = {sizeof properties, input.script, input.direction,
                                                      SENGADLIT_BUFFER_CLUSTER_LEVEL_CHARACTERS, 0, 64};
    sengadlit_buffer_t *buffer = buffer_of("--\u1780\uFE00");
    (void)sengadlit_buffer_set_properties(buffer, &properties);
    (void)sengadlit_shape(sengadlit_shape_plan_create(&input, nullptr), &font, &lookups, buffer);
}

static sengadlit_glyph_info_t *grow(void *, sengadlit_glyph_info_t *, unsigned int, unsigned int *)
{
    meet("grow");
    return nullptr;
}

// A text that outgrows the array in which it stands.
static void lend()
{
    sengadlit_plan_t *plan = plan_of(SENGADLIT_SHAPER_THAI, SENGADLIT_TAG('T', 'h', 'a', 'i'));
    sengadlit_buffer_t *buffer = sengadlit_buffer_create();
    sengadlit_glyph_info_t glyph = {};

    glyph.glyph_id = 0x0E33;
    (void)sengadlit_buffer_set_grow_func(buffer, grow, nullptr);
    (void)sengadlit_buffer_lend(buffer, &glyph, 1, 1);
    (void)sengadlit_preprocess_text(plan, &font, buffer, nullptr);
    sengadlit_buffer_destroy(buffer);
    sengadlit_plan_destroy(plan);
}

static unsigned char font_bytes[1 << 16];
static size_t font_length;

static void destroy_face(void *) { meet("destroy of a face"); }

static int32_t own_advance(void *, uint32_t)
{
    meet("glyph_h_advance of a text");
    return 7;
}

static sengadlit_bool_t own_glyph(void *, uint32_t, uint32_t *glyph)
{
    meet("nominal_glyph of a text");
    *glyph = 1;
    return 1;
}

// A text by a face, with a font of the caller's.
static void shape_by_face()
{
    sengadlit_font_funcs_t funcs = SENGADLIT_INIT(sengadlit_font_funcs_t);
    const sengadlit_font_t own = {&funcs, nullptr};
    sengadlit_shape_options_t options = SENGADLIT_INIT(sengadlit_shape_options_t);
    sengadlit_buffer_t *buffer = sengadlit_buffer_create();
    sengadlit_face_t *face = sengadlit_face_create(font_bytes, font_length, 0, nullptr, destroy_face, nullptr);

    funcs.nominal_glyph = own_glyph;
    funcs.glyph_h_advance = own_advance;
    options.font = &own;
    (void)sengadlit_shape_utf8(face, "Tofi", -1, &options, buffer);
    sengadlit_buffer_destroy(buffer);
    sengadlit_face_destroy(face);
}

// Calls that make every call back.
static void call_everything()
{
    sengadlit_plan_t *arabic = plan_of(SENGADLIT_SHAPER_ARABIC, SENGADLIT_TAG('A', 'r', 'a', 'b'));
    sengadlit_plan_t *indic = plan_of(SENGADLIT_SHAPER_INDIC, SENGADLIT_TAG('D', 'e', 'v', 'a'));
    sengadlit_plan_t *hangul = plan_of(SENGADLIT_SHAPER_HANGUL, SENGADLIT_TAG('H', 'a', 'n', 'g'));
    sengadlit_plan_t *universal = plan_of(SENGADLIT_SHAPER_UNIVERSAL, SENGADLIT_TAG('S', 'i', 'n', 'h'));
    uint32_t a, b;

    (void)sengadlit_collect_features(SENGADLIT_SHAPER_ARABIC, 0, &font, &map, nullptr);
    (void)sengadlit_compose(indic, &tables, 0x41, 0x300, &a, nullptr);
    (void)sengadlit_decompose(indic, &tables, 0xC0, &a, &b, nullptr);
    (void)sengadlit_setup_masks(arabic, &tables, buffer_of("\u0628\u0628"));
    (void)sengadlit_setup_masks(universal, &tables, buffer_of("--\u0D9A"));
    (void)sengadlit_preprocess_text(hangul, &font, buffer_of("--\u1100\u1161\u302E"), nullptr);
    sengadlit_buffer_t *devanagari = buffer_of("--\u0930\u094D\u0915");
    (void)sengadlit_setup_masks(indic, nullptr, devanagari);
    (void)sengadlit_setup_masks(indic, &tables, buffer_of("--\u0915"));
    (void)sengadlit_setup_syllables_found(indic, SENGADLIT_PAUSE_SETUP_SYLLABLES_INDIC, devanagari);
    (void)sengadlit_run_pause(indic, SENGADLIT_PAUSE_INITIAL_REORDERING, &font, nullptr, 0, devanagari, nullptr);
    shape_whole();
    lend();
    shape_by_face();
    sengadlit_set_message_func(receive, nullptr);
    for (int i = 0; i < 3000; i++) stretch();
}

static unsigned int passed, failed;

static void expect_end(const char *callback)
{
    char message[256] = {};
    int ends[2], status = 0;

    thrower = callback;
    std::fflush(stdout);
    if (pipe(ends) != 0) std::exit(EXIT_FAILURE);
    const pid_t child = fork();
    if (child == 0) {
        const struct rlimit no_core = {0, 0};
        (void)setrlimit(RLIMIT_CORE, &no_core);
        (void)dup2(ends[1], STDERR_FILENO);
        try {
            call_everything();
        } catch (...) {
            std::puts("the exception came through");
        }
        std::_Exit(EXIT_SUCCESS);
    }
    (void)close(ends[1]);
    const ssize_t length = read(ends[0], message, sizeof message - 1);
    (void)close(ends[0]);
    (void)waitpid(child, &status, 0);
    const bool holds = WIFSIGNALED(status) && WTERMSIG(status) == SIGABRT && length > 0 &&
                       std::strcmp(message, "sengadlit: an exception left a callback\n") == 0;
    if (!holds) std::printf("FAILED: %s: status %d, message %s\n", callback, status, message);
    holds ? passed++ : failed++;
}

int main(int argc, char **argv)
{
    std::FILE *file = argc == 2 ? std::fopen(argv[1], "rb") : nullptr;
    static const char *const callbacks[] = {
        "nominal_glyph", "glyph_h_advance", "would_substitute", "has_feature", "joining_type", "general_category",
        "indic_categories", "use_category", "compose", "decompose", "add_feature", "add_gsub_pause", "destroy", "message",
        "variation_glyph", "glyph_props", "substitute", "is_mark", "position", "finish_positions", "glyph_v_advance",
        "glyph_v_origin", "grow", "destroy of a face", "nominal_glyph of a text", "glyph_h_advance of a text"};

    if (!file) return EXIT_FAILURE;
    font_length = std::fread(font_bytes, 1, sizeof font_bytes, file);
    (void)std::fclose(file);

    for (const char *callback : callbacks) expect_end(callback);
    std::printf("%u passed, %u failed\n", passed, failed);
    return failed == 0 ? EXIT_SUCCESS : EXIT_FAILURE;
}
