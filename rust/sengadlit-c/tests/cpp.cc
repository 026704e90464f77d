// The header in C++: each function is declared as the library exports it, and enumerations are types of their own.
#include <sengadlit.h>

#include <cstdio>

int main()
{
    sengadlit_plan_input_t input = SENGADLIT_INIT(sengadlit_plan_input_t);
    sengadlit_error_t error = {};
    input.script = SENGADLIT_TAG('H', 'e', 'b', 'r');
    sengadlit_plan_t *plan = sengadlit_plan_create(SENGADLIT_SHAPER_HEBREW, &input, &error);
    sengadlit_buffer_t *buffer = sengadlit_buffer_create();
    sengadlit_glyph_info_t *glyphs = sengadlit_buffer_set_length(buffer, 2);
    if (!plan || !glyphs) {
        std::puts(sengadlit_status_name(error.status));
        return 1;
    }
    for (unsigned i = 0; i < 2; i++) glyphs[i].glyph_id = 0x05D0 + i;
    const sengadlit_status_t status = sengadlit_reorder_marks(plan, buffer, 0, 2);
    std::puts(sengadlit_status_name(status));
    sengadlit_buffer_destroy(buffer);
    sengadlit_plan_destroy(plan);
    return status == SENGADLIT_DONE ? 0 : 1;
}
