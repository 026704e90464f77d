/* Prints the size of each struct of the header and the offset of each of its fields, as this compiler has them. The library
   is built from structs of the same: abi/layout.txt holds both to one record. */
#include <sengadlit.h>

#include <stdio.h>

#define STRUCT(name) printf("%s %u\n", #name, (unsigned)sizeof(sengadlit_##name##_t))
#define FIELD(name, field) printf("  %s %u\n", #field, (unsigned)offsetof(sengadlit_##name##_t, field))

static void print_common(void)
{
    STRUCT(error);
    FIELD(error, status);
    FIELD(error, argument);
    FIELD(error, index);
    STRUCT(shaper_constants);
    FIELD(shaper_constants, size);
    FIELD(shaper_constants, hooks);
    FIELD(shaper_constants, gpos_tag);
    FIELD(shaper_constants, normalization_preference);
    FIELD(shaper_constants, zero_width_marks);
    FIELD(shaper_constants, fallback_position);
}

static void print_callbacks(void)
{
    STRUCT(font_funcs);
    FIELD(font_funcs, size);
    FIELD(font_funcs, nominal_glyph);
    FIELD(font_funcs, glyph_h_advance);
    FIELD(font_funcs, would_substitute);
    FIELD(font_funcs, has_feature);
    STRUCT(tables_funcs);
    FIELD(tables_funcs, size);
    FIELD(tables_funcs, joining_type);
    FIELD(tables_funcs, general_category);
    FIELD(tables_funcs, indic_categories);
    FIELD(tables_funcs, use_category);
    FIELD(tables_funcs, compose);
    FIELD(tables_funcs, decompose);
    STRUCT(map_funcs);
    FIELD(map_funcs, size);
    FIELD(map_funcs, add_feature);
    FIELD(map_funcs, add_gsub_pause);
    STRUCT(font);
    FIELD(font, funcs);
    FIELD(font, user_data);
    STRUCT(tables);
    FIELD(tables, funcs);
    FIELD(tables, user_data);
    STRUCT(map);
    FIELD(map, funcs);
    FIELD(map, user_data);
}

static void print_plans(void)
{
    STRUCT(feature);
    FIELD(feature, tag);
    FIELD(feature, mask);
    FIELD(feature, stage);
    STRUCT(stage);
    FIELD(stage, start);
    FIELD(stage, end);
    STRUCT(plan_input);
    FIELD(plan_input, size);
    FIELD(plan_input, script);
    FIELD(plan_input, chosen_script);
    FIELD(plan_input, found_script);
    FIELD(plan_input, has_gpos_mark);
    FIELD(plan_input, centres_stretch);
    FIELD(plan_input, sound_breaks);
    FIELD(plan_input, global_mask);
    FIELD(plan_input, searches_medials);
    FIELD(plan_input, features);
    FIELD(plan_input, features_length);
    FIELD(plan_input, stages);
    FIELD(plan_input, stages_length);
    FIELD(plan_input, lookups);
    FIELD(plan_input, lookups_length);
    FIELD(plan_input, user_data);
    FIELD(plan_input, destroy);
    FIELD(plan_input, new_spec_zero_context);
    STRUCT(plan_data);
    FIELD(plan_data, size);
    FIELD(plan_data, shaper);
    FIELD(plan_data, joins);
    FIELD(plan_data, has_stch);
    FIELD(plan_data, rphf_mask);
    FIELD(plan_data, masks);
}

static void print_buffers(void)
{
    STRUCT(glyph_info);
    FIELD(glyph_info, glyph_id);
    FIELD(glyph_info, mask);
    FIELD(glyph_info, cluster);
    FIELD(glyph_info, glyph_props);
    FIELD(glyph_info, lig_props);
    FIELD(glyph_info, syllable);
    FIELD(glyph_info, unicode_props);
    FIELD(glyph_info, category);
    FIELD(glyph_info, auxiliary);
    STRUCT(glyph_position);
    FIELD(glyph_position, x_advance);
    FIELD(glyph_position, y_advance);
    FIELD(glyph_position, x_offset);
    FIELD(glyph_position, y_offset);
    FIELD(glyph_position, var);
    STRUCT(buffer_properties);
    FIELD(buffer_properties, size);
    FIELD(buffer_properties, script);
    FIELD(buffer_properties, direction);
    FIELD(buffer_properties, cluster_level);
    FIELD(buffer_properties, flags);
    FIELD(buffer_properties, max_length);
    STRUCT(span);
    FIELD(span, length);
    FIELD(span, kind);
}

static void print_shaping(void)
{
    STRUCT(table_feature);
    FIELD(table_feature, tag);
    FIELD(table_feature, lookups_length);
    FIELD(table_feature, lookups);
    STRUCT(layout_table);
    FIELD(layout_table, has_table);
    FIELD(layout_table, chosen_script);
    FIELD(layout_table, found_script);
    FIELD(layout_table, features_length);
    FIELD(layout_table, features);
    FIELD(layout_table, anywhere);
    FIELD(layout_table, anywhere_length);
    FIELD(layout_table, required);
    STRUCT(user_feature);
    FIELD(user_feature, tag);
    FIELD(user_feature, value);
    FIELD(user_feature, start);
    FIELD(user_feature, end);
    STRUCT(shape_plan_input);
    FIELD(shape_plan_input, size);
    FIELD(shape_plan_input, script);
    FIELD(shape_plan_input, direction);
    FIELD(shape_plan_input, gsub);
    FIELD(shape_plan_input, gpos);
    FIELD(shape_plan_input, user_features);
    FIELD(shape_plan_input, user_features_length);
    FIELD(shape_plan_input, units_per_em);
    FIELD(shape_plan_input, centres_stretch);
    FIELD(shape_plan_input, sound_breaks);
    FIELD(shape_plan_input, searches_medials);
    FIELD(shape_plan_input, reserved);
    FIELD(shape_plan_input, new_spec_zero_context);
    STRUCT(lookup);
    FIELD(lookup, index);
    FIELD(lookup, mask);
    FIELD(lookup, auto_zwnj);
    FIELD(lookup, auto_zwj);
    FIELD(lookup, random);
    FIELD(lookup, per_syllable);
    STRUCT(lookups_funcs);
    FIELD(lookups_funcs, size);
    FIELD(lookups_funcs, variation_glyph);
    FIELD(lookups_funcs, glyph_props);
    FIELD(lookups_funcs, substitute);
    FIELD(lookups_funcs, is_mark);
    FIELD(lookups_funcs, position);
    FIELD(lookups_funcs, finish_positions);
    FIELD(lookups_funcs, glyph_v_advance);
    FIELD(lookups_funcs, glyph_v_origin);
    STRUCT(lookups);
    FIELD(lookups, funcs);
    FIELD(lookups, user_data);
    STRUCT(unaffected);
    FIELD(unaffected, front);
    FIELD(unaffected, back);
    STRUCT(shape_options);
    FIELD(shape_options, size);
    FIELD(shape_options, script);
    FIELD(shape_options, direction);
    FIELD(shape_options, language);
    FIELD(shape_options, features);
    FIELD(shape_options, features_length);
    FIELD(shape_options, sound_breaks);
    FIELD(shape_options, skips_medials);
    FIELD(shape_options, normalizes_always);
    FIELD(shape_options, invisible_glyph);
    FIELD(shape_options, not_found_glyph);
    FIELD(shape_options, not_found_selector_glyph);
    FIELD(shape_options, font);
    FIELD(shape_options, cache);
    FIELD(shape_options, old_spec_zero_context);
    STRUCT(glyph_extents);
    FIELD(glyph_extents, x_bearing);
    FIELD(glyph_extents, y_bearing);
    FIELD(glyph_extents, width);
    FIELD(glyph_extents, height);
}

int main(void)
{
    print_common();
    print_callbacks();
    print_plans();
    print_buffers();
    print_shaping();
    return 0;
}
