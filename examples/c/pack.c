/* The rows that a draw hands to its shader: a small scene packed section by section into one buffer of rows, laid out
 * as the shader reads it. */
#include "rows.h"

static uint8_t image[FF_IMAGE_BYTES];
static struct packing packed;

static void show_row_count(const char *title, struct ff_vs_key key) {
    uint32_t count;
    accept(ff_vs_row_count(image, sizeof image, FF_KEY_OF(key), &count));
    printf("rows of a draw, %s: %u\n", title, (unsigned)count);
}

static void show_textured(uint8_t mask) {
    const struct ff_vs_key unlit = {0};
    char title[32];
    accept(ff_set_texture_mask(image, sizeof image, mask));
    snprintf(title, sizeof title, "texture mask 0x%02x", (unsigned)mask);
    show_row_count(title, unlit);
}

static void row_counts(void) {
    const struct ff_vs_key unlit = {0};
    struct ff_vs_key lit = {0}, blended = {0}, transformed = {0};

    show_row_count("unlit", unlit);
    lit.lighting_enabled = 1;
    show_row_count("lit", lit);
    lit.specular_enable = 1;
    show_row_count("lit, with specular", lit);
    lit.light_active_mask = 0x01;
    show_row_count("one light", lit);
    lit.light_active_mask = 0xFF;
    show_row_count("eight lights", lit);
    blended.vertex_blend_count = 255;
    show_row_count("255 matrices", blended);
    blended.vertex_blend_count = 1;
    blended.vertex_blend_indexed = 1;
    show_row_count("indexed", blended);
    transformed.has_rhw = 1;
    show_row_count("transformed", transformed);
    show_textured(0x01);
    show_textured(0x04);
    show_textured(0x80);
}

static void scene(void) {
    const float moved[16] = {1, 0, 0, 0, 0, 1, 0, 0, 0, 0, 1, 0, 5, 6, 7, 1};
    uint8_t matrix[FF_MATRIX_BYTES], material[FF_MATERIAL_BYTES] = {0}, light[FF_LIGHT_BYTES] = {0};

    accept(ff_image_fresh(image, sizeof image));
    put_matrix(matrix, moved);
    accept(ff_set_transform(image, sizeof image, FF_TS_WORLD, matrix, sizeof matrix));
    put(material, 0, 0.5f);
    put(material, 16, 20);
    accept(ff_set_material(image, sizeof image, material, sizeof material));

    put_number(light, 0, FF_LIGHT_DIRECTIONAL);
    put(light, 18, 2); /* direction 0, 0, 2 */
    accept(ff_set_light_at(image, sizeof image, 0, light, sizeof light));
    accept(ff_set_light_enabled_at(image, sizeof image, 0, 1));
    put_number(light, 0, FF_LIGHT_SPOT); /* theta and phi 0 */
    accept(ff_set_light_at(image, sizeof image, 70, light, sizeof light));
    accept(ff_set_light_enabled_at(image, sizeof image, 70, 1));
}

/* Fog, the ambient colour and the texture matrices up to the mask's highest bit. */
static void smoke(struct ff_vs_key key) {
    const float turned[16] = {0, 1, 0, 0, -1, 0, 0, 0, 0, 0, 1, 0, 2, 3, 4, 1};
    uint8_t matrix[FF_MATRIX_BYTES];

    accept(ff_set_fog_start(image, sizeof image, bits_of(10)));
    accept(ff_set_fog_end(image, sizeof image, bits_of(50)));
    accept(ff_set_fog_density(image, sizeof image, bits_of(0.25f)));
    accept(ff_set_ambient(image, sizeof image, 0xFF804020));
    accept(ff_set_texture_mask(image, sizeof image, 4));
    put_matrix(matrix, turned);
    accept(ff_set_transform(image, sizeof image, FF_TS_TEXTURE0 + 1, matrix, sizeof matrix));
    pack(image, key, &packed);
    show_row("fog, mode 0", packed.rows, FF_ROW_FOG);
    key.fog_mode = 3;
    pack(image, key, &packed);
    show_row("fog, mode 3", packed.rows, FF_ROW_FOG);
    printf("ambient: 0x%08x 0x%08x 0x%08x 0x%08x\n", (unsigned)get_number(packed.rows, 4 * FF_ROW_AMBIENT),
           (unsigned)get_number(packed.rows, 4 * FF_ROW_AMBIENT + 1), (unsigned)get_number(packed.rows, 4 * FF_ROW_AMBIENT + 2),
           (unsigned)get_number(packed.rows, 4 * FF_ROW_AMBIENT + 3));
    printf("rows of texture matrices: %u\n", (unsigned)packed.tt);
    show_row("the second texture matrix, row 0", packed.rows, FF_ROW_TT + 4);
    show_answer("two rows for FOG",
                ff_fill_fog_section(image, sizeof image, FF_KEY_OF(key), SECTION(packed.rows, FF_ROW_FOG, 2)));
    show_answer("no row for AMBIENT",
                ff_fill_ambient_section(image, sizeof image, FF_KEY_OF(key), SECTION(packed.rows, FF_ROW_AMBIENT, 0)));
    show_answer("eight rows for TT",
                ff_fill_tt_section(image, sizeof image, FF_KEY_OF(key), SECTION(packed.rows, FF_ROW_TT, 8)));
}

/* Nine lights light: eight of them are packed for the main screen, four for the preview. */
static void preview(struct ff_vs_key key) {
    static struct packing four;
    uint32_t masks;
    int others;

    for (uint32_t index = 0; index < 8; index++)
        accept(ff_set_light_enabled_at(image, sizeof image, index, 1));
    accept(ff_compacted_light_masks(image, sizeof image, &masks));
    key.light_active_mask = (uint8_t)masks;
    pack(image, key, &packed);
    key.preview = 1;
    show_answer("eight lights in the preview",
                ff_fill_lights_section(image, sizeof image, FF_KEY_OF(key), SECTION(four.rows, FF_ROW_LIGHTS, 48)));
    key.light_active_mask &= 15;
    pack(image, key, &four);
    printf("rows of lights on the main screen: %u\n", (unsigned)packed.lights);
    others = memcmp(packed.rows + FF_ROW_LIGHTS * FF_ROW_BYTES, SECTION(four.rows, FF_ROW_LIGHTS, four.lights));
    printf("rows of lights in the preview: %u, the first of those: %s\n", (unsigned)four.lights, others ? "no" : "yes");
}

int main(void) {
    struct ff_vs_key key = {0};
    uint8_t *const rows = packed.rows;
    uint32_t masks;

    accept(ff_image_fresh(image, sizeof image));
    row_counts();

    scene();
    accept(ff_compacted_light_masks(image, sizeof image, &masks));
    key.lighting_enabled = key.specular_enable = 1;
    key.light_active_mask = (uint8_t)masks;
    key.vertex_blend_count = 2;
    pack(image, key, &packed);
    show_row("world x view, row 0", rows, FF_ROW_WV);
    show_row("projection, row 0", rows, FF_ROW_PROJ);
    show_row("diffuse", rows, FF_ROW_MATERIAL);
    show_row("power", rows, FF_ROW_MATERIAL + 4);
    show_row("the first light's direction and falloff", rows, FF_ROW_LIGHTS + 1);
    show_row("the second light's position and kind", rows, FF_ROW_LIGHTS + 6);
    printf("its spot's scale %.7g and offset %.7g\n", get(rows + (FF_ROW_LIGHTS + 11) * FF_ROW_BYTES, 3),
           get(rows + (FF_ROW_LIGHTS + 9) * FF_ROW_BYTES, 3));
    show_row("the second world matrix, row 0", rows, FF_ROW_PALETTE + 4);
    smoke(key);

    show_answer("five rows for WV", ff_fill_wv_section(image, sizeof image, FF_KEY_OF(key), SECTION(rows, FF_ROW_WV, 5)));
    key.light_active_mask = 2;
    show_answer("light mask 2",
                ff_fill_lights_section(image, sizeof image, FF_KEY_OF(key), SECTION(rows, FF_ROW_LIGHTS, 12)));
    preview(key);
    return 0;
}
