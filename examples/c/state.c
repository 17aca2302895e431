/* The state of a small scene, held as an image: matrices, a material, lights of three kinds, and the sections
 * that a draw has to hand to its shader anew. Every call that must be accepted goes through accept. */
#include "numbers.h"

static uint8_t image[FF_IMAGE_BYTES];

static void set_transform(uint32_t state, const float m[16]) {
    uint8_t matrix[FF_MATRIX_BYTES];
    put_matrix(matrix, m);
    accept(ff_set_transform(image, sizeof image, state, matrix, sizeof matrix));
}

static uint32_t set_light(uint32_t index, uint32_t type) {
    uint8_t light[FF_LIGHT_BYTES] = {0};
    put_number(light, 0, type);
    return ff_set_light_at(image, sizeof image, index, light, sizeof light);
}

static void enable(uint32_t index, uint32_t enabled) {
    accept(ff_set_light_enabled_at(image, sizeof image, index, enabled));
}

static void show_dirty(const char *title) {
    uint32_t bits;
    accept(ff_take_ff_vs_dirty(image, sizeof image, &bits));
    printf("%s: %u\n", title, (unsigned)bits);
}

static void show_palette_used(const char *title) {
    uint32_t used;
    accept(ff_world_palette_used(image, sizeof image, &used));
    printf("%s: %u\n", title, (unsigned)used);
}

static void show_light_inputs(const char *title) {
    uint32_t inputs;
    accept(ff_vs_source_light_inputs(image, sizeof image, &inputs));
    printf("%s: 0x%08x\n", title, (unsigned)inputs);
}

static void matrices(void) {
    const float moved[16] = {1, 0, 0, 0, 0, 1, 0, 0, 0, 0, 1, 0, 5, 6, 7, 1};
    const float doubled[16] = {2, 0, 0, 0, 0, 2, 0, 0, 0, 0, 2, 0, 0, 0, 0, 1};
    uint8_t matrix[FF_MATRIX_BYTES];

    show_palette_used("world matrices of a fresh state");
    set_transform(FF_TS_WORLD, moved);
    show_dirty("dirty after the world matrix");
    set_transform(FF_TS_VIEW, doubled);
    show_dirty("dirty after the view");
    accept(ff_world_view_projection(image, sizeof image, matrix, sizeof matrix));
    show_matrix("world x view x projection:", matrix);

    put_matrix(matrix, doubled);
    accept(ff_multiply_transform(image, sizeof image, FF_TS_WORLD, matrix, sizeof matrix));
    accept(ff_transform(image, sizeof image, FF_TS_WORLD, matrix, sizeof matrix));
    show_matrix("the world matrix, multiplied:", matrix);

    show_answer("state 15", ff_set_transform(image, sizeof image, 15, matrix, sizeof matrix));
    show_answer("state 16", ff_set_transform(image, sizeof image, FF_TS_TEXTURE0, matrix, sizeof matrix));
    show_answer("state 511", ff_set_transform(image, sizeof image, FF_TS_WORLD + 255, matrix, sizeof matrix));
    show_answer("state 512", ff_set_transform(image, sizeof image, 512, matrix, sizeof matrix));
    show_palette_used("world matrices after state 511");
}

static void material(void) {
    uint8_t bytes[FF_MATERIAL_BYTES] = {0};
    put(bytes, 0, 0.5f);
    put(bytes, 16, 20);
    accept(ff_set_material(image, sizeof image, bytes, sizeof bytes));
    memset(bytes, 0, sizeof bytes);
    accept(ff_material(image, sizeof image, bytes, sizeof bytes));
    printf("the material: diffuse red %g, power %g\n", get(bytes, 0), get(bytes, 16));
    show_answer("a material of 64 bytes", ff_set_material(image, sizeof image, bytes, 64));
}

static void lights(void) {
    uint8_t light[FF_LIGHT_BYTES];
    uint32_t masks, enabled, defined;

    enable(0, 1);
    accept(ff_get_light_at(image, sizeof image, 0, light, sizeof light));
    printf("the default light: type %u, diffuse %g %g %g %g, direction %g %g %g\n", (unsigned)get_number(light, 0), get(light, 1),
           get(light, 2), get(light, 3), get(light, 4), get(light, 16), get(light, 17), get(light, 18));

    accept(set_light(3, FF_LIGHT_SPOT));
    enable(3, 1);
    show_light_inputs("directional 0 and spot 3");
    accept(set_light(9, FF_LIGHT_POINT));
    enable(9, 1);
    show_light_inputs("with point 9");
    accept(ff_compacted_light_masks(image, sizeof image, &masks));
    printf("their masks: 0x%08x\n", (unsigned)masks);
    enable(9, 0);
    show_light_inputs("9 disabled");

    accept(ff_is_light_enabled_at(image, sizeof image, 9, &enabled));
    accept(ff_is_light_defined_at(image, sizeof image, 9, &defined));
    printf("light 9: enabled %u, defined %u\n", (unsigned)enabled, (unsigned)defined);
    show_answer("light 4", ff_get_light_at(image, sizeof image, 4, light, sizeof light));

    for (uint32_t i = 1; i < FF_OVERFLOW_LIGHTS; i++)
        accept(set_light(9 + i, FF_LIGHT_POINT));
    show_answer("a light after 56", set_light(4000000000u, FF_LIGHT_POINT));
}

static void smoke(void) {
    const int tail = FF_IMAGE_BYTES / 4 - 5;

    show_dirty("dirty before the smoke");
    accept(ff_set_fog_start(image, sizeof image, bits_of(10)));
    show_dirty("dirty after fog's start");
    accept(ff_set_fog_end(image, sizeof image, bits_of(50)));
    show_dirty("dirty after fog's end");
    accept(ff_set_fog_density(image, sizeof image, bits_of(0.25f)));
    show_dirty("dirty after fog's density");
    accept(ff_set_ambient(image, sizeof image, 0xFF804020));
    show_dirty("dirty after the ambient colour");
    accept(ff_set_texture_mask(image, sizeof image, 5));
    show_dirty("dirty after the texture mask");
    accept(ff_set_texture_mask(image, sizeof image, 5));
    show_dirty("dirty after the same mask");
    printf("the image ends with %g %g %g 0x%08x 0x%08x\n", get(image, tail), get(image, tail + 1), get(image, tail + 2),
           (unsigned)get_number(image, tail + 3), (unsigned)get_number(image, tail + 4));

    put_number(image, tail + 4, 256);
    show_answer("an image with the texture mask 256", ff_image_check(image, sizeof image));
    show_answer("fog's start there", ff_set_fog_start(image, sizeof image, 0));
    show_answer("fog's end there", ff_set_fog_end(image, sizeof image, 0));
    show_answer("fog's density there", ff_set_fog_density(image, sizeof image, 0));
    show_answer("the ambient colour there", ff_set_ambient(image, sizeof image, 0));
    show_answer("the texture mask there", ff_set_texture_mask(image, sizeof image, 0));
    put_number(image, tail + 4, 5);
    put_number(image, tail + 1, 0x7FC00001);
    show_answer("an image with another NaN in fog's end", ff_image_check(image, sizeof image));
    put(image, tail + 1, 50);
}

static void images(void) {
    uint8_t kept[FF_IMAGE_BYTES];

    show_answer("bits 256", ff_mark_ff_vs_dirty(image, sizeof image, 256));
    accept(ff_mark_ff_vs_dirty(image, sizeof image, FF_DIRTY_TT));
    show_answer("the image", ff_image_check(image, sizeof image));
    show_answer("one byte less of it", ff_image_check(image, sizeof image - 1));
    show_answer("its first 24204 bytes", ff_image_check(image, 24204));

    image[17927] = 1; /* a byte that is always 0 */
    memcpy(kept, image, sizeof image);
    show_answer("a damaged image", ff_mark_ff_vs_dirty(image, sizeof image, FF_DIRTY_WV));
    printf("it is left as found: %s\n", memcmp(kept, image, sizeof image) == 0 ? "yes" : "no");
}

int main(void) {
    accept(ff_image_fresh(image, sizeof image));
    show_dirty("dirty in a fresh state");
    show_dirty("dirty once taken");
    matrices();
    material();
    lights();
    smoke();
    images();
    return 0;
}
