/* A state held in memory over some frames: what each refresh takes, and in how many rows the mirror differs from a full
 * packing of the state's image. */
#include "rows.h"

static struct ff_state state;
static float mirror[4 * FF_ROWS];
static struct ff_vs_key key;

/* Equal, or two NaNs. */
static int alike(float a, float b) {
    return bits_of(a) == bits_of(b) || (a != a && b != b);
}

static unsigned wrong_in(const struct packing *packed, int first, uint32_t count) {
    unsigned wrong = 0;
    for (int row = first; row < first + (int)count; row++) {
        int same = 1;
        for (int i = 4 * row; i < 4 * row + 4; i++)
            same &= alike(mirror[i], get(packed->rows, i));
        wrong += !same;
    }
    return wrong;
}

static void show_wrong(void) {
    uint8_t image[FF_IMAGE_BYTES];
    struct packing packed;
    accept(ff_state_write_image(&state, image, sizeof image));
    pack(image, key, &packed);
    printf("  wrong rows: WV %u, PROJ %u, FOG %u, AMBIENT %u, MATERIAL %u, LIGHTS %u, TT %u, PALETTE %u\n",
           wrong_in(&packed, FF_ROW_WV, packed.wv), wrong_in(&packed, FF_ROW_PROJ, packed.proj),
           wrong_in(&packed, FF_ROW_FOG, packed.fog), wrong_in(&packed, FF_ROW_AMBIENT, packed.ambient),
           wrong_in(&packed, FF_ROW_MATERIAL, packed.material), wrong_in(&packed, FF_ROW_LIGHTS, packed.lights),
           wrong_in(&packed, FF_ROW_TT, packed.tt), wrong_in(&packed, FF_ROW_PALETTE, packed.palette));
}

static void refresh(void) {
    uint32_t bits;
    accept(ff_state_refresh(&state, FF_KEY_OF(key), mirror, 4 * FF_ROWS, &bits));
    printf("  refresh: bits %u; row 0: %g %g %g %g\n", (unsigned)bits, mirror[0], mirror[1], mirror[2], mirror[3]);
    show_wrong();
}

static void move(uint32_t which, float x, float y, float z) {
    const float moved[16] = {1, 0, 0, 0, 0, 1, 0, 0, 0, 0, 1, 0, x, y, z, 1};
    accept(ff_state_set_transform(&state, which, moved));
}

/* Two lights and two blended matrices. */
static void scene(void) {
    const float material[17] = {[0] = 0.5f, [16] = 20};
    struct ff_light light = {.type = FF_LIGHT_SPOT, .direction = {0, 0, 2}};
    uint32_t inputs;

    ff_state_fresh(&state);
    move(FF_TS_WORLD, 5, 6, 7);
    accept(ff_state_set_material(&state, material));
    accept(ff_state_set_light_enabled_at(&state, 0, 1));
    accept(ff_state_set_light_at(&state, 70, &light));
    accept(ff_state_set_light_enabled_at(&state, 70, 1));
    accept(ff_state_vs_source_light_inputs(&state, &inputs));
    printf("light inputs: 0x%08x\n", (unsigned)inputs);
    key.lighting_enabled = key.specular_enable = 1;
    key.light_active_mask = (uint8_t)inputs;
    key.fog_mode = 3;
    key.vertex_blend_count = 2;
}

static void frames(void) {
    const float twice[16] = {2, 0, 0, 0, 0, 2, 0, 0, 0, 0, 2, 0, 0, 0, 0, 1};

    printf("the first frame\n");
    refresh();
    for (int x = 6; x <= 8; x++) {
        printf("the world matrix moves to %d\n", x);
        move(FF_TS_WORLD, (float)x, 6, 7);
        show_wrong();
        refresh();
    }
    printf("it is made twice as large\n");
    accept(ff_state_multiply_transform(&state, FF_TS_WORLD, twice));
    refresh();
    printf("the view moves\n");
    move(FF_TS_VIEW, 10, 20, 30);
    refresh();
}

/* Smoke: each value dirties its section. */
static void smoke(void) {
    printf("fog\n");
    accept(ff_state_set_fog_start(&state, 10));
    accept(ff_state_set_fog_end(&state, 50));
    accept(ff_state_set_fog_density(&state, 0.25f));
    show_wrong();
    refresh();
    printf("  row 8: %g %g %g %g\n", mirror[32], mirror[33], mirror[34], mirror[35]);
    printf("an ambient colour\n");
    accept(ff_state_set_ambient(&state, 0xFFFF0000));
    refresh();
    printf("  row 9: %g %g %g %g\n", mirror[36], mirror[37], mirror[38], mirror[39]);
    printf("the texture stages 0 and 2\n");
    move(FF_TS_TEXTURE0 + 2, 1, 2, 3);
    accept(ff_state_set_texture_mask(&state, 5));
    show_wrong();
    refresh();
}

/* A refused call leaves state, mirror and number as they were. */
static void refused(void) {
    uint8_t found[FF_IMAGE_BYTES], image[FF_IMAGE_BYTES];
    struct ff_vs_key wrong = key;
    float held[4 * FF_ROWS];
    uint32_t bits = 1234;

    accept(ff_state_write_image(&state, found, sizeof found));
    memcpy(held, mirror, sizeof mirror);
    wrong.light_active_mask = 1;
    show_answer("light mask 1", ff_state_refresh(&state, FF_KEY_OF(wrong), mirror, 4 * FF_ROWS, &bits));
    show_answer("a mirror of 4459 floats", ff_state_refresh(&state, FF_KEY_OF(key), mirror, 4 * FF_ROWS - 1, &bits));
    show_answer("state 512", ff_state_set_transform(&state, 512, mirror));
    show_answer("bits 256", ff_state_mark_ff_vs_dirty(&state, 256));
    accept(ff_state_write_image(&state, image, sizeof image)); /* two states are compared by their images */
    printf("left as found: state %s, mirror %s, number %s\n", memcmp(found, image, sizeof image) ? "no" : "yes",
           memcmp(held, mirror, sizeof mirror) ? "no" : "yes", bits == 1234 ? "yes" : "no");
}

/* From one form to the other and back: the bits come with it. */
static void stored(void) {
    uint8_t image[FF_IMAGE_BYTES];
    uint32_t bits;

    accept(ff_state_mark_ff_vs_dirty(&state, FF_DIRTY_PROJ | FF_DIRTY_TT));
    accept(ff_state_write_image(&state, image, sizeof image));
    ff_state_fresh(&state);
    accept(ff_state_read_image(&state, image, sizeof image));
    accept(ff_state_take_ff_vs_dirty(&state, &bits));
    printf("stored and read in again: bits %u\n", (unsigned)bits);
    image[0] = 0;
    show_answer("100 bytes", ff_state_read_image(&state, image, 100));
}

int main(void) {
    scene();
    frames();
    smoke();
    refused();
    stored();
    return 0;
}
