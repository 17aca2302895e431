/* A mirror of the shader's constants, kept up with the state over some frames: what each refresh takes and writes, and in how
 * many rows the mirror differs from a full packing of the state. */
#include "rows.h"

static uint8_t image[FF_IMAGE_BYTES];
static uint8_t kept[FF_IMAGE_BYTES]; /* the image after the first refresh */
static uint8_t mirror[FF_MIRROR_BYTES];
static struct ff_vs_key key;

/* Equal bits, or two NaNs. */
static int alike(uint32_t a, uint32_t b) {
    return a == b || (of_bits(a) != of_bits(a) && of_bits(b) != of_bits(b));
}

static unsigned wrong_in(const struct packing *packed, int first, uint32_t count) {
    unsigned wrong = 0;
    for (int row = first; row < first + (int)count; row++) {
        int same = 1;
        for (int i = 4 * row; i < 4 * row + 4; i++)
            same &= alike(get_number(mirror, i), get_number(packed->rows, i));
        wrong += !same;
    }
    return wrong;
}

static void show_wrong(void) {
    struct packing packed;
    pack(image, key, &packed);
    printf("  wrong rows: WV %u, PROJ %u, FOG %u, AMBIENT %u, MATERIAL %u, LIGHTS %u, TT %u, PALETTE %u\n",
           wrong_in(&packed, FF_ROW_WV, packed.wv), wrong_in(&packed, FF_ROW_PROJ, packed.proj),
           wrong_in(&packed, FF_ROW_FOG, packed.fog), wrong_in(&packed, FF_ROW_AMBIENT, packed.ambient),
           wrong_in(&packed, FF_ROW_MATERIAL, packed.material), wrong_in(&packed, FF_ROW_LIGHTS, packed.lights),
           wrong_in(&packed, FF_ROW_TT, packed.tt), wrong_in(&packed, FF_ROW_PALETTE, packed.palette));
}

static void refresh(void) {
    static const char *const names[] = {" WV", " PROJ", " MATERIAL", " LIGHTS", " PALETTE", " TT", " FOG", " AMBIENT"};
    uint8_t before[FF_MIRROR_BYTES];
    uint32_t bits;
    int changed = 0;

    memcpy(before, mirror, sizeof mirror);
    accept(ff_refresh(image, sizeof image, FF_KEY_OF(key), mirror, sizeof mirror, &bits));
    for (int at = 0; at < FF_MIRROR_BYTES; at += FF_ROW_BYTES)
        changed += memcmp(before + at, mirror + at, FF_ROW_BYTES) != 0;
    printf("  refresh: bits %u", (unsigned)bits);
    for (int i = 0; i < 8; i++)
        printf("%s", bits >> i & 1 ? names[i] : "");
    printf("; rows changed %d, kept %d\n", changed, FF_ROWS - changed);
    show_wrong();
}

static void mark(uint32_t bits) {
    accept(ff_mark_ff_vs_dirty(image, sizeof image, bits));
    printf("  mark: bits %u\n", (unsigned)bits);
}

static void move(uint32_t state, float x, float y, float z) {
    const float moved[16] = {1, 0, 0, 0, 0, 1, 0, 0, 0, 0, 1, 0, x, y, z, 1};
    uint8_t matrix[FF_MATRIX_BYTES];
    put_matrix(matrix, moved);
    accept(ff_set_transform(image, sizeof image, state, matrix, sizeof matrix));
}

static void set_power(uint32_t bits) {
    uint8_t material[FF_MATERIAL_BYTES] = {0};
    put(material, 0, 0.5f);
    put_number(material, 16, bits);
    accept(ff_set_material(image, sizeof image, material, sizeof material));
}

static void set_light(uint32_t index, uint32_t type) {
    uint8_t light[FF_LIGHT_BYTES] = {0};
    put_number(light, 0, type);
    put(light, 18, 2); /* direction 0, 0, 2 */
    accept(ff_set_light_at(image, sizeof image, index, light, sizeof light));
    accept(ff_set_light_enabled_at(image, sizeof image, index, 1));
}

/* Two lights, two blended matrices and a texture matrix: 4 + 4 + 1 + 1 + 5 + 12 + 4 + 8 rows. */
static void scene(void) {
    uint32_t masks;

    accept(ff_image_fresh(image, sizeof image));
    move(FF_TS_WORLD, 5, 6, 7);
    set_power(bits_of(20));
    set_light(0, FF_LIGHT_DIRECTIONAL);
    set_light(70, FF_LIGHT_SPOT);
    accept(ff_set_texture_mask(image, sizeof image, 1));
    accept(ff_compacted_light_masks(image, sizeof image, &masks));
    key.lighting_enabled = key.specular_enable = 1;
    key.light_active_mask = (uint8_t)masks;
    key.vertex_blend_count = 2;
}

static void frames(void) {
    printf("a mirror of foreign bytes\n");
    memset(mirror, 0xA5, sizeof mirror);
    show_wrong();
    refresh();
    memcpy(kept, image, sizeof image);
    show_row("  row 0", mirror, FF_ROW_WV);
    printf("nothing changes\n");
    refresh();
    for (int x = 6; x <= 8; x++) {
        printf("the world matrix moves to %d\n", x);
        move(FF_TS_WORLD, (float)x, 6, 7);
        refresh();
        show_row("  row 0", mirror, FF_ROW_WV);
    }
    printf("the view changes between two refreshes\n");
    move(FF_TS_VIEW, 10, 20, 30);
    show_wrong();
    refresh();
    show_row("  row 0", mirror, FF_ROW_WV);
    show_row("  the first light's position and kind", mirror, FF_ROW_LIGHTS);
    printf("the projection and a texture matrix change\n");
    move(FF_TS_PROJECTION, 0, 0, 1);
    move(FF_TS_TEXTURE0, 0, 0, 1);
    refresh();
}

/* Smoke: what is set is written, and so is a texture mask that grows. */
static void smoke(void) {
    printf("fog and ambient colour change\n");
    accept(ff_set_fog_start(image, sizeof image, bits_of(10)));
    accept(ff_set_fog_end(image, sizeof image, bits_of(50)));
    accept(ff_set_fog_density(image, sizeof image, bits_of(0.25f)));
    accept(ff_set_ambient(image, sizeof image, 0xFF804020));
    refresh();
    show_row("  fog, mode 0", mirror, FF_ROW_FOG);
    show_row("  ambient", mirror, FF_ROW_AMBIENT);
    printf("another fog mode is another key\n");
    key.fog_mode = 3;
    show_wrong();
    mark(FF_DIRTY_ALL);
    refresh();
    show_row("  fog, mode 3", mirror, FF_ROW_FOG);
    printf("three texture stages more\n");
    accept(ff_set_texture_mask(image, sizeof image, 8));
    show_wrong();
    refresh();
}

static void overwritten(void) {
    printf("the first light's rows are overwritten, and row 1114, which no section has\n");
    memset(mirror + FF_ROW_LIGHTS * FF_ROW_BYTES, 0xFF, 6 * FF_ROW_BYTES);
    memset(mirror + 1114 * FF_ROW_BYTES, 0xFF, FF_ROW_BYTES);
    show_wrong();
    refresh();
    mark(FF_DIRTY_LIGHTS);
    refresh();
    printf("the power becomes a NaN\n");
    set_power(0x7F800001);
    refresh();
    printf("  row 14: 0x%08x\n", (unsigned)get_number(mirror, 4 * (FF_ROW_MATERIAL + 4)));
    printf("another NaN is written over it\n");
    put_number(mirror, 4 * (FF_ROW_MATERIAL + 4), 0xFFFFFFFF);
    show_wrong();
}

/* Two changes that no dirty bit tells of: every section is marked. */
static void other_keys_and_images(void) {
    printf("a key of 40 matrices\n");
    key.vertex_blend_indexed = 1;
    show_wrong();
    mark(FF_DIRTY_ALL);
    refresh();
    printf("the image of the first frame is read in\n");
    memcpy(image, kept, sizeof image);
    show_wrong();
    mark(FF_DIRTY_ALL);
    refresh();
}

/* Shows the refusal, and whether image, mirror and number are left as found. */
static void refused(const char *title, size_t mirror_len) {
    uint8_t image_before[FF_IMAGE_BYTES], mirror_before[FF_MIRROR_BYTES];
    uint32_t out = 12345, answer;

    memcpy(image_before, image, sizeof image);
    memcpy(mirror_before, mirror, sizeof mirror);
    answer = ff_refresh(image, sizeof image, FF_KEY_OF(key), mirror, mirror_len, &out);
    show_answer(title, answer);
    printf("  left as found: image %s, mirror %s, number %s\n", memcmp(image, image_before, sizeof image) ? "no" : "yes",
           memcmp(mirror, mirror_before, sizeof mirror) ? "no" : "yes", out == 12345 ? "yes" : "no");
}

/* Four causes at once, and then one less each time: the refusals in their order. */
static void refusals(void) {
    const struct ff_vs_key right = key;

    move(FF_TS_VIEW, 1, 2, 3);
    key.has_rhw = 1;
    key.light_active_mask = 2;
    image[17927] = 1; /* a byte that is always 0 */
    refused("a damaged image", sizeof mirror - 1);
    image[17927] = 0;
    refused("a mirror of 17839 bytes", sizeof mirror - 1);
    refused("transformed vertices", sizeof mirror);
    key.has_rhw = 0;
    refused("light mask 2", sizeof mirror);
    key = right;
    printf("none of the four\n");
    refresh();
}

int main(void) {
    scene();
    frames();
    smoke();
    overwritten();
    other_keys_and_images();
    refusals();
    return 0;
}
