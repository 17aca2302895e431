/* Rows of the shader's constants: each section packed from its first row on. */
#ifndef ROWS_H
#define ROWS_H

#include "numbers.h"

/* All sections of a state under a key, and how many rows each has. */
struct packing {
    uint8_t rows[FF_MIRROR_BYTES];
    uint32_t wv, proj, fog, ambient, material, lights, tt, palette;
};

/* The bytes of so many rows, from a section's first on. */
#define SECTION(rows, first, count) (rows) + (first) * FF_ROW_BYTES, (size_t)(count) * FF_ROW_BYTES

static inline void pack(const uint8_t image[FF_IMAGE_BYTES], struct ff_vs_key key, struct packing *to) {
    const size_t n = FF_IMAGE_BYTES;
    accept(ff_wv_section_rows(image, n, FF_KEY_OF(key), &to->wv));
    accept(ff_fill_wv_section(image, n, FF_KEY_OF(key), SECTION(to->rows, FF_ROW_WV, to->wv)));
    accept(ff_proj_section_rows(image, n, FF_KEY_OF(key), &to->proj));
    accept(ff_fill_proj_section(image, n, FF_KEY_OF(key), SECTION(to->rows, FF_ROW_PROJ, to->proj)));
    accept(ff_fog_section_rows(image, n, FF_KEY_OF(key), &to->fog));
    accept(ff_fill_fog_section(image, n, FF_KEY_OF(key), SECTION(to->rows, FF_ROW_FOG, to->fog)));
    accept(ff_ambient_section_rows(image, n, FF_KEY_OF(key), &to->ambient));
    accept(ff_fill_ambient_section(image, n, FF_KEY_OF(key), SECTION(to->rows, FF_ROW_AMBIENT, to->ambient)));
    accept(ff_material_section_rows(image, n, FF_KEY_OF(key), &to->material));
    accept(ff_fill_material_section(image, n, FF_KEY_OF(key), SECTION(to->rows, FF_ROW_MATERIAL, to->material)));
    accept(ff_lights_section_rows(image, n, FF_KEY_OF(key), &to->lights));
    accept(ff_fill_lights_section(image, n, FF_KEY_OF(key), SECTION(to->rows, FF_ROW_LIGHTS, to->lights)));
    accept(ff_tt_section_rows(image, n, FF_KEY_OF(key), &to->tt));
    accept(ff_fill_tt_section(image, n, FF_KEY_OF(key), SECTION(to->rows, FF_ROW_TT, to->tt)));
    accept(ff_palette_section_rows(image, n, FF_KEY_OF(key), &to->palette));
    accept(ff_fill_palette_section(image, n, FF_KEY_OF(key), SECTION(to->rows, FF_ROW_PALETTE, to->palette)));
}

static inline void show_row(const char *title, const uint8_t *rows, int row) {
    const uint8_t *bytes = rows + row * FF_ROW_BYTES;
    printf("%s: %g %g %g %g\n", title, get(bytes, 0), get(bytes, 1), get(bytes, 2), get(bytes, 3));
}

#endif
