/* The C interface of libff_state.a: the vertex state of Direct3D 9's fixed-function pipeline.
 *
 * A state is held as an image of FF_IMAGE_BYTES bytes that the caller owns: ff_image_fresh writes the
 * first one, every other call reads it, and a call that changes the state writes it back. An image may
 * be copied, stored and sent; bytes that are no image are refused FF_NO_IMAGE by every call.
 *
 * Numbers cross as little-endian bytes, four to a number, whatever the machine. A slice is a pointer and
 * its length in bytes. A float may have any bit pattern; a NaN of any pattern is a NaN, and where one is
 * written it is 0x7FC00000. A light's type is a number, not a float, and is kept as it is.
 * On a little-endian machine Direct3D's D3DMATRIX, D3DMATERIAL9 and D3DLIGHT9 are such bytes already:
 * hand their address and sizeof over (examples/c/records.c asserts it field by field).
 *
 * Every call but ff_sqrt, ff_cos and ff_state_version returns FF_ACCEPTED (0), or else the number of one
 * refusal, and a refused call writes nothing: not the image, not a slice, not a number. Each comment below
 * lists the refusals in the order in which they are tested. Where FF_MUST_CHECK stands the compiler warns
 * of an answer that is not looked at; the others refuse nothing.
 *
 * No pointer is null, also at length 0; a uint32_t pointer is aligned; a slice that is written overlaps
 * no other argument. No call allocates, blocks or keeps a pointer. A call that reads an image takes up to
 * about 160 KB of stack. Link with -lm.
 *
 * Threads: the library holds nothing between two calls. Calls on different images or states run on
 * different threads as they like. Calls that take an image or a state as const only read it, and any
 * number of them may run at once on one; while a call that writes it runs, no other may touch it.
 *
 * The archive is for x86-64 Linux (ELF, System V calls): see docs/INTERFACE.md for another platform.
 */
#ifndef FF_STATE_H
#define FF_STATE_H

#include <stddef.h>
#include <stdint.h>

/* On a call that can refuse. */
#if (defined(__cplusplus) && __cplusplus >= 201703L) || (defined(__STDC_VERSION__) && __STDC_VERSION__ >= 202311L)
#define FF_MUST_CHECK [[nodiscard]]
#elif defined(__GNUC__)
#define FF_MUST_CHECK __attribute__((warn_unused_result))
#else
#define FF_MUST_CHECK
#endif

#ifdef __cplusplus
extern "C" {
#endif

/* The version of this header, 0xMMmmpp00: major, minor, patch. Minor is raised whenever the image, struct ff_state or a
 * call changes. ff_state_version gives that of the archive; where the two differ, the archive is not this header's. */
#define FF_STATE_VERSION 0x00020000u
uint32_t ff_state_version(void);

/* The answers of a call. */
enum {
    FF_ACCEPTED = 0,
    FF_UNKNOWN_STATE = 1,   /* no transform has this state number */
    FF_UNDEFINED_LIGHT = 2, /* no light was set or enabled at this index */
    FF_LIGHTS_FULL = 3,     /* a new index of 8 or more, and FF_OVERFLOW_LIGHTS such are stored */
    FF_WRONG_LENGTH = 4,    /* a slice is not as long as its item */
    FF_WRONG_MASK = 5,      /* the key's light mask is not 0 and not that of the lights that are packed */
    FF_SINGULAR = 6,        /* the determinant equals 0 or is not finite */
    FF_UNKNOWN_BITS = 7,    /* dirty bits above FF_DIRTY_ALL */
    FF_HAS_RHW = 8,         /* the key is of transformed vertices, which read no section */
    FF_NO_IMAGE = 9         /* the bytes are no state image */
};

/* What 9 promises: accepted bytes are well-formed, the writing of some valid state, so that no call reads them amiss. It does
 * not promise that they are undamaged: an image has no checksum, and one float changed into another is an image still. Who
 * stores or sends images adds a checksum. */

/* The bytes of each item. */
enum {
    FF_IMAGE_BYTES = 24224,
    FF_MATRIX_BYTES = 64,   /* 16 floats, row by row */
    FF_MATERIAL_BYTES = 68, /* 17 floats: diffuse, ambient, specular, emissive (rgba each), power */
    FF_LIGHT_BYTES = 104,   /* the type, then 25 floats: diffuse, specular, ambient (rgba each), position, direction
                               (xyz each), range, falloff, attenuation 0 to 2, theta, phi */
    FF_ROW_BYTES = 16,      /* 4 floats: a row of the shader's constants */
    FF_MIRROR_BYTES = 17840, /* FF_ROWS rows */
    FF_ENTRY_BYTES = 112     /* a light from index 8 on, in the image */
};

/* Where each field of an image begins, in bytes, for who stores or shows one. Only calls write it. */
enum {
    FF_IMAGE_AT_VIEW = 0,               /* a matrix */
    FF_IMAGE_AT_PROJECTION = 64,        /* a matrix */
    FF_IMAGE_AT_WORLD = 128,            /* FF_WORLD_MATRICES matrices */
    FF_IMAGE_AT_TEXTURE = 16512,        /* FF_TEXTURE_STAGES matrices */
    FF_IMAGE_AT_MATERIAL = 17024,       /* a material */
    FF_IMAGE_AT_LIGHTS = 17092,         /* FF_LIGHT_SLOTS lights, indices 0 to 7 */
    FF_IMAGE_AT_ENABLED = 17924,        /* a byte, the slots that are enabled */
    FF_IMAGE_AT_DEFINED = 17925,        /* a byte, the slots that are defined */
    FF_IMAGE_AT_DIRTY = 17926,          /* a byte, the dirty bits */
    FF_IMAGE_AT_ZERO = 17927,           /* a byte, 0 */
    FF_IMAGE_AT_HIGHEST_WORLD = 17928,  /* two bytes, the highest world matrix ever set */
    FF_IMAGE_AT_OVERFLOW_COUNT = 17930, /* two bytes, how many entries are used */
    FF_IMAGE_AT_ENTRIES = 17932,        /* FF_OVERFLOW_LIGHTS entries, by ascending index; unused ones are 0 */
    FF_IMAGE_AT_FOG_START = 24204,      /* a float */
    FF_IMAGE_AT_FOG_END = 24208,        /* a float */
    FF_IMAGE_AT_FOG_DENSITY = 24212,    /* a float */
    FF_IMAGE_AT_AMBIENT = 24216,        /* four bytes, 0xAARRGGBB */
    FF_IMAGE_AT_TEXTURE_MASK = 24220    /* four bytes, 255 at most */
};

/* Where each field of an entry, of a light and of a material begins, in bytes. */
enum {
    FF_ENTRY_AT_INDEX = 0,
    FF_ENTRY_AT_ENABLED = 4,
    FF_ENTRY_AT_LIGHT = 8,
    FF_LIGHT_AT_TYPE = 0,
    FF_LIGHT_AT_DIFFUSE = 4,
    FF_LIGHT_AT_SPECULAR = 20,
    FF_LIGHT_AT_AMBIENT = 36,
    FF_LIGHT_AT_POSITION = 52,
    FF_LIGHT_AT_DIRECTION = 64,
    FF_LIGHT_AT_RANGE = 76,
    FF_LIGHT_AT_FALLOFF = 80,
    FF_LIGHT_AT_ATTENUATION0 = 84,
    FF_LIGHT_AT_ATTENUATION1 = 88,
    FF_LIGHT_AT_ATTENUATION2 = 92,
    FF_LIGHT_AT_THETA = 96,
    FF_LIGHT_AT_PHI = 100,
    FF_MATERIAL_AT_DIFFUSE = 0,
    FF_MATERIAL_AT_AMBIENT = 16,
    FF_MATERIAL_AT_SPECULAR = 32,
    FF_MATERIAL_AT_EMISSIVE = 48,
    FF_MATERIAL_AT_POWER = 64
};

/* Transform states, by Direct3D's names without D3D. */
enum {
    FF_TS_VIEW = 2,
    FF_TS_PROJECTION = 3,
    FF_TS_TEXTURE0 = 16, /* to FF_TS_TEXTURE0 + 7 */
    FF_TS_WORLD = 256    /* the world matrix i of 0 to 255 is FF_TS_WORLD + i */
};

/* Types of lights that light. */
enum { FF_LIGHT_POINT = 1, FF_LIGHT_SPOT = 2, FF_LIGHT_DIRECTIONAL = 3 };

/* How many there are of each. */
enum {
    FF_WORLD_MATRICES = 256,  /* the world matrices 0 to 255 */
    FF_TEXTURE_STAGES = 8,    /* the texture matrices 0 to 7 */
    FF_LIGHT_SLOTS = 8,       /* the lights 0 to 7; as many light at most */
    FF_OVERFLOW_LIGHTS = 56,  /* lights that can be stored from index 8 on */
    FF_PREVIEW_LIGHTS = 4,    /* lights that light at most under a key's preview */
    FF_INDEXED_MATRICES = 40, /* matrices that indexed blending packs */
    FF_BLEND_MATRICES = 255   /* matrices that blending without indices packs at most */
};

/* The sections of the shader's constants that a change leaves stale. */
enum {
    FF_DIRTY_WV = 1,
    FF_DIRTY_PROJ = 2,
    FF_DIRTY_MATERIAL = 4,
    FF_DIRTY_LIGHTS = 8,
    FF_DIRTY_PALETTE = 16,
    FF_DIRTY_TT = 32,
    FF_DIRTY_FOG = 64,
    FF_DIRTY_AMBIENT = 128,
    FF_DIRTY_ALL = 255
};

/* The first row of each section in the shader's constants, and the most rows that these have. Every row is some section's:
 * row 8 is FOG's, row 9 AMBIENT's and rows 63 to 94 are TT's, which the library did not write before it knew fog. Of a
 * section that has fewer rows under a key than here, the rest keeps what it held. */
enum {
    FF_ROW_WV = 0,        /* to 3 */
    FF_ROW_PROJ = 4,      /* to 7 */
    FF_ROW_FOG = 8,       /* alone */
    FF_ROW_AMBIENT = 9,   /* alone */
    FF_ROW_MATERIAL = 10, /* to 14 */
    FF_ROW_LIGHTS = 15,   /* to 62: FF_LIGHT_ROWS for each light that is packed */
    FF_ROW_TT = 63,       /* to 94: FF_MATRIX_ROWS for each texture stage */
    FF_ROW_PALETTE = 95,  /* to 1114: FF_MATRIX_ROWS for each matrix */
    FF_ROWS = 1115,
    FF_LIGHT_ROWS = 6,
    FF_MATRIX_ROWS = 4,
    FF_MIRROR_FLOATS = 4460 /* of a state in memory: 4 x FF_ROWS */
};

/* What an answer means, in words. */
static inline const char *ff_refusal_words(uint32_t answer) {
    switch (answer) {
    case FF_ACCEPTED:
        return "accepted";
    case FF_UNKNOWN_STATE:
        return "no transform has this state number";
    case FF_UNDEFINED_LIGHT:
        return "no light is defined at this index";
    case FF_LIGHTS_FULL:
        return "no room for another light of index 8 or more";
    case FF_WRONG_LENGTH:
        return "a slice has the wrong length";
    case FF_WRONG_MASK:
        return "the key's light mask is not that of the lights that are packed";
    case FF_SINGULAR:
        return "the matrix has no inverse";
    case FF_UNKNOWN_BITS:
        return "dirty bits above the eight";
    case FF_HAS_RHW:
        return "the key is of transformed vertices";
    case FF_NO_IMAGE:
        return "the bytes are no state image";
    default:
        return "not an answer of this library";
    }
}

/* Images */

/* Writes the image of a fresh state: identity matrices, a material of zeros, no light, fog, ambient colour and texture
 * mask 0, all sections dirty. What the bytes held before does not matter. Refuses 4. */
FF_MUST_CHECK uint32_t ff_image_fresh(uint8_t *image, size_t image_len);

/* Whether the bytes are an image. Refuses 9. */
FF_MUST_CHECK uint32_t ff_image_check(const uint8_t *image, size_t image_len);

/* Transforms */

/* Stores a matrix. Dirties, also where the value is equal: the view WV, PALETTE and LIGHTS; the
 * projection PROJ; a texture matrix TT; world matrix 0 WV and PALETTE; the others PALETTE. Refuses 9, 1, 4. */
FF_MUST_CHECK uint32_t ff_set_transform(uint8_t *image, size_t image_len, uint32_t state, const uint8_t *matrix, size_t matrix_len);

/* Stores argument x stored, and dirties as ff_set_transform does. Refuses 9, 1, 4. */
FF_MUST_CHECK uint32_t ff_multiply_transform(uint8_t *image, size_t image_len, uint32_t state, const uint8_t *matrix,
                               size_t matrix_len);

/* The stored matrix. Refuses 9, 1, 4. */
FF_MUST_CHECK uint32_t ff_transform(const uint8_t *image, size_t image_len, uint32_t state, uint8_t *out, size_t out_len);

/* The highest world matrix ever set or multiplied, plus 1: from 1 to 256. Refuses 9. */
FF_MUST_CHECK uint32_t ff_world_palette_used(const uint8_t *image, size_t image_len, uint32_t *out);

/* world matrix 0 x view x projection. Refuses 9, 4. */
FF_MUST_CHECK uint32_t ff_world_view_projection(const uint8_t *image, size_t image_len, uint8_t *out, size_t out_len);

/* Material */

/* Dirties MATERIAL. Refuses 9, 4. */
FF_MUST_CHECK uint32_t ff_set_material(uint8_t *image, size_t image_len, const uint8_t *material, size_t material_len);

/* Refuses 9, 4. */
FF_MUST_CHECK uint32_t ff_material(const uint8_t *image, size_t image_len, uint8_t *out, size_t out_len);

/* Lights, at any index */

/* Defines a light; its enable stays, off where it is new. A type other than 1, 2 and 3 is stored and lights
 * nothing. Dirties LIGHTS. Refuses 9, 3, 4. */
FF_MUST_CHECK uint32_t ff_set_light_at(uint8_t *image, size_t image_len, uint32_t index, const uint8_t *light, size_t light_len);

/* Enables a light by any number but 0, disables it by 0. Where none is defined this defines the default one:
 * directional, diffuse 1,1,1,0, direction 0,0,1, all else 0. Dirties LIGHTS. Refuses 9, 3. */
FF_MUST_CHECK uint32_t ff_set_light_enabled_at(uint8_t *image, size_t image_len, uint32_t index, uint32_t enabled);

/* Refuses 9, 2, 4. */
FF_MUST_CHECK uint32_t ff_get_light_at(const uint8_t *image, size_t image_len, uint32_t index, uint8_t *out, size_t out_len);

/* 1 or 0. Refuses 9. */
FF_MUST_CHECK uint32_t ff_is_light_enabled_at(const uint8_t *image, size_t image_len, uint32_t index, uint32_t *out);
FF_MUST_CHECK uint32_t ff_is_light_defined_at(const uint8_t *image, size_t image_len, uint32_t index, uint32_t *out);

/* What of the lights a shader's key depends on, as bytes from the lowest: the masks active, directional and spot of the
 * slots 0 to 7, and 0; once a light from index 8 on is stored, those of ff_compacted_light_masks, and 1. Refuses 9. */
FF_MUST_CHECK uint32_t ff_vs_source_light_inputs(const uint8_t *image, size_t image_len, uint32_t *out);

/* The masks active, directional and spot of the lights that light, eight at most, packed by ascending index; the last
 * byte is 0. A key's light_active_mask is made from the first. Refuses 9. */
FF_MUST_CHECK uint32_t ff_compacted_light_masks(const uint8_t *image, size_t image_len, uint32_t *out);

/* Fog, ambient colour and texture mask. An equal value still dirties. They are read back in packed rows and in the image. */

/* Fog's start, end and density, each as the bits of its float, as Direct3D's render states take them. Dirty FOG. Refuse 9. */
FF_MUST_CHECK uint32_t ff_set_fog_start(uint8_t *image, size_t image_len, uint32_t bits);
FF_MUST_CHECK uint32_t ff_set_fog_end(uint8_t *image, size_t image_len, uint32_t bits);
FF_MUST_CHECK uint32_t ff_set_fog_density(uint8_t *image, size_t image_len, uint32_t bits);

/* The ambient colour, 0xAARRGGBB. Dirties AMBIENT. Refuses 9. */
FF_MUST_CHECK uint32_t ff_set_ambient(uint8_t *image, size_t image_len, uint32_t color);

/* The texture stages that transform, stage 0 the lowest bit. Dirties TT. Refuses 9. */
FF_MUST_CHECK uint32_t ff_set_texture_mask(uint8_t *image, size_t image_len, uint8_t mask);

/* Dirty sections */

/* Adds bits. Refuses 9, 7. */
FF_MUST_CHECK uint32_t ff_mark_ff_vs_dirty(uint8_t *image, size_t image_len, uint32_t bits);

/* Answers with the bits and clears them. Refuses 9. */
FF_MUST_CHECK uint32_t ff_take_ff_vs_dirty(uint8_t *image, size_t image_len, uint32_t *out);

/* Packing: the rows of the shader's constants, by section. These calls leave the image as it is. */

/* A draw is told by its shader's key, which crosses as eight numbers. A flag, one of the first five, is set by any number
 * but 0. FF_KEY stands for the eight parameters, FF_KEY_OF(key) for a struct's eight fields where a call is made.
 *
 * preview is for a pane that shows the scene with at most four lights. Under it the lights that are packed are the first
 * four of those that light, and light_active_mask, where it is not 0, is theirs: the first byte of ff_compacted_light_masks
 * & 15. No number of rows looks at preview: those of LIGHTS go by the mask alone. */
#define FF_KEY                                                                                                       \
    uint8_t has_rhw, uint8_t lighting_enabled, uint8_t specular_enable, uint8_t vertex_blend_indexed,                \
        uint8_t preview, uint8_t light_active_mask, uint8_t fog_mode, uint8_t vertex_blend_count

#define FF_KEY_OF(key)                                                                                               \
    (key).has_rhw, (key).lighting_enabled, (key).specular_enable, (key).vertex_blend_indexed, (key).preview,         \
        (key).light_active_mask, (key).fog_mode, (key).vertex_blend_count

struct ff_vs_key {
    uint8_t has_rhw, lighting_enabled, specular_enable, vertex_blend_indexed, preview;
    uint8_t light_active_mask; /* 0, or that of the lights that are packed */
    uint8_t fog_mode, vertex_blend_count;
};

/* How many rows of constants a draw reads, from row 0 on: 1 for transformed vertices (has_rhw), else up to the last row of
 * its sections, those of the image's texture mask among them. Refuses 9. */
FF_MUST_CHECK uint32_t ff_vs_row_count(const uint8_t *image, size_t image_len, FF_KEY, uint32_t *out);

/* The rows of a section. WV and PROJ 4; MATERIAL 1, lit 4, lit with specular 5; LIGHTS 6 for each light up to the mask's
 * highest bit, lit or not; PALETTE 4 for each matrix: 40 of them where indexed, else the count, none at count 0; TT 4 for each
 * stage up to the highest bit of the image's texture mask, under every key; FOG and AMBIENT 1. The rest of the key is not
 * looked at. Refuses 9. */
FF_MUST_CHECK uint32_t ff_wv_section_rows(const uint8_t *image, size_t image_len, FF_KEY, uint32_t *out);
FF_MUST_CHECK uint32_t ff_proj_section_rows(const uint8_t *image, size_t image_len, FF_KEY, uint32_t *out);
FF_MUST_CHECK uint32_t ff_material_section_rows(const uint8_t *image, size_t image_len, FF_KEY, uint32_t *out);
FF_MUST_CHECK uint32_t ff_lights_section_rows(const uint8_t *image, size_t image_len, FF_KEY, uint32_t *out);
FF_MUST_CHECK uint32_t ff_palette_section_rows(const uint8_t *image, size_t image_len, FF_KEY, uint32_t *out);
FF_MUST_CHECK uint32_t ff_tt_section_rows(const uint8_t *image, size_t image_len, FF_KEY, uint32_t *out);
FF_MUST_CHECK uint32_t ff_fog_section_rows(const uint8_t *image, size_t image_len, FF_KEY, uint32_t *out);
FF_MUST_CHECK uint32_t ff_ambient_section_rows(const uint8_t *image, size_t image_len, FF_KEY, uint32_t *out);

/* Writes the rows of a section to dst, which is as long as they are: FF_ROW_BYTES for each row that the call above answers
 * with, so that a section without rows wants an empty slice. The key is looked at as there, and for FOG. Refuses 9, 4.
 * An empty slice is length 0 with any pointer but NULL, as the place in a mirror where the section begins: nothing is read
 * or written there. NULL is not allowed, also at length 0: the contracts speak of slices, which never lie there, and a
 * compiler may count on it.
 *
 * WV: the columns of world matrix 0 x view. PROJ: those of the projection. PALETTE: those of world matrix i x view, by
 * ascending i. MATERIAL: diffuse; lit ambient, specular and emissive too; then power, 0, 0, 0. TT: the columns of each stage's
 * matrix, also of a stage whose bit is clear below a higher one. FOG: start, end, density, 0; zeros where fog_mode is 0.
 * AMBIENT: red, green, blue and alpha, each divided by 255. */
FF_MUST_CHECK uint32_t ff_fill_wv_section(const uint8_t *image, size_t image_len, FF_KEY, uint8_t *dst, size_t dst_len);
FF_MUST_CHECK uint32_t ff_fill_proj_section(const uint8_t *image, size_t image_len, FF_KEY, uint8_t *dst, size_t dst_len);
FF_MUST_CHECK uint32_t ff_fill_material_section(const uint8_t *image, size_t image_len, FF_KEY, uint8_t *dst, size_t dst_len);
FF_MUST_CHECK uint32_t ff_fill_palette_section(const uint8_t *image, size_t image_len, FF_KEY, uint8_t *dst, size_t dst_len);
FF_MUST_CHECK uint32_t ff_fill_tt_section(const uint8_t *image, size_t image_len, FF_KEY, uint8_t *dst, size_t dst_len);
FF_MUST_CHECK uint32_t ff_fill_fog_section(const uint8_t *image, size_t image_len, FF_KEY, uint8_t *dst, size_t dst_len);
FF_MUST_CHECK uint32_t ff_fill_ambient_section(const uint8_t *image, size_t image_len, FF_KEY, uint8_t *dst, size_t dst_len);

/* The same for the lights that light, eight at most, under preview four, six rows each, by ascending index: position as the
 * view sees it, and the kind (3 directional, 2 spot, 1 point); unit direction as the view sees it, of any finite length
 * (0, 0, 0 where it has none), and falloff, 1e-6 at least; diffuse rgb and specular alpha; ambient rgb and the spot's
 * offset; attenuation 0 to 2 and range; specular rgb and the spot's scale. light_active_mask is 0, for no rows, or theirs.
 * Refuses 9, 4, 5. */
FF_MUST_CHECK uint32_t ff_fill_lights_section(const uint8_t *image, size_t image_len, FF_KEY, uint8_t *dst, size_t dst_len);

/* Refresh: a mirror of the shader's constants, kept up with the state */

/* Takes the dirty bits and clears them, writes the rows of each section that they name to the mirror, from the section's
 * first row on, and answers with the bits. Every other row keeps its bytes, whatever they are. The light mask is looked at
 * whether LIGHTS is dirty or not. Refuses 9, 4, 8, 5, and leaves the bits dirty where it refuses.
 *
 * Right after an accepted refresh the mirror holds what all the fills above write under this key, each from its section's
 * first row on, whatever it held at first. For this it is one mirror all along, its bits are taken by refreshes alone, and
 * every section is marked (ff_mark_ff_vs_dirty) before a refresh whose key differs from the last accepted one's, or whose
 * image is not the one that the last call left. A section with rows overwritten from outside is
 * right again from the first accepted refresh after it is marked. */
FF_MUST_CHECK uint32_t ff_refresh(uint8_t *image, size_t image_len, FF_KEY, uint8_t *mirror, size_t mirror_len, uint32_t *out);

/* A state in memory */

/* For a player that makes many calls in a frame: the same state as an image, held where the caller puts it and changed in
 * place. Its bytes are the library's own; ff_state_fresh or ff_state_read_image makes them a state, and any other call wants
 * one. It may be copied as a whole; two are compared by their images, since some bytes mean nothing. What crosses beside it
 * are floats of the machine, aligned as floats: a matrix is 16 of them, a material 17, in the order that FF_MATRIX_BYTES and
 * FF_MATERIAL_BYTES tell. A call answers, dirties and refuses as its fellow over an image does, but for what cannot be: there
 * is no image to be refused, and no item of another length.
 * On a little-endian machine a D3DMATRIX, a D3DMATERIAL9 and a D3DLIGHT9 are those floats: hand their addresses over. */
struct ff_state {
    uint32_t words[6058];
};

#if defined(__cplusplus) && __cplusplus >= 201103L
static_assert(sizeof(struct ff_state) == 24232, "a state has 24,232 bytes");
#elif defined(__STDC_VERSION__) && __STDC_VERSION__ >= 201112L
_Static_assert(sizeof(struct ff_state) == 24232, "a state has 24,232 bytes");
#endif

struct ff_light {
    uint32_t type;
    float diffuse[4], specular[4], ambient[4], position[3], direction[3], range, falloff, attenuation[3], theta, phi;
};

/* The fresh state, as ff_image_fresh tells it. What the memory held before does not matter. */
void ff_state_fresh(struct ff_state *s);

/* From an image, and to one. Refuses 9; refuses 4. */
FF_MUST_CHECK uint32_t ff_state_read_image(struct ff_state *s, const uint8_t *image, size_t image_len);
FF_MUST_CHECK uint32_t ff_state_write_image(const struct ff_state *s, uint8_t *image, size_t image_len);

/* Refuse 1. */
FF_MUST_CHECK uint32_t ff_state_set_transform(struct ff_state *s, uint32_t state, const float *matrix);
FF_MUST_CHECK uint32_t ff_state_multiply_transform(struct ff_state *s, uint32_t state, const float *matrix);

/* Refuses nothing. */
uint32_t ff_state_set_material(struct ff_state *s, const float *material);

/* Refuse 3. */
FF_MUST_CHECK uint32_t ff_state_set_light_at(struct ff_state *s, uint32_t index, const struct ff_light *light);
FF_MUST_CHECK uint32_t ff_state_set_light_enabled_at(struct ff_state *s, uint32_t index, uint32_t enabled);

/* Refuse nothing. Fog's floats cross as floats. */
uint32_t ff_state_set_fog_start(struct ff_state *s, float start);
uint32_t ff_state_set_fog_end(struct ff_state *s, float end);
uint32_t ff_state_set_fog_density(struct ff_state *s, float density);
uint32_t ff_state_set_ambient(struct ff_state *s, uint32_t color);
uint32_t ff_state_set_texture_mask(struct ff_state *s, uint8_t mask);

/* What a key is made from. Refuses nothing. */
uint32_t ff_state_vs_source_light_inputs(const struct ff_state *s, uint32_t *out);

/* Refuses 7; refuses nothing. */
FF_MUST_CHECK uint32_t ff_state_mark_ff_vs_dirty(struct ff_state *s, uint32_t bits);
uint32_t ff_state_take_ff_vs_dirty(struct ff_state *s, uint32_t *out);

/* As ff_refresh, into a mirror of FF_MIRROR_FLOATS floats. A row that is not written keeps its floats, bit by bit; which
 * of a NaN's patterns one has that is written is left free. Refuses 4, 8, 5. */
FF_MUST_CHECK uint32_t ff_state_refresh(struct ff_state *s, FF_KEY, float *mirror, size_t mirror_len, uint32_t *out);

/* Arithmetic, without an image */

/* a x b, each sum of products from -0.0 left to right, nothing fused. Refuses 4. */
FF_MUST_CHECK uint32_t ff_mat_mul(const uint8_t *a, size_t a_len, const uint8_t *b, size_t b_len, uint8_t *out, size_t out_len);

/* Refuses 4. */
FF_MUST_CHECK uint32_t ff_transpose(const uint8_t *m, size_t m_len, uint8_t *out, size_t out_len);

/* Refuses 4, 6. */
FF_MUST_CHECK uint32_t ff_inverse(const uint8_t *m, size_t m_len, uint8_t *out, size_t out_len);

/* Float bits in, float bits out: IEEE 754's square root, and the stand-in cosine. */
uint32_t ff_sqrt(uint32_t x);
uint32_t ff_cos(uint32_t x);

#ifdef __cplusplus
}
#endif

#endif
