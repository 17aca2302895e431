/* Direct3D's own records, handed over as they are: on a little-endian machine a D3DMATRIX, a D3DMATERIAL9 and a D3DLIGHT9 lie
 * in memory as the bytes that cross, and as the floats that a state in memory takes. The asserts below say so field by field.
 * The records are written as d3d9types.h has them, from general knowledge (the header was not read): a program that has it
 * includes it instead, and keeps the asserts. */
#include <stddef.h>

#include "numbers.h"

typedef struct {
    float m[4][4];
} D3DMATRIX;
typedef struct {
    float r, g, b, a;
} D3DCOLORVALUE;
typedef struct {
    float x, y, z;
} D3DVECTOR;
typedef struct {
    D3DCOLORVALUE Diffuse, Ambient, Specular, Emissive;
    float Power;
} D3DMATERIAL9;
typedef struct {
    uint32_t Type;
    D3DCOLORVALUE Diffuse, Specular, Ambient;
    D3DVECTOR Position, Direction;
    float Range, Falloff, Attenuation0, Attenuation1, Attenuation2, Theta, Phi;
} D3DLIGHT9;

#define AT(record, field, place) \
    _Static_assert(offsetof(record, field) == (place), #record "." #field " lies elsewhere than in the bytes that cross")
_Static_assert(__BYTE_ORDER__ == __ORDER_LITTLE_ENDIAN__ && sizeof(float) == 4, "elsewhere: put the numbers byte by byte");
_Static_assert(sizeof(D3DMATRIX) == FF_MATRIX_BYTES, "a matrix is 16 floats");
_Static_assert(sizeof(D3DMATERIAL9) == FF_MATERIAL_BYTES, "a material is 17 floats");
_Static_assert(sizeof(D3DLIGHT9) == FF_LIGHT_BYTES && sizeof(struct ff_light) == FF_LIGHT_BYTES, "a light is 26 numbers");
AT(D3DMATERIAL9, Diffuse, FF_MATERIAL_AT_DIFFUSE);
AT(D3DMATERIAL9, Ambient, FF_MATERIAL_AT_AMBIENT);
AT(D3DMATERIAL9, Specular, FF_MATERIAL_AT_SPECULAR);
AT(D3DMATERIAL9, Emissive, FF_MATERIAL_AT_EMISSIVE);
AT(D3DMATERIAL9, Power, FF_MATERIAL_AT_POWER);
AT(D3DLIGHT9, Type, FF_LIGHT_AT_TYPE);
AT(D3DLIGHT9, Diffuse, FF_LIGHT_AT_DIFFUSE);
AT(D3DLIGHT9, Specular, FF_LIGHT_AT_SPECULAR);
AT(D3DLIGHT9, Ambient, FF_LIGHT_AT_AMBIENT);
AT(D3DLIGHT9, Position, FF_LIGHT_AT_POSITION);
AT(D3DLIGHT9, Direction, FF_LIGHT_AT_DIRECTION);
AT(D3DLIGHT9, Range, FF_LIGHT_AT_RANGE);
AT(D3DLIGHT9, Falloff, FF_LIGHT_AT_FALLOFF);
AT(D3DLIGHT9, Attenuation0, FF_LIGHT_AT_ATTENUATION0);
AT(D3DLIGHT9, Attenuation1, FF_LIGHT_AT_ATTENUATION1);
AT(D3DLIGHT9, Attenuation2, FF_LIGHT_AT_ATTENUATION2);
AT(D3DLIGHT9, Theta, FF_LIGHT_AT_THETA);
AT(D3DLIGHT9, Phi, FF_LIGHT_AT_PHI);
AT(struct ff_light, diffuse, FF_LIGHT_AT_DIFFUSE);
AT(struct ff_light, specular, FF_LIGHT_AT_SPECULAR);
AT(struct ff_light, ambient, FF_LIGHT_AT_AMBIENT);
AT(struct ff_light, position, FF_LIGHT_AT_POSITION);
AT(struct ff_light, direction, FF_LIGHT_AT_DIRECTION);
AT(struct ff_light, range, FF_LIGHT_AT_RANGE);
AT(struct ff_light, falloff, FF_LIGHT_AT_FALLOFF);
AT(struct ff_light, attenuation, FF_LIGHT_AT_ATTENUATION0);
AT(struct ff_light, theta, FF_LIGHT_AT_THETA);
AT(struct ff_light, phi, FF_LIGHT_AT_PHI);

static uint8_t image[FF_IMAGE_BYTES], written[FF_IMAGE_BYTES];
static struct ff_state state;

int main(void) {
    const D3DMATRIX world = {{{1, 0, 0, 0}, {0, 1, 0, 0}, {0, 0, 1, 0}, {5, 6, 7, 1}}};
    const D3DMATERIAL9 material = {.Diffuse = {0.5f, 0.25f, 0.125f, 1}, .Power = 20};
    const D3DLIGHT9 light = {.Type = FF_LIGHT_SPOT, .Direction = {0, 0, 2}, .Range = 100, .Phi = 1};
    const size_t n = sizeof image;
    D3DMATRIX read;
    D3DLIGHT9 stored;

    if (ff_state_version() != FF_STATE_VERSION) {
        printf("the archive has version 0x%08x, the header 0x%08x\n", (unsigned)ff_state_version(), FF_STATE_VERSION);
        return 1;
    }

    /* over an image: an address and a length in bytes */
    accept(ff_image_fresh(image, n));
    accept(ff_set_transform(image, n, FF_TS_WORLD, (const uint8_t *)&world, sizeof world));
    accept(ff_set_material(image, n, (const uint8_t *)&material, sizeof material));
    accept(ff_set_light_at(image, n, 70, (const uint8_t *)&light, sizeof light));
    accept(ff_transform(image, n, FF_TS_WORLD, (uint8_t *)&read, sizeof read));
    accept(ff_get_light_at(image, n, 70, (uint8_t *)&stored, sizeof stored));
    printf("the world matrix moves by %g %g %g\n", read.m[3][0], read.m[3][1], read.m[3][2]);
    printf("light 70: type %u, direction %g %g %g, range %g, phi %g\n", (unsigned)stored.Type, stored.Direction.x,
           stored.Direction.y, stored.Direction.z, stored.Range, stored.Phi);
    printf("the material's power in the image: %g\n",
           get(image + FF_IMAGE_AT_MATERIAL + FF_MATERIAL_AT_POWER, 0));
    printf("the first entry's light in the image: index %u, type %u\n",
           (unsigned)get_number(image + FF_IMAGE_AT_ENTRIES + FF_ENTRY_AT_INDEX, 0),
           (unsigned)get_number(image + FF_IMAGE_AT_ENTRIES + FF_ENTRY_AT_LIGHT + FF_LIGHT_AT_TYPE, 0));

    /* in memory: the address alone */
    ff_state_fresh(&state);
    accept(ff_state_set_transform(&state, FF_TS_WORLD, &world.m[0][0]));
    accept(ff_state_set_material(&state, &material.Diffuse.r));
    accept(ff_state_set_light_at(&state, 70, (const struct ff_light *)&light));
    accept(ff_state_write_image(&state, written, sizeof written));
    printf("the state in memory has the same image: %s\n", memcmp(image, written, n) ? "no" : "yes");
    return 0;
}
