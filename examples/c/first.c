/* A first job: the world-view matrix of an object that is moved by (5, 6, 7), as the four rows that a
 * shader is handed, the way back, and a matrix that has none. */
#include "numbers.h"

int main(void) {
    const float moved[16] = {1, 0, 0, 0, 0, 1, 0, 0, 0, 0, 1, 0, 5, 6, 7, 1};
    const float turned[16] = {0, 1, 0, 0, -1, 0, 0, 0, 0, 0, 1, 0, 0, 0, 0, 1};
    const float flat[16] = {1, 0, 0, 0, 0, 1, 0, 0, 0, 0, 0, 0, 5, 6, 7, 1};
    uint8_t world[FF_MATRIX_BYTES], view[FF_MATRIX_BYTES], product[FF_MATRIX_BYTES], rows[FF_MATRIX_BYTES];

    put_matrix(world, moved);
    put_matrix(view, turned);
    if (ff_mat_mul(world, sizeof world, view, sizeof view, product, sizeof product) != FF_ACCEPTED)
        return 1;
    if (ff_transpose(product, sizeof product, rows, sizeof rows) != FF_ACCEPTED)
        return 1;
    show_matrix("rows of world x view:", rows);

    if (ff_inverse(product, sizeof product, rows, sizeof rows) != FF_ACCEPTED)
        return 1;
    show_matrix("its inverse:", rows);

    put_matrix(world, flat);
    show_answer("a flattened matrix", ff_inverse(world, sizeof world, rows, sizeof rows));
    show_answer("a matrix of 60 bytes", ff_transpose(world, 60, rows, sizeof rows));

    printf("the root of 2: %.9g\n", of_bits(ff_sqrt(bits_of(2))));
    printf("the cosine of 0: %g\n", of_bits(ff_cos(bits_of(0))));
    return 0;
}
