/* Floats in the byte slices that cross, and answers in words. */
#ifndef NUMBERS_H
#define NUMBERS_H

#include <stdio.h>
#include <stdlib.h>
#include <string.h>

#include "ff_state.h"

static inline void put_number(uint8_t *bytes, int i, uint32_t n) {
    for (int k = 0; k < 4; k++)
        bytes[4 * i + k] = (uint8_t)(n >> 8 * k);
}

static inline uint32_t get_number(const uint8_t *bytes, int i) {
    uint32_t n = 0;
    for (int k = 0; k < 4; k++)
        n |= (uint32_t)bytes[4 * i + k] << 8 * k;
    return n;
}

static inline uint32_t bits_of(float x) {
    uint32_t n;
    memcpy(&n, &x, 4);
    return n;
}

static inline float of_bits(uint32_t n) {
    float x;
    memcpy(&x, &n, 4);
    return x;
}

static inline void put(uint8_t *bytes, int i, float x) {
    put_number(bytes, i, bits_of(x));
}

static inline float get(const uint8_t *bytes, int i) {
    return of_bits(get_number(bytes, i));
}

static inline void put_matrix(uint8_t *bytes, const float m[16]) {
    for (int i = 0; i < 16; i++)
        put(bytes, i, m[i]);
}

static inline void show_matrix(const char *title, const uint8_t *bytes) {
    printf("%s\n", title);
    for (int i = 0; i < 4; i++)
        printf("  %g %g %g %g\n", get(bytes, 4 * i), get(bytes, 4 * i + 1), get(bytes, 4 * i + 2), get(bytes, 4 * i + 3));
}

static inline void show_answer(const char *title, uint32_t answer) {
    if (answer == FF_ACCEPTED)
        printf("%s: accepted\n", title);
    else
        printf("%s: refused %u: %s\n", title, (unsigned)answer, ff_refusal_words(answer));
}

/* For a call that must be accepted. */
static inline void accept(uint32_t answer) {
    if (answer != FF_ACCEPTED) {
        show_answer("stopped", answer);
        exit(1);
    }
}

#endif
