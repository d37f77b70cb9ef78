/* The four rooms that calls on lists ask for, with 7 in every element and elements beside each. */
#ifndef PURLTHICKET_ROOMS_H
#define PURLTHICKET_ROOMS_H
#include <stddef.h>
#include <stdint.h>

#define CELLS 432016
#define WORDS 131088
#define BESIDE 8

static uint16_t room[CELLS + 2 * BESIDE];
static int64_t first[WORDS + 2 * BESIDE], second[WORDS + 2 * BESIDE];
static uint64_t sums[WORDS + 2 * BESIDE];

static inline void lend_rooms(void) {
    for (size_t i = 0; i < CELLS + 2 * BESIDE; i++) room[i] = 7;
    for (size_t i = 0; i < WORDS + 2 * BESIDE; i++) first[i] = 7, second[i] = 7, sums[i] = 7;
}

/* What a room holds at i: the answer's elements, zeros up to the asked size, 7 beside and after that. */
static inline int64_t held(size_t i, const int64_t *answer, size_t count, size_t asked) {
    if (i < BESIDE || i >= BESIDE + asked) return 7;
    return i < BESIDE + count ? answer[i - BESIDE] : 0;
}

/* The first coefficient room holds the answer; every room is zero in its asked part. */
static inline int rooms_are(size_t cells, size_t coefficients, size_t words, const int64_t *answer, size_t count) {
    for (size_t i = 0; i < CELLS + 2 * BESIDE; i++) {
        if (room[i] != held(i, NULL, 0, cells)) return 0;
    }
    for (size_t i = 0; i < WORDS + 2 * BESIDE; i++) {
        if (first[i] != held(i, answer, count, coefficients)) return 0;
        if (second[i] != held(i, NULL, 0, coefficients)) return 0;
        if (sums[i] != (uint64_t)held(i, NULL, 0, words)) return 0;
    }
    return 1;
}
#endif
