/* What the programs of this folder share: counts of what passed, and lent words with a fence on both sides. */
#ifndef PURLTHICKET_CHECK_H
#define PURLTHICKET_CHECK_H
#include <stdint.h>
#include <stdio.h>
#include <string.h>

static unsigned long passed, failed;

static inline void expect(int right, const char *what) {
    if (right) {
        passed++;
    } else {
        failed++;
        printf("failed: %s\n", what);
    }
}

static inline int counted(const char *program) {
    printf("%s: %lu passed, %lu failed\n", program, passed, failed);
    return failed != 0;
}

/* `values` as it is lent: the four words hold HELD, and the words beside them stay FENCE. */
#define FENCE 0x5a5a5a5a5a5a5a5aULL

struct values {
    uint64_t all[8];
};

static const uint64_t HELD[4] = {9, 8, 7, 6};

static inline uint64_t *lend_values(struct values *v) {
    for (int i = 0; i < 8; i++) v->all[i] = FENCE;
    memcpy(v->all + 2, HELD, sizeof HELD);
    return v->all + 2;
}

/* The words are a, b, c and 0 after number 0, else what they held; nothing beside them is written. */
static inline int values_are(const struct values *v, uint8_t number, uint64_t a, uint64_t b, uint64_t c) {
    const uint64_t done[4] = {a, b, c, 0};
    if (v->all[0] != FENCE || v->all[1] != FENCE || v->all[6] != FENCE || v->all[7] != FENCE) return 0;
    return memcmp(v->all + 2, number == 0 ? done : HELD, sizeof HELD) == 0;
}
#endif
