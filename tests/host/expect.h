/* What the host call must answer, from document 01 alone and by other means than the code's: bytes are a record where writing out what they
   list gives them again, and the dimension is counted variable by variable. */
#ifndef PURLTHICKET_EXPECT_H
#define PURLTHICKET_EXPECT_H
#include <stdint.h>
#include <stdlib.h>
#include <string.h>

#define MOST 60
#define WIDEST 255
#define LONGEST (7 + 2 * MOST * WIDEST)
#define ANSWER 26

__extension__ typedef unsigned __int128 wide;

struct list {
    unsigned n, m;
    uint16_t e[MOST][WIDEST];
};

struct told {
    uint8_t status;
    wide dimension;
    uint32_t top;
};

/* By DegRevLex: above 0 where a is the greater. */
static int degrevlex(const uint16_t *a, const uint16_t *b, unsigned n) {
    long degrees = 0;
    for (unsigned v = 0; v < n; v++) degrees += (long)a[v] - (long)b[v];
    if (degrees != 0) return degrees > 0 ? 1 : -1;
    for (unsigned v = n; v-- > 0;) {
        if (a[v] != b[v]) return a[v] < b[v] ? 1 : -1;
    }
    return 0;
}

static int divides(const uint16_t *a, const uint16_t *b, unsigned n) {
    for (unsigned v = 0; v < n; v++) {
        if (a[v] > b[v]) return 0;
    }
    return 1;
}

/* The places of the minimal monomials, each once, greatest first. */
static unsigned minimal(const struct list *l, unsigned *places) {
    unsigned m = 0;
    for (unsigned i = 0; i < l->m; i++) {
        int kept = 1;
        for (unsigned j = 0; j < l->m && kept; j++) {
            if (j == i || !divides(l->e[j], l->e[i], l->n)) continue;
            kept = divides(l->e[i], l->e[j], l->n) && i < j;
        }
        if (!kept) continue;
        unsigned p = m++;
        for (; p > 0 && degrevlex(l->e[i], l->e[places[p - 1]], l->n) > 0; p--) places[p] = places[p - 1];
        places[p] = i;
    }
    return m;
}

/* Writes the record of a list, and tells its size. */
static size_t write_list(const struct list *l, uint8_t *out) {
    unsigned places[MOST];
    unsigned m = minimal(l, places);
    size_t size = 7 + 2 * (size_t)m * l->n;
    size_t body = size - 5;
    const uint8_t header[7] = {1, (uint8_t)(body >> 24), (uint8_t)(body >> 16), (uint8_t)(body >> 8), (uint8_t)body, (uint8_t)l->n, (uint8_t)m};
    memcpy(out, header, 7);
    out += 7;
    for (unsigned i = 0; i < m; i++) {
        for (unsigned v = 0; v < l->n; v++) {
            *out++ = (uint8_t)(l->e[places[i]][v] >> 8);
            *out++ = (uint8_t)l->e[places[i]][v];
        }
    }
    return size;
}

/* Whether the bytes are a record; what they list. */
static int read_list(const uint8_t *rec, size_t len, struct list *l) {
    static uint8_t again[LONGEST];
    if (len < 7 || rec[6] > MOST || len != 7 + 2 * (size_t)rec[6] * rec[5]) return 0;
    l->n = rec[5];
    l->m = rec[6];
    const uint8_t *at = rec + 7;
    for (unsigned i = 0; i < l->m; i++) {
        for (unsigned v = 0; v < l->n; v++, at += 2) l->e[i][v] = (uint16_t)(at[0] << 8 | at[1]);
    }
    return write_list(l, again) == len && memcmp(again, rec, len) == 0;
}

/* How many monomials in the variables from v on no listed one divides, of those listed that the variables before v have let pass. The
   exponents of v between two listed ones all let the same pass. */
static wide standard(const struct list *l, unsigned v, const unsigned *passed, unsigned count) {
    unsigned next[MOST];
    wide sum = 0;
    uint32_t x = 0;
    if (v == l->n) return count == 0;
    for (;;) {
        unsigned k = 0;
        uint32_t end = UINT32_MAX;
        int done = 0;
        for (unsigned i = 0; i < count; i++) {
            const uint16_t *e = l->e[passed[i]];
            if (e[v] > x) {
                if (e[v] < end) end = e[v];
                continue;
            }
            next[k++] = passed[i];
            unsigned w = v + 1;
            while (w < l->n && e[w] == 0) w++;
            if (w == l->n) done = 1;
        }
        if (done) return sum;
        sum += (wide)(end - x) * standard(l, v + 1, next, k);
        x = end;
    }
}

/* The exponent where the monomial is a pure power of v, else 0. */
static uint32_t pure(const struct list *l, unsigned i, unsigned v) {
    for (unsigned w = 0; w < l->n; w++) {
        if (w != v && l->e[i][w] != 0) return 0;
    }
    return l->e[i][v];
}

/* How many different pairs of a variable and a nonzero exponent the list has. */
static unsigned pairs(const struct list *l) {
    unsigned count = 0;
    for (unsigned v = 0; v < l->n; v++) {
        for (unsigned i = 0; i < l->m; i++) {
            unsigned j = 0;
            while (l->e[j][v] != l->e[i][v]) j++;
            if (j == i && l->e[i][v] != 0) count++;
        }
    }
    return count;
}

static struct told refused(uint8_t status) {
    struct told t = {status, 0, 0};
    return t;
}

/* The dimension's checks in their order, in rooms of 16,384, 4,096 and 4,096, and the dimension. */
static struct told dimension_of(const struct list *l) {
    const wide limit = (wide)1 << 127;
    unsigned all[MOST];
    uint64_t degree = 0, lcm = 0;
    wide product = 1;
    int finite = 1, fits = 1;
    struct told t = {0, 0, 0};
    for (unsigned i = 0; i < l->m; i++) {
        unsigned v = 0;
        all[i] = i;
        while (v < l->n && l->e[i][v] == 0) v++;
        if (v == l->n) return t;
    }
    if (l->n == 0) {
        t.dimension = 1;
        return t;
    }
    for (unsigned v = 0; v < l->n; v++) {
        uint32_t least = 0, greatest = 0;
        for (unsigned i = 0; i < l->m; i++) {
            uint32_t x = pure(l, i, v);
            if (x != 0 && (least == 0 || x < least)) least = x;
            if (l->e[i][v] > greatest) greatest = l->e[i][v];
        }
        lcm += greatest;
        if (least == 0) {
            finite = 0;
            continue;
        }
        degree += least - 1;
        if (fits && product > (limit - 1) / least) fits = 0;
        product *= least;
    }
    if (!finite || degree > 65536) return refused(13);
    if (!fits) return refused(11);
    if ((uint64_t)l->m * l->n * (l->m + pairs(l)) > 16384) return refused(7);
    if (lcm + 1 > 4096) return refused(8);
    if (2 * (degree + 1) > 4096) return refused(9);
    t.dimension = standard(l, 0, all, l->m);
    t.top = (uint32_t)degree;
    return t;
}

static struct told expected(const uint8_t *rec, size_t len, size_t out_len) {
    static struct list l;
    if (out_len < ANSWER) return refused(14);
    return read_list(rec, len, &l) ? dimension_of(&l) : refused(12);
}

static void answer_bytes(struct told t, uint8_t *out) {
    memset(out, 0, ANSWER);
    out[0] = 1;
    out[4] = 21;
    out[5] = t.status;
    for (int i = 0; i < 16; i++) out[21 - i] = (uint8_t)(t.dimension >> (8 * i));
    for (int i = 0; i < 4; i++) out[25 - i] = (uint8_t)(t.top >> (8 * i));
}
#endif
