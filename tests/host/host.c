/* The host call: the examples of document 01 by bytes, the rooms' limits, outputs of every length, damaged and random bytes, and the stored
   vectors. Every answer is compared with `expect.h`'s, byte by byte, with what stands beside the output.

   host VECTORS   all of it;   host --short   a part, with record and output in blocks of their own size, for valgrind */
#include "bridge.h"
#include "check.h"
#include "expect.h"
#include "purlthicket.h"
#include <stdlib.h>

#define BESIDE 32
#define LONGEST_OUTPUT 40

static int own_blocks;

/* numbers by chance, the same in every run */
static uint64_t state = 88172645463325252u;

static uint32_t chance(uint32_t below) {
    state ^= state << 13;
    state ^= state >> 7;
    state ^= state << 17;
    return (uint32_t)((state >> 20) % below);
}

static uint8_t held(size_t j) { return (uint8_t)(7 + j % 5); }

static uint8_t call(const uint8_t *rec, size_t len, uint8_t *out, size_t out_len) {
    if (!own_blocks) return purlthicket_dim(rec, len, out, out_len);
    uint8_t *r = malloc(len), *o = malloc(out_len);
    if (len) memcpy(r, rec, len);
    if (out_len) memcpy(o, out, out_len);
    uint8_t number = purlthicket_dim(r, len, o, out_len);
    if (out_len) memcpy(out, o, out_len);
    free(r);
    free(o);
    return number;
}

static void tell(const char *what, const uint8_t *rec, size_t len, uint8_t number, uint8_t wanted) {
    printf("failed: %s: number %u for %u, record of %zu bytes:", what, number, wanted, len);
    for (size_t i = 0; i < len && i < 60; i++) printf(" %02x", rec[i]);
    printf("\n");
    failed++;
}

/* One call: its number, the answer record, past it and beside the output what stood there, and the record as it was. */
static void ask_for(const char *what, const uint8_t *rec, size_t len, size_t out_len, struct told wanted) {
    static uint8_t was[LONGEST + 1];
    uint8_t area[2 * BESIDE + LONGEST_OUTPUT], after[sizeof area];
    if (len) memcpy(was, rec, len);
    for (size_t j = 0; j < sizeof area; j++) area[j] = after[j] = held(j + 5 - BESIDE % 5);
    if (wanted.status != 14) answer_bytes(wanted, after + BESIDE);
    uint8_t number = call(rec, len, area + BESIDE, out_len);
    if (number == wanted.status && memcmp(area, after, sizeof area) == 0 && (len == 0 || memcmp(was, rec, len) == 0)) {
        passed++;
    } else {
        tell(what, rec, len, number, wanted.status);
    }
}

static void ask(const char *what, const uint8_t *rec, size_t len, size_t out_len) {
    ask_for(what, rec, len, out_len, expected(rec, len, out_len));
}

/* the records that the tests below damage */

#define GOOD 16

static struct {
    uint8_t bytes[1024];
    size_t len;
} good[GOOD];

static unsigned goods;

static struct list scratch;

static const struct list *listed(unsigned n, unsigned m, const uint16_t *cells) {
    scratch.n = n;
    scratch.m = m;
    for (unsigned i = 0; i < m; i++) memcpy(scratch.e[i], cells + i * n, n * sizeof *cells);
    return &scratch;
}

/* Pure powers x of the first `count` variables, then of the last one y. */
static const struct list *powers(unsigned count, uint16_t x, uint16_t y) {
    scratch.n = scratch.m = count + (y != 0);
    memset(scratch.e, 0, sizeof scratch.e);
    for (unsigned i = 0; i < count; i++) scratch.e[i][i] = x;
    if (y != 0) scratch.e[count][count] = y;
    return &scratch;
}

static void keep(const struct list *l) { good[goods].len = write_list(l, good[goods].bytes), goods++; }

static void example(const char *what, const struct list *l, uint8_t status, uint64_t dimension, uint32_t top) {
    static uint8_t rec[LONGEST];
    struct told t = {status, dimension, top};
    ask_for(what, rec, write_list(l, rec), ANSWER, t);
}

static void bytes(const char *what, const uint8_t *rec, size_t len, const uint8_t *answer) {
    uint8_t out[ANSWER];
    uint8_t number = call(rec, len, out, ANSWER);
    expect(number == answer[5] && memcmp(out, answer, ANSWER) == 0, what);
}

static void examples(void) {
    static const uint16_t corner[] = {2, 0, 1, 1, 0, 2}, flat[] = {3, 0, 0, 2}, triangle[] = {1, 1, 0, 0, 1, 1, 1, 0, 1}, threes[] = {5, 3, 3};
    static const uint16_t zeros[] = {0, 0}, wide_pair[] = {32769, 0, 0, 32769}, wider_pair[] = {32770, 0, 0, 32769};
    static const uint8_t unit[] = {1, 0, 0, 0, 2, 0, 1}, nothing[] = {1, 0, 0, 0, 2, 0, 0}, three[] = {1, 0, 0, 0, 2, 3, 0};
    static const uint8_t record[] = {1, 0, 0, 0, 14, 2, 3, 0, 2, 0, 0, 0, 1, 0, 1, 0, 0, 0, 2};
    static const uint8_t three_left[ANSWER] = {1, 0, 0, 0, 21, 0, [21] = 3, [25] = 2}, one[ANSWER] = {1, 0, 0, 0, 21, 0, [21] = 1};
    static const uint8_t none[ANSWER] = {1, 0, 0, 0, 21, 0}, infinite[ANSWER] = {1, 0, 0, 0, 21, 13}, no_record[ANSWER] = {1, 0, 0, 0, 21, 12};
    bytes("01's record and its answer record", record, sizeof record, three_left);
    bytes("n=0, one unit", unit, sizeof unit, none);
    bytes("n=0, none", nothing, sizeof nothing, one);
    bytes("n=3, none", three, sizeof three, infinite);
    bytes("no bytes", NULL, 0, no_record);
    bytes("a byte missing", record, sizeof record - 1, no_record);
    expect(purlthicket_dim(NULL, 0, NULL, 0) == 14, "no bytes and no output");
    expect(purlthicket_dim(record, sizeof record, NULL, 0) == 14, "no output");
    example("(0,0)", listed(2, 1, zeros), 0, 0, 0);
    example("(2,0)(1,1)(0,2)", listed(2, 3, corner), 0, 3, 2);
    example("(3,0)(0,2)", listed(2, 2, flat), 0, 6, 3);
    example("(1,1,0)(0,1,1)(1,0,1)", listed(3, 3, triangle), 13, 0, 0);
    example("(5)(3)(3)", listed(1, 3, threes), 0, 3, 2);
    example("(32769,0)(0,32769)", listed(2, 2, wide_pair), 8, 0, 0);
    example("(32770,0)(0,32769)", listed(2, 2, wider_pair), 13, 0, 0);
    example("twelve 1024 and 127", powers(12, 1024, 127), 8, 0, 0);
    example("twelve 1024 and 128", powers(12, 1024, 128), 11, 0, 0);
    example("x^2048", powers(1, 2048, 0), 0, 2048, 2047);
    example("x^2049", powers(1, 2049, 0), 9, 0, 0);
    example("x^4095", powers(1, 4095, 0), 9, 0, 0);
    example("x^4096", powers(1, 4096, 0), 8, 0, 0);
    example("x^65535", powers(1, 65535, 0), 8, 0, 0);
    example("20 squares", powers(20, 2, 0), 0, 1 << 20, 20);
    example("21 squares", powers(21, 2, 0), 7, 0, 0);
    example("60 of 255 variables", powers(60, 1, 0), 7, 0, 0);
}

static void keep_records(void) {
    static const uint16_t corner[] = {2, 0, 1, 1, 0, 2}, flat[] = {3, 0, 0, 2}, triangle[] = {1, 1, 0, 0, 1, 1, 1, 0, 1}, zeros[] = {0, 0};
    static const uint16_t steps[] = {7, 0, 5, 1, 4, 3, 1, 6, 0, 9}, mixed[] = {4, 0, 0, 0, 3, 0, 0, 0, 5, 1, 1, 1, 2, 0, 3, 0, 2, 2};
    static const uint16_t bytes_in_use[] = {258, 0, 0, 259, 257, 255};
    keep(listed(0, 0, zeros));
    keep(listed(0, 1, zeros));
    keep(listed(3, 0, zeros));
    keep(listed(2, 1, zeros));
    keep(powers(1, 3, 0));
    keep(powers(1, 2048, 0));
    keep(listed(2, 2, flat));
    keep(listed(2, 3, corner));
    keep(listed(3, 3, triangle));
    keep(listed(2, 5, steps));
    keep(listed(3, 6, mixed));
    keep(listed(2, 3, bytes_in_use));
    keep(powers(5, 4, 3));
    keep(powers(20, 2, 0));
}

static void outputs(void) {
    static const uint8_t rising[] = {1, 0, 0, 0, 6, 1, 2, 0, 2, 0, 3};
    for (size_t k = 0; k <= LONGEST_OUTPUT; k++) {
        for (unsigned g = 0; g < goods; g++) ask("outputs", good[g].bytes, good[g].len, k);
        ask("outputs", rising, sizeof rising, k);
        ask("outputs", rising, 0, k);
    }
}

/* Each byte of each good record at each other value; cut short at each place; with bytes behind. */
static void damages(unsigned only) {
    static uint8_t rec[sizeof good[0].bytes + 3];
    for (unsigned g = 0; g < goods; g++) {
        if (good[g].len > only) continue;
        memset(rec, 0, sizeof rec);
        memcpy(rec, good[g].bytes, good[g].len);
        for (size_t i = 0; i < good[g].len; i++) {
            for (unsigned x = 1; x < 256; x++) {
                rec[i] = (uint8_t)(good[g].bytes[i] + x);
                ask("a damaged byte", rec, good[g].len, ANSWER);
            }
            rec[i] = good[g].bytes[i];
        }
        for (size_t k = 0; k < good[g].len + 4; k++) ask("cut or lengthened", rec, k, ANSWER + 1);
    }
}

/* Bytes by chance, mostly small ones; in half of them version and length field are right. */
static void random_bytes(unsigned count) {
    uint8_t rec[64];
    while (count-- > 0) {
        size_t len = chance(sizeof rec);
        uint32_t below = chance(2) ? 256 : 4;
        for (size_t i = 0; i < len; i++) rec[i] = (uint8_t)chance(below);
        if (chance(2) && len > 6) {
            const uint8_t start[5] = {1, 0, 0, 0, (uint8_t)(len - 5)};
            memcpy(rec, start, 5);
            if (chance(2)) rec[6] = (uint8_t)(rec[5] ? (len - 7) / 2 / rec[5] : chance(3));
        }
        ask("random bytes", rec, len, chance(8) ? ANSWER : chance(LONGEST_OUTPUT + 1));
    }
}

/* A good record with a few bytes changed, two bytes exchanged, or its end elsewhere. */
static void mutations(unsigned count) {
    static uint8_t rec[sizeof good[0].bytes + 8];
    while (count-- > 0) {
        unsigned g = chance(goods);
        size_t len = good[g].len;
        memset(rec, 0, sizeof rec);
        memcpy(rec, good[g].bytes, len);
        for (unsigned k = chance(3); k > 0; k--) rec[chance((uint32_t)len)] = (uint8_t)chance(chance(2) ? 256 : 6);
        if (chance(3) == 0) {
            size_t i = chance((uint32_t)len), j = chance((uint32_t)len);
            uint8_t x = rec[i];
            rec[i] = rec[j];
            rec[j] = x;
        }
        if (chance(8) == 0) len = chance((uint32_t)len + 8);
        ask("a mutation", rec, len, chance(16) ? ANSWER : chance(LONGEST_OUTPUT + 1));
    }
}

/* Lists by chance, most of them with a pure power of each variable; some of many variables and great powers, for the rooms and the value. */
static const struct list *random_list(void) {
    int great = chance(10) == 0;
    unsigned n = chance(great ? 30 : 6), m = chance(14), below = 1 + chance(9);
    scratch.n = n;
    for (unsigned i = 0; i < m; i++) {
        for (unsigned v = 0; v < n; v++) scratch.e[i][v] = (uint16_t)(chance(3) ? chance(below) : 0);
    }
    if (chance(8)) {
        for (unsigned v = 0; v < n; v++, m++) {
            memset(scratch.e[m], 0, sizeof scratch.e[m]);
            scratch.e[m][v] = (uint16_t)(1 + chance(great ? 3000 : 2 * below));
        }
    }
    scratch.m = m;
    return &scratch;
}

/* Where each variable has a pure power of at most 20: all monomials with exponents of at most 20, one by one. */
static wide one_by_one(const struct list *l) {
    uint16_t u[WIDEST] = {0};
    wide sum = 0;
    for (;;) {
        unsigned i = 0, v = 0;
        while (i < l->m && !divides(l->e[i], u, l->n)) i++;
        sum += i == l->m;
        for (; v < l->n; v++) {
            if (++u[v] <= 20) break;
            u[v] = 0;
        }
        if (v == l->n) return sum;
    }
}

static void lists(unsigned count) {
    static uint8_t rec[LONGEST];
    while (count-- > 0) {
        const struct list *l = random_list();
        struct told t = dimension_of(l);
        if (t.status == 0 && t.top < 20 && l->n < 4 && chance(4) == 0) expect(t.dimension == one_by_one(l), "counted one by one");
        ask("a random list", rec, write_list(l, rec), ANSWER);
    }
}

/* The largest record, and one byte more. */
static void largest(void) {
    static struct list l;
    static uint8_t rec[LONGEST + 1];
    l.n = WIDEST;
    l.m = MOST;
    for (unsigned i = 0; i < MOST; i++) l.e[i][i] = 1, l.e[i][WIDEST - 1] = 65535;
    expect(write_list(&l, rec) == PURLTHICKET_MAX_RECORD, "the size of the longest record");
    ask("the longest record", rec, LONGEST, ANSWER);
    ask("a byte more", rec, LONGEST + 1, ANSWER);
}

/* the stored cases: 41, the record as a list, the output's length, the number, the output as a list */

static long number_in(FILE *f) {
    long x;
    return fscanf(f, "%ld", &x) == 1 ? x : -1;
}

static void vector(FILE *f) {
    static uint8_t rec[LONGEST + 1];
    uint8_t out[LONGEST_OUTPUT];
    size_t len = (size_t)number_in(f);
    for (size_t i = 0; i < len && i < sizeof rec; i++) rec[i] = (uint8_t)number_in(f);
    size_t out_len = (size_t)number_in(f);
    if (len > sizeof rec || out_len > sizeof out) {
        expect(0, "a vector of a size that it may have");
        return;
    }
    for (size_t j = 0; j < out_len; j++) out[j] = held(j);
    int right = call(rec, len, out, out_len) == number_in(f) && (size_t)number_in(f) == out_len;
    for (size_t j = 0; j < out_len; j++) right &= out[j] == number_in(f);
    expect(right, "a vector");
    ask("a vector's record", rec, len, out_len);
}

static void vectors(const char *path) {
    FILE *f = fopen(path, "r");
    int c, cases = 0;
    if (!f) {
        expect(0, path);
        return;
    }
    while ((c = fgetc(f)) != EOF) {
        if (c == '#') {
            while (c != '\n' && c != EOF) c = fgetc(f);
        } else if (c != '\n') {
            ungetc(c, f);
            expect(number_in(f) == 41, "a vector of the host call");
            vector(f);
            cases++;
        }
    }
    expect(cases > 0, "vectors");
    fclose(f);
}

int main(int count, char **words) {
    own_blocks = count > 1 && strcmp(words[1], "--short") == 0;
    keep_records();
    examples();
    outputs();
    largest();
    damages(own_blocks ? 20 : sizeof good[0].bytes);
    random_bytes(own_blocks ? 300 : 400000);
    mutations(own_blocks ? 300 : 400000);
    lists(own_blocks ? 100 : 20000);
    if (!own_blocks && count > 1) vectors(words[1]);
    return counted(own_blocks ? "host, in blocks of their own" : "host");
}
