/* Ideal records, over examples of document 01 and around their refusals: written, read at a place, copied. */
#include "bridge.h"
#include "check.h"

#define MOST 600
#define BESIDE 8

static uint8_t bytes[MOST + 2 * BESIDE];
static uint16_t lent[MOST + 2 * BESIDE];

static void lend(void) {
    for (size_t i = 0; i < MOST + 2 * BESIDE; i++) bytes[i] = 7, lent[i] = 7;
}

static int bytes_are(const uint8_t *wanted, size_t n) {
    for (size_t i = 0; i < MOST + 2 * BESIDE; i++) {
        if (bytes[i] != (i >= BESIDE && i < BESIDE + n ? wanted[i - BESIDE] : 7)) return 0;
    }
    return 1;
}

static int cells_are(const uint16_t *wanted, size_t n) {
    for (size_t i = 0; i < MOST + 2 * BESIDE; i++) {
        if (lent[i] != (i >= BESIDE && i < BESIDE + n ? wanted[i - BESIDE] : 7)) return 0;
    }
    return 1;
}

/* (2,0)(1,1)(0,2), and its record. */
static const uint16_t corner[] = {2, 0, 1, 1, 0, 2};
static const uint8_t corner_record[] = {1, 0, 0, 0, 14, 2, 3, 0, 2, 0, 0, 0, 1, 0, 1, 0, 0, 0, 2};
static const uint8_t unit_record[] = {1, 0, 0, 0, 2, 0, 1};

static void write(const char *what, uint64_t n, uint64_t s, const uint16_t *cells, size_t len, size_t out_len, uint8_t wanted,
                  const uint8_t *rec, size_t size) {
    struct values v;
    lend();
    uint8_t number = pt_write_record(n, s, cells, len, bytes + BESIDE, out_len, lend_values(&v));
    expect(number == wanted && values_are(&v, wanted, size, 0, 0) && bytes_are(rec, wanted == 0 ? size : 0), what);
}

static void writes(void) {
    const uint16_t mixed[] = {0, 2, 3, 1, 1, 1, 2, 0, 1, 1};
    const uint16_t powers[] = {5, 3, 3};
    const uint8_t power_record[] = {1, 0, 0, 0, 4, 1, 1, 0, 3};
    write("a record", 2, 3, corner, 6, 19, 0, corner_record, 19);
    write("a record, with bytes to spare", 2, 3, corner, 6, 40, 0, corner_record, 19);
    write("the minimal ones, each once, greatest first", 2, 5, mixed, 10, 19, 0, corner_record, 19);
    write("one of (5)(3)(3)", 1, 3, powers, 3, 9, 0, power_record, 9);
    write("no variables, one unit", 0, 1, corner, 0, 7, 0, unit_record, 7);
    write("no variables, five units", 0, 5, corner, 0, 7, 0, unit_record, 7);
    write("14", 2, 3, corner, 6, 18, 14, corner_record, 19);
    write("14 for no bytes", 0, 0, corner, 0, 6, 14, corner_record, 0);
    write("1 before 2", 256, 61, corner, 6, 0, 1, corner_record, 0);
    write("2 before 3", 2, 61, corner, 6, 0, 2, corner_record, 0);
    write("2, where s times n wraps", 2, 1ULL << 63, corner, 0, 0, 2, corner_record, 0);
    write("3 before 14", 2, 2, corner, 6, 0, 3, corner_record, 0);
}

static void place(const char *what, const uint8_t *rec, size_t len, uint64_t k, size_t out_len, uint8_t wanted, const uint8_t *part,
                  size_t size) {
    struct values v;
    lend();
    uint8_t number = pt_place(rec, len, k, bytes + BESIDE, out_len, lend_values(&v));
    expect(number == wanted && values_are(&v, wanted, size, 0, 0) && bytes_are(part, wanted == 0 ? size : 0), what);
    if (wanted != 14) expect(pt_check_place(rec, len, k) == wanted, what);
}

static void places(void) {
    uint8_t damaged[sizeof corner_record];
    memcpy(damaged, corner_record, sizeof damaged);
    damaged[8] = 1;
    place("place 0", corner_record, 19, 0, 510, 0, corner_record + 7, 4);
    place("place 2, with bytes to spare", corner_record, 19, 2, 600, 0, corner_record + 15, 4);
    place("4", corner_record, 19, 3, 510, 4, corner_record, 0);
    place("4 past 32 bits", corner_record, 19, 1ULL << 32, 510, 4, corner_record, 0);
    place("an empty part", unit_record, 7, 0, 510, 0, unit_record, 0);
    place("4 where there is one unit", unit_record, 7, 1, 510, 4, unit_record, 0);
    place("12 before 4", damaged, 19, 3, 510, 12, damaged, 0);
    place("12 for a byte too many", corner_record, 18, 0, 510, 12, damaged, 0);
    place("12 for no bytes", corner_record, 0, 0, 510, 12, damaged, 0);
    place("14 before 12", damaged, 19, 3, 509, 14, damaged, 0);
}

static void copy(const char *what, const uint8_t *rec, size_t len, size_t cells_len, uint8_t wanted, uint64_t n, uint64_t m,
                 const uint16_t *cells) {
    struct values v;
    lend();
    uint8_t number = pt_copy_record(rec, len, lent + BESIDE, cells_len, lend_values(&v));
    expect(number == wanted && values_are(&v, wanted, n, m, 0) && cells_are(cells, wanted == 0 ? n * m : 0), what);
}

static void copies(void) {
    const uint8_t empty_record[] = {1, 0, 0, 0, 2, 255, 0};
    const uint8_t rising[] = {1, 0, 0, 0, 6, 1, 2, 0, 3, 0, 5};
    copy("a copy", corner_record, 19, 6, 0, 2, 3, corner);
    copy("a copy, with cells to spare", corner_record, 19, 9, 0, 2, 3, corner);
    copy("a copy of one unit", unit_record, 7, 0, 0, 0, 1, corner);
    copy("a copy of nothing at width 255", empty_record, 7, 0, 0, 255, 0, corner);
    copy("14 for the cells", corner_record, 19, 5, 14, 2, 3, corner);
    copy("12 before 14", rising, 11, 0, 12, 1, 2, corner);
}

int main(void) {
    writes();
    places();
    copies();
    return counted("bridge, records");
}
