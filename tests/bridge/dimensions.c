/* The dimension of a list, over examples of document 01 and around its refusals: number, values and all rooms. */
#include "bridge.h"
#include "check.h"
#include "rooms.h"

#define MOST 3600

/* A list that is being put together: s monomials of width n. */
static uint64_t n, s;
static uint16_t cells[MOST];

static void start(uint64_t width) {
    n = width;
    s = 0;
    memset(cells, 0, sizeof cells);
}

static void monomial(uint16_t a, uint16_t b) {
    if (n > 0) cells[s * n] = a;
    if (n > 1) cells[s * n + 1] = b;
    s++;
}

/* A pure power of variable v. */
static void pure(uint64_t v, uint16_t x) {
    cells[s * n + v] = x;
    s++;
}

/* The sizes asked: exponent cells, coefficients, words; 0 where none is. */
struct asked {
    size_t cells, coefficients, words;
};

/* The call with rooms of the asked sizes, less what is `missing` of each. */
static void dimension(const char *what, struct asked asked, struct asked missing, uint8_t wanted, uint64_t low, uint64_t high,
                      uint64_t top) {
    struct values v;
    lend_rooms();
    uint8_t number = pt_dimension(n, s, cells, s * n, room + BESIDE, asked.cells - missing.cells, first + BESIDE, asked.coefficients,
                                  second + BESIDE, asked.coefficients - missing.coefficients, sums + BESIDE, asked.words - missing.words,
                                  lend_values(&v));
    expect(number == wanted && values_are(&v, wanted, low, high, top), what);
    struct asked left = wanted == 0 ? asked : (struct asked){0, 0, 0};
    expect(rooms_are(left.cells, left.coefficients, left.words, NULL, 0), what);
}

static const struct asked NONE = {0, 0, 0};

static void at_once(void) {
    start(2), monomial(0, 0);
    dimension("a unit", NONE, NONE, 0, 0, 0, 0);
    start(2), monomial(3, 0), monomial(0, 0);
    dimension("a unit among others", NONE, NONE, 0, 0, 0, 0);
    start(0);
    dimension("no variables", NONE, NONE, 0, 1, 0, 0);
    start(0), monomial(0, 0);
    dimension("no variables, one unit", NONE, NONE, 0, 0, 0, 0);
}

static void examples(void) {
    start(2), monomial(2, 0), monomial(1, 1), monomial(0, 2);
    const struct asked corner = {42, 5, 6};
    dimension("(2,0)(1,1)(0,2)", corner, NONE, 0, 3, 0, 2);
    dimension("7 before 8 and 9", corner, (struct asked){1, 1, 1}, 7, 0, 0, 0);
    dimension("8 before 9", corner, (struct asked){0, 1, 1}, 8, 0, 0, 0);
    dimension("9", corner, (struct asked){0, 0, 1}, 9, 0, 0, 0);
    start(2), monomial(3, 0), monomial(0, 2);
    dimension("(3,0)(0,2)", (struct asked){16, 6, 8}, NONE, 0, 6, 0, 3);
    start(1), monomial(5, 0), monomial(3, 0), monomial(3, 0);
    dimension("(5)(3)(3)", (struct asked){15, 6, 6}, NONE, 0, 3, 0, 2);
    start(3);
    dimension("13 of no monomials", NONE, NONE, 13, 0, 0, 0);
    start(2), monomial(1, 1), monomial(2, 0);
    dimension("13 for the second variable", NONE, NONE, 13, 0, 0, 0);
}

static void limits(void) {
    start(2), monomial(32769, 0), monomial(0, 32769);
    dimension("D = 65,536", (struct asked){16, 65539, 131074}, NONE, 0, 1073807361, 0, 65536);
    start(2), monomial(32770, 0), monomial(0, 32769);
    dimension("13 for D = 65,537", NONE, NONE, 13, 0, 0, 0);
    start(13);
    for (uint64_t v = 0; v < 12; v++) pure(v, 1024);
    pure(12, 127);
    dimension("127·2^120", (struct asked){4394, 12416, 24806}, NONE, 0, 0, 127ULL << 56, 12402);
    cells[12 * 13 + 12] = 128;
    dimension("11 for 2^127, before 7", NONE, NONE, 11, 0, 0, 0);
    cells[12 * 13 + 12] = 256;
    dimension("11 for 2^128", NONE, NONE, 11, 0, 0, 0);
    start(60);
    for (uint64_t v = 0; v < 60; v++) pure(v, 2);
    dimension("sixty squares", (struct asked){432000, 121, 122}, NONE, 0, 1ULL << 60, 0, 60);
}

static void refusals(void) {
    struct values v;
    lend_rooms();
    uint8_t number = pt_dimension(256, 61, cells, 0, room, 0, first, 0, second, 0, sums, 0, lend_values(&v));
    expect(number == 1 && values_are(&v, 1, 0, 0, 0), "1 before 2");
    number = pt_dimension(2, 61, cells, 0, room, 0, first, 0, second, 0, sums, 0, lend_values(&v));
    expect(number == 2 && values_are(&v, 2, 0, 0, 0), "2 before 3");
    number = pt_dimension(2, 1ULL << 63, cells, 0, room, 0, first, 0, second, 0, sums, 0, lend_values(&v));
    expect(number == 2 && values_are(&v, 2, 0, 0, 0), "2, where s times n wraps");
    memset(cells, 0, sizeof cells);
    number = pt_dimension(2, 1, cells, 3, room, 0, first, 0, second, 0, sums, 0, lend_values(&v));
    expect(number == 3 && values_are(&v, 3, 0, 0, 0), "3 before a unit");
    expect(rooms_are(0, 0, 0, NULL, 0), "no room touched");
}

int main(void) {
    at_once();
    examples();
    limits();
    refusals();
    return counted("bridge, dimensions");
}
