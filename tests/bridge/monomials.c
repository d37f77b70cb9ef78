/* The calls on monomials, over examples of document 01 and around their refusals. */
#include "bridge.h"
#include "check.h"

#define WIDEST 300

struct monomial {
    size_t n;
    uint16_t at[8];
};

typedef uint8_t value_call(const uint16_t *a, size_t a_len, const uint16_t *b, size_t b_len, uint64_t values[4]);
typedef uint8_t write_call(const uint16_t *a, size_t a_len, const uint16_t *b, size_t b_len, uint16_t *out, size_t out_len);

/* Cells of an output that is lent: 7 in each, with fences of 7s around. */
static uint16_t lent[WIDEST + 16];

static uint16_t *lend_cells(void) {
    for (size_t i = 0; i < WIDEST + 16; i++) lent[i] = 7;
    return lent + 8;
}

/* The first n cells are `wanted`, all else is untouched. */
static int cells_are(const uint16_t *wanted, size_t n) {
    for (size_t i = 0; i < WIDEST + 16; i++) {
        uint16_t cell = i >= 8 && i < 8 + n ? wanted[i - 8] : 7;
        if (lent[i] != cell) return 0;
    }
    return 1;
}

static void one_value(const char *what, uint8_t number, uint8_t wanted, const struct values *v, uint64_t a, uint64_t b) {
    expect(number == wanted && values_are(v, wanted, a, b, 0), what);
}

static void value(const char *what, value_call *call, struct monomial a, struct monomial b, uint8_t wanted, uint64_t word) {
    struct values v;
    uint8_t number = call(a.at, a.n, b.at, b.n, lend_values(&v));
    one_value(what, number, wanted, &v, word, 0);
}

static void written(const char *what, write_call *call, struct monomial a, struct monomial b, size_t out_len, uint8_t wanted,
                    struct monomial out) {
    uint16_t *cells = lend_cells();
    uint8_t number = call(a.at, a.n, b.at, b.n, cells, out_len);
    expect(number == wanted && cells_are(out.at, wanted == 0 ? out.n : 0), what);
}

#define M(...) ((struct monomial){sizeof((uint16_t[]){__VA_ARGS__}) / 2, {__VA_ARGS__}})
static const struct monomial UNIT = {0, {0}};

static void products(void) {
    written("product", pt_product, M(2, 0, 1), M(1, 3, 0), 3, 0, M(3, 3, 1));
    written("product, no variables", pt_product, UNIT, UNIT, 0, 0, UNIT);
    written("product, greatest exponent", pt_product, M(1, 65534), M(1, 1), 2, 0, M(2, 65535));
    written("product, 5 at the last variable", pt_product, M(1, 65535), M(1, 1), 2, 5, UNIT);
    written("product, 3 for b", pt_product, M(1, 1), M(1, 1, 1), 2, 3, UNIT);
    written("product, 3 for a longer output", pt_product, M(1, 1), M(1, 1), 3, 3, UNIT);
    written("product, 3 for a shorter output", pt_product, M(1, 65535), M(1, 1), 1, 3, UNIT);
    written("quotient", pt_quotient, M(3, 3, 1), M(1, 3, 0), 3, 0, M(2, 0, 1));
    written("quotient, 6 at the last variable", pt_quotient, M(5, 1), M(1, 2), 2, 6, UNIT);
    written("quotient, 6 the other way round", pt_quotient, M(1, 3, 0), M(3, 3, 1), 3, 6, UNIT);
    written("quotient, 3 for the output before 6", pt_quotient, M(5, 1), M(1, 2), 3, 3, UNIT);
    written("quotient, 3 for b", pt_quotient, M(5, 1), M(1), 2, 3, UNIT);
    written("lcm", pt_lcm, M(2, 0, 65535), M(1, 3, 1), 3, 0, M(2, 3, 65535));
    written("lcm, 3 for b", pt_lcm, M(2), M(1, 3), 1, 3, UNIT);
    written("lcm, 3 for the output", pt_lcm, M(2, 1), M(1, 3), 4, 3, UNIT);
    written("gcd", pt_gcd, M(2, 0, 65535), M(1, 3, 1), 3, 0, M(1, 0, 1));
    written("gcd, 3 for b", pt_gcd, M(2), M(1, 3), 1, 3, UNIT);
    written("gcd, 3 for the output", pt_gcd, M(2, 1), M(1, 3), 0, 3, UNIT);
}

static void tests(void) {
    value("divides", pt_divides, M(1, 0), M(1, 1), 0, 1);
    value("divides, not the other way round", pt_divides, M(1, 1), M(1, 0), 0, 0);
    value("divides, equal", pt_divides, M(4, 5), M(4, 5), 0, 1);
    value("divides, no variables", pt_divides, UNIT, UNIT, 0, 1);
    value("divides, 3", pt_divides, M(1), M(1, 1), 3, 0);
    value("coprime", pt_coprime, M(1, 0, 2), M(0, 3, 0), 0, 1);
    value("coprime, not", pt_coprime, M(1, 0, 2), M(0, 3, 1), 0, 0);
    value("coprime, 3", pt_coprime, M(1, 0), M(1), 3, 0);
    value("lex, less", pt_lex, M(1, 9), M(2, 0), 0, 0);
    value("lex, equal", pt_lex, M(1, 9), M(1, 9), 0, 1);
    value("lex, greater", pt_lex, M(2, 0), M(1, 9), 0, 2);
    value("lex, 3", pt_lex, M(2, 0), UNIT, 3, 0);
    value("degrevlex, the degree first", pt_degrevlex, M(0, 3), M(2, 0), 0, 2);
    value("degrevlex, the last variable's smaller exponent", pt_degrevlex, M(2, 0, 1), M(0, 3, 0), 0, 0);
    value("degrevlex, not the first variable", pt_degrevlex, M(1, 3, 0), M(2, 1, 1), 0, 2);
    value("degrevlex, equal", pt_degrevlex, M(2, 1, 1), M(2, 1, 1), 0, 1);
    value("degrevlex, 3", pt_degrevlex, M(2, 1, 1), M(2, 1), 3, 0);
}

static void numbers(void) {
    struct values v;
    const uint16_t a[] = {3, 0, 65535};
    uint8_t number = pt_degree(a, 3, lend_values(&v));
    one_value("degree", number, 0, &v, 65538, 0);
    number = pt_degree(a, 0, lend_values(&v));
    one_value("degree, no variables", number, 0, &v, 0, 0);
    number = pt_exponent(a, 3, 2, lend_values(&v));
    one_value("exponent", number, 0, &v, 65535, 0);
    number = pt_exponent(a, 3, 3, lend_values(&v));
    one_value("exponent, 4", number, 4, &v, 0, 0);
    number = pt_exponent(a, 3, 1ULL << 32, lend_values(&v));
    one_value("exponent, 4 far away", number, 4, &v, 0, 0);
    number = pt_exponent(a, 0, 0, lend_values(&v));
    one_value("exponent, 4 with no variables", number, 4, &v, 0, 0);
}

static void power(const char *what, uint64_t n, uint64_t v, uint16_t x, size_t out_len, uint8_t wanted, struct monomial out) {
    uint16_t *cells = lend_cells();
    uint8_t number = pt_power(n, v, x, cells, out_len);
    expect(number == wanted && cells_are(out.at, wanted == 0 ? out.n : 0), what);
}

static void powers(void) {
    power("power", 4, 2, 9, 4, 0, M(0, 0, 9, 0));
    power("power of 0", 2, 1, 0, 2, 0, M(0, 0));
    power("power, 1 before all", 256, 300, 9, 4, 1, UNIT);
    power("power, 1 of a width past 32 bits", (1ULL << 32) + 4, 2, 9, 4, 1, UNIT);
    power("power, 3 before 4", 4, 4, 9, 3, 3, UNIT);
    power("power, 3 for a longer output", 4, 2, 9, 5, 3, UNIT);
    power("power, 4", 4, 4, 9, 4, 4, UNIT);
    power("power, 4 with no variables", 0, 0, 9, 0, 4, UNIT);
    power("power, 4 past 32 bits", 4, 1ULL << 32, 9, 4, 4, UNIT);
}

static void mask(const char *what, uint64_t n, uint16_t max_deg, const uint16_t *exps, size_t exps_len, uint8_t wanted, uint64_t low,
                 uint64_t high) {
    struct values v;
    uint8_t number = pt_mask(n, max_deg, exps, exps_len, lend_values(&v));
    one_value(what, number, wanted, &v, low, high);
}

static void masks(void) {
    uint16_t exps[WIDEST] = {0};
    exps[32] = 3;
    mask("mask, bit 64", 64, 4, exps, 64, 0, 0, 1);
    mask("mask, exponents past n are ignored", 32, 4, exps, 64, 0, 0, 0);
    mask("mask, missing exponents are 0", 64, 4, exps, 32, 0, 0, 0);
    mask("mask, no variables", 0, 4, exps, 64, 0, 0, 0);
    mask("mask, 1", 256, 4, exps, 64, 1, 0, 0);
    mask("mask, 1 with no exponents", 1ULL << 63, 4, exps, 0, 1, 0, 0);
    exps[0] = 65535;
    mask("mask, all bits", 1, 1, exps, 1, 0, ~0ULL, ~0ULL);
    mask("mask, thresholds at most 65,535", 1, 65535, exps, 1, 0, ~0ULL, ~0ULL >> 1);
    exps[127] = 2;
    mask("mask, bits 0, 32 and 127", 255, 0, exps, 128, 0, 1 | 1ULL << 32, 1ULL << 63);
}

/* Lengths 255, 256 and 300: the first monomial's width decides between 1 and 3. */
static void widths(void) {
    static const uint16_t wide[WIDEST] = {1, 2};
    struct values v;
    uint8_t number = pt_degree(wide, 255, lend_values(&v));
    one_value("degree at width 255", number, 0, &v, 3, 0);
    number = pt_degree(wide, 256, lend_values(&v));
    one_value("degree, 1", number, 1, &v, 0, 0);
    number = pt_exponent(wide, 255, 1, lend_values(&v));
    one_value("exponent at width 255", number, 0, &v, 2, 0);
    number = pt_exponent(wide, 256, 300, lend_values(&v));
    one_value("exponent, 1 before 4", number, 1, &v, 0, 0);
    value_call *values[] = {pt_divides, pt_coprime, pt_lex, pt_degrevlex};
    const uint64_t same[] = {1, 0, 1, 1};
    for (int i = 0; i < 4; i++) {
        number = values[i](wide, 255, wide, 255, lend_values(&v));
        one_value("a pair at width 255", number, 0, &v, same[i], 0);
        number = values[i](wide, 300, wide, 3, lend_values(&v));
        one_value("a pair of widths 300 and 3: 1", number, 1, &v, 0, 0);
        number = values[i](wide, 3, wide, 300, lend_values(&v));
        one_value("a pair of widths 3 and 300: 3", number, 3, &v, 0, 0);
    }
    write_call *writes[] = {pt_product, pt_quotient, pt_lcm, pt_gcd};
    const uint16_t first[] = {2, 0, 1, 1};
    for (int i = 0; i < 4; i++) {
        uint16_t wanted[255] = {first[i], (uint16_t)(2 * first[i])};
        uint16_t *cells = lend_cells();
        number = writes[i](wide, 255, wide, 255, cells, 255);
        expect(number == 0 && cells_are(wanted, 255), "an output of width 255");
        cells = lend_cells();
        number = writes[i](wide, 256, wide, 256, cells, 256);
        expect(number == 1 && cells_are(wanted, 0), "an output of width 256: 1");
        number = writes[i](wide, 3, wide, 300, cells, 3);
        expect(number == 3 && cells_are(wanted, 0), "widths 3 and 300: 3");
    }
}

int main(void) {
    products();
    tests();
    numbers();
    powers();
    masks();
    widths();
    return counted("bridge, monomials");
}
