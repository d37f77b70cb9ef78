/* Replays the cases of tests/vectors (files as arguments) on the bridge's calls: number, values, and every lent element.
   The form of a line is in tests/vectors/README.md; lines of calls that are not in the table below are counted and left out. */
#include "bridge.h"
#include "check.h"
#include <stdlib.h>

#define LONGEST 65536
#define BESIDE 8

/* The rest of the line that is read. */
static char *rest;

static uint64_t number(void) {
    return strtoull(rest, &rest, 10);
}

/* Elements of 1, 2 or 8 bytes: a list that is given, or a room that is lent, with BESIDE more on each side. */
struct part {
    size_t len, width;
    unsigned char *all;
};

static struct part part(size_t len, size_t width) {
    return (struct part){len, width, malloc((len + 2 * BESIDE) * width)};
}

static void *at(struct part p) {
    return p.all + BESIDE * p.width;
}

static uint64_t element(struct part p, size_t i) {
    uint64_t x = 0;
    memcpy(&x, p.all + i * p.width, p.width);
    return x;
}

static void put(struct part p, size_t i, uint64_t x) {
    memcpy(p.all + i * p.width, &x, p.width);
}

static struct part list(size_t width) {
    struct part p = part(number(), width);
    for (size_t i = 0; i < p.len; i++) put(p, BESIDE + i, number());
    return p;
}

/* What element i holds before the call, those beside the part among them. */
static uint64_t pattern(struct part p, size_t i) {
    return i < BESIDE || i >= BESIDE + p.len ? 7 : 7 + (i - BESIDE) % 5;
}

static struct part lend(size_t width) {
    struct part p = part(number(), width);
    for (size_t i = 0; i < p.len + 2 * BESIDE; i++) put(p, i, pattern(p, i));
    return p;
}

static uint64_t below_width(uint64_t x, size_t width) {
    return width == 8 ? x : x & ((1ULL << 8 * width) - 1);
}

/* The part starts with the next `count` numbers of the line, is zero up to `asked`, and holds what it held after that. */
static int holds(struct part p, size_t count, size_t asked) {
    int right = 1;
    for (size_t i = 0; i < p.len + 2 * BESIDE; i++) {
        uint64_t wanted = pattern(p, i);
        if (i >= BESIDE && i < BESIDE + count) wanted = below_width(number(), p.width);
        else if (i >= BESIDE && i < BESIDE + asked) wanted = 0;
        right &= element(p, i) == wanted;
    }
    return right;
}

/* After number 0 the output is the list that follows. */
static int written(struct part out, uint8_t wanted) {
    if (wanted != 0) return holds(out, 0, 0);
    return number() == out.len && holds(out, out.len, out.len);
}

/* The number is the one that follows, and after 0 the first `count` values are those that follow. */
static int told(uint8_t answer, const struct values *v, int count) {
    uint8_t wanted = (uint8_t)number();
    uint64_t word[3] = {0, 0, 0};
    for (int i = 0; wanted == 0 && i < count; i++) word[i] = number();
    return answer == wanted && values_are(v, wanted, word[0], word[1], word[2]);
}

/* Monomials. */

static int degree(void) {
    struct values v;
    struct part a = list(2);
    int right = told(pt_degree(at(a), a.len, lend_values(&v)), &v, 1);
    free(a.all);
    return right;
}

static int exponent(void) {
    struct values v;
    struct part a = list(2);
    int right = told(pt_exponent(at(a), a.len, number(), lend_values(&v)), &v, 1);
    free(a.all);
    return right;
}

static int power(void) {
    uint64_t n = number(), v = number(), x = number();
    struct part out = lend(2);
    uint8_t answer = pt_power(n, v, (uint16_t)x, at(out), out.len);
    int right = answer == number() && written(out, answer);
    free(out.all);
    return right;
}

typedef uint8_t write_call(const uint16_t *a, size_t a_len, const uint16_t *b, size_t b_len, uint16_t *out, size_t out_len);
typedef uint8_t value_call(const uint16_t *a, size_t a_len, const uint16_t *b, size_t b_len, uint64_t values[4]);

static int write_pair(write_call *call) {
    struct part a = list(2), b = list(2), out = lend(2);
    uint8_t answer = call(at(a), a.len, at(b), b.len, at(out), out.len);
    int right = answer == number() && written(out, answer);
    free(a.all), free(b.all), free(out.all);
    return right;
}

static int value_pair(value_call *call) {
    struct values v;
    struct part a = list(2), b = list(2);
    int right = told(call(at(a), a.len, at(b), b.len, lend_values(&v)), &v, 1);
    free(a.all), free(b.all);
    return right;
}

static int mask(void) {
    struct values v;
    uint64_t n = number(), max_deg = number();
    struct part exps = list(2);
    int right = told(pt_mask(n, (uint16_t)max_deg, at(exps), exps.len, lend_values(&v)), &v, 2);
    free(exps.all);
    return right;
}

/* Numbers. */

static int is_zero(void) {
    struct values v;
    struct part c = list(8);
    int right = told(pt_is_zero(at(c), c.len, lend_values(&v)), &v, 1);
    free(c.all);
    return right;
}

static int coeff_degree(void) {
    struct values v;
    struct part c = list(8);
    int right = told(pt_coeff_degree(at(c), c.len, lend_values(&v)), &v, 2);
    free(c.all);
    return right;
}

static int coeff(void) {
    struct values v;
    struct part c = list(8);
    int right = told(pt_coeff(at(c), c.len, number(), lend_values(&v)), &v, 1);
    free(c.all);
    return right;
}

static int hf_at(void) {
    struct values v;
    uint64_t n = number();
    struct part c = list(8);
    uint64_t d = number();
    struct part sums = lend(8);
    uint8_t answer = pt_hf_at(n, at(c), c.len, d, at(sums), sums.len, lend_values(&v));
    int right = told(answer, &v, 2) && holds(sums, 0, answer == 0 || answer == 11 ? 4 * (d + 1) : 0);
    free(c.all), free(sums.all);
    return right;
}

/* The exponent cells asked: s·n·(s + e), with e the number of different pairs of a variable and an exponent other than 0. */
static size_t cells_asked(uint64_t n, uint64_t s, struct part cells) {
    size_t e = 0;
    for (uint64_t v = 0; v < n; v++) {
        for (uint64_t k = 0; k < s; k++) {
            uint64_t x = element(cells, BESIDE + k * n + v);
            int seen = x == 0;
            for (uint64_t j = 0; j < k; j++) seen |= element(cells, BESIDE + j * n + v) == x;
            e += !seen;
        }
    }
    return s * n * (s + e);
}

/* The coefficients that follow, in the first coefficient room: their count is the value, and the asked size stands before them. */
static int coefficients_told(uint8_t answer, const struct values *v, size_t cells, struct part room, struct part first, struct part second) {
    uint8_t wanted = (uint8_t)number();
    size_t asked = wanted == 0 ? number() : 0;
    size_t count = wanted == 0 ? number() : 0;
    int right = answer == wanted && values_are(v, wanted, count, 0, 0);
    right &= holds(first, count, asked);
    return right && holds(second, 0, asked) && holds(room, 0, wanted == 0 ? cells : 0);
}

static int numerator(void) {
    struct values v;
    uint64_t n = number(), s = number();
    struct part cells = list(2), room = lend(2), first = lend(8), second = lend(8);
    uint8_t answer = pt_numerator(n, s, at(cells), cells.len, at(room), room.len, at(first), first.len, at(second), second.len, lend_values(&v));
    size_t asked = answer == 0 ? cells_asked(n, s, cells) : 0;
    int right = coefficients_told(answer, &v, asked, room, first, second);
    free(cells.all), free(room.all), free(first.all), free(second.all);
    return right;
}

/* Both lists, one after the other. */
static struct part joined(struct part a, struct part b) {
    struct part p = part(a.len + b.len, 2);
    memcpy(at(p), at(a), 2 * a.len);
    memcpy((unsigned char *)at(p) + 2 * a.len, at(b), 2 * b.len);
    return p;
}

static int update(void) {
    struct values v;
    uint64_t n = number();
    struct part g = list(8);
    uint64_t s0 = number();
    struct part existing = list(2);
    uint64_t s1 = number();
    struct part added = list(2), room = lend(2), first = lend(8), second = lend(8), all = joined(existing, added);
    uint8_t answer = pt_update(n, at(g), g.len, s0, at(existing), existing.len, s1, at(added), added.len, at(room), room.len, at(first),
                               first.len, at(second), second.len, lend_values(&v));
    size_t asked = answer == 0 ? cells_asked(n, s0 + s1, all) : 0;
    int right = coefficients_told(answer, &v, asked, room, first, second);
    free(g.all), free(existing.all), free(added.all), free(all.all), free(room.all), free(first.all), free(second.all);
    return right;
}

/* Whether no room is asked: there is a unit, or no variable. */
static int at_once(uint64_t n, uint64_t s, struct part cells) {
    int unit = n == 0;
    for (uint64_t k = 0; k < s; k++) {
        int zero = 1;
        for (uint64_t v = 0; v < n; v++) zero &= element(cells, BESIDE + k * n + v) == 0;
        unit |= zero;
    }
    return unit;
}

/* The coefficients asked: 1 and the degree of the lcm. */
static size_t lcm_asked(uint64_t n, uint64_t s, struct part cells) {
    size_t degree = 0;
    for (uint64_t v = 0; v < n; v++) {
        uint64_t most = 0;
        for (uint64_t k = 0; k < s; k++) {
            uint64_t x = element(cells, BESIDE + k * n + v);
            if (x > most) most = x;
        }
        degree += most;
    }
    return degree + 1;
}

static int dimension(void) {
    struct values v;
    uint64_t n = number(), s = number();
    struct part cells = list(2), room = lend(2), first = lend(8), second = lend(8), sums = lend(8);
    uint8_t answer = pt_dimension(n, s, at(cells), cells.len, at(room), room.len, at(first), first.len, at(second), second.len, at(sums),
                                  sums.len, lend_values(&v));
    int right = told(answer, &v, 3);
    int asks = answer == 0 && !at_once(n, s, cells);
    right &= holds(room, 0, asks ? cells_asked(n, s, cells) : 0) && holds(sums, 0, asks ? 2 * (v.all[4] + 1) : 0);
    right &= holds(first, 0, asks ? lcm_asked(n, s, cells) : 0) && holds(second, 0, asks ? lcm_asked(n, s, cells) : 0);
    free(cells.all), free(room.all), free(first.all), free(second.all), free(sums.all);
    return right;
}

/* Records. */

static int write_record(void) {
    struct values v;
    uint64_t n = number(), s = number();
    struct part cells = list(2), out = lend(1);
    uint8_t answer = pt_write_record(n, s, at(cells), cells.len, at(out), out.len, lend_values(&v));
    int right = told(answer, &v, 1) && written(out, answer);
    free(cells.all), free(out.all);
    return right;
}

static int check_place(void) {
    struct part rec = list(1);
    uint8_t answer = pt_check_place(at(rec), rec.len, number());
    free(rec.all);
    return answer == number();
}

static int place(void) {
    struct values v;
    struct part rec = list(1);
    uint64_t k = number();
    struct part out = lend(1);
    uint8_t answer = pt_place(at(rec), rec.len, k, at(out), out.len, lend_values(&v));
    int right = told(answer, &v, 1) && written(out, answer);
    free(rec.all), free(out.all);
    return right;
}

static int copy_record(void) {
    struct values v;
    struct part rec = list(1), cells = lend(2);
    uint8_t answer = pt_copy_record(at(rec), rec.len, at(cells), cells.len, lend_values(&v));
    int right = told(answer, &v, 2) && written(cells, answer);
    free(rec.all), free(cells.all);
    return right;
}

/* 1 right, 0 wrong, -1 no such call here. */
static int replayed(uint64_t code) {
    switch (code) {
    case 1: return degree();
    case 2: return exponent();
    case 3: return power();
    case 4: return write_pair(pt_product);
    case 5: return write_pair(pt_quotient);
    case 6: return write_pair(pt_lcm);
    case 7: return write_pair(pt_gcd);
    case 8: return value_pair(pt_divides);
    case 9: return value_pair(pt_coprime);
    case 10: return value_pair(pt_lex);
    case 11: return value_pair(pt_degrevlex);
    case 12: return mask();
    case 21: return numerator();
    case 22: return update();
    case 23: return hf_at();
    case 24: return dimension();
    case 25: return is_zero();
    case 26: return coeff_degree();
    case 27: return coeff();
    case 31: return write_record();
    case 32: return check_place();
    case 33: return place();
    case 34: return copy_record();
    default: return -1;
    }
}

static unsigned long replay(const char *file) {
    static char line[LONGEST], said[LONGEST];
    unsigned long left_out = 0;
    FILE *in = fopen(file, "r");
    expect(in != NULL, file);
    while (in != NULL && fgets(line, sizeof line, in) != NULL) {
        if (line[0] == '#') continue;
        strcpy(said, line);
        rest = line;
        int right = replayed(number());
        if (right < 0) left_out++;
        else expect(right && strcmp(rest, "\n") == 0, said);
    }
    if (in != NULL) fclose(in);
    return left_out;
}

int main(int argc, char **argv) {
    unsigned long left_out = 0;
    for (int i = 1; i < argc; i++) left_out += replay(argv[i]);
    printf("bridge, vectors: %lu lines of other calls left out\n", left_out);
    return counted("bridge, vectors");
}
