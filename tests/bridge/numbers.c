/* The calls on coefficient lists and the Hilbert function, over examples of document 01 and around their refusals. */
#include "bridge.h"
#include "check.h"

#define WORDS 262148
#define BESIDE 8

struct list {
    size_t len;
    int64_t at[8];
};

#define L(...) ((struct list){sizeof((int64_t[]){__VA_ARGS__}) / 8, {__VA_ARGS__}})
static const struct list EMPTY = {0, {0}};

static void read(const char *what, struct list c, uint64_t zero, uint64_t some, uint64_t degree) {
    struct values v;
    uint8_t number = pt_is_zero(c.at, c.len, lend_values(&v));
    expect(number == 0 && values_are(&v, 0, zero, 0, 0), what);
    number = pt_coeff_degree(c.at, c.len, lend_values(&v));
    expect(number == 0 && values_are(&v, 0, some, degree, 0), what);
}

static void coeff(const char *what, struct list c, uint64_t d, uint64_t bits) {
    struct values v;
    uint8_t number = pt_coeff(c.at, c.len, d, lend_values(&v));
    expect(number == 0 && values_are(&v, 0, bits, 0, 0), what);
}

static void lists(void) {
    read("no coefficients", EMPTY, 1, 0, 0);
    read("zeros", L(0, 0), 1, 0, 0);
    read("a constant", L(-1), 0, 1, 0);
    read("zeros at the end", L(1, 0, -3, 0), 0, 1, 2);
    coeff("coefficient 0", L(1, 0, -3, 2), 0, 1);
    coeff("coefficient 2", L(1, 0, -3, 2), 2, -3ULL);
    coeff("the least coefficient", L(INT64_MIN), 0, 1ULL << 63);
    coeff("past the end", L(1, 0, -3, 2), 4, 0);
    coeff("far past the end", L(1, 0, -3, 2), 1ULL << 32, 0);
    coeff("of no coefficients", EMPTY, 0, 0);
}

/* The sum room, 7 in each word, with words beside it; after number 0 or 11 the asked words are 0. */
static uint64_t room[WORDS + 2 * BESIDE];

static int room_is(size_t wiped) {
    for (size_t i = 0; i < WORDS + 2 * BESIDE; i++) {
        if (room[i] != (i >= BESIDE && i < BESIDE + wiped ? 0 : 7)) return 0;
    }
    return 1;
}

static void hf_at(const char *what, uint64_t n, struct list c, uint64_t d, size_t len, uint8_t wanted, uint64_t low, uint64_t high) {
    struct values v;
    for (size_t i = 0; i < WORDS + 2 * BESIDE; i++) room[i] = 7;
    uint8_t number = pt_hf_at(n, c.at, c.len, d, room + BESIDE, len, lend_values(&v));
    expect(number == wanted && values_are(&v, wanted, low, high, 0), what);
    expect(room_is(wanted == 0 || wanted == 11 ? 4 * (d + 1) : 0), what);
}

static void hilbert(void) {
    const struct list corner = L(1, 0, -3, 2);
    hf_at("HF(0) of (2,0)(1,1)(0,2)", 2, corner, 0, 4, 0, 1, 0);
    hf_at("HF(1)", 2, corner, 1, 8, 0, 2, 0);
    hf_at("HF(2), with words to spare", 2, corner, 2, 20, 0, 0, 0);
    hf_at("HF(3) in three variables", 3, corner, 3, 16, 0, 3, 0);
    hf_at("no variables", 0, corner, 2, 12, 0, -3ULL, ~0ULL);
    hf_at("[-2^63], n = 1, d = 0", 1, L(INT64_MIN), 0, 4, 0, 1ULL << 63, ~0ULL);
    hf_at("C(130,65)", 66, L(1), 65, 264, 0, 0x8179b45d7530e78cULL, 0x47855bd5e2be90a8ULL);
    hf_at("11: n = 67, d = 65", 67, L(1), 65, 264, 11, 0, 0);
    hf_at("11: n = 68, d = 65", 68, L(1), 65, 264, 11, 0, 0);
    hf_at("11 in spite of cancellation", 68, L(1, -1), 65, 264, 11, 0, 0);
    hf_at("the greatest degree", 1, L(1), 65536, 262148, 0, 1, 0);
    hf_at("10 before 9", 1, L(1), 65537, 0, 10, 0, 0);
    hf_at("10 of a degree past 32 bits", 1, L(1), 1ULL << 62, 4, 10, 0, 0);
    hf_at("9", 1, L(1), 65536, 262147, 9, 0, 0);
    hf_at("9 with no coefficients", 0, EMPTY, 0, 3, 9, 0, 0);
    hf_at("1 before 10", 256, L(1), 65537, 0, 1, 0, 0);
    hf_at("1 of a width past 32 bits", (1ULL << 32) + 1, L(1), 0, 4, 1, 0, 0);
}

int main(void) {
    lists();
    hilbert();
    return counted("bridge, numbers");
}
