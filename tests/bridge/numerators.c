/* The numerator of a list and its update, over examples of document 01 and around its refusals: number, length, coefficients and all rooms. */
#include "bridge.h"
#include "check.h"
#include "rooms.h"

/* A list of s monomials of width n, the sizes that it asks, and its coefficients. */
struct ideal {
    uint64_t n, s;
    size_t len;
    uint16_t cells[16];
    size_t asked_cells, asked;
    size_t count;
    int64_t coefficients[8];
};

static const struct ideal ideals[] = {
    {3, 0, 0, {0}, 0, 1, 1, {1}},
    {2, 1, 2, {0, 0}, 2, 1, 0, {0}},
    {0, 0, 0, {0}, 0, 1, 1, {1}},
    {0, 1, 0, {0}, 0, 1, 0, {0}},
    {2, 3, 6, {2, 0, 1, 1, 0, 2}, 42, 5, 4, {1, 0, -3, 2}},
    {2, 2, 4, {3, 0, 0, 2}, 16, 6, 6, {1, 0, -1, -1, 0, 1}},
    {3, 3, 9, {1, 1, 0, 0, 1, 1, 1, 0, 1}, 54, 4, 4, {1, 0, -3, 2}},
    {1, 3, 3, {5, 3, 3}, 15, 6, 4, {1, 0, 0, -1}},
};

/* The call with rooms of the given sizes. */
static void numerator(const char *what, const struct ideal *l, size_t cells, size_t p, size_t q, uint8_t wanted) {
    struct values v;
    lend_rooms();
    uint8_t number =
        pt_numerator(l->n, l->s, l->cells, l->len, room + BESIDE, cells, first + BESIDE, p, second + BESIDE, q, lend_values(&v));
    int done = wanted == 0;
    expect(number == wanted && values_are(&v, wanted, l->count, 0, 0), what);
    expect(rooms_are(done ? l->asked_cells : 0, done ? l->asked : 0, 0, l->coefficients, done ? l->count : 0), what);
}

static void examples(void) {
    for (size_t i = 0; i < sizeof ideals / sizeof ideals[0]; i++) {
        const struct ideal *l = &ideals[i];
        numerator("an example of 01", l, l->asked_cells, l->asked, l->asked, 0);
        numerator("with more room", l, l->asked_cells + 3, l->asked + 1, l->asked + 2, 0);
        if (l->asked_cells > 0) numerator("7", l, l->asked_cells - 1, l->asked, l->asked, 7);
        if (l->asked_cells > 0) numerator("7 before 8", l, l->asked_cells - 1, 0, 0, 7);
        numerator("8 for the first", l, l->asked_cells, l->asked - 1, l->asked, 8);
        numerator("8 for the second", l, l->asked_cells, l->asked, l->asked - 1, 8);
    }
}

static void refusals(void) {
    struct ideal l = ideals[4];
    l.n = 256, l.s = 61;
    numerator("1 before 2", &l, 0, 0, 0, 1);
    l.n = 2;
    numerator("2 before 3", &l, 0, 0, 0, 2);
    l.s = 1ULL << 63;
    numerator("2, where s times n wraps", &l, 0, 0, 0, 2);
    l.s = 60;
    numerator("3 for 60 monomials in 6 cells", &l, 42, 5, 5, 3);
    l.s = 2;
    numerator("3 for a longer slice, before 7", &l, 0, 0, 0, 3);
}

/* The update of g by the new monomial (x), where (5) is there already, with rooms of the given sizes. */
struct list {
    size_t len;
    int64_t at[8];
};

#define L(...) ((struct list){sizeof((int64_t[]){__VA_ARGS__}) / 8, {__VA_ARGS__}})

static void update(const char *what, struct list g, uint16_t x, size_t cells, size_t p, size_t q, uint8_t wanted, struct list answer) {
    const uint16_t existing[] = {5}, added[] = {x};
    struct values v;
    lend_rooms();
    uint8_t number = pt_update(1, g.at, g.len, 1, existing, 1, 1, added, 1, room + BESIDE, cells, first + BESIDE, p, second + BESIDE, q,
                               lend_values(&v));
    size_t asked = g.len > (x > 5 ? x : 5) + 1u ? g.len : (x > 5 ? x : 5) + 1u;
    int done = wanted == 0;
    expect(number == wanted && values_are(&v, wanted, answer.len, 0, 0), what);
    expect(rooms_are(done ? 8 : 0, done ? asked : 0, 0, answer.at, done ? answer.len : 0), what);
}

static void updates(void) {
    const int64_t most = 1LL << 61;
    const struct list none = {0, {0}};
    update("an update of 01", L(1, 0, 0, 0, 0, -1), 3, 8, 6, 6, 0, L(1, 0, 0, -1));
    update("an update by a multiple", L(1, 0, 0, 0, 0, -1), 6, 8, 7, 9, 0, L(1, 0, 0, 0, 0, -1));
    update("an update of other coefficients", L(0, 0, 0, 1, 0, -1), 3, 8, 6, 6, 0, none);
    update("an update of a longer list", L(1, 0, 0, 0, 0, -1, 0, 2), 3, 8, 8, 8, 0, L(1, 0, 0, -1, 0, 0, 0, 2));
    update("an update of the greatest coefficients", L(most, -most), 3, 9, 6, 6, 0, L(most, -most, 0, -1, 0, 1));
    update("15", L(1, most + 1), 3, 0, 0, 0, 15, none);
    update("15 below 0, in the last", L(1, 0, 0, 0, 0, -1, 0, -most - 1), 3, 8, 8, 8, 15, none);
    update("15 of the least coefficient", L(INT64_MIN), 3, 8, 8, 8, 15, none);
    update("7 of an update", L(1, 0, 0, 0, 0, -1), 3, 7, 0, 0, 7, none);
    update("8 of an update, for the first", L(1, 0, 0, 0, 0, -1), 3, 8, 5, 6, 8, none);
    update("8 of an update, for the second", L(1, 0, 0, 0, 0, -1), 3, 8, 6, 5, 8, none);
    update("8 of an update, for the given ones", L(1, 0, 0, 0, 0, -1, 0, 2), 3, 8, 7, 8, 8, none);
}

/* The checks of an update that come before its rooms. */
static void early(const char *what, uint64_t n, uint64_t s0, size_t old, uint64_t s1, size_t new, uint8_t wanted) {
    const uint16_t cells[8] = {0};
    const int64_t g[] = {INT64_MIN};
    struct values v;
    lend_rooms();
    uint8_t number = pt_update(n, g, 1, s0, cells, old, s1, cells, new, room + BESIDE, 0, first + BESIDE, 0, second + BESIDE, 0,
                               lend_values(&v));
    expect(number == wanted && values_are(&v, wanted, 0, 0, 0) && rooms_are(0, 0, 0, NULL, 0), what);
}

static void early_updates(void) {
    early("1 of an update", 256, 61, 0, 0, 0, 1);
    early("2 of an update, existing", 1, 61, 0, 0, 0, 2);
    early("2 of an update, together", 1, 60, 0, 1, 0, 2);
    early("2 of an update, where the sum wraps", 1, 1ULL << 63, 0, 1ULL << 63, 0, 2);
    early("2 of an update, new", 1, 0, 0, ~0ULL, 0, 2);
    early("3 of an update, existing", 2, 2, 3, 1, 2, 3);
    early("3 of an update, new", 2, 2, 4, 1, 3, 3);
    early("15 of an update, after 3", 2, 2, 4, 1, 2, 15);
}

int main(void) {
    examples();
    refusals();
    updates();
    early_updates();
    return counted("bridge, numerators");
}
