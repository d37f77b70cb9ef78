/* Random pairs of monomials, the same in each run: `compare ask` writes them as requests to the Rust (tests/oracle/README.md), and
   `compare check` reads its answers and holds the bridge's calls to them.

   Where the Rust panics, the call must refuse with the number that is meant: 4 for a variable, 5 for a product. The Rust's quotient is
   its own business where it says that b does not divide a, and the call must refuse with 6 there. */
#include "bridge.h"
#include "check.h"
#include <stdlib.h>

#define PAIRS 100000
#define MOST 255
#define LONGEST 8192

static uint64_t state = 20;

static uint64_t any(void) {
    uint64_t z = state += 0x9e3779b97f4a7c15ULL;
    z = (z ^ z >> 30) * 0xbf58476d1ce4e5b9ULL;
    z = (z ^ z >> 27) * 0x94d049bb133111ebULL;
    return z ^ z >> 31;
}

static uint64_t below(uint64_t n) {
    return any() % n;
}

struct pair {
    size_t n;
    uint16_t a[MOST], b[MOST];
    uint64_t v;
    uint16_t x, max_deg;
    size_t exps;
};

static uint16_t any_exponent(unsigned kind) {
    static const uint16_t ends[] = {0, 0, 0, 1, 2, 255, 256, 32767, 32768, 65534, 65535};
    if (kind == 0) return (uint16_t)below(4);
    if (kind == 1) return below(3) == 0 ? (uint16_t)below(20) : 0;
    if (kind == 2) return ends[below(sizeof ends / sizeof ends[0])];
    return (uint16_t)any();
}

/* b as it stands to a: a divisor, of the same degree, without a common variable, equal, or anything. */
static void relate(struct pair *p, unsigned kind) {
    unsigned relation = (unsigned)below(8);
    for (size_t i = 0; i < p->n; i++) {
        if (relation == 0) p->b[i] = (uint16_t)below((uint64_t)p->a[i] + 1);
        else if (relation == 1) p->b[i] = p->a[p->n - 1 - i];
        else if (relation == 2) p->b[i] = p->a[i] == 0 ? any_exponent(kind) : 0;
        else if (relation <= 4) p->b[i] = p->a[i];
        else p->b[i] = any_exponent(kind);
    }
    if (relation == 4 && p->n > 0) {
        size_t i = below(p->n), j = below(p->n);
        if (p->b[i] < 65535 && p->b[j] > 0) p->b[i]++, p->b[j]--;
    }
}

static struct pair any_pair(void) {
    struct pair p = {0};
    unsigned kind = (unsigned)below(4);
    p.n = below(100) == 0 ? below(MOST + 1) : below(9);
    for (size_t i = 0; i < p.n; i++) p.a[i] = any_exponent(kind);
    relate(&p, kind);
    p.v = below(p.n + 1);
    p.x = any_exponent(3);
    p.max_deg = any_exponent((unsigned)below(4));
    p.exps = below(4) == 0 ? below(MOST + 1) : p.n;
    return p;
}

/* Writers of a request and of an answer, at the end of the text so far. */
static char text[LONGEST];
static size_t length;

static void word(const char *s) {
    length = (size_t)snprintf(text, sizeof text, "%s", s);
}

static void number(uint64_t x) {
    length += (size_t)snprintf(text + length, sizeof text - length, " %llu", (unsigned long long)x);
}

static void list(const uint16_t *at, size_t n) {
    number(n);
    for (size_t i = 0; i < n; i++) number(at[i]);
}

static void two_words(uint64_t low, uint64_t high) {
    char digits[40];
    int i = sizeof digits;
    unsigned __int128 x = (unsigned __int128)high << 64 | low;
    do digits[--i] = (char)('0' + (int)(x % 10)), x /= 10;
    while (x != 0);
    text[length++] = ' ';
    memcpy(text + length, digits + i, sizeof digits - (size_t)i);
    length += sizeof digits - (size_t)i;
    text[length] = 0;
}

/* The calls, in the order of the requests. `divides b a` stands right before the quotient, which it decides. */
enum call { DEGREE, EXPONENT, POWER, PRODUCT, LCM, GCD, DIVIDES, COPRIME, LEX, DEGREVLEX, MASK, DIVIDED, QUOTIENT, CALLS };

static const char *const names[CALLS] = {"degree", "exponent", "power", "product", "lcm", "gcd", "divides", "coprime", "lex",
                                         "degrevlex", "mask", "divides", "quotient"};

static void request(enum call call, const struct pair *p) {
    word(names[call]);
    if (call == POWER) {
        number(p->n), number(p->v), number(p->x);
    } else if (call == MASK) {
        number(p->n), number(p->max_deg), list(p->a, p->exps);
    } else if (call == DIVIDED) {
        list(p->b, p->n), list(p->a, p->n);
    } else {
        list(p->a, p->n);
        if (call == EXPONENT) number(p->v);
        else if (call != DEGREE) list(p->b, p->n);
    }
}

/* The bridge's answer in the words of the Rust; the number is returned. */
static uint8_t answer(enum call call, const struct pair *p) {
    static uint16_t out[MOST];
    uint64_t values[4] = {0, 0, 0, 0};
    uint8_t refused;
    switch (call) {
    case DEGREE: refused = pt_degree(p->a, p->n, values); break;
    case EXPONENT: refused = pt_exponent(p->a, p->n, p->v, values); break;
    case POWER: refused = pt_power(p->n, p->v, p->x, out, p->n); break;
    case PRODUCT: refused = pt_product(p->a, p->n, p->b, p->n, out, p->n); break;
    case LCM: refused = pt_lcm(p->a, p->n, p->b, p->n, out, p->n); break;
    case GCD: refused = pt_gcd(p->a, p->n, p->b, p->n, out, p->n); break;
    case DIVIDES: refused = pt_divides(p->a, p->n, p->b, p->n, values); break;
    case COPRIME: refused = pt_coprime(p->a, p->n, p->b, p->n, values); break;
    case LEX: refused = pt_lex(p->a, p->n, p->b, p->n, values); break;
    case DEGREVLEX: refused = pt_degrevlex(p->a, p->n, p->b, p->n, values); break;
    case MASK: refused = pt_mask(p->n, p->max_deg, p->a, p->exps, values); break;
    case DIVIDED: refused = pt_divides(p->b, p->n, p->a, p->n, values); break;
    default: refused = pt_quotient(p->a, p->n, p->b, p->n, out, p->n); break;
    }
    word("ok");
    if (call == MASK) two_words(values[0], values[1]);
    else if (call == POWER || call == PRODUCT || call == QUOTIENT || call == LCM || call == GCD) list(out, p->n);
    else number(values[0]);
    return refused;
}

static int agrees(enum call call, const struct pair *p, const char *said, int divided) {
    uint8_t refused = answer(call, p);
    if (call == QUOTIENT && !divided) return refused == 6;
    if (strcmp(said, "panic") == 0) return refused == (call == PRODUCT ? 5 : call == EXPONENT || call == POWER ? 4 : 0xff);
    return refused == 0 && strcmp(text, said) == 0;
}

static int check(void) {
    static char said[LONGEST];
    unsigned long refusals = 0;
    int divided = 0;
    for (int i = 0; i < PAIRS; i++) {
        struct pair p = any_pair();
        for (enum call call = 0; call < CALLS; call++) {
            if (fgets(said, sizeof said, stdin) == NULL) {
                printf("failed: the answers end at pair %d\n", i);
                return 1;
            }
            said[strcspn(said, "\n")] = 0;
            expect(agrees(call, &p, said, divided), names[call]);
            refusals += strcmp(said, "panic") == 0 || (call == QUOTIENT && !divided);
            divided = strcmp(said, "ok 1") == 0;
        }
    }
    printf("bridge, the Rust: %d pairs, %lu answers compared, %lu of them refusals\n", PAIRS, passed + failed, refusals);
    return counted("bridge, the Rust");
}

static int ask(void) {
    for (int i = 0; i < PAIRS; i++) {
        struct pair p = any_pair();
        for (enum call call = 0; call < CALLS; call++) {
            request(call, &p);
            puts(text);
        }
    }
    return 0;
}

int main(int argc, char **argv) {
    if (argc == 2 && strcmp(argv[1], "ask") == 0) return ask();
    if (argc == 2 && strcmp(argv[1], "check") == 0) return check();
    return 2;
}
