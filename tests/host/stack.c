/* The stack that the host call takes, seen on a painted stack: its own frame, and lists that split often and in parts. It must be less than
   the header tells. */
#define _POSIX_C_SOURCE 200809L
#include "check.h"
#include "expect.h"
#include "purlthicket.h"
#include <pthread.h>

#define ROOM (2 * PURLTHICKET_STACK)
#define PAINT 0xa5

static _Alignas(4096) uint8_t stack[ROOM];
static uint8_t rec[LONGEST], out[ANSWER];
static size_t len;
static struct list l;

static void *nothing(void *word) { return word; }

static void *host(void *word) {
    purlthicket_dim(rec, len, out, sizeof out);
    return word;
}

/* How many bytes of the painted stack a thread that runs `work` writes. */
static size_t used(void *work(void *)) {
    pthread_t thread;
    pthread_attr_t attributes;
    size_t i = 0;
    memset(stack, PAINT, sizeof stack);
    pthread_attr_init(&attributes);
    if (pthread_attr_setstack(&attributes, stack, sizeof stack) || pthread_create(&thread, &attributes, work, NULL)) {
        printf("stack: no thread\n");
        exit(1);
    }
    pthread_join(thread, NULL);
    pthread_attr_destroy(&attributes);
    while (i < sizeof stack && stack[i] == PAINT) i++;
    return sizeof stack - i;
}

static size_t before, most;

static void try(void) {
    len = write_list(&l, rec);
    uint8_t wanted[ANSWER];
    answer_bytes(expected(rec, len, sizeof out), wanted);
    size_t taken = used(host) - before;
    if (taken > most) most = taken;
    expect(taken <= PURLTHICKET_STACK && memcmp(out, wanted, ANSWER) == 0, "the stack of a call, and its answer");
}

static void start(unsigned n) {
    l.n = n;
    l.m = 0;
    memset(l.e, 0, sizeof l.e);
}

/* x^s, x^(s-1) y, .., y^s in each of `count` pairs of variables. */
static void stairs(unsigned count, unsigned s) {
    start(2 * count);
    for (unsigned p = 0; p < count; p++) {
        for (unsigned i = 0; i <= s; i++, l.m++) {
            l.e[l.m][2 * p] = (uint16_t)(s - i);
            l.e[l.m][2 * p + 1] = (uint16_t)i;
        }
    }
    try();
}

/* A square of each variable, and the product of each two that are at most k apart. */
static void path(unsigned n, unsigned k) {
    start(n);
    for (unsigned v = 0; v < n; v++) l.e[l.m++][v] = 2;
    for (unsigned v = 0; v < n; v++) {
        for (unsigned w = v + 1; w < n && w <= v + k && l.m < MOST; w++, l.m++) l.e[l.m][v] = l.e[l.m][w] = 1;
    }
    try();
}

static void scattered(unsigned n, unsigned m, uint64_t seed, unsigned below) {
    start(n);
    for (unsigned v = 0; v < n; v++) l.e[l.m++][v] = (uint16_t)below;
    for (; l.m < m; l.m++) {
        for (unsigned v = 0; v < n; v++) {
            seed = seed * 6364136223846793005u + 1442695040888963407u;
            l.e[l.m][v] = (uint16_t)((seed >> 33) % below);
        }
    }
    try();
}

int main(void) {
    before = used(nothing);
    start(1);
    l.e[l.m++][0] = 2048;
    try();
    for (unsigned s = 1; s <= 51; s++) stairs(1, s);
    for (unsigned count = 2; count <= 10; count++) {
        for (unsigned s = 1; s <= 4 && count * (s + 1) <= MOST; s++) stairs(count, s);
    }
    for (unsigned n = 2; n <= 20; n++) {
        for (unsigned k = 0; k < n; k++) path(n, k);
    }
    for (unsigned n = 2; n <= 8; n++) {
        for (unsigned m = n; m <= MOST; m += 3) scattered(n, m, n * 100 + m, 3 + m % 5);
    }
    printf("stack: %zu bytes at most, %d told in the header\n", most, PURLTHICKET_STACK);
    return counted("stack");
}
