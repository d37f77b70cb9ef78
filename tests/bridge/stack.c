/* The stack that each call takes, at the greatest width and count: each runs on a painted stack of its own, in a child process, and the
   paint that is left tells. A call that would take long is ended; it goes deep before it goes wide, so its depth is reached by then. */
#define _DEFAULT_SOURCE
#include "bridge.h"
#include "check.h"
#include <stdlib.h>
#include <sys/mman.h>
#include <sys/time.h>
#include <sys/wait.h>
#include <ucontext.h>
#include <unistd.h>

#define N 255
#define S 60
#define STACK (1 << 20)
#define PAGE 4096
#define PAINT 0xa5
#define MOST (128 * 1024)
#define LIMIT_MICROSECONDS 300000

/* A list, and rooms that suffice for it, taken from the system as they are touched. */
static uint16_t cells[S * N];
static uint64_t width, count;
static uint16_t *room;
static int64_t *first, *second;
static uint64_t *sums;
static size_t room_len, coefficients, words;
static uint8_t rec[7 + 2 * S * N];
static size_t rec_len;
static uint16_t out[S * N];
static uint8_t bytes[2 * N];

static void *reserve(size_t size) {
    void *at = mmap(NULL, size, PROT_READ | PROT_WRITE, MAP_PRIVATE | MAP_ANONYMOUS | MAP_NORESERVE, -1, 0);
    if (at == MAP_FAILED) perror("stack: a room"), exit(1);
    return at;
}

static void start(uint64_t n) {
    memset(cells, 0, sizeof cells);
    width = n, count = S;
}

static uint16_t *at(uint64_t k, uint64_t v) {
    return &cells[k * width + v];
}

/* Every exponent of every monomial another one. */
static void all_different(void) {
    start(N);
    for (size_t i = 0; i < S * N; i++) cells[i] = (uint16_t)(1 + i * 7919 % (S * N));
}

/* Each variable in two monomials, as an edge between two vertices; the exponents 1, or all different. */
static void edges(uint64_t n, uint64_t vertices, int different) {
    start(n);
    for (uint64_t v = 0; v < n; v++) {
        uint64_t a = v % vertices, b = (a + 1 + v / vertices) % vertices;
        *at(a, v) = different ? (uint16_t)(2 * v + 1) : 1;
        *at(b, v) = different ? (uint16_t)(2 * v + 2) : 1;
    }
}

/* Paths of three monomials without a common variable. */
static void parts(void) {
    start(N);
    for (uint64_t k = 0; k < S; k++) *at(k, 4 * (k / 3) + k % 3) = 1, *at(k, 4 * (k / 3) + k % 3 + 1) = 1;
}

/* A cycle, which falls into parts where a variable is split off. */
static void cycle(void) {
    start(N);
    for (uint64_t k = 0; k < S; k++) *at(k, 2 * k) = 1, *at(k, (2 * k + 2) % (2 * S)) = 1, *at(k, 2 * k + 1) = 1;
}

/* Pure powers of 30 variables and 30 products. */
static void finite(void) {
    start(30);
    for (uint64_t v = 0; v < 30; v++) *at(v, v) = (uint16_t)(5 + v % 13);
    for (uint64_t k = 30; k < S; k++) {
        for (uint64_t j = 0; j < 3; j++) *at(k, (k * 7 + j * 11) % 30) = (uint16_t)(1 + (k + j) % 4);
    }
}


static void numerator(void) {
    uint64_t values[4];
    pt_numerator(width, count, cells, width * count, room, room_len, first, coefficients, second, coefficients, values);
}

static void update(void) {
    uint64_t values[4];
    const int64_t g[] = {1};
    pt_update(width, g, 1, count - 1, cells, width * (count - 1), 1, at(count - 1, 0), width, room, room_len, first, coefficients, second,
              coefficients, values);
}

static void dimension(void) {
    uint64_t values[4];
    pt_dimension(width, count, cells, width * count, room, room_len, first, coefficients, second, coefficients, sums, words, values);
}

static void hf_at(void) {
    uint64_t values[4];
    const int64_t g[] = {1, -1};
    pt_hf_at(N, g, 2, 20, sums, words, values);
}

static void write_record(void) {
    uint64_t values[4];
    pt_write_record(width, count, cells, width * count, rec, sizeof rec, values);
}

static void read_record(void) {
    uint64_t values[4];
    pt_check_place(rec, rec_len, 1);
    pt_place(rec, rec_len, 1, bytes, sizeof bytes, values);
    pt_copy_record(rec, rec_len, out, S * N, values);
}

static void monomials(void) {
    uint64_t values[4];
    uint16_t *a = at(0, 0), *b = at(1, 0);
    pt_degree(a, N, values), pt_exponent(a, N, 1, values), pt_power(N, 1, 2, out, N);
    pt_product(a, N, b, N, out, N), pt_quotient(a, N, a, N, out, N), pt_lcm(a, N, b, N, out, N), pt_gcd(a, N, b, N, out, N);
    pt_divides(a, N, b, N, values), pt_coprime(a, N, b, N, values), pt_lex(a, N, b, N, values), pt_degrevlex(a, N, b, N, values);
    pt_mask(N, 9, a, N, values);
}

static void coefficient_lists(void) {
    uint64_t values[4];
    const int64_t g[] = {1, -1};
    pt_is_zero(g, 2, values), pt_coeff_degree(g, 2, values), pt_coeff(g, 2, 1, values);
}

/* Runs the call on the stack from `low`, and comes back where it ended. */
static ucontext_t here, there;

static void run_on(unsigned char *low, void (*run)(void)) {
    getcontext(&there);
    there.uc_stack.ss_sp = low;
    there.uc_stack.ss_size = STACK;
    there.uc_link = &here;
    makecontext(&there, run, 0);
    swapcontext(&here, &there);
}

static void measure(const char *name, void (*run)(void)) {
    unsigned char *guarded = mmap(NULL, PAGE + STACK, PROT_READ | PROT_WRITE, MAP_SHARED | MAP_ANONYMOUS, -1, 0);
    if (guarded == MAP_FAILED || mprotect(guarded, PAGE, PROT_NONE) != 0) perror("stack: its memory"), exit(1);
    unsigned char *low = guarded + PAGE;
    memset(low, PAINT, STACK);
    fflush(stdout);
    pid_t child = fork();
    if (child == 0) {
        const struct itimerval limit = {{0, 0}, {0, LIMIT_MICROSECONDS}};
        setitimer(ITIMER_PROF, &limit, NULL);
        run_on(low, run);
        _exit(0);
    }
    int status = 0;
    waitpid(child, &status, 0);
    size_t left = 0;
    while (left < STACK && low[left] == PAINT) left++;
    int ended = WIFEXITED(status), stopped = WIFSIGNALED(status) && WTERMSIG(status) == SIGPROF;
    printf("  %-34s %7zu bytes%s\n", name, STACK - left, ended ? "" : stopped ? ", stopped" : ", FAILED");
    expect((ended || stopped) && STACK - left <= MOST, name);
    munmap(guarded, PAGE + STACK);
}

int main(void) {
    room_len = (size_t)S * N * (S + S * N), coefficients = 1 + 65535 * N, words = 4 * 65537;
    room = reserve(2 * room_len), first = reserve(8 * coefficients), second = reserve(8 * coefficients), sums = reserve(8 * words);
    uint64_t values[4] = {0, 0, 0, 0};
    puts("bridge, the stack of each call, 60 monomials in 255 variables:");
    all_different();
    measure("monomials", monomials);
    measure("coefficients", coefficient_lists);
    measure("hf_at", hf_at);
    measure("write_record, all different", write_record);
    pt_write_record(width, count, cells, width * count, rec, sizeof rec, values);
    rec_len = values[0];
    measure("check_place, place, copy_record", read_record);
    measure("numerator, all different", numerator);
    measure("update, all different", update);
    measure("dimension, all different", dimension);
    edges(N, S, 1);
    measure("numerator, edges, all different", numerator);
    measure("update, edges, all different", update);
    edges(N, S, 0);
    measure("numerator, edges", numerator);
    measure("update, edges", update);
    parts();
    measure("numerator, parts", numerator);
    measure("update, parts", update);
    cycle();
    measure("numerator, a cycle", numerator);
    measure("update, a cycle", update);
    finite();
    measure("dimension, 30 variables", dimension);
    return counted("bridge, stack");
}
