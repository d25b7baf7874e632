// driver [ROUNDS [TURNS [ROW]]]: what a call of the slot manager costs. For each row a line: the least and the median of the rounds, in ns per call, and the row's name.
// A round calls one loop of crates/bench, exported by crates/bench_c, for TURNS turns over a memory made afresh, and times it from outside. Each row's codes are checked.
#include <stdint.h>
#include <stdio.h>
#include <stdlib.h>
#include <string.h>
#include <time.h>

#define LENGTH 65536
#define DCBAAP 0x100
#define BASE 0x1000
// Input contexts: endpoint 1; endpoint 3 dropped and added; 2 to 31 likewise.
#define INPUT_1 0x4000
#define INPUT_3 0x5000
#define INPUT_ALL 0x6000

// A slice is passed as its address and its length.
#define LENT uint8_t *mem, uint64_t len, uint64_t n, uint64_t stage
// The calls, by the numbers that crates/bench has for them. RESET and DOORBELL are what a loop takes for any other number.
enum { ENABLE, DISABLE, ADDRESS, CONFIGURE, EVALUATE, STOP, SET_DEQUEUE, RESET, DOORBELL };
uint64_t bench_enable(LENT, uint64_t zero);
uint64_t bench_slot(LENT, uint64_t call, uint64_t id, uint64_t zero);
uint64_t bench_context(LENT, uint64_t call, uint64_t pointer, uint64_t flag, uint64_t zero);
uint64_t bench_endpoint(LENT, uint64_t call, uint64_t id, uint64_t i, uint64_t zero);
uint64_t bench_doorbell_stop(LENT, uint64_t id, uint64_t i, uint64_t zero);
// Without the scan; x is the pointer of Evaluate Context, and else a slot id.
uint64_t bench_formed(LENT, uint64_t call, uint64_t x, uint64_t i, uint64_t zero);

static uint8_t mem[LENGTH] __attribute__((aligned(64)));

static void put(uint64_t at, uint64_t value, int size) {
    for (int k = 0; k < size; k++) mem[at + k] = (uint8_t)(value >> (8 * k));
}

// An input context whose endpoints are all of type Bulk Out.
static void input(uint64_t at, uint32_t drops, uint32_t adds) {
    put(at, drops, 4);
    put(at + 4, adds, 4);
    for (uint64_t i = 1; i < 32; i++) {
        put(at + 32 * (i + 1) + 4, 2 << 3, 1);
        put(at + 32 * (i + 1) + 8, 0x3001, 8);
    }
}

static void prepare(void) {
    memset(mem, 0, sizeof mem);
    put(DCBAAP + 8, BASE, 8);
    input(INPUT_1, 0, 3);
    input(INPUT_3, 8, 9);
    input(INPUT_ALL, ~3u, ~3u);
}

static volatile uint64_t zero = 0;

#define ROW(label, code, name, ...) \
    static uint64_t run_##label(uint64_t n) { return bench_##name(mem, LENGTH, n, __VA_ARGS__, zero); }
#include "rows.h"
#undef ROW

struct row { const char *label; uint64_t code; uint64_t (*run)(uint64_t); };
static const struct row rows[] = {
#define ROW(label, code, name, ...) {#label, code, run_##label},
#include "rows.h"
#undef ROW
};

static double now(void) {
    struct timespec t;
    clock_gettime(CLOCK_MONOTONIC, &t);
    return t.tv_sec * 1e9 + t.tv_nsec;
}

static int by_size(const void *a, const void *b) {
    double x = *(const double *)a, y = *(const double *)b;
    return (x > y) - (x < y);
}

#ifdef COPIES
// Linked with --wrap=memcpy,--wrap=memmove, the driver counts the copies of a table that a call makes, and times nothing.
static double copies = 0;
void *__real_memcpy(void *to, const void *from, size_t size);
void *__real_memmove(void *to, const void *from, size_t size);
void *__wrap_memcpy(void *to, const void *from, size_t size) {
    copies += size > 4096;
    return __real_memcpy(to, from, size);
}
void *__wrap_memmove(void *to, const void *from, size_t size) {
    copies += size > 4096;
    return __real_memmove(to, from, size);
}

int main(void) {
    for (size_t r = 0; r < sizeof rows / sizeof *rows; r++) {
        double counted[2];
        for (int k = 0; k < 2; k++) {
            prepare();
            copies = 0;
            rows[r].run(1 + k);
            counted[k] = copies;
        }
        printf("%9.1f %9.1f  %s\n", counted[1] - counted[0], 0.0, rows[r].label);
    }
    return 0;
}
#else
int main(int argc, char **argv) {
    int rounds = argc > 1 ? atoi(argv[1]) : 25;
    uint64_t turns = argc > 2 ? strtoull(argv[2], 0, 10) : 2000;
    double *ns = malloc(sizeof *ns * rounds);
    if (rounds < 1 || turns < 1 || !ns) return 2;
    for (size_t r = 0; r < sizeof rows / sizeof *rows; r++) {
        if (argc > 3 && strcmp(argv[3], rows[r].label)) continue;
        for (int k = 0; k < rounds; k++) {
            prepare();
            rows[r].run(1);
            prepare();
            // The start table is made in the loop's function: a run of no turn is taken off.
            double a = now();
            rows[r].run(0);
            double b = now();
            prepare();
            double c = now();
            uint64_t sum = rows[r].run(turns);
            double d = now();
            if (sum != turns * rows[r].code) {
                fprintf(stderr, "%s: codes add up to %llu, not %llu times %llu\n", rows[r].label, (unsigned long long)sum,
                        (unsigned long long)turns, (unsigned long long)rows[r].code);
                return 1;
            }
            ns[k] = ((d - c) - (b - a)) / turns;
        }
        qsort(ns, rounds, sizeof *ns, by_size);
        printf("%9.1f %9.1f  %s\n", ns[0], ns[rounds / 2], rows[r].label);
    }
    return 0;
}
#endif
