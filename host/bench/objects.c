/*
 * Times the starting and writing of an object file of 65,535 words against a copy that swaps the
 * bytes of as many words, and prints for each a line of nanoseconds: library, copy.
 *
 *   objects REPEATS CALLS   the best of so many repeats, each of so many calls
 */
#include <fanthrig/lc3.h>

#include <stdio.h>
#include <stdlib.h>
#include <string.h>
#include <time.h>

enum { WORDS = LC3_MEMORY_WORDS - 1, BYTES = 2 + 2 * WORDS };

static uint8_t file[BYTES], written[BYTES];
static uint16_t memory[LC3_MEMORY_WORDS];

/* The baseline: what any reader or writer of such a file has to do. */
__attribute__((noinline)) static void swap_copy(uint16_t *restrict to,
                                                const uint16_t *restrict from, size_t words) {
    for (size_t i = 0; i < words; i++) to[i] = (uint16_t)(from[i] << 8 | from[i] >> 8);
}

static void start(void) {
    if (lc3_start(file, BYTES, memory, LC3_MEMORY_WORDS, true, 0).words != WORDS) abort();
}

static void save(void) {
    if (lc3_save(memory, LC3_MEMORY_WORDS, 1, WORDS, written, BYTES).count != BYTES) abort();
}

static void copy_in(void) { swap_copy(memory + 1, (const uint16_t *)(const void *)(file + 2), WORDS); }

static void copy_out(void) { swap_copy((uint16_t *)(void *)(written + 2), memory + 1, WORDS); }

static double now(void) {
    struct timespec t;
    clock_gettime(CLOCK_MONOTONIC, &t);
    return (double)t.tv_sec * 1e9 + (double)t.tv_nsec;
}

/* Nanoseconds a call. */
static double timed(void (*call)(void), int calls) {
    double began = now();
    for (int i = 0; i < calls; i++) {
        call();
        __asm__ volatile("" ::: "memory");
    }
    return (now() - began) / calls;
}

/* The two are timed in turn, so that both meet the same load of the machine. */
static void compare(const char *name, void (*library)(void), void (*copy)(void), int repeats,
                    int calls) {
    double best_library = 1e18, best_copy = 1e18;
    for (int i = 0; i < repeats; i++) {
        double a = timed(library, calls), b = timed(copy, calls);
        if (a < best_library) best_library = a;
        if (b < best_copy) best_copy = b;
    }
    printf("%s %.1f %.1f\n", name, best_library, best_copy);
}

int main(int argc, char **argv) {
    int repeats = argc > 1 ? atoi(argv[1]) : 80, calls = argc > 2 ? atoi(argv[2]) : 100;
    for (int i = 0; i < BYTES; i++) file[i] = (uint8_t)(i * 7 + i / 256);
    file[0] = 0;
    file[1] = 1;
    start();
    save();
    if (memcmp(file, written, BYTES) != 0) abort();
    compare("lc3_start", start, copy_in, repeats, calls);
    compare("lc3_save", save, copy_out, repeats, calls);
    return 0;
}
