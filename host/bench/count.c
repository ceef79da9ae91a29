/*
 * Counts instructions exactly, by callgrind. Each line of standard input is a measurement:
 *
 *   ENGINE PROGRAM STEPS CALLS
 *
 * asks for so many calls of that many steps each, one going on from the other, which callgrind is
 * to count by themselves and to tell of under the line's text. A program that takes keys is called
 * once. A single step takes no number of steps, and no keys.
 */
#include "interpreters.h"
#include "programs.h"

#include <stdio.h>
#include <stdlib.h>
#include <valgrind/callgrind.h>

static uint16_t memory[LC3_MEMORY_WORDS], step_log[LC3_LOG_WORDS * 65536];
static uint8_t output[MOST_SHOWN], bytes[MOST_KEYS];
static uint64_t times[MOST_KEYS];

/* The run, logged. */
static lc3_answer logged_run(lc3_record record, uint16_t *words, size_t words_len,
                             const uint64_t *at, size_t at_len, const uint8_t *keys,
                             size_t keys_len, uint8_t *shown, size_t shown_len, uint64_t n) {
    lc3_logged_answer a =
        lc3_run_logged(record, words, words_len, at, at_len, keys, keys_len, shown, shown_len,
                       step_log, sizeof step_log / sizeof *step_log, n);
    return (lc3_answer){.record = a.record, .steps = a.steps};
}

/* The same by the second edition. */
static lc3_answer logged_second(lc3_record record, uint16_t *words, size_t words_len,
                                const uint64_t *at, size_t at_len, const uint8_t *keys,
                                size_t keys_len, uint8_t *shown, size_t shown_len, uint64_t n) {
    lc3_logged_answer a =
        lc3_run_logged_second(record, words, words_len, at, at_len, keys, keys_len, shown,
                              shown_len, step_log, sizeof step_log / sizeof *step_log, n);
    return (lc3_answer){.record = a.record, .steps = a.steps};
}

static const struct {
    const char *name;
    run_function *run;
} engines[] = {{"library", lc3_run},       {"long", lc3_run_long}, {"logged", logged_run},
               {"second", lc3_run_second}, {"plain", plain_run},   {"tuned", tuned_run},
               {"expert", expert_run},     {"logged2", logged_second}};

typedef lc3_report step_function(lc3_record *, uint16_t *, size_t, const uint64_t *, size_t,
                                 const uint8_t *, size_t, uint8_t *, size_t);

static const struct {
    const char *name;
    step_function *step;
} single_steps[] = {{"step", lc3_step}, {"step_second", lc3_step_second}};

/* Whether every call made all its steps. This and the next are functions of their own: inlined into
 * what calls them both, their loops would cost some instructions more. */
static __attribute__((noinline)) bool makes_all(run_function *run, const program *p,
                                                uint64_t steps, unsigned long calls) {
    lc3_answer a = {.record = start_program(memory, p), .steps = steps};
    const size_t keys = p->typed ? type_keys(a.record.clock, steps, times, bytes) : 0;
    while (calls-- && a.steps == steps) {
        a = run(a.record, memory, LC3_MEMORY_WORDS, times, keys, bytes, keys, output,
                sizeof output, steps);
    }
    return a.steps == steps;
}

/* Whether every single step was made, on one record that is lent. */
static __attribute__((noinline)) bool makes_each(step_function *step, const program *p,
                                                 unsigned long calls) {
    lc3_record record = start_program(memory, p);
    lc3_report r = {.steps = 1};
    while (calls-- && r.steps == 1) {
        r = step(&record, memory, LC3_MEMORY_WORDS, times, 0, bytes, 0, output, sizeof output);
    }
    return r.steps == 1;
}

/* Whether a measurement was made. What it costs beside its calls is the same for any number. */
static bool measure(const char *line, const char *engine, const program *p, uint64_t steps,
                    unsigned long calls) {
    run_function *run = NULL;
    step_function *step = NULL;
    for (size_t e = 0; e < sizeof engines / sizeof *engines; e++) {
        if (!strcmp(engine, engines[e].name)) run = engines[e].run;
    }
    for (size_t e = 0; e < sizeof single_steps / sizeof *single_steps; e++) {
        if (!strcmp(engine, single_steps[e].name)) step = single_steps[e].step;
    }
    if (!run && !step) return false;
    expert_forget();
    CALLGRIND_ZERO_STATS;
    bool made = step ? makes_each(step, p, calls) : makes_all(run, p, steps, calls);
    CALLGRIND_DUMP_STATS_AT(line);
    return made;
}

static const program *program_of(const char *name) {
    for (size_t i = 0; i < PROGRAMS; i++) {
        if (!strcmp(name, programs[i].name)) return &programs[i];
    }
    return NULL;
}

int main(void) {
    char line[80], engine[16], name[16];
    unsigned long steps, calls;
    while (fgets(line, sizeof line, stdin)) {
        line[strcspn(line, "\n")] = '\0';
        const program *p = NULL;
        if (sscanf(line, "%15s %15s %lu %lu", engine, name, &steps, &calls) == 4) p = program_of(name);
        if (!p || !measure(line, engine, p, steps, calls)) {
            fprintf(stderr, "count: not measured: %s\n", line);
            return 1;
        }
    }
    return 0;
}
