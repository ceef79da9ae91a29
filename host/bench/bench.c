/*
 * Times the library's run and long run against the C interpreters of plain.c, tuned.c and expert.c.
 *
 *   bench check CASES       compares all five on random cases; exits 1 at the first difference
 *   bench time REPEATS MS   prints one measurement a line: name, nanoseconds
 *
 * Every measurement is the best of REPEATS stretches of about MS milliseconds. The five take
 * turns in one process, so that whatever slows the computer down meets all.
 */
#define _POSIX_C_SOURCE 199309L /* clock_gettime */
#include "interpreters.h"
#include "programs.h"

#include <stdio.h>
#include <stdlib.h>
#include <time.h>

static const struct {
    const char *name;
    run_function *run;
} engines[] = {{"library", lc3_run},
               {"long", lc3_run_long},
               {"plain", plain_run},
               {"tuned", tuned_run},
               {"expert", expert_run}};

/* The first four answer and leave the same; the last makes some of the steps. */
enum { ENGINES = sizeof engines / sizeof *engines, WHOLE = ENGINES - 1 };

enum { KEYS = 4, OUTPUT = 4 };

static uint16_t lent[LC3_MEMORY_WORDS], ours[LC3_MEMORY_WORDS], theirs[LC3_MEMORY_WORDS];
static const uint64_t no_times[1];
static const uint8_t no_bytes[1];

/* xorshift64: the same cases in every run. */
static uint64_t any(void) {
    static uint64_t x = UINT64_C(88172645463325252);
    x ^= x << 13;
    x ^= x >> 7;
    x ^= x << 17;
    return x;
}

/* ---- The random comparison ---- */

typedef struct {
    lc3_record record;
    uint64_t times[KEYS];
    uint8_t bytes[KEYS];
    size_t memory_len, bytes_len, output_len;
    uint64_t n;
} random_case;

/* An address at which something changes: a device, or the edge of the privileged addresses. */
static uint16_t edge(void) {
    static const uint16_t edges[] = {LC3_ADDRESS_KBSR, LC3_ADDRESS_KBDR, LC3_ADDRESS_DSR,
                                     LC3_ADDRESS_DDR,  LC3_ADDRESS_DDR,  LC3_ADDRESS_TSR,
                                     LC3_ADDRESS_TIR,  LC3_ADDRESS_PSR,  LC3_ADDRESS_MCR,
                                     0x2FFF,           0x3000,           0xFDFF,
                                     0xFFFF,           0x0000};
    return edges[any() % (sizeof edges / sizeof *edges)];
}

/* Random words; one case in three is rich in edges and in the instructions that use pointers. */
static void fill_memory(bool rich) {
    for (size_t i = 0; i < LC3_MEMORY_WORDS; i++) {
        lent[i] = any();
        if (!rich) continue;
        if (i % 4 == 0) lent[i] = 0xA000 | (lent[i] & 0x1FFF); /* LDI or STI */
        if (i % 4 == 1) lent[i] = edge();
    }
}

/* A record, keys near its clock and a small output; now and then something to refuse. */
static random_case make_case(unsigned number) {
    random_case c = {.memory_len = LC3_MEMORY_WORDS, .bytes_len = KEYS};
    for (int i = 0; i < 8; i++) c.record.regs[i] = any() % 2 ? any() : edge();
    c.record.pc = any() % 4 ? any() : edge();
    c.record.psr = any() & 0x8707;
    c.record.saved_ssp = any();
    c.record.saved_usp = any();
    c.record.kbsr = any() & 0xC000;
    c.record.kbdr = any() & 0x00FF;
    c.record.mcr = any() % 32 ? 0x8000 : 0;
    c.record.busy = any() % 2 ? 0 : any() % (LC3_MAX_BUSY + 1);
    c.record.timer_status = any() & 0xC000;
    c.record.timer_interval = any() % 2 ? 0 : any() % 40;
    c.record.timer_count = c.record.timer_interval ? 1 + any() % c.record.timer_interval : 0;
    c.record.clock = any() % 1000;
    uint64_t time = c.record.clock;
    for (int i = 0; i < KEYS; i++) {
        time += any() % 9;
        c.times[i] = time;
        c.bytes[i] = any();
    }
    c.output_len = any() % (OUTPUT + 1);
    c.n = any() % 400;
    if (number % 40 == 1) c.memory_len--;
    if (number % 40 == 2) c.record.psr |= 1 << any() % 16;
    if (number % 40 == 3) c.record.clock = LC3_MAX_CLOCK - any() % 400;
    if (number % 40 == 4) c.bytes_len--;
    if (number % 40 == 5) c.times[any() % KEYS] -= 5;
    if (number % 40 == 6) c.record.busy = LC3_MAX_BUSY + 1;
    if (number % 40 == 7) c.record.timer_status |= 1 << any() % 16;
    if (number % 40 == 8) c.record.timer_count = any() % 40;
    return c;
}

static lc3_answer obey_case(run_function *run, const random_case *c, uint16_t *memory,
                            uint8_t *output) {
    memcpy(memory, lent, sizeof lent);
    memset(output, 0xAA, OUTPUT);
    return run(c->record, memory, c->memory_len, c->times, KEYS, c->bytes, c->bytes_len, output,
               c->output_len, c->n);
}

static bool same_record(const lc3_record *a, const lc3_record *b) {
    return !memcmp(a->regs, b->regs, sizeof a->regs) && a->pc == b->pc && a->psr == b->psr &&
           a->saved_ssp == b->saved_ssp && a->saved_usp == b->saved_usp && a->kbsr == b->kbsr &&
           a->kbdr == b->kbdr && a->mcr == b->mcr && a->busy == b->busy &&
           a->timer_status == b->timer_status && a->timer_interval == b->timer_interval &&
           a->timer_count == b->timer_count && a->clock == b->clock;
}

static bool same_answer(const lc3_answer *a, const lc3_answer *b) {
    return same_record(&a->record, &b->record) && a->steps == b->steps && a->keys == b->keys &&
           a->shown == b->shown && a->index == b->index && a->refusal == b->refusal &&
           a->stop == b->stop;
}

/* Compares whole answers, memories and outputs of lc3_run and another engine. */
static bool agree(unsigned number, const random_case *c, const lc3_answer *a,
                  const uint8_t *our_output, unsigned engine) {
    uint8_t their_output[OUTPUT];
    lc3_answer b = obey_case(engines[engine].run, c, theirs, their_output);
    if (same_answer(a, &b) && !memcmp(ours, theirs, sizeof ours) &&
        !memcmp(our_output, their_output, OUTPUT)) {
        return true;
    }
    printf("case %u differs from %s: refusal %u and %u, stop %u and %u, steps %lu and %lu\n",
           number, engines[engine].name, a->refusal, b.refusal, a->stop, b.stop, a->steps, b.steps);
    return false;
}

/*
 * Compares the steps that the expert's interpreter makes from a record and the lent memory with as
 * many of lc3_run; it is not handed what is refused. Answers how many steps it made, or -1.
 */
static long agree_expert(const lc3_record *record, uint64_t n) {
    memcpy(theirs, lent, sizeof lent);
    memcpy(ours, lent, sizeof lent);
    expert_forget();
    lc3_answer b = expert_run(*record, theirs, LC3_MEMORY_WORDS, no_times, 0, no_bytes, 0, NULL, 0, n);
    lc3_answer a =
        lc3_run(*record, ours, LC3_MEMORY_WORDS, no_times, 0, no_bytes, 0, NULL, 0, b.steps);
    if (same_answer(&a, &b) && !memcmp(ours, theirs, sizeof ours)) return b.steps;
    printf("the expert's interpreter differs after %lu steps\n", b.steps);
    return -1;
}

/* Compares it on the programs, of which it makes some whole. */
static int check_expert(void) {
    enum { STEPS = 100000 };
    int whole = 0;
    for (int p = 0; p < PROGRAMS; p++) {
        lc3_record record = start_program(lent, &programs[p]);
        long made = agree_expert(&record, STEPS);
        if (made < 0) return 1;
        whole += made == STEPS;
    }
    printf("%d programs agree by the expert's interpreter\n", whole);
    return !whole;
}

/* Compares all random cases, and says how they ended. */
static int check(unsigned cases) {
    unsigned long stops[3] = {0}, refused = 0, steps = 0;
    for (unsigned number = 0; number < cases; number++) {
        fill_memory(number % 3 == 0);
        random_case c = make_case(number);
        uint8_t output[OUTPUT];
        lc3_answer a = obey_case(lc3_run, &c, ours, output);
        for (unsigned engine = 1; engine < WHOLE; engine++) {
            if (!agree(number, &c, &a, output, engine)) return 1;
        }
        steps += a.steps;
        if (a.refusal) {
            refused++;
            continue;
        }
        stops[a.stop]++;
        c.record.timer_interval = c.record.timer_count = 0;
        if (agree_expert(&c.record, c.n) < 0) return 1;
    }
    printf("%u random cases agree, %lu steps: %lu done, %lu halted, %lu output full, %lu refused\n",
           cases, steps, stops[LC3_DONE], stops[LC3_HALTED], stops[LC3_OUTPUT_FULL], refused);
    return check_expert();
}

/* ---- The timing ---- */

/* The time that this process had a processor, so that others on the computer do not count. */
static double now(void) {
    struct timespec t;
    clock_gettime(CLOCK_PROCESS_CPUTIME_ID, &t);
    return t.tv_sec * 1e9 + t.tv_nsec;
}

/* Nanoseconds per step of a program, over calls of the full length for about the given time; 0 where
 * an interpreter does not make all the steps of a call. */
static double time_steps(run_function *run, const program *p, double ns) {
    static uint8_t output[MOST_SHOWN], bytes[MOST_KEYS];
    static uint64_t times[MOST_KEYS];
    lc3_record record = start_program(lent, p);
    expert_forget();
    uint64_t steps = 0;
    double start = now(), end = start;
    while (end - start < ns) {
        size_t keys = p->typed ? type_keys(record.clock, LC3_MAX_STEPS, times, bytes) : 0;
        lc3_answer a = run(record, lent, LC3_MEMORY_WORDS, times, keys, bytes, keys, output,
                           sizeof output, LC3_MAX_STEPS);
        if (a.steps < LC3_MAX_STEPS) return 0;
        record = a.record;
        steps += a.steps;
        end = now();
    }
    return (end - start) / steps;
}

static void time_programs(unsigned repeats, double ns) {
    for (int p = 0; p < PROGRAMS; p++) {
        double best[ENGINES] = {0};
        for (unsigned i = 0; i < repeats; i++) {
            for (unsigned e = 0; e < ENGINES; e++) {
                double time = time_steps(engines[e].run, &programs[p], ns);
                if (i == 0 || time < best[e]) best[e] = time;
            }
        }
        for (unsigned e = 0; e < ENGINES; e++) {
            if (best[e]) printf("%s.%s %.4f\n", programs[p].name, engines[e].name, best[e]);
        }
    }
}

/* Each of these makes a batch of calls. The library is machine code, so none can be left out. */
enum { BATCH = 4096 };
static lc3_record single;
static lc3_instruction instructions[BATCH];

static lc3_answer single_run(size_t memory_len, const uint64_t *times, size_t keys) {
    uint8_t output[1];
    return lc3_run(single, lent, memory_len, times, keys, no_bytes, keys, output, 1, 1);
}

static void run_one(void) {
    for (int i = 0; i < BATCH; i++) single = single_run(LC3_MEMORY_WORDS, no_times, 0).record;
}

static void step_one(void) {
    uint8_t output[1];
    for (int i = 0; i < BATCH; i++) {
        lc3_step(&single, lent, LC3_MEMORY_WORDS, no_times, 0, no_bytes, 0, output, 1);
    }
}

/* The first refusal that is tested, and the last: a key before the clock. */
static void refuse_memory(void) {
    for (int i = 0; i < BATCH; i++) single_run(LC3_MEMORY_WORDS - 1, no_times, 0);
}

static void refuse_times(void) {
    single.clock = 1;
    for (int i = 0; i < BATCH; i++) single_run(LC3_MEMORY_WORDS, no_times, 1);
}

/* All opcodes in turn, so that the branch predictor learns no more than in a listing. */
static uint16_t nth_word(int i) { return i * 0x9E37; }

static void read_words(void) {
    for (int i = 0; i < BATCH; i++) lc3_read(nth_word(i));
}

static void write_words(void) {
    for (int i = 0; i < BATCH; i++) lc3_write(instructions[i]);
}

/* Nanoseconds per call. */
static double time_calls(void (*batch)(void), unsigned repeats, double ns) {
    double best = 1e9;
    single = start_program(lent, &programs[0]);
    for (unsigned i = 0; i < repeats; i++) {
        double start = now(), end = start;
        unsigned calls = 0;
        for (; end - start < ns; end = now(), calls += BATCH) batch();
        if ((end - start) / calls < best) best = (end - start) / calls;
    }
    return best;
}

static void time_single(unsigned repeats, double ns) {
    for (int i = 0; i < BATCH; i++) instructions[i] = lc3_read(nth_word(i)).instruction;
    printf("lc3_run %.3f\n", time_calls(run_one, repeats, ns));
    printf("lc3_step %.3f\n", time_calls(step_one, repeats, ns));
    printf("refused-11 %.3f\n", time_calls(refuse_memory, repeats, ns));
    printf("refused-15 %.3f\n", time_calls(refuse_times, repeats, ns));
    printf("lc3_read %.3f\n", time_calls(read_words, repeats, ns));
    printf("lc3_write %.3f\n", time_calls(write_words, repeats, ns));
}

int main(int argc, char **argv) {
    if (argc == 3 && !strcmp(argv[1], "check")) return check(atoi(argv[2]));
    if (argc == 4 && !strcmp(argv[1], "time")) {
        double ns = atof(argv[3]) * 1e6;
        time_programs(atoi(argv[2]), ns);
        time_single(atoi(argv[2]), ns / 10);
        return 0;
    }
    fprintf(stderr, "usage: bench check CASES | bench time REPEATS MS\n");
    return 2;
}
