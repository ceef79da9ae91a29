/*
 * Every function of lc3.h from a host's side: the version, the fourteen examples, the refusals at
 * their boundaries, the stops, display and timer, the reading and writing of all instructions, lines
 * of text, object files, and the ready-made monitor.
 */
#include <fanthrig/lc3.h>

#include <inttypes.h>
#include <stdio.h>
#include <string.h>

enum { WORDS = LC3_MEMORY_WORDS, OUTPUT = 8, UNSHOWN = 0xAA };

/* ---- Checks ---- */

static unsigned long checks, failures;
static const char *part = "";

static void check_equal(int line, const char *what, int64_t got, int64_t wanted) {
    checks++;
    if (got == wanted) return;
    failures++;
    fprintf(stderr, "interface.c:%d: %s: %s is %" PRId64 " (x%" PRIX64 "), not %" PRId64 "\n", line,
            part, what, got, (uint64_t)got, wanted);
}

#define CHECK(got, wanted) check_equal(__LINE__, #got, (int64_t)(got), (int64_t)(wanted))

static void check_record(const lc3_record *got, const lc3_record *wanted) {
    for (int i = 0; i < 8; i++) CHECK(got->regs[i], wanted->regs[i]);
    CHECK(got->pc, wanted->pc);
    CHECK(got->psr, wanted->psr);
    CHECK(got->saved_ssp, wanted->saved_ssp);
    CHECK(got->saved_usp, wanted->saved_usp);
    CHECK(got->kbsr, wanted->kbsr);
    CHECK(got->kbdr, wanted->kbdr);
    CHECK(got->mcr, wanted->mcr);
    CHECK(got->busy, wanted->busy);
    CHECK(got->timer_status, wanted->timer_status);
    CHECK(got->timer_interval, wanted->timer_interval);
    CHECK(got->timer_count, wanted->timer_count);
    CHECK(got->clock, wanted->clock);
}

/* ---- Calls ---- */

/* What is lent: one word more than a machine has, so that a length too great is a valid loan. */
static uint16_t memory[WORDS + 1], wanted_memory[WORDS + 1];
static uint8_t output[OUTPUT], wanted_output[OUTPUT];

static void clear_buffers(void) {
    memset(memory, 0, sizeof memory);
    memset(output, UNSHOWN, sizeof output);
}

/* xorshift64: the same cases in every run. */
static uint64_t any(void) {
    static uint64_t x = UINT64_C(88172645463325252);
    x ^= x << 13;
    x ^= x >> 7;
    x ^= x << 17;
    return x;
}

/* Random words, one in eight the address of a device. */
static void fill_memory(void) {
    for (int i = 0; i < WORDS; i++) {
        memory[i] = any() % 8 ? any() : 0xFE00 + 2 * (any() % 6);
    }
}

/* What is in the buffers now is what the next call is to leave there. */
static void keep_buffers(void) {
    memcpy(wanted_memory, memory, sizeof memory);
    memcpy(wanted_output, output, sizeof output);
}

static void check_buffers(void) {
    CHECK(memcmp(memory, wanted_memory, sizeof memory), 0);
    CHECK(memcmp(output, wanted_output, sizeof output), 0);
}

/* The arguments of a call but for memory and output, which are the buffers above. */
typedef struct {
    lc3_record record;
    size_t memory_len;
    uint64_t times[3];
    size_t times_len;
    uint8_t bytes[3];
    size_t bytes_len;
    size_t output_len;
    uint64_t n;
} arguments;

/* A machine at an address, with nothing loaded: a file of two bytes. */
static lc3_started start_at(uint16_t origin, bool user) {
    uint8_t file[2] = {origin >> 8, origin & 0xFF};
    return lc3_start(file, sizeof file, memory, WORDS, user, 0xFDFF);
}

static arguments usual(void) {
    return (arguments){.record = start_at(0x3000, true).record,
                       .memory_len = WORDS,
                       .output_len = OUTPUT,
                       .n = 1};
}

static lc3_answer run(const arguments *c) {
    return lc3_run(c->record, memory, c->memory_len, c->times, c->times_len, c->bytes,
                   c->bytes_len, output, c->output_len, c->n);
}

static lc3_answer run_long(const arguments *c) {
    return lc3_run_long(c->record, memory, c->memory_len, c->times, c->times_len, c->bytes,
                        c->bytes_len, output, c->output_len, c->n);
}

/* lc3_step on a copy of the record, answered in lc3_run's form. */
static lc3_answer step(const arguments *c) {
    lc3_answer a = {.record = c->record};
    lc3_report r = lc3_step(&a.record, memory, c->memory_len, c->times, c->times_len, c->bytes,
                            c->bytes_len, output, c->output_len);
    a.steps = r.steps;
    a.keys = r.keys;
    a.shown = r.shown;
    a.index = r.index;
    a.refusal = r.refusal;
    a.stop = r.stop;
    return a;
}

static void check_answer(const lc3_answer *got, const lc3_answer *wanted) {
    check_record(&got->record, &wanted->record);
    CHECK(got->steps, wanted->steps);
    CHECK(got->keys, wanted->keys);
    CHECK(got->shown, wanted->shown);
    CHECK(got->index, wanted->index);
    CHECK(got->refusal, wanted->refusal);
    CHECK(got->stop, wanted->stop);
}

/* ---- The version ---- */

static void test_version(void) {
    part = "version";
    CHECK(lc3_version(), LC3_VERSION);
}

/* ---- The fourteen examples ---- */

typedef struct {
    uint16_t address, word;
} cell;

/* One step: the record before and after it, the words it finds and the words it alters. A cell
 * left out is word 0 at address 0. */
typedef struct {
    const char *name;
    lc3_record before, after;
    cell found[3], altered[2];
} example;

/* What every example has in common; a record before the step and one after it. */
#define BEFORE(mode_and_codes) .pc = 0x3000, .psr = mode_and_codes, .mcr = 0x8000
#define AFTER(pc_after, psr_after) .pc = pc_after, .psr = psr_after, .mcr = 0x8000, .clock = 1
#define STACKS .regs[6] = 0xFDFF, .saved_ssp = 0x3000
#define ENTERED .regs[6] = 0x2FFE, .saved_ssp = 0x3000, .saved_usp = 0xFDFF

static const example examples[] = {
    {.name = "example 2, ADD R0, R0, #1 to N",
     .before = {BEFORE(0x8002), STACKS, .regs[0] = 0x7FFF},
     .after = {AFTER(0x3001, 0x8004), STACKS, .regs[0] = 0x8000},
     .found = {{0x3000, 0x1021}}},
    {.name = "example 3, ADD R0, R0, #1 to Z",
     .before = {BEFORE(0x8002), STACKS, .regs[0] = 0xFFFF},
     .after = {AFTER(0x3001, 0x8002), STACKS},
     .found = {{0x3000, 0x1021}}},
    {.name = "example 4, BR never",
     .before = {BEFORE(0x8002), STACKS},
     .after = {AFTER(0x3001, 0x8002), STACKS},
     .found = {{0x3000, 0x0005}}},
    {.name = "example 5, BR to itself",
     .before = {BEFORE(0x8002), STACKS},
     .after = {AFTER(0x3000, 0x8002), STACKS},
     .found = {{0x3000, 0x0FFF}}},
    {.name = "example 6, LEA keeps the codes",
     .before = {BEFORE(0x8002), STACKS},
     .after = {AFTER(0x3001, 0x8002), STACKS, .regs[0] = 0x3000},
     .found = {{0x3000, 0xE1FF}}},
    {.name = "example 7, JSRR R7",
     .before = {BEFORE(0x8002), STACKS, .regs[7] = 0x4000},
     .after = {AFTER(0x4000, 0x8002), STACKS, .regs[7] = 0x3001},
     .found = {{0x3000, 0x41C0}}},
    {.name = "example 8, RTI in User mode",
     .before = {BEFORE(0x8002), STACKS},
     .after = {AFTER(0x0456, 0x0002), ENTERED},
     .found = {{0x3000, 0x8000}, {0x0100, 0x0456}},
     .altered = {{0x2FFF, 0x8002}, {0x2FFE, 0x3000}}},
    {.name = "example 9, LDR from x2FFF",
     .before = {BEFORE(0x8002), STACKS, .regs[1] = 0x2FFF},
     .after = {AFTER(0x0567, 0x0002), ENTERED, .regs[1] = 0x2FFF},
     .found = {{0x3000, 0x6040}, {0x0102, 0x0567}},
     .altered = {{0x2FFF, 0x8002}, {0x2FFE, 0x3000}}},
    {.name = "example 9, LDR from x3000",
     .before = {BEFORE(0x8002), STACKS, .regs[1] = 0x3000},
     .after = {AFTER(0x3001, 0x8001), STACKS, .regs[0] = 0x6040, .regs[1] = 0x3000},
     .found = {{0x3000, 0x6040}}},
    {.name = "example 10, LDR from xFE00",
     .before = {BEFORE(0x8002), STACKS, .regs[1] = 0xFE00},
     .after = {AFTER(0x0567, 0x0002), ENTERED, .regs[1] = 0xFE00},
     .found = {{0x3000, 0x6040}, {0x0102, 0x0567}},
     .altered = {{0x2FFF, 0x8002}, {0x2FFE, 0x3000}}},
    {.name = "example 10, LDR from xFDFF",
     .before = {BEFORE(0x8002), STACKS, .regs[1] = 0xFDFF},
     .after = {AFTER(0x3001, 0x8004), STACKS, .regs[0] = 0xBEEF, .regs[1] = 0xFDFF},
     .found = {{0x3000, 0x6040}, {0xFDFF, 0xBEEF}}},
    {.name = "example 11, TRAP x25",
     .before = {BEFORE(0x8002), STACKS},
     .after = {AFTER(0x0678, 0x0002), ENTERED},
     .found = {{0x3000, 0xF025}, {0x0025, 0x0678}},
     .altered = {{0x2FFF, 0x8002}, {0x2FFE, 0x3001}}},
    {.name = "example 12, TRAP x25 whose push replaces the vector",
     .before = {BEFORE(0x8002), .regs[6] = 0xFDFF, .saved_ssp = 0x0026},
     .after = {AFTER(0x8002, 0x0002), .regs[6] = 0x0024, .saved_ssp = 0x0026, .saved_usp = 0xFDFF},
     .found = {{0x3000, 0xF025}, {0x0025, 0x0678}},
     .altered = {{0x0025, 0x8002}, {0x0024, 0x3001}}},
    {.name = "example 13, RTI to User mode",
     .before = {BEFORE(0x0002), .regs[6] = 0x2FFE, .saved_ssp = 0x3000},
     .after = {AFTER(0x3001, 0x8707), .saved_ssp = 0x3000},
     .found = {{0x3000, 0x8000}, {0x2FFE, 0x3001}, {0x2FFF, 0xFFFF}}},
    {.name = "example 13 with a user stack",
     .before = {BEFORE(0x0002), .regs[6] = 0x2FFE, .saved_usp = 0xFDFF},
     .after = {AFTER(0x3001, 0x8707), .regs[6] = 0xFDFF, .saved_ssp = 0x3000, .saved_usp = 0xFDFF},
     .found = {{0x3000, 0x8000}, {0x2FFE, 0x3001}, {0x2FFF, 0xFFFF}}},
    {.name = "example 14, keyboard interrupt at priority 3",
     .before = {BEFORE(0x8302), STACKS, .kbsr = 0xC000},
     .after = {AFTER(0x0789, 0x0402), ENTERED, .kbsr = 0xC000},
     .found = {{0x3000, 0x1021}, {0x0180, 0x0789}},
     .altered = {{0x2FFF, 0x8302}, {0x2FFE, 0x3000}}},
    {.name = "example 14, no interrupt at priority 4",
     .before = {BEFORE(0x8402), STACKS, .kbsr = 0xC000},
     .after = {AFTER(0x3001, 0x8401), STACKS, .kbsr = 0xC000, .regs[0] = 1},
     .found = {{0x3000, 0x1021}, {0x0180, 0x0789}}},
};

static void write_cells(uint16_t *words, const cell *cells, size_t length) {
    for (size_t i = 0; i < length; i++) words[cells[i].address] = cells[i].word;
}

static void test_example(const example *e, lc3_answer (*call)(const arguments *)) {
    part = e->name;
    arguments c = usual();
    c.record = e->before;
    clear_buffers();
    write_cells(memory, e->found, sizeof e->found / sizeof *e->found);
    keep_buffers();
    write_cells(wanted_memory, e->altered, sizeof e->altered / sizeof *e->altered);
    lc3_answer got = call(&c);
    check_answer(&got, &(lc3_answer){.record = e->after, .steps = 1, .stop = LC3_DONE});
    check_buffers();
}

static void test_examples(void) {
    part = "example 1, x14E7";
    lc3_instruction i = lc3_read(0x14E7).instruction;
    CHECK(i.kind, LC3_ADD_IMMEDIATE);
    CHECK(i.a, 2);
    CHECK(i.b, 3);
    CHECK(i.c, 0);
    CHECK(i.value, 7);
    for (size_t e = 0; e < sizeof examples / sizeof *examples; e++) {
        test_example(&examples[e], run);
        test_example(&examples[e], run_long);
        test_example(&examples[e], step);
    }
}

/* ---- Refusals ---- */

/*
 * Refused with this number and index, the record answered as handed in and the buffers as they
 * were.
 */
static void check_refused(const lc3_answer *got, const arguments *c, uint32_t number,
                          uint64_t index) {
    CHECK(got->refusal, number);
    CHECK(got->index, index);
    if (number == LC3_ACCEPTED) return;
    check_answer(got, &(lc3_answer){.record = c->record, .index = index, .refusal = number});
    check_buffers();
}

/* By lc3_run_long, lc3_run and, where n is 1, lc3_step. A step that is made pushes two words. */
static void check_refusal_at(const char *name, const arguments *c, uint32_t number,
                             uint64_t index) {
    part = name;
    clear_buffers();
    fill_memory();
    memory[0x3000] = 0xF025; /* TRAP x25 */
    keep_buffers();
    lc3_answer got = run_long(c);
    check_refused(&got, c, number, index);
    got = run(c);
    check_refused(&got, c, number, index);
    if (c->n != 1) return;
    got = step(c);
    check_refused(&got, c, number, index);
}

static void check_refusal(const char *name, const arguments *c, uint32_t number) {
    check_refusal_at(name, c, number, 0);
}

static void test_refused_memory(void) {
    arguments c = usual();
    c.memory_len = WORDS - 1;
    check_refusal("65,535 words", &c, LC3_REFUSED_MEMORY);
    c.memory_len = WORDS + 1;
    check_refusal("65,537 words", &c, LC3_REFUSED_MEMORY);
    c.memory_len = 0;
    check_refusal("no words", &c, LC3_REFUSED_MEMORY);
    c.memory_len = WORDS;
    check_refusal("65,536 words", &c, LC3_ACCEPTED);
}

/* Each bit of one register of the record in turn: accepted exactly if it is defined. */
static void check_bits(const char *name, size_t offset, uint16_t defined) {
    for (int bit = 0; bit < 16; bit++) {
        arguments c = usual();
        uint16_t value = 1 << bit;
        memcpy((char *)&c.record + offset, &value, sizeof value);
        check_refusal(name, &c, value & defined ? LC3_ACCEPTED : LC3_REFUSED_RECORD);
    }
}

static void test_refused_record(void) {
    check_bits("bits of PSR", offsetof(lc3_record, psr), 0x8707);
    check_bits("bits of KBSR", offsetof(lc3_record, kbsr), 0xC000);
    check_bits("bits of KBDR", offsetof(lc3_record, kbdr), 0x00FF);
    check_bits("bits of MCR", offsetof(lc3_record, mcr), 0x8000);
    check_bits("bits of TSR", offsetof(lc3_record, timer_status), 0xC000);
    arguments c = usual();
    c.record.busy = LC3_MAX_BUSY;
    check_refusal("busy 8", &c, LC3_ACCEPTED);
    c.record.busy = LC3_MAX_BUSY + 1;
    check_refusal("busy 9", &c, LC3_REFUSED_RECORD);
    c.record.busy = UINT16_MAX;
    check_refusal("highest busy", &c, LC3_REFUSED_RECORD);
    c.record.busy = 0;
    c.n = 0;
    c.record.clock = LC3_MAX_CLOCK + 1;
    check_refusal("clock above 2^48", &c, LC3_REFUSED_RECORD);
    c.record.clock = UINT64_MAX;
    check_refusal("highest clock", &c, LC3_REFUSED_RECORD);
}

static void check_timer_count(const char *name, uint16_t interval, uint16_t count,
                              uint32_t number) {
    arguments c = usual();
    c.record.timer_interval = interval;
    c.record.timer_count = count;
    check_refusal(name, &c, number);
}

static void test_refused_timer(void) {
    check_timer_count("the timer off", 0, 0, LC3_ACCEPTED);
    check_timer_count("a count with the timer off", 0, 1, LC3_REFUSED_RECORD);
    check_timer_count("no count with an interval", 1, 0, LC3_REFUSED_RECORD);
    check_timer_count("count and interval 1", 1, 1, LC3_ACCEPTED);
    check_timer_count("count 2, interval 1", 1, 2, LC3_REFUSED_RECORD);
    check_timer_count("no count with the highest interval", UINT16_MAX, 0, LC3_REFUSED_RECORD);
    check_timer_count("count 1, highest interval", UINT16_MAX, 1, LC3_ACCEPTED);
    check_timer_count("highest count and interval", UINT16_MAX, UINT16_MAX, LC3_ACCEPTED);
    check_timer_count("highest count, lower interval", UINT16_MAX - 1, UINT16_MAX,
                      LC3_REFUSED_RECORD);
}

static void test_refused_steps(void) {
    arguments c = usual();
    c.record.clock = LC3_MAX_CLOCK;
    check_refusal("clock 2^48, n = 1", &c, LC3_REFUSED_STEPS);
    c.n = 0;
    check_refusal("clock 2^48, n = 0", &c, LC3_ACCEPTED);
    c.record.clock = LC3_MAX_CLOCK - 1;
    c.n = 1;
    check_refusal("clock 2^48 - 1, n = 1", &c, LC3_ACCEPTED);
    c.n = 2;
    check_refusal("clock 2^48 - 1, n = 2", &c, LC3_REFUSED_STEPS);
    c.record = start_at(0x3000, true).record;
    c.record.mcr = 0;
    c.n = LC3_MAX_STEPS;
    check_refusal("halted, n = 1,048,576", &c, LC3_ACCEPTED);
    c.n = LC3_MAX_STEPS + 1;
    check_refusal("halted, n = 1,048,577", &c, LC3_REFUSED_STEPS);
    c.n = UINT64_MAX;
    check_refusal("halted, highest n", &c, LC3_REFUSED_STEPS);
}

static void test_refused_keys(void) {
    arguments c = usual();
    c.times_len = 1;
    check_refusal("a time without a byte", &c, LC3_REFUSED_LISTS);
    c.bytes_len = 2;
    check_refusal("a byte without a time", &c, LC3_REFUSED_LISTS);
}

/* Three times at clock 5. */
static void check_times(const char *name, const uint64_t times[3], uint32_t number,
                        uint64_t index) {
    arguments c = usual();
    c.times_len = c.bytes_len = 3;
    c.record.clock = 5;
    memcpy(c.times, times, sizeof c.times);
    check_refusal_at(name, &c, number, index);
}

static void test_refused_times(void) {
    check_times("the clock, equal times", (uint64_t[]){5, 5, 9}, LC3_ACCEPTED, 0);
    check_times("below the clock", (uint64_t[]){4, 5, 9}, LC3_REFUSED_TIME, 0);
    check_times("two below the clock", (uint64_t[]){4, 3, 9}, LC3_REFUSED_TIME, 0);
    check_times("below the one before", (uint64_t[]){6, 9, 8}, LC3_REFUSED_ORDER, 2);
    check_times("two below the ones before", (uint64_t[]){9, 8, 7}, LC3_REFUSED_ORDER, 1);
    check_times("below both", (uint64_t[]){6, 9, 4}, LC3_REFUSED_TIME, 2);
    check_times("order, then the clock", (uint64_t[]){9, 8, 4}, LC3_REFUSED_ORDER, 1);
}

/* All five reasons at once, then one less each time: the first that applies is answered. */
static void test_refusal_order(void) {
    arguments c = usual();
    c.memory_len = WORDS - 1;
    c.record.psr = 0x0008;
    c.record.clock = 5;
    c.n = LC3_MAX_STEPS + 1;
    c.times_len = 1;
    check_refusal("all reasons", &c, LC3_REFUSED_MEMORY);
    c.memory_len = WORDS;
    check_refusal("all but memory", &c, LC3_REFUSED_RECORD);
    c.record.psr = LC3_PSR_Z;
    check_refusal("steps, lists and times", &c, LC3_REFUSED_STEPS);
    c.n = 1;
    check_refusal("lists and times", &c, LC3_REFUSED_LISTS);
    c.bytes_len = 1;
    check_refusal("times", &c, LC3_REFUSED_TIME);
    c.times[0] = 5;
    check_refusal("no reason", &c, LC3_ACCEPTED);
}

static void test_refusals(void) {
    test_refused_memory();
    test_refused_record();
    test_refused_timer();
    test_refused_steps();
    test_refused_keys();
    test_refused_times();
    test_refusal_order();
}

/* ---- Stops ---- */

/* The call leaves the buffers as they are. */
static void check_stop(const arguments *c, lc3_answer (*call)(const arguments *),
                       lc3_answer wanted) {
    keep_buffers();
    lc3_answer got = call(c);
    check_answer(&got, &wanted);
    check_buffers();
}

static void test_done(void) {
    clear_buffers();
    part = "n = 0 on a halted machine is done";
    arguments c = usual();
    c.record.mcr = 0;
    c.n = 0;
    check_stop(&c, run, (lc3_answer){.record = c.record, .stop = LC3_DONE});

    part = "1,048,576 steps at clock 0";
    c = usual();
    c.n = LC3_MAX_STEPS;
    memory[0x3000] = 0x0FFF; /* BRnzp to itself */
    lc3_record after = c.record;
    after.clock = LC3_MAX_STEPS;
    check_stop(&c, run, (lc3_answer){.record = after, .steps = LC3_MAX_STEPS, .stop = LC3_DONE});
}

static void test_halted(void) {
    clear_buffers();
    part = "halted by a store to the MCR";
    arguments c = usual();
    c.record = start_at(0x0200, false).record;
    c.n = 5;
    memory[0x0200] = 0xB001; /* STI R0, x0202 */
    memory[0x0202] = LC3_ADDRESS_MCR;
    lc3_record after = c.record;
    after.pc = 0x0201;
    after.mcr = 0;
    after.clock = 1;
    check_stop(&c, run, (lc3_answer){.record = after, .steps = 1, .stop = LC3_HALTED});

    part = "halted in the last step that was asked for";
    c.n = 1;
    check_stop(&c, run, (lc3_answer){.record = after, .steps = 1, .stop = LC3_DONE});

    part = "a step of a halted machine";
    c.record = after;
    check_stop(&c, step, (lc3_answer){.record = after, .stop = LC3_HALTED});
}

/* Shows R0, adds 1 to it and begins again. */
static const cell alphabet[] = {
    {0x0200, 0xB002}, /* STI R0, x0203 */
    {0x0201, 0x1021}, /* ADD R0, R0, #1 */
    {0x0202, 0x0FFD}, /* BRnzp x0200 */
    {0x0203, LC3_ADDRESS_DDR},
};

/*
 * Three bytes of room. Each byte keeps the display busy for eight steps, so that of the stores, one
 * in three steps, the first of three is shown. The one at clock 27 finds no room, and its key stays
 * out too.
 */
static void test_output_full(void) {
    clear_buffers();
    write_cells(memory, alphabet, sizeof alphabet / sizeof *alphabet);
    part = "output full";
    arguments c = usual();
    c.record = start_at(0x0200, false).record;
    c.record.regs[0] = 'A';
    c.n = 100;
    c.output_len = 3;
    c.times[0] = 27;
    c.times_len = c.bytes_len = 1;
    keep_buffers();
    memcpy(wanted_output, "ADG", 3);
    lc3_record after = c.record;
    after.regs[0] = 'J';
    after.psr = LC3_PSR_P;
    after.clock = 27;
    lc3_answer got = run(&c);
    check_answer(&got, &(lc3_answer){after, 27, 0, 3, 0, LC3_ACCEPTED, LC3_OUTPUT_FULL});
    check_buffers();

    part = "a step that finds no room";
    c.record = after;
    c.output_len = 0;
    check_stop(&c, step, (lc3_answer){.record = after, .stop = LC3_OUTPUT_FULL});
}

/* The same store with room again: the key arrives and the byte is shown. */
static void test_room_again(void) {
    part = "room again";
    arguments c = usual();
    c.record = start_at(0x0200, false).record;
    c.record.regs[0] = 'J';
    c.record.clock = 27;
    c.output_len = 1;
    c.times[0] = 27;
    c.bytes[0] = 'k';
    c.times_len = c.bytes_len = 1;
    clear_buffers();
    write_cells(memory, alphabet, sizeof alphabet / sizeof *alphabet);
    keep_buffers();
    wanted_output[0] = 'J';
    lc3_record after = c.record;
    after.pc = 0x0201;
    after.kbsr = LC3_KBSR_READY;
    after.kbdr = 'k';
    after.busy = LC3_MAX_BUSY;
    after.clock = 28;
    lc3_answer got = run(&c);
    check_answer(&got, &(lc3_answer){after, 1, 1, 1, 0, LC3_ACCEPTED, LC3_DONE});
    check_buffers();
}

/* A load of the DSR and a store to the DDR, with no room for a byte, at each busy count. */
static void test_busy(void) {
    static const cell loads[] = {{0x0200, 0xA001}, {0x0202, LC3_ADDRESS_DSR}}; /* LDI R0, x0202 */
    static const cell stores[] = {{0x0200, 0xB001}, {0x0202, LC3_ADDRESS_DDR}}; /* STI R0, x0202 */
    for (uint16_t busy = 0; busy <= LC3_MAX_BUSY; busy++) {
        arguments c = usual();
        c.record = start_at(0x0200, false).record;
        c.record.busy = busy;
        c.output_len = 0;
        lc3_record after = c.record;
        after.pc = 0x0201;
        after.busy = busy ? busy - 1 : 0;
        after.clock = 1;

        part = "a store to the DDR of a busy display";
        clear_buffers();
        write_cells(memory, stores, 2);
        check_stop(&c, run,
                   busy ? (lc3_answer){.record = after, .steps = 1, .stop = LC3_DONE}
                        : (lc3_answer){.record = c.record, .stop = LC3_OUTPUT_FULL});

        part = "a load of the DSR of a busy display";
        write_cells(memory, loads, 2);
        after.regs[0] = busy ? 0 : 0x8000;
        after.psr = busy ? LC3_PSR_Z : LC3_PSR_N;
        check_stop(&c, step, (lc3_answer){.record = after, .steps = 1, .stop = LC3_DONE});
    }
}

/*
 * A program in User mode that counts, with the timer at interval 3: ready, and the interrupt, at the
 * third step. The routine loads the TSR, which clears ready, and returns; meanwhile the timer has
 * counted on.
 */
static void test_timer(void) {
    static const cell cells[] = {
        {0x3000, 0x1021}, /* ADD R0, R0, #1 */
        {0x3001, 0x0FFE}, /* BRnzp x3000 */
        {0x0181, 0x0200}, /* where the timer's interrupt goes */
        {0x0200, 0xA201}, /* LDI R1, x0202 */
        {0x0201, 0x8000}, /* RTI */
        {0x0202, LC3_ADDRESS_TSR},
    };
    clear_buffers();
    write_cells(memory, cells, sizeof cells / sizeof *cells);
    arguments c = usual();
    c.record.timer_status = LC3_TSR_INTERRUPT;
    c.record.timer_interval = c.record.timer_count = 3;
    c.n = 2;
    part = "the timer counts";
    lc3_record after = c.record;
    after.regs[0] = 1;
    after.psr = LC3_PSR_USER | LC3_PSR_P;
    after.timer_count = 1;
    after.clock = 2;
    check_stop(&c, run, (lc3_answer){.record = after, .steps = 2, .stop = LC3_DONE});

    part = "the timer interrupts";
    c.record = after;
    keep_buffers();
    wanted_memory[0x2FFF] = after.psr;
    wanted_memory[0x2FFE] = 0x3000;
    after.saved_usp = after.regs[6];
    after.regs[6] = 0x2FFE;
    after.pc = 0x0200;
    after.psr = 0x0600 | LC3_PSR_P;
    after.timer_status = LC3_TSR_READY | LC3_TSR_INTERRUPT;
    after.timer_count = 3;
    after.clock = 3;
    lc3_answer got = step(&c);
    check_answer(&got, &(lc3_answer){.record = after, .steps = 1, .stop = LC3_DONE});
    check_buffers();

    part = "the routine loads the TSR and returns";
    c.record = after;
    c.n = 2;
    after.regs[1] = LC3_TSR_READY | LC3_TSR_INTERRUPT;
    after.regs[6] = after.saved_usp;
    after.pc = 0x3000;
    after.psr = LC3_PSR_USER | LC3_PSR_P;
    after.timer_status = LC3_TSR_INTERRUPT;
    after.timer_count = 1;
    after.clock = 5;
    check_stop(&c, run, (lc3_answer){.record = after, .steps = 2, .stop = LC3_DONE});
}

static void test_keys(void) {
    clear_buffers();
    part = "arrival of keys";
    arguments c = usual();
    memcpy(c.times, (uint64_t[]){0, 0, 1}, sizeof c.times);
    memcpy(c.bytes, "xyz", sizeof c.bytes);
    c.times_len = c.bytes_len = 3;
    lc3_record after = c.record;
    after.pc = 0x3001; /* word 0 is a BR that is never taken */
    after.kbsr = LC3_KBSR_READY;
    after.kbdr = 'y';
    after.clock = 1;
    check_stop(&c, run, (lc3_answer){.record = after, .steps = 1, .keys = 2, .stop = LC3_DONE});

    part = "a key that finds the one before it unread";
    c.n = 2;
    after.pc = 0x3002;
    after.kbdr = 'z';
    after.clock = 2;
    check_stop(&c, run, (lc3_answer){.record = after, .steps = 2, .keys = 3, .stop = LC3_DONE});
}

/* ---- Single steps and divided runs ---- */

/* A random record, three keys near its clock and a small output. */
static arguments any_arguments(void) {
    arguments c = {.memory_len = WORDS, .times_len = 3, .bytes_len = 3, .output_len = any() % 3};
    for (int i = 0; i < 8; i++) c.record.regs[i] = any() % 3 ? any() : 0xFE00 + 2 * (any() % 6);
    c.record.pc = any();
    c.record.psr = any() & 0x8707;
    c.record.saved_ssp = any();
    c.record.saved_usp = any();
    c.record.kbsr = any() & 0xC000;
    c.record.kbdr = any() & 0x00FF;
    c.record.mcr = any() % 16 ? 0x8000 : 0;
    c.record.busy = any() % (LC3_MAX_BUSY + 1);
    c.record.timer_status = any() & 0xC000;
    c.record.timer_interval = any() % 5;
    c.record.timer_count = c.record.timer_interval ? 1 + any() % c.record.timer_interval : 0;
    c.record.clock = any() % 1000;
    for (int i = 0; i < 3; i++) {
        c.times[i] = (i ? c.times[i - 1] : c.record.clock) + any() % 4;
        c.bytes[i] = any();
    }
    return c;
}

/* Runs over the buffers as they are, keeps what that leaves, and puts the buffers back. */
static lc3_answer run_and_restore(const arguments *c) {
    static uint16_t before[WORDS + 1];
    memcpy(before, memory, sizeof memory);
    memset(output, UNSHOWN, sizeof output);
    lc3_answer a = run(c);
    keep_buffers();
    memcpy(memory, before, sizeof memory);
    memset(output, UNSHOWN, sizeof output);
    return a;
}

/* Spoils one thing in random arguments, so that most of them are refused. */
static void spoil(arguments *c) {
    switch (any() % 8) {
    case 0: c->memory_len = any() % 2 ? WORDS - 1 : 0; break;
    case 1: c->record.psr ^= 1 << any() % 16; break;
    case 2: c->record.kbsr ^= 1 << any() % 16; break;
    case 3: c->record.busy = any(); break;
    case 4: c->record.timer_count = any() % 8; break;
    case 5: c->record.clock = LC3_MAX_CLOCK - 1 + any() % 3; break;
    case 6: c->times_len = any() % 3; break;
    case 7: c->times[any() % 3] = any() % 1000; break;
    }
}

/* All fields of the answer, the record, memory and output; every other call is spoilt. */
static void test_step_is_run(void) {
    part = "lc3_step against lc3_run with n = 1";
    for (int i = 0; i < 4000; i++) {
        if (i % 100 == 0) fill_memory();
        arguments c = any_arguments();
        if (i % 2) spoil(&c);
        c.n = 1;
        lc3_answer by_run = run_and_restore(&c), by_step = step(&c);
        check_answer(&by_step, &by_run);
        check_buffers();
    }
}

/* As many single steps as a run made, each handed what the one before left, come to that run. */
static void test_steps_are_run(void) {
    part = "single steps against a longer run";
    for (int i = 0; i < 200; i++) {
        fill_memory();
        arguments c = any_arguments();
        c.n = any() % 60;
        lc3_answer whole = run_and_restore(&c);
        lc3_record record = c.record;
        size_t keys = 0, shown = 0;
        for (uint64_t made = 0; made < whole.steps; made++) {
            lc3_report r = lc3_step(&record, memory, WORDS, c.times + keys, 3 - keys,
                                    c.bytes + keys, 3 - keys, output + shown, c.output_len - shown);
            CHECK(r.steps, 1);
            keys += r.keys;
            shown += r.shown;
        }
        check_record(&record, &whole.record);
        CHECK(keys, whole.keys);
        CHECK(shown, whole.shown);
        check_buffers();
    }
}

/* ---- Runs for long sittings ---- */

/* Calls lc3_run_long, and holds what it answers and leaves against lc3_run. */
static lc3_answer check_long(const arguments *c) {
    lc3_answer by_run = run_and_restore(c), by_long = run_long(c);
    check_answer(&by_long, &by_run);
    check_buffers();
    return by_long;
}

static void test_long_is_run(void) {
    part = "a long run against the run";
    for (int i = 0; i < 500; i++) {
        fill_memory();
        arguments c = any_arguments();
        c.n = any() % 2000;
        check_long(&c);
    }
}

/* A loop whose fourth instruction is another one each turn. */
static void test_long_of_altered_code(void) {
    part = "a long run of a loop that alters itself";
    static const uint16_t words[] = {
        0x2002, /* AGAIN   LD     R0, OTHER */
        0x1021, /*         ADD    R0, R0, #1 */
        0x3000, /*         ST     R0, OTHER */
        0x1260, /* OTHER   ADD    R1, R1, #0 */
        0x0FFB, /*         BRnzp  AGAIN */
    };
    clear_buffers();
    memcpy(memory + 0x3000, words, sizeof words);
    arguments c = usual();
    c.n = 5000;
    lc3_answer a = check_long(&c);
    CHECK(a.steps, 5000);
    CHECK(memory[0x3003], 0x1260 + 1000);
}

/* ---- Logged runs ---- */

enum { LOGGED = 60, UNLOGGED = 0x6A6A }; /* steps, and what a log holds before a call */

static uint16_t step_log[LC3_LOG_WORDS * LOGGED];

typedef lc3_logged_answer logged_call(lc3_record, uint16_t *, size_t, const uint64_t *, size_t,
                                      const uint8_t *, size_t, uint8_t *, size_t, uint16_t *,
                                      size_t, uint64_t);

/* The run by one of the calls, logged to so many words, answered in lc3_run's form. */
static lc3_answer logged_by(logged_call *call, const arguments *c, size_t log_len,
                            uint64_t *words) {
    for (size_t i = 0; i < LC3_LOG_WORDS * LOGGED; i++) step_log[i] = UNLOGGED;
    lc3_logged_answer a = call(c->record, memory, c->memory_len, c->times, c->times_len, c->bytes,
                               c->bytes_len, output, c->output_len, step_log, log_len, c->n);
    *words = a.logged;
    return (lc3_answer){a.record, a.steps, a.keys, a.shown, a.index, a.refusal, a.stop};
}

static lc3_answer logged(const arguments *c, size_t log_len, uint64_t *words) {
    return logged_by(lc3_run_logged, c, log_len, words);
}

/* Words written are three for each step; those after them are as they were. */
static void check_log(uint64_t words, uint64_t steps) {
    CHECK(words, LC3_LOG_WORDS * steps);
    for (size_t i = words; i < LC3_LOG_WORDS * LOGGED; i++) CHECK(step_log[i], UNLOGGED);
}

static void test_logged_is_run(void) {
    part = "a logged run against the run";
    uint64_t words;
    for (int i = 0; i < 500; i++) {
        fill_memory();
        arguments c = any_arguments();
        c.n = any() % (LOGGED + 1);
        lc3_answer by_run = run_and_restore(&c);
        lc3_answer by_log = logged(&c, LC3_LOG_WORDS * LOGGED, &words);
        check_answer(&by_log, &by_run);
        check_buffers();
        check_log(words, by_run.steps);
    }
}

/* A TRAP and the first instruction of its routine, with logs of every length around the limit. */
static void test_log_full(void) {
    uint64_t words;
    arguments c = usual();
    c.n = 2;
    for (size_t log_len = 0; log_len < 3 * LC3_LOG_WORDS; log_len++) {
        part = "log full";
        clear_buffers();
        memory[0x0025] = 0x3800;
        memory[0x3000] = 0xF025; /* TRAP x25 */
        memory[0x3800] = 0x1021; /* ADD R0, R0, #1 */
        lc3_answer a = logged(&c, log_len, &words);
        uint64_t steps = log_len / LC3_LOG_WORDS < 2 ? log_len / LC3_LOG_WORDS : 2;
        CHECK(a.steps, steps);
        CHECK(a.stop, steps == 2 ? LC3_DONE : LC3_LOG_FULL);
        check_log(words, steps);
        static const uint16_t wanted[] = {0x3000, 0xF025, LC3_REASON_TRAP,
                                          0x3800, 0x1021, LC3_REASON_INSTRUCTION};
        CHECK(memcmp(step_log, wanted, words * sizeof *wanted), 0);
    }
    part = "a refused call logs nothing";
    c.memory_len = WORDS - 1;
    lc3_answer a = logged(&c, LC3_LOG_WORDS * LOGGED, &words);
    CHECK(a.refusal, LC3_REFUSED_MEMORY);
    check_log(words, 0);
}

/* ---- The second edition ---- */

/* LEA R0, #-1; TRAP x25; at x0400 JSRR R7; in User mode all the way. */
static void test_second_edition(void) {
    part = "second edition";
    clear_buffers();
    memory[0x0025] = 0x0400;
    memory[0x0400] = 0x41C0;
    memory[0x3000] = 0xE1FF;
    memory[0x3001] = 0xF025;
    keep_buffers();
    arguments c = usual();
    c.n = 3;
    lc3_record wanted = c.record, record = c.record;
    wanted.regs[0] = 0x3000;
    wanted.regs[7] = 0x0401;
    wanted.pc = 0x0401;
    wanted.psr = 0x8001;
    wanted.clock = 3;
    lc3_answer a =
        lc3_run_second(c.record, memory, WORDS, c.times, 0, c.bytes, 0, output, OUTPUT, 3);
    check_record(&a.record, &wanted);
    CHECK(a.steps, 3);
    CHECK(a.stop, LC3_DONE);
    for (int i = 0; i < 3; i++) {
        lc3_report r =
            lc3_step_second(&record, memory, WORDS, c.times, 0, c.bytes, 0, output, OUTPUT);
        CHECK(r.steps, 1);
        CHECK(r.refusal, LC3_ACCEPTED);
    }
    check_record(&record, &wanted);
    static const uint16_t entries[] = {0x3000, 0xE1FF, LC3_REASON_INSTRUCTION,
                                       0x3001, 0xF025, LC3_REASON_INSTRUCTION,
                                       0x0400, 0x41C0, LC3_REASON_INSTRUCTION};
    uint64_t words;
    a = logged_by(lc3_run_logged_second, &c, LC3_LOG_WORDS * LOGGED, &words);
    check_record(&a.record, &wanted);
    CHECK(a.stop, LC3_DONE);
    check_log(words, 3);
    CHECK(memcmp(step_log, entries, sizeof entries), 0);
    a = lc3_run_second(c.record, memory, WORDS - 1, c.times, 0, c.bytes, 0, output, OUTPUT, 3);
    check_record(&a.record, &c.record);
    CHECK(a.refusal, LC3_REFUSED_MEMORY);
    check_buffers();
}

/* ---- The next step ---- */

/* At most two addresses; the places after them are 0. */
static void check_addresses(const lc3_addresses *found, uint16_t count, uint16_t a, uint16_t b) {
    CHECK(found->count, count);
    CHECK(found->at[0], a);
    CHECK(found->at[1], b);
    CHECK(found->at[2], 0);
}

/* TRAP x25 in User mode by both editions, a halted machine, and a refused call. */
static void test_next_step(void) {
    part = "the next step";
    clear_buffers();
    memory[0x3000] = 0xF025;
    keep_buffers();
    arguments c = usual();
    c.record.saved_ssp = 0x3000;
    lc3_told t = lc3_tell(c.record, memory, WORDS, c.times, 0, c.bytes, 0);
    CHECK(t.refusal, LC3_ACCEPTED);
    CHECK(t.stop, LC3_DONE);
    CHECK(t.word, 0xF025);
    CHECK(t.reason, LC3_REASON_TRAP);
    check_addresses(&t.reads, 2, 0x3000, 0x0025);
    check_addresses(&t.writes, 2, 0x2FFF, 0x2FFE);
    t = lc3_tell_second(c.record, memory, WORDS, c.times, 0, c.bytes, 0);
    CHECK(t.reason, LC3_REASON_INSTRUCTION);
    check_addresses(&t.reads, 2, 0x3000, 0x0025);
    check_addresses(&t.writes, 0, 0, 0);
    c.record.mcr = 0;
    t = lc3_tell(c.record, memory, WORDS, c.times, 0, c.bytes, 0);
    CHECK(t.stop, LC3_HALTED);
    check_addresses(&t.reads, 0, 0, 0);
    t = lc3_tell(c.record, memory, WORDS - 1, c.times, 0, c.bytes, 0);
    CHECK(t.refusal, LC3_REFUSED_MEMORY);
    check_buffers();
}

/* ---- Instruction words ---- */

/* A format of Figure A.2: what tells it from others, its fixed bits, and where operands stand. */
typedef struct {
    uint8_t kind;
    uint16_t selector; /* the bits that tell this format from all others */
    uint16_t fixed;    /* the word with every operand 0 */
    int8_t a, b, c;    /* lowest bit of each register, or of the mask; NONE where unused */
    uint8_t width;     /* bits of the value, 0 where unused */
    bool is_signed;
} format;

enum { NONE = -1 };

static const format formats[] = {
    {LC3_BR, 0xF000, 0x0000, 9, NONE, NONE, 9, true},
    {LC3_ADD_REGISTER, 0xF020, 0x1000, 9, 6, 0, 0, false},
    {LC3_ADD_IMMEDIATE, 0xF020, 0x1020, 9, 6, NONE, 5, true},
    {LC3_LD, 0xF000, 0x2000, 9, NONE, NONE, 9, true},
    {LC3_ST, 0xF000, 0x3000, 9, NONE, NONE, 9, true},
    {LC3_JSR, 0xF800, 0x4800, NONE, NONE, NONE, 11, true},
    {LC3_JSRR, 0xF800, 0x4000, 6, NONE, NONE, 0, false},
    {LC3_AND_REGISTER, 0xF020, 0x5000, 9, 6, 0, 0, false},
    {LC3_AND_IMMEDIATE, 0xF020, 0x5020, 9, 6, NONE, 5, true},
    {LC3_LDR, 0xF000, 0x6000, 9, 6, NONE, 6, true},
    {LC3_STR, 0xF000, 0x7000, 9, 6, NONE, 6, true},
    {LC3_RTI, 0xF000, 0x8000, NONE, NONE, NONE, 0, false},
    {LC3_NOT, 0xF000, 0x903F, 9, 6, NONE, 0, false},
    {LC3_LDI, 0xF000, 0xA000, 9, NONE, NONE, 9, true},
    {LC3_STI, 0xF000, 0xB000, 9, NONE, NONE, 9, true},
    {LC3_JMP, 0xF000, 0xC000, 6, NONE, NONE, 0, false},
    {LC3_RESERVED, 0xF000, 0xD000, NONE, NONE, NONE, 12, false},
    {LC3_LEA, 0xF000, 0xE000, 9, NONE, NONE, 9, true},
    {LC3_TRAP, 0xF000, 0xF000, NONE, NONE, NONE, 8, false},
};

enum { FORMATS = sizeof formats / sizeof *formats };

static const format *format_of(uint16_t word) {
    int i = 0;
    while ((word & formats[i].selector) != (formats[i].fixed & formats[i].selector)) i++;
    return &formats[i];
}

static int lowest(const format *f) { return f->is_signed ? -(1 << (f->width - 1)) : 0; }

static int highest(const format *f) { return lowest(f) + (1 << f->width) - 1; }

static uint8_t register_at(uint16_t word, int place) {
    return place == NONE ? 0 : word >> place & 7;
}

static lc3_instruction expected_read(uint16_t word) {
    const format *f = format_of(word);
    int value = word & ((1 << f->width) - 1);
    if (value > highest(f)) value -= 1 << f->width;
    return (lc3_instruction){f->kind, register_at(word, f->a), register_at(word, f->b),
                             register_at(word, f->c), value};
}

/* The bits of a format that belong to no operand. */
static uint16_t fixed_bits(const format *f) {
    uint16_t operands = (1 << f->width) - 1;
    if (f->a != NONE) operands |= 7 << f->a;
    if (f->b != NONE) operands |= 7 << f->b;
    if (f->c != NONE) operands |= 7 << f->c;
    return ~operands;
}

static bool fixed_bits_right(uint16_t word) {
    const format *f = format_of(word);
    return (word & fixed_bits(f)) == f->fixed;
}

static bool register_out(uint8_t r, int place) { return place != NONE && r > 7; }

static uint16_t placed(uint8_t r, int place) { return place == NONE ? 0 : r << place; }

static lc3_written expected_write(lc3_instruction i) {
    if (i.kind >= FORMATS) return (lc3_written){0, LC3_REFUSED_FIELD};
    const format *f = &formats[i.kind];
    bool mask = i.kind == LC3_BR;
    if ((register_out(i.a, f->a) && !mask) || register_out(i.b, f->b) || register_out(i.c, f->c)) {
        return (lc3_written){0, LC3_REFUSED_REGISTER};
    }
    if (f->width && (i.value < lowest(f) || i.value > highest(f))) {
        return (lc3_written){0, LC3_REFUSED_FIELD};
    }
    if (mask && i.a > 7) return (lc3_written){0, LC3_REFUSED_MASK};
    uint16_t field = (uint32_t)i.value & ((1 << f->width) - 1);
    uint16_t registers = placed(i.a, f->a) | placed(i.b, f->b) | placed(i.c, f->c);
    return (lc3_written){f->fixed | registers | field, LC3_ACCEPTED};
}

static void check_instruction(lc3_instruction got, lc3_instruction wanted) {
    CHECK(got.kind, wanted.kind);
    CHECK(got.a, wanted.a);
    CHECK(got.b, wanted.b);
    CHECK(got.c, wanted.c);
    CHECK(got.value, wanted.value);
}

/* Every word; what is written after reading differs from the word in the bits of the mask. */
static void test_read(void) {
    part = "read";
    for (int word = 0; word < 65536; word++) {
        lc3_reading r = lc3_read(word);
        lc3_instruction i = r.instruction;
        check_instruction(i, expected_read(word));
        lc3_written w = lc3_write(i);
        CHECK(w.refusal, LC3_ACCEPTED);
        CHECK(w.word, expected_write(i).word);
        CHECK(w.word ^ word, r.mask);
        CHECK(r.mask == 0, fixed_bits_right(word));
    }
}

/* Reading what was written gives the instruction back, its unused operands as 0. */
static void check_write(lc3_instruction i) {
    lc3_written got = lc3_write(i), wanted = expected_write(i);
    CHECK(got.word, wanted.word);
    CHECK(got.refusal, wanted.refusal);
    if (got.refusal) return;
    const format *f = &formats[i.kind];
    lc3_instruction back = {i.kind, f->a == NONE ? 0 : i.a, f->b == NONE ? 0 : i.b,
                            f->c == NONE ? 0 : i.c, f->width ? i.value : 0};
    check_instruction(lc3_read(got.word).instruction, back);
}

/* The powers of two and their neighbours: the edges of every field, of 16 and of 32 bits. */
static void check_values(lc3_instruction i) {
    for (int bit = 0; bit < 32; bit++) {
        for (int near = -1; near <= 1; near++) {
            int64_t power = INT64_C(1) << bit;
            i.value = power + near > INT32_MAX ? 0 : power + near;
            check_write(i);
            i.value = near - power < INT32_MIN ? 0 : near - power;
            check_write(i);
        }
    }
}

/* Every kind and some that are none, registers on both sides of 7. */
static void test_write(void) {
    part = "write";
    static const uint8_t registers[] = {0, 5, 7, 8, 255};
    enum { REGISTERS = sizeof registers };
    for (int kind = 0; kind < FORMATS + 3; kind++) {
        for (int a = 0; a < REGISTERS; a++) {
            for (int b = 0; b < REGISTERS; b++) {
                for (int c = 0; c < REGISTERS; c++) {
                    check_values(
                        (lc3_instruction){kind, registers[a], registers[b], registers[c], 0});
                }
            }
        }
    }
}

/* ---- Object files ---- */

static const lc3_record no_record; /* all zero */

static void check_start(const char *name, const uint8_t *file, size_t length, size_t memory_len,
                        bool user, lc3_started wanted) {
    part = name;
    lc3_started got = lc3_start(file, length, memory, memory_len, user, 0xFDFF);
    check_record(&got.record, &wanted.record);
    CHECK(got.words, wanted.words);
    CHECK(got.refusal, wanted.refusal);
    check_buffers();
}

static void check_save(const char *name, size_t memory_len, uint16_t origin, size_t words,
                       size_t room, lc3_counted wanted) {
    part = name;
    lc3_counted got = lc3_save(memory, memory_len, origin, words, output, room);
    CHECK(got.count, wanted.count);
    CHECK(got.refusal, wanted.refusal);
    check_buffers();
}

static void test_refused_start(void) {
    static const uint8_t file[] = {0xFF, 0xFF, 0x12, 0x34, 0x56, 0x78};
    fill_memory();
    keep_buffers();
    for (int user = 0; user < 2; user++) {
        check_start("memory too long", file, 3, WORDS + 1, user,
                    (lc3_started){no_record, 0, LC3_REFUSED_MEMORY});
        check_start("no origin", file, 1, WORDS, user,
                    (lc3_started){no_record, 0, LC3_REFUSED_FILE});
        check_start("odd file", file, 5, WORDS, user,
                    (lc3_started){no_record, 0, LC3_REFUSED_FILE});
        check_start("beyond memory", file, 6, WORDS, user,
                    (lc3_started){no_record, 0, LC3_REFUSED_RANGE});
    }
}

static void test_start(void) {
    static const uint8_t file[] = {0xFF, 0xFF, 0x12, 0x34};
    const lc3_record user = {.regs = {[6] = 0xFDFF},
                             .pc = 0xFFFF,
                             .psr = LC3_PSR_USER | LC3_PSR_Z,
                             .saved_ssp = 0x3000,
                             .mcr = LC3_MCR_CLOCK};
    const lc3_record supervisor = {.regs = {[6] = 0x3000},
                                   .pc = 0xFFFF,
                                   .psr = LC3_PSR_Z,
                                   .saved_usp = 0xFDFF,
                                   .mcr = LC3_MCR_CLOCK};
    fill_memory();
    keep_buffers();
    check_start("without words, User mode", file, 2, WORDS, true, (lc3_started){user, 0, 0});
    check_start("without words, Supervisor mode", file, 2, WORDS, false,
                (lc3_started){supervisor, 0, 0});
    wanted_memory[0xFFFF] = 0x1234;
    check_start("last word of memory, User mode", file, 4, WORDS, true, (lc3_started){user, 1, 0});
    check_start("last word of memory, Supervisor mode", file, 4, WORDS, false,
                (lc3_started){supervisor, 1, 0});
}

/* A machine that a candidate's file is started for. */
static lc3_record started_user(uint16_t origin) {
    return (lc3_record){.regs = {[6] = 0x8765},
                        .pc = origin,
                        .psr = LC3_PSR_USER | LC3_PSR_Z,
                        .saved_ssp = 0x3000,
                        .mcr = LC3_MCR_CLOCK};
}

/*
 * The first bytes of a candidate's file whose words are x1234. Memory is lent from its first word on,
 * and from its second, so that the word after it and the word before it are guards.
 */
static void check_start_user(const char *name, uint16_t origin, size_t length, size_t memory_len,
                             uint32_t refusal) {
    const uint8_t file[] = {(uint8_t)(origin >> 8), (uint8_t)origin, 0x12, 0x34, 0x12, 0x34};
    const lc3_record user = started_user(origin);
    const size_t words = refusal == 0 ? length / 2 - 1 : 0;
    part = name;
    for (size_t guards = 0; guards < 2 && guards + memory_len <= WORDS + 1; guards++) {
        fill_memory();
        keep_buffers();
        lc3_started got = lc3_start_user(file, length, memory + guards, memory_len, 0x8765);
        for (size_t k = 0; k < words; k++) wanted_memory[guards + origin + k] = 0x1234;
        check_record(&got.record, refusal == 0 ? &user : &no_record);
        CHECK(got.words, words);
        CHECK(got.refusal, refusal);
        check_buffers();
    }
}

static void test_start_user(void) {
    check_start_user("first word of User mode", 0x3000, 4, WORDS, 0);
    check_start_user("last word of User mode", 0xFDFF, 4, WORDS, 0);
    check_start_user("last two words of User mode", 0xFDFE, 6, WORDS, 0);
    check_start_user("word before them", 0x2FFF, 4, WORDS, LC3_REFUSED_USER);
    check_start_user("word after them", 0xFE00, 4, WORDS, LC3_REFUSED_USER);
    check_start_user("begins before them", 0x2FFF, 6, WORDS, LC3_REFUSED_USER);
    check_start_user("ends after them", 0xFDFF, 6, WORDS, LC3_REFUSED_USER);
    check_start_user("without words, first", 0x3000, 2, WORDS, 0);
    check_start_user("without words, last", 0xFDFF, 2, WORDS, 0);
    check_start_user("without words, before", 0x2FFF, 2, WORDS, LC3_REFUSED_USER);
    check_start_user("without words, after", 0xFE00, 2, WORDS, LC3_REFUSED_USER);
    check_start_user("access exception's vector word", 0x0102, 4, WORDS, LC3_REFUSED_USER);
    check_start_user("last word of memory", 0xFFFF, 4, WORDS, LC3_REFUSED_USER);
}

/* The numbers that lc3_start answers too come first, in its order; empty buffers are not NULL. */
static void test_refused_start_user(void) {
    check_start_user("beyond memory", 0xFFFF, 6, WORDS, LC3_REFUSED_RANGE);
    check_start_user("odd file", 0xFFFF, 5, WORDS, LC3_REFUSED_FILE);
    check_start_user("odd file in User mode's words", 0x3000, 3, WORDS, LC3_REFUSED_FILE);
    check_start_user("no origin", 0x3000, 1, WORDS, LC3_REFUSED_FILE);
    check_start_user("empty file", 0x3000, 0, WORDS, LC3_REFUSED_FILE);
    check_start_user("memory too long", 0xFFFF, 5, WORDS + 1, LC3_REFUSED_MEMORY);
    check_start_user("memory too short", 0x3000, 4, WORDS - 1, LC3_REFUSED_MEMORY);
    check_start_user("empty memory", 0x2FFF, 4, 0, LC3_REFUSED_MEMORY);
    check_start_user("empty file and memory", 0x3000, 0, 0, LC3_REFUSED_MEMORY);
}

/* Files from x3000 on: all of User mode's words, up to the end of memory, and one more of each. */
static void test_whole_start_user(void) {
    static uint8_t file[2 + 2 * 0xD001] = {0x30, 0x00};
    const lc3_record user = started_user(0x3000);
    const struct {
        size_t words;
        uint32_t refusal;
    } files[] = {{0xCE00, 0},
                 {0xCE01, LC3_REFUSED_USER},
                 {0xD000, LC3_REFUSED_USER},
                 {0xD001, LC3_REFUSED_RANGE}};
    part = "whole start_user";
    for (size_t i = 2; i < sizeof file; i++) file[i] = (uint8_t)any();
    for (size_t i = 0; i < sizeof files / sizeof *files; i++) {
        const size_t words = files[i].refusal == 0 ? files[i].words : 0;
        fill_memory();
        keep_buffers();
        lc3_started got = lc3_start_user(file, 2 + 2 * files[i].words, memory, WORDS, 0x8765);
        for (size_t k = 0; k < words; k++) {
            wanted_memory[0x3000 + k] = (uint16_t)(file[2 + 2 * k] << 8 | file[3 + 2 * k]);
        }
        check_record(&got.record, files[i].refusal == 0 ? &user : &no_record);
        CHECK(got.words, words);
        CHECK(got.refusal, files[i].refusal);
        check_buffers();
    }
}

/*
 * A file that replaces the word by which the access exception finds its routine, and has that routine
 * show the answer at x2000 and halt: lc3_start loads it, lc3_start_user does not.
 */
static void test_attack(void) {
    static const uint8_t file[] = {0x01, 0x02, 0x01, 0x03, 0xA0, 0x02, 0xB0, 0x02, 0x0E, 0x02, 0x20,
                                   0x00, 0xFE, 0x06, 0x52, 0x60, 0xB2, 0x01, 0x0F, 0xFF, 0xFF, 0xFE};
    for (uint16_t answer = 'A'; answer <= 'B'; answer++) {
        part = "attack";
        clear_buffers();
        CHECK(lc3_monitor(memory, WORDS), LC3_ACCEPTED);
        memory[0x2000] = answer;
        keep_buffers();
        CHECK(lc3_start_user(file, sizeof file, memory, WORDS, 0xFDFF).refusal, LC3_REFUSED_USER);
        check_buffers();
        arguments c = usual();
        c.record = lc3_start(file, sizeof file, memory, WORDS, true, 0xFDFF).record;
        c.n = 100;
        lc3_answer a = run(&c);
        CHECK(a.stop, LC3_HALTED);
        CHECK(a.shown, 1);
        CHECK(output[0], answer);
    }
}

static void test_save(void) {
    clear_buffers();
    memory[0xFFFF] = 0x1234;
    keep_buffers();
    check_save("memory too short", WORDS - 1, 0xFFFF, 2, 0, (lc3_counted){0, LC3_REFUSED_MEMORY});
    check_save("range too long", WORDS, 0xFFFF, 2, 0, (lc3_counted){0, LC3_REFUSED_RANGE});
    check_save("output too short", WORDS, 0xFFFF, 1, 3, (lc3_counted){0, LC3_REFUSED_OUTPUT});
    memcpy(wanted_output, "\xFF\xFF", 2);
    check_save("range without words", WORDS, 0xFFFF, 0, 2, (lc3_counted){2, LC3_ACCEPTED});
    memcpy(wanted_output, "\xFF\xFF\x12\x34", 4);
    check_save("range to the end", WORDS, 0xFFFF, 1, OUTPUT, (lc3_counted){4, LC3_ACCEPTED});
}

/* Lines of each shape, at every length of output from none to one byte too many. */
static void test_line(void) {
    part = "line";
    static const struct {
        uint16_t word;
        const char *line;
    } lines[] = {
        {0x14E7, "ADD R2, R3, #7\n"},
        {0x5042, "AND R0, R1, R2\n"},
        {0x6BE0, "LDR R5, R7, #-32\n"},
        {0x0E00, "BRnzp #0\n"},
        {0x0BFF, "BRnp #-1\n"},
        {0x09FF, "BRn #-1\n"},
        {0x0A00, "BRnp #0\n"},
        {0x0005, ".FILL x0005\n"},
        {0x4C00, "JSR #-1024\n"},
        {0x40C0, "JSRR R3\n"},
        {0xC1C0, "RET\n"},
        {0xC080, "JMP R2\n"},
        {0x8000, "RTI\n"},
        {0x8001, ".FILL x8001\n"},
        {0x9AFF, "NOT R5, R3\n"},
        {0xEF00, "LEA R7, #-256\n"},
        {0xF0AB, "TRAP xAB\n"},
        {0xDEAD, ".FILL xDEAD\n"},
    };
    for (size_t i = 0; i < sizeof lines / sizeof *lines; i++) {
        size_t length = strlen(lines[i].line);
        CHECK(lc3_line_length(lines[i].word), length);
        for (size_t lent = 0; lent <= LC3_MAX_LINE; lent++) {
            uint8_t text[LC3_MAX_LINE + 1], wanted[LC3_MAX_LINE + 1];
            memset(text, UNSHOWN, sizeof text);
            memset(wanted, UNSHOWN, sizeof wanted);
            if (length <= lent) memcpy(wanted, lines[i].line, length);
            lc3_counted counted = lc3_line(lines[i].word, text, lent);
            CHECK(counted.count, length <= lent ? length : 0);
            CHECK(counted.refusal, length <= lent ? LC3_ACCEPTED : LC3_REFUSED_OUTPUT);
            CHECK(memcmp(text, wanted, sizeof text), 0);
        }
    }
}

static void check_page(const char *name, size_t memory_len, uint16_t first, size_t count,
                       size_t room, lc3_counted wanted) {
    part = name;
    lc3_counted got = lc3_page(memory, memory_len, first, count, output, room);
    CHECK(got.count, wanted.count);
    CHECK(got.refusal, wanted.refusal);
    check_buffers();
}

/* Pages at the boundaries of the refusals, and one that ends with memory. */
static void test_page(void) {
    clear_buffers();
    memory[0xFFFE] = 0xC1C0;
    memory[0xFFFF] = 0x8000;
    keep_buffers();
    check_page("page: memory too short", WORDS - 1, 0xFFFF, SIZE_MAX, 0,
               (lc3_counted){0, LC3_REFUSED_MEMORY});
    check_page("page: range too long", WORDS, 0xFFFF, 2, 0, (lc3_counted){0, LC3_REFUSED_PAGE});
    check_page("page: sum wraps", WORDS, 1, SIZE_MAX, 8, (lc3_counted){0, LC3_REFUSED_PAGE});
    check_page("page: output too short", WORDS, 0xFFFE, 2, 7,
               (lc3_counted){0, LC3_REFUSED_OUTPUT});
    check_page("page without lines", WORDS, 0xFFFF, 0, 0, (lc3_counted){0, LC3_ACCEPTED});
    memcpy(wanted_output, "RET\nRTI\n", 8);
    check_page("page to the end", WORDS, 0xFFFE, 2, 8, (lc3_counted){8, LC3_ACCEPTED});
}

/* ---- The monitor ---- */

/* The address that the vector word at a has to hold. */
static uint16_t vector_word(const lc3_routines *r, size_t a) {
    const uint16_t services[] = {r->getc, r->out, r->puts, r->input, r->putsp, r->halt};
    if (0x20 <= a && a <= 0x25) return services[a - 0x20];
    if (a < 0x100) return r->trap;
    return a < 0x103 ? r->exception : r->interrupt;
}

/* Vector words for random routines, at the lengths of output around their own. */
static void test_vectors(void) {
    part = "vectors";
    static const size_t lengths[] = {0, 1, LC3_VECTOR_WORDS - 1, LC3_VECTOR_WORDS,
                                     LC3_VECTOR_WORDS + 1, WORDS};
    for (size_t i = 0; i < sizeof lengths / sizeof *lengths; i++) {
        lc3_routines r = {any(), any(), any(), any(), any(), any(), any(), any(), any()};
        bool fits = lengths[i] >= LC3_VECTOR_WORDS;
        fill_memory();
        keep_buffers();
        for (size_t a = 0; fits && a < LC3_VECTOR_WORDS; a++) wanted_memory[a] = vector_word(&r, a);
        CHECK(lc3_vectors(r, memory, lengths[i]), fits ? LC3_ACCEPTED : LC3_REFUSED_OUTPUT);
        check_buffers();
    }
}

/* The monitor's own words, and no other word of memory; other sizes of memory are refused. */
static void test_monitor(void) {
    part = "monitor";
    fill_memory();
    keep_buffers();
    CHECK(lc3_monitor(memory, 0), LC3_REFUSED_MEMORY);
    CHECK(lc3_monitor(memory, WORDS - 1), LC3_REFUSED_MEMORY);
    CHECK(lc3_monitor(memory, WORDS + 1), LC3_REFUSED_MEMORY);
    check_buffers();
    CHECK(lc3_monitor(memory, WORDS), LC3_ACCEPTED);
    CHECK(lc3_vectors(lc3_monitor_routines(), wanted_memory, WORDS), LC3_ACCEPTED);
    CHECK(memcmp(memory, wanted_memory, LC3_VECTOR_WORDS * sizeof *memory), 0);
    CHECK(memory[LC3_VECTOR_WORDS], 0xA07F); /* GETC's LDI R0, KBSR */
    CHECK(memory[LC3_MONITOR_WORDS - 2], 0x000A); /* the end of HALT's message */
    CHECK(memory[LC3_MONITOR_WORDS - 1], 0x0000);
    CHECK(memcmp(memory + LC3_MONITOR_WORDS, wanted_memory + LC3_MONITOR_WORDS,
                 (WORDS + 1 - LC3_MONITOR_WORDS) * sizeof *memory), 0);
}

/* A claim about a monitor of one RTI, x0200, and of the word after it, with its one state each. */
static uint8_t kinds[0x0202];
static uint16_t watched[LC3_WATCHED_WORDS + 1], stack_start;
static uint32_t ends[2], table[2 * LC3_STATE_NUMBERS];

static void claim(void) {
    fill_memory();
    for (size_t a = 0; a < 0x0200; a++) memory[a] = 0x0200;
    memory[0x0200] = memory[0x0201] = 0x8000;
    for (size_t a = 0; a < sizeof kinds; a++) kinds[a] = 1;
    for (size_t i = 0; i < sizeof table / sizeof *table; i++) table[i] = 0x10000; /* some value */
    table[6] = table[6 + LC3_STATE_NUMBERS] = 0x22FFE;                            /* R6 is x2FFE */
    table[8] = table[8 + LC3_STATE_NUMBERS] = 0;                                  /* the codes */
    ends[0] = 1;
    ends[1] = 2;
    stack_start = 0x2FFE;
}

static void check_claim(size_t watched_len, uint32_t finding, uint32_t address, uint32_t state) {
    keep_buffers();
    lc3_certified found =
        lc3_certify(memory, WORDS, kinds, sizeof kinds, stack_start, watched, watched_len, ends, 2,
                    table, sizeof table / sizeof *table);
    CHECK(found.finding, finding);
    CHECK(found.address, address);
    CHECK(found.state, state);
    check_buffers();
}

/* The claim is certified, and each finding is met once it is altered. */
static void test_certify(void) {
    part = "certify";
    claim();
    check_claim(LC3_WATCHED_WORDS, LC3_CERTIFIED, 0, 0);
    check_claim(LC3_WATCHED_WORDS - 1, LC3_WRONG_WATCHED, 0, 0);
    check_claim(LC3_WATCHED_WORDS + 1, LC3_WRONG_WATCHED, 0, 0);
    stack_start = 0x0202 + 3;
    check_claim(LC3_WATCHED_WORDS, LC3_WRONG_ROOM, 0, 0);
    stack_start = 0x2FFF;
    check_claim(LC3_WATCHED_WORDS, LC3_WRONG_ROOM, 0, 0);
    claim();
    memory[0x0102] = 0x0300;
    check_claim(LC3_WATCHED_WORDS, LC3_WRONG_VECTOR, 0x0102, 0);
    claim();
    memory[0x0181] = 0x01FF;
    check_claim(LC3_WATCHED_WORDS, LC3_WRONG_INTERRUPT, 0x0181, 0);
    claim();
    kinds[0x0201] = 2;
    check_claim(LC3_WATCHED_WORDS, LC3_WRONG_WORD, 0x0201, 1);
    claim();
    table[6 + LC3_STATE_NUMBERS] = 0x22FFF;
    check_claim(LC3_WATCHED_WORDS, LC3_WRONG_STACK, 0x0201, 1);
    claim();
    memory[0x0201] = 0xD000;
    check_claim(LC3_WATCHED_WORDS, LC3_WRONG_INSTRUCTION, 0x0201, 1);
}

/* HALT, called by a program in User mode. */
static void test_halt(void) {
    part = "halt";
    clear_buffers();
    CHECK(lc3_monitor(memory, WORDS), LC3_ACCEPTED);
    static const uint8_t file[] = {0x30, 0x00, 0xF0, 0x25};
    arguments c = usual();
    c.record = lc3_start(file, sizeof file, memory, WORDS, true, 0xFDFF).record;
    c.n = 1000;
    lc3_answer a = run(&c);
    CHECK(a.stop, LC3_HALTED);
    CHECK(a.shown, 7);
    CHECK(memcmp(output, "Halted\n", 7), 0);
}

int main(void) {
    test_version();
    test_examples();
    test_refusals();
    test_done();
    test_halted();
    test_output_full();
    test_room_again();
    test_busy();
    test_timer();
    test_keys();
    test_step_is_run();
    test_steps_are_run();
    test_long_is_run();
    test_long_of_altered_code();
    test_logged_is_run();
    test_log_full();
    test_second_edition();
    test_next_step();
    test_read();
    test_write();
    test_line();
    test_page();
    test_refused_start();
    test_start();
    test_start_user();
    test_refused_start_user();
    test_whole_start_user();
    test_attack();
    test_save();
    test_vectors();
    test_certify();
    test_monitor();
    test_halt();
    printf("interface: %lu checks, %lu failures\n", checks, failures);
    return failures != 0;
}
