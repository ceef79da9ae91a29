/*
 * The programs that are timed and counted: most are words from x3000 up, in User mode, all without
 * end. TRAP x25 leads to an RTI at x0200, TRAP x20 to a routine that waits for a key, TRAP x21 to
 * one that waits for the display and shows a byte, TRAP x22 to one that needs no device, the
 * timer's interrupt to one that clears ready. Two programs have the ready-made monitor instead.
 */
#ifndef PROGRAMS_H
#define PROGRAMS_H

#include <fanthrig/lc3.h>

#include <string.h>

/* Counting loops: immediate ADD and BR alone. */
static const uint16_t count_words[] = {
    0x5020, /* START   AND    R0, R0, #0 */
    0x2207, /*         LD     R1, OUTER */
    0x2407, /* TURN    LD     R2, INNER */
    0x1021, /* NEXT    ADD    R0, R0, #1 */
    0x14BF, /*         ADD    R2, R2, #-1 */
    0x03FD, /*         BRp    NEXT */
    0x127F, /*         ADD    R1, R1, #-1 */
    0x03FA, /*         BRp    TURN */
    0x0FF7, /*         BRnzp  START */
    0x012C, /* OUTER   .FILL  #300 */
    0x03E8, /* INNER   .FILL  #1000 */
};

/* Memory copy: a load and a store each turn. */
static const uint16_t copy_words[] = {
    0x2009, /* START   LD     R0, FROM */
    0x2209, /*         LD     R1, TO */
    0x2409, /*         LD     R2, LENGTH */
    0x6600, /* NEXT    LDR    R3, R0, #0 */
    0x7640, /*         STR    R3, R1, #0 */
    0x1021, /*         ADD    R0, R0, #1 */
    0x1261, /*         ADD    R1, R1, #1 */
    0x14BF, /*         ADD    R2, R2, #-1 */
    0x03FA, /*         BRp    NEXT */
    0x0FF6, /*         BRnzp  START */
    0x4000, /* FROM    .FILL  x4000 */
    0x6000, /* TO      .FILL  x6000 */
    0x0FA0, /* LENGTH  .FILL  #4000 */
};

/* Sieve of Eratosthenes below 5000, a word for each number: irregular branches. */
static const uint16_t sieve_words[] = {
    0x201C, /* START   LD     R0, FLAGS */
    0x221C, /*         LD     R1, LIMIT */
    0x54A0, /*         AND    R2, R2, #0 */
    0x7400, /* CLEAR   STR    R2, R0, #0 */
    0x1021, /*         ADD    R0, R0, #1 */
    0x127F, /*         ADD    R1, R1, #-1 */
    0x03FC, /*         BRp    CLEAR */
    0x56E0, /*         AND    R3, R3, #0 */
    0x16E2, /*         ADD    R3, R3, #2 */
    0x2013, /* PRIME   LD     R0, FLAGS */
    0x1003, /*         ADD    R0, R0, R3 */
    0x6800, /*         LDR    R4, R0, #0 */
    0x0A0B, /*         BRnp   AFTER */
    0x1AC3, /*         ADD    R5, R3, R3 */
    0x2210, /* STRIKE  LD     R1, MINUS */
    0x1245, /*         ADD    R1, R1, R5 */
    0x0607, /*         BRzp   AFTER */
    0x200B, /*         LD     R0, FLAGS */
    0x1005, /*         ADD    R0, R0, R5 */
    0x5920, /*         AND    R4, R4, #0 */
    0x1921, /*         ADD    R4, R4, #1 */
    0x7800, /*         STR    R4, R0, #0 */
    0x1B43, /*         ADD    R5, R5, R3 */
    0x0FF6, /*         BRnzp  STRIKE */
    0x16E1, /* AFTER   ADD    R3, R3, #1 */
    0x2205, /*         LD     R1, MINUS */
    0x1243, /*         ADD    R1, R1, R3 */
    0x09ED, /*         BRn    PRIME */
    0x0FE3, /*         BRnzp  START */
    0x4000, /* FLAGS   .FILL  x4000 */
    0x1388, /* LIMIT   .FILL  #5000 */
    0xEC78, /* MINUS   .FILL  #-5000 */
};

/* Calls: JSR and RET, TRAP into Supervisor mode and RTI out of it, pointers. */
static const uint16_t calls_words[] = {
    0xE20A, /* START   LEA    R1, CELL */
    0x4806, /*         JSR    ADDS */
    0xF025, /*         TRAP   x25 */
    0xB008, /*         STI    R0, PLACE */
    0xA407, /*         LDI    R2, PLACE */
    0x5881, /*         AND    R4, R2, R1 */
    0x993F, /*         NOT    R4, R4 */
    0x0FF8, /*         BRnzp  START */
    0x1023, /* ADDS    ADD    R0, R0, #3 */
    0x3001, /*         ST     R0, CELL */
    0xC1C0, /*         RET */
    0x0000, /* CELL    .FILL  #0 */
    0x4E20, /* PLACE   .FILL  x4E20 */
};

/* Waiting for a key that never comes: every second step loads a device register. */
static const uint16_t poll_words[] = {
    0xF020, /*         TRAP   x20 */
};

static const uint16_t getc_words[] = {
    0xA002, /* WAIT    LDI    R0, KBSR */
    0x07FE, /*         BRzp   WAIT */
    0x8000, /*         RTI */
    0xFE00, /* KBSR    .FILL  xFE00 */
};

/* Byte after byte: most steps are those of the wait for the display. */
static const uint16_t show_words[] = {
    0xF021, /* AGAIN   TRAP   x21 */
    0x0FFE, /*         BRnzp  AGAIN */
};

static const uint16_t out_words[] = {
    0xA203, /* WAIT    LDI    R1, DSR */
    0x07FE, /*         BRzp   WAIT */
    0xB002, /*         STI    R0, DDR */
    0x8000, /*         RTI */
    0xFE04, /* DSR     .FILL  xFE04 */
    0xFE06, /* DDR     .FILL  xFE06 */
};

/* What a timer's interrupt needs at the least. */
static const uint16_t timer_words[] = {
    0x1DBF, /*         ADD    R6, R6, #-1 */
    0x7180, /*         STR    R0, R6, #0 */
    0xA003, /*         LDI    R0, TSR */
    0x6180, /*         LDR    R0, R6, #0 */
    0x1DA1, /*         ADD    R6, R6, #1 */
    0x8000, /*         RTI */
    0xFE08, /* TSR     .FILL  xFE08 */
};

/* A loop that rewrites itself: of two instructions it puts one and the other into its way. */
static const uint16_t self_words[] = {
    0x2207, /*         LD     R1, ONE */
    0x2407, /*         LD     R2, OTHER */
    0x3200, /* AGAIN   ST     R1, PLACE */
    0x16E0, /* PLACE   ADD    R3, R3, #0 */
    0x1060, /*         ADD    R0, R1, #0 */
    0x12A0, /*         ADD    R1, R2, #0 */
    0x1420, /*         ADD    R2, R0, #0 */
    0x0FFA, /*         BRnzp  AGAIN */
    0x16E1, /* ONE     ADD    R3, R3, #1 */
    0x16FF, /* OTHER   ADD    R3, R3, #-1 */
};

/* Four steps in each page of User memory: a copy stands in each, whose NEXT is the next copy. */
static const uint16_t wander_words[] = {
    0x1021, /*         ADD    R0, R0, #1 */
    0x1480, /*         ADD    R2, R2, R0 */
    0x2201, /*         LD     R1, NEXT */
    0xC040, /*         JMP    R1 */
    0x3000, /* NEXT    .FILL  x3000 */
};

/* To a routine and back all the time, as a program that shows a text; but without a device. */
static const uint16_t outs_words[] = {
    0xF022, /* AGAIN   TRAP   x22 */
    0x1021, /*         ADD    R0, R0, #1 */
    0x0FFD, /*         BRnzp  AGAIN */
};

static const uint16_t service_words[] = {
    0x1DBF, /*         ADD    R6, R6, #-1 */
    0x7180, /*         STR    R0, R6, #0 */
    0x1DBF, /*         ADD    R6, R6, #-1 */
    0x7380, /*         STR    R1, R6, #0 */
    0x927F, /*         NOT    R1, R1 */
    0x526F, /*         AND    R1, R1, #15 */
    0x1201, /*         ADD    R1, R0, R1 */
    0x6380, /*         LDR    R1, R6, #0 */
    0x1DA1, /*         ADD    R6, R6, #1 */
    0x6180, /*         LDR    R0, R6, #0 */
    0x1DA1, /*         ADD    R6, R6, #1 */
    0x8000, /*         RTI */
};

/* The end of memory, xFF80 to xFFFF, in Supervisor mode: a fetch reaches the words at xFFFC and
 * xFFFE, though a load would reach device registers. */
static const uint16_t last_words[] = {
    0x5020,         /* xFF80   AND    R0, R0, #0 */
    0x1021,         /* AGAIN   ADD    R0, R0, #1 */
    0x1280,         /*         ADD    R1, R2, R0 */
    0x0E74,         /*         BRnzp  END */
    [120] = 0x14A1, /* END     ADD    R2, R2, #1 */
    0x5680,         /*         AND    R3, R2, R0 */
    0x98FF,         /*         NOT    R4, R3 */
    0x16C4,         /*         ADD    R3, R3, R4 */
    0x1B7F,         /* xFFFC   ADD    R5, R5, #-1 */
    0x1B61,         /*         ADD    R5, R5, #1 */
    0x1021,         /* xFFFE   ADD    R0, R0, #1 */
    0x0F81,         /* xFFFF   BRnzp  AGAIN */
};

/* A text of 60 characters, shown again and again by the ready-made monitor. */
static const uint16_t hello_words[] = {
    0xE002, /* START   LEA    R0, TEXT */
    0xF022, /*         PUTS */
    0x0FFD, /*         BRnzp  START */
    /* TEXT    .STRINGZ */
    'T', 'h', 'e', ' ', 'q', 'u', 'i', 'c', 'k', ' ', 'b', 'r', 'o', 'w', 'n',
    ' ', 'f', 'o', 'x', ' ', 'j', 'u', 'm', 'p', 's', ' ', 'o', 'v', 'e', 'r',
    ' ', 'a', ' ', 'l', 'a', 'z', 'y', ' ', 'd', 'o', 'g', ' ', 'a', 'n', 'd',
    ' ', 't', 'h', 'e', 'n', ' ', 'i', 't', ' ', 's', 'l', 'e', 'e', 'p', 's',
    0,
};

/* Every key is shown, by the ready-made monitor: most steps are those of the wait for a key. */
static const uint16_t echo_words[] = {
    0xF020, /* AGAIN   GETC */
    0xF021, /*         OUT */
    0x0FFD, /*         BRnzp  AGAIN */
};

/* A byte takes ten steps or more, and a key comes every TYPING steps to a program that takes keys. */
enum { MOST_SHOWN = LC3_MAX_STEPS / 10, TYPING = 100, MOST_KEYS = LC3_MAX_STEPS / TYPING + 1 };

typedef struct {
    const char *name;
    const uint16_t *words;
    size_t length;
    uint16_t origin;
    bool user;
    uint16_t interval; /* of the timer, which interrupts; 0 where it is off */
    uint16_t spacing;  /* from copy to copy, up to the end of User memory; 0 where there is one */
    bool monitor;      /* the ready-made one */
    bool typed;        /* keys come */
} program;

#define WORDS_OF(name) name##_words, sizeof name##_words / sizeof *name##_words
#define USUAL 0x3000, true

static const program programs[] = {
    {"count", WORDS_OF(count), USUAL, 0, 0, false, false},
    {"timer", WORDS_OF(count), USUAL, 1000, 0, false, false},
    {"copy", WORDS_OF(copy), USUAL, 0, 0, false, false},
    {"sieve", WORDS_OF(sieve), USUAL, 0, 0, false, false},
    {"self", WORDS_OF(self), USUAL, 0, 0, false, false},
    {"calls", WORDS_OF(calls), USUAL, 0, 0, false, false},
    {"outs", WORDS_OF(outs), USUAL, 0, 0, false, false},
    {"wander", WORDS_OF(wander), USUAL, 0, 256, false, false},
    {"last", WORDS_OF(last), 0xFF80, false, 0, 0, false, false},
    {"poll", WORDS_OF(poll), USUAL, 0, 0, false, false},
    {"show", WORDS_OF(show), USUAL, 0, 0, false, false},
    {"hello", WORDS_OF(hello), USUAL, 0, 0, true, false},
    {"echo", WORDS_OF(echo), USUAL, 0, 0, true, true},
};

enum { PROGRAMS = sizeof programs / sizeof *programs };

/* The vectors and routines of traps and timer, in memory that is otherwise cleared. */
static inline void put_routines(uint16_t *memory) {
    memset(memory, 0, LC3_MEMORY_WORDS * sizeof *memory);
    memory[0x0025] = 0x0200;
    memory[0x0200] = 0x8000; /* RTI */
    memory[0x0020] = 0x0210;
    memcpy(memory + 0x0210, getc_words, sizeof getc_words);
    memory[0x0021] = 0x0220;
    memcpy(memory + 0x0220, out_words, sizeof out_words);
    memory[0x0022] = 0x0240;
    memcpy(memory + 0x0240, service_words, sizeof service_words);
    memory[0x0181] = 0x0230;
    memcpy(memory + 0x0230, timer_words, sizeof timer_words);
}

/* Copies of a program throughout User memory. The last word of each is where the next begins. */
static inline void put_copies(uint16_t *memory, const program *p) {
    for (unsigned at = p->origin; at < 0xFE00; at += p->spacing) {
        unsigned next = at + p->spacing;
        memcpy(memory + at, p->words, p->length * sizeof *p->words);
        memory[at + p->length - 1] = next < 0xFE00 ? next : p->origin;
    }
}

/* Starts a program as the object file of its words. Answers the record to start with. */
static inline lc3_record start_program(uint16_t *memory, const program *p) {
    uint8_t file[2 + 2 * 128] = {p->origin >> 8, p->origin & 0xFF};
    for (size_t i = 0; i < p->length; i++) {
        file[2 + 2 * i] = p->words[i] >> 8;
        file[3 + 2 * i] = p->words[i] & 0xFF;
    }
    put_routines(memory);
    lc3_record record =
        lc3_start(file, 2 + 2 * p->length, memory, LC3_MEMORY_WORDS, p->user, 0xFDFF).record;
    if (p->spacing) put_copies(memory, p);
    if (p->monitor) lc3_monitor(memory, LC3_MEMORY_WORDS);
    record.timer_interval = record.timer_count = p->interval;
    if (p->interval) record.timer_status = LC3_TSR_INTERRUPT;
    return record;
}

/* The keys that come in so many steps from this clock on. Answers how many there are. */
static inline size_t type_keys(uint64_t clock, uint64_t steps, uint64_t *times, uint8_t *bytes) {
    size_t keys = 0;
    uint64_t first = (clock + TYPING - 1) / TYPING * TYPING;
    for (uint64_t time = first; time < clock + steps; time += TYPING) {
        times[keys] = time;
        bytes[keys++] = 'a' + time / TYPING % 26;
    }
    return keys;
}

#endif
