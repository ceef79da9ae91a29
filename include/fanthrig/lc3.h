/*
 * lc3.h: the LC-3 machine with privilege, interrupts, a console and a timer, for hosts in C and
 * C++. For x86-64 with the System V calling convention.
 *
 *   lc3_version  the version of the interface that the library was built for
 *   lc3_start    loads an object file into lent memory, and makes the record of a machine that is
 *                to run it; lc3_start_user does the same with a candidate's file, and replaces no
 *                word but User mode's
 *   lc3_run      runs up to n steps over lent memory; lc3_run_long does the same, faster for long
 *                sittings
 *   lc3_step     runs one step and alters the host's own record
 *   lc3_run_second, lc3_step_second   the same by the rules of the book's second edition
 *   lc3_run_logged   runs as lc3_run does, and logs for each step what it did and by which rule;
 *                lc3_run_logged_second as lc3_run_second does
 *   lc3_tell     tells what the next step of a run does, and makes none: by which rule, and which
 *                words of memory it takes and stores to; lc3_tell_second the same by the rules of
 *                the second edition
 *   lc3_read     reads a word as an instruction, and tells which fixed bits are wrong
 *   lc3_write    writes an instruction as a word
 *   lc3_line     writes a word as a line of text; lc3_line_length counts its bytes
 *   lc3_page     writes the words of a range of lent memory as lines of text
 *   lc3_save     writes an object file from a range of lent memory
 *   lc3_monitor  puts the ready-made monitor into lent memory; lc3_monitor_routines says where
 *                its routines are
 *   lc3_vectors  writes the vector words for the routines of any monitor
 *   lc3_certify  tests a claim about any monitor: where it holds, a sitting beside it tells nothing
 *                of the secret words
 *
 * What a host owes and may rely on:
 *
 * - The library keeps nothing. Buffers are lent for the length of the call; it holds no pointer
 *   after it, allocates nothing and has no state of its own.
 * - Buffers must be valid and must not overlap: memory, times, bytes, output, log, file, and the
 *   record lent to lc3_step. Each is a pointer and a number of elements (not bytes). The pointer
 *   must be valid for that many elements and aligned for them. An empty buffer takes any aligned
 *   pointer but NULL.
 * - Several threads may call at once. They may share what a call only reads, while nobody writes
 *   it: times and bytes of every run and step, file of a start, memory of lc3_page and lc3_save,
 *   all that lc3_tell and lc3_certify are lent. They may not share what a call writes: memory of
 *   every run and step, of a start and of lc3_monitor, every output, the log, and the record lent
 *   to a step.
 * - Every call returns. A malformed one is refused with a number that says why, and leaves every
 *   field of the record and every buffer as it was.
 * - Padding means nothing. The bytes of a struct that belong to no field may hold anything and may
 *   change in any call: compare structs field by field.
 *
 * Numbers with a leading x are hexadecimal. PSR, Saved_SSP, KBSR and the other terms are those of
 * Patt and Patel, Introduction to Computing Systems, third edition, Appendix A.
 */
#ifndef LC3_H
#define LC3_H

#include <stdbool.h>
#include <stddef.h>
#include <stdint.h>

#ifdef __cplusplus
extern "C" {
typedef bool lc3_bool;
#else
/* C89 has it as an extension. */
__extension__ typedef _Bool lc3_bool;
#endif

/*
 * The version of this interface. It rises by 1 whenever the layout of a struct or the meaning of a
 * call changes. The name that the shared library is loaded by (its SONAME) ends in it, as in
 * libfanthrig.so.7, so that no host loads another version than the one it was built for.
 */
#define LC3_VERSION 7

/* Sizes and limits. */
#define LC3_MEMORY_WORDS 65536            /* words of memory: no other number is accepted */
#define LC3_MAX_STEPS 1048576             /* steps of one call; a longer run is several calls */
#define LC3_MAX_CLOCK (UINT64_C(1) << 48) /* the clock never passes this */
#define LC3_MAX_BUSY 8                    /* steps for which the display is busy after a byte */
#define LC3_MAX_LINE 17                   /* bytes of the longest line, its line feed included */
#define LC3_LOG_WORDS 3                   /* words of one step in a log */
#define LC3_VECTOR_WORDS 512              /* the vector words, x0000 to x01FF */
#define LC3_MONITOR_WORDS 677             /* the words of the ready-made monitor, x0000 to x02A4 */
#define LC3_WATCHED_WORDS 8               /* the watched words of a claim about a monitor */
#define LC3_STATE_NUMBERS 17              /* the numbers of one state in its table */

/* Bits of the PSR. No other bit may be set in a record; any pattern of N, Z, P is allowed. */
#define LC3_PSR_USER 0x8000     /* set in User mode, clear in Supervisor mode */
#define LC3_PSR_PRIORITY 0x0700 /* level 0 to 7; keyboard interrupts below 4, timer's below 6 */
#define LC3_PSR_N 0x0004
#define LC3_PSR_Z 0x0002
#define LC3_PSR_P 0x0001

/* Bits of the device registers. No other bit may be set in a record. */
#define LC3_KBSR_READY 0x8000     /* a key has arrived and KBDR has not been loaded since */
#define LC3_KBSR_INTERRUPT 0x4000 /* interrupt enable */
#define LC3_KBDR_BYTE 0x00FF      /* the last key */
#define LC3_MCR_CLOCK 0x8000      /* clock enable; a machine with this bit clear is halted */
#define LC3_TSR_READY 0x8000      /* the interval has passed and TSR has not been loaded since */
#define LC3_TSR_INTERRUPT 0x4000  /* interrupt enable */

/*
 * Addresses of the device registers: privileged, as are all of x0000 to x2FFF, xFE00 to xFFFF.
 *
 * The display takes its time. After a step that shows a byte it is busy for LC3_MAX_BUSY steps, of
 * whatever kind: meanwhile a load of the DSR gives 0 instead of x8000, and a byte stored to the DDR
 * is lost. A program that is to lose none waits until the DSR is negative, as the routines of the
 * ready-made monitor do.
 *
 * The timer makes preemption possible. A store to the TIR sets its interval, in steps, and starts
 * it anew; 0 turns it off. Each time that the interval has passed, the ready bit of the TSR is set.
 * If interrupts are enabled there too, and the priority is below 6, that very step is the interrupt
 * by word x0181, with priority 6; where the keyboard may interrupt as well, the timer goes first. A
 * load of the TSR clears ready; until then the timer interrupts again as soon as the priority lets
 * it.
 */
#define LC3_ADDRESS_KBSR 0xFE00
#define LC3_ADDRESS_KBDR 0xFE02
#define LC3_ADDRESS_DSR 0xFE04
#define LC3_ADDRESS_DDR 0xFE06
#define LC3_ADDRESS_TSR 0xFE08 /* timer status: ready, which a load clears, and interrupt enable */
#define LC3_ADDRESS_TIR 0xFE0A /* timer interval */
#define LC3_ADDRESS_PSR 0xFFFC
#define LC3_ADDRESS_MCR 0xFFFE

/*
 * Why a call was refused. Where several reasons apply, the first in the call's own order is
 * answered:
 *
 *   lc3_write           1, 2, 3
 *   lc3_run, lc3_step   11, 12, 13, 14, then 15 and 19 together, entry by entry; lc3_run_long,
 *                       lc3_run_logged, lc3_tell and the calls by the second edition likewise
 *   lc3_line            16
 *   lc3_page            11, 20, 16
 *   lc3_start           11, 17, 18; lc3_start_user 11, 17, 18, 21
 *   lc3_save            11, 18, 16
 *   lc3_monitor         11
 *   lc3_vectors         16
 */
enum {
    LC3_ACCEPTED = 0,
    LC3_REFUSED_REGISTER = 1, /* a register is above 7 */
    LC3_REFUSED_FIELD = 2,    /* a value is out of its field's range, or the kind is unknown */
    LC3_REFUSED_MASK = 3,     /* the mask of a BR is above 7 */
    LC3_REFUSED_MEMORY = 11,  /* memory is not LC3_MEMORY_WORDS words */
    LC3_REFUSED_RECORD = 12,  /* an undefined bit or a count out of range: see lc3_record */
    LC3_REFUSED_STEPS = 13,   /* n is above LC3_MAX_STEPS, or clock + n above LC3_MAX_CLOCK */
    LC3_REFUSED_LISTS = 14,   /* times and bytes differ in length */
    LC3_REFUSED_TIME = 15,    /* times[index] is below the clock */
    LC3_REFUSED_OUTPUT = 16,  /* the line, page, file or vector words do not fit the output */
    LC3_REFUSED_FILE = 17,    /* the file has an odd number of bytes, or fewer than two */
    LC3_REFUSED_RANGE = 18,   /* origin + words is above LC3_MEMORY_WORDS */
    LC3_REFUSED_ORDER = 19,   /* times[index] is below the time before it, not below the clock */
    LC3_REFUSED_PAGE = 20,    /* first + count is above LC3_MEMORY_WORDS */
    LC3_REFUSED_USER = 21     /* the origin or a word of the file is outside x3000 to xFDFF */
};

/*
 * Why a run stopped. The reasons are tested before each step, in the order of their numbers but for
 * LC3_LOG_FULL; nothing of the next step, not even the arrival of its keys, has happened.
 *
 * LC3_DONE comes first, so a machine that halts in the last step that was asked for answers
 * LC3_DONE with the MCR's clock enable clear. A host that has come to its own limit of steps asks
 * the record: the machine is halted if (record.mcr & LC3_MCR_CLOCK) == 0.
 */
enum {
    LC3_DONE = 0,        /* n steps were made */
    LC3_HALTED = 1,      /* the MCR's clock enable is clear */
    LC3_OUTPUT_FULL = 2, /* the next step shows a byte and the output has no free one */
    LC3_LOG_FULL = 3     /* fewer than LC3_LOG_WORDS words of the log are free: logged runs
                            alone, tested between LC3_HALTED and LC3_OUTPUT_FULL */
};

/* The reason in a log: by which rule a step was made. */
enum {
    LC3_REASON_INSTRUCTION = 0, /* an instruction, obeyed to its end */
    LC3_REASON_TRAP = 1,        /* the entry for a TRAP */
    LC3_REASON_PRIVILEGE = 2,   /* the exception of an RTI in User mode */
    LC3_REASON_ILLEGAL = 3,     /* the exception of the reserved opcode */
    LC3_REASON_ACCESS = 4,      /* the exception of an access to a privileged address */
    LC3_REASON_KEYBOARD = 5,    /* the keyboard's interrupt */
    LC3_REASON_TIMER = 6        /* the timer's interrupt */
};

/*
 * The machine, apart from its memory. A host may read and alter every field between calls.
 *
 * A run refuses it with LC3_REFUSED_RECORD where psr, kbsr, kbdr, mcr or timer_status has a bit that
 * is not named above, busy is above LC3_MAX_BUSY, timer_count is above timer_interval, or 0 while
 * that is not, or clock is above LC3_MAX_CLOCK.
 */
typedef struct {
    uint16_t regs[8];        /* R0 to R7 */
    uint16_t pc;             /* address of the next instruction */
    uint16_t psr;            /* mode, priority and condition codes */
    uint16_t saved_ssp;      /* supervisor stack pointer, kept while in User mode */
    uint16_t saved_usp;      /* user stack pointer, kept while in Supervisor mode */
    uint16_t kbsr;           /* keyboard status */
    uint16_t kbdr;           /* keyboard data */
    uint16_t mcr;            /* machine control */
    uint16_t busy;           /* steps until the display is ready, 0 to LC3_MAX_BUSY; 0 is ready */
    uint16_t timer_status;   /* timer status */
    uint16_t timer_interval; /* steps from one time that the timer is ready to the next; 0: off */
    uint16_t timer_count;    /* steps until the next: 1 to timer_interval; 0 where that is 0 */
    uint64_t clock;          /* steps made since the machine was fresh; padding stands before it */
} lc3_record;

/* What lc3_run answers. A refused call answers the record that it was handed, and zero counts. */
typedef struct {
    lc3_record record; /* the machine after the run */
    uint64_t steps;    /* steps made */
    uint64_t keys;     /* keys that arrived: how many leading entries of the lists */
    uint64_t shown;    /* bytes shown: how many leading bytes of the output */
    uint64_t index;    /* under 15 and 19 the first entry of times that is at fault; else 0 */
    uint32_t refusal;  /* LC3_ACCEPTED, LC3_REFUSED_MEMORY to LC3_REFUSED_TIME, LC3_REFUSED_ORDER */
    uint32_t stop;     /* LC3_DONE, LC3_HALTED or LC3_OUTPUT_FULL; 0 where refused */
} lc3_answer;

/* What lc3_step answers beside the record that it alters: the same fields with n = 1. */
typedef struct {
    uint64_t steps, keys, shown, index; /* steps is 1, or 0 where stopped or refused */
    uint32_t refusal, stop;
} lc3_report;

/*
 * What a logged run answers: the fields of lc3_answer, and the words written to the log, three
 * for each step made.
 */
typedef struct {
    lc3_record record;
    uint64_t steps, keys, shown;
    uint64_t logged; /* words written, from the log's start on; 0 where refused */
    uint64_t index;
    uint32_t refusal, stop; /* the stop may be LC3_LOG_FULL */
} lc3_logged_answer;

/* Addresses of words of memory: the first count of at, in the order of the step; the rest is 0. */
typedef struct {
    uint16_t count; /* 0 to 3 */
    uint16_t at[3];
} lc3_addresses;

/*
 * What lc3_tell answers. Where the call is refused, or the stop is LC3_HALTED, no step would be
 * made, and all that follows the stop is 0.
 */
typedef struct {
    uint64_t index;
    uint32_t refusal;     /* with index, as lc3_run answers them for n = 1 */
    uint32_t stop;        /* LC3_DONE, or LC3_HALTED */
    uint16_t word;        /* the word fetched, and the reason: as in a log */
    uint16_t reason;
    lc3_addresses reads;  /* the words that the step takes */
    lc3_addresses writes; /* the words that it stores to: at most two; padding follows */
} lc3_told;

/*
 * An instruction as numbers. First its kind, then registers a, b, c in the order in which the
 * book's assembler writes them, then the number that it carries. An empty place is answered as 0
 * by lc3_read and ignored by lc3_write.
 *
 *   kind                assembler            a      b      c      value
 *   LC3_BR              BRnzp LABEL          mask                 PCoffset9   -256 to 255
 *   LC3_ADD_REGISTER    ADD DR, SR1, SR2     DR     SR1    SR2
 *   LC3_ADD_IMMEDIATE   ADD DR, SR1, imm5    DR     SR1           imm5        -16 to 15
 *   LC3_LD              LD DR, LABEL         DR                   PCoffset9   -256 to 255
 *   LC3_ST              ST SR, LABEL         SR                   PCoffset9   -256 to 255
 *   LC3_JSR             JSR LABEL                                 PCoffset11  -1024 to 1023
 *   LC3_JSRR            JSRR BaseR           BaseR
 *   LC3_AND_REGISTER    AND DR, SR1, SR2     DR     SR1    SR2
 *   LC3_AND_IMMEDIATE   AND DR, SR1, imm5    DR     SR1           imm5        -16 to 15
 *   LC3_LDR             LDR DR, BaseR, off6  DR     BaseR         offset6     -32 to 31
 *   LC3_STR             STR SR, BaseR, off6  SR     BaseR         offset6     -32 to 31
 *   LC3_RTI             RTI
 *   LC3_NOT             NOT DR, SR           DR     SR
 *   LC3_LDI             LDI DR, LABEL        DR                   PCoffset9   -256 to 255
 *   LC3_STI             STI SR, LABEL        SR                   PCoffset9   -256 to 255
 *   LC3_JMP             JMP BaseR            BaseR                (RET is JMP R7)
 *   LC3_RESERVED        none, opcode 1101                         low 12 bits 0 to 4095
 *   LC3_LEA             LEA DR, LABEL        DR                   PCoffset9   -256 to 255
 *   LC3_TRAP            TRAP trapvect8                            trapvect8   0 to 255
 *
 * The mask of a BR is the sum of 4 for n, 2 for z and 1 for p.
 */
typedef struct {
    uint8_t kind;
    uint8_t a, b, c;
    int32_t value;
} lc3_instruction;

enum {
    LC3_BR,
    LC3_ADD_REGISTER,
    LC3_ADD_IMMEDIATE,
    LC3_LD,
    LC3_ST,
    LC3_JSR,
    LC3_JSRR,
    LC3_AND_REGISTER,
    LC3_AND_IMMEDIATE,
    LC3_LDR,
    LC3_STR,
    LC3_RTI,
    LC3_NOT,
    LC3_LDI,
    LC3_STI,
    LC3_JMP,
    LC3_RESERVED,
    LC3_LEA,
    LC3_TRAP
};

/* What lc3_certify finds wrong first. */
enum {
    LC3_CERTIFIED = 0,
    LC3_WRONG_WATCHED = 1,    /* watched is not LC3_WATCHED_WORDS words */
    LC3_WRONG_ROOM = 2,       /* the words and four more reach lowest, or lowest is above x2FFE */
    LC3_WRONG_VECTOR = 3,     /* x0000 to x0102: not a fixed word, or its entry is not covered */
    LC3_WRONG_INTERRUPT = 4,  /* x0180 or x0181: the same, or it does not lead to a lone RTI */
    LC3_WRONG_WORD = 5,       /* the table has a state for a word that is not fixed */
    LC3_WRONG_STACK = 6,      /* R6 is no known word of the stack, or a word below it is known */
    LC3_WRONG_INSTRUCTION = 7 /* the instruction is not allowed from the state, or leads to one that
                                 the table does not cover */
};

/* What lc3_certify answers. Where the finding names no word or no state, the number is 0. */
typedef struct {
    uint32_t finding; /* LC3_CERTIFIED, or what is wrong */
    uint32_t address; /* the word; 65,536 for a state of a row past xFFFF, which is of no word */
    uint32_t state;   /* the state, counted from 0 over all rows of the table */
} lc3_certified;

/* What lc3_read answers. */
typedef struct {
    lc3_instruction instruction;
    uint16_t mask; /* the fixed bits that are wrong; two bytes of padding follow */
} lc3_reading;

/* What lc3_write answers. */
typedef struct {
    uint16_t word;    /* 0 where refused */
    uint32_t refusal; /* LC3_ACCEPTED, or LC3_REFUSED_REGISTER to LC3_REFUSED_MASK */
} lc3_written;

/* What the starts answer. Where refused, every field of the record and the words are 0. */
typedef struct {
    lc3_record record; /* a fresh machine at the file's origin */
    uint32_t words;    /* words of the file, its origin not counted */
    uint32_t refusal;  /* LC3_ACCEPTED, LC3_REFUSED_MEMORY, LC3_REFUSED_FILE, LC3_REFUSED_RANGE or,
                          of lc3_start_user, LC3_REFUSED_USER */
} lc3_started;

/* What lc3_line, lc3_page and lc3_save answer, which write bytes to a lent output. */
typedef struct {
    uint64_t count;   /* bytes written; 0 where refused */
    uint32_t refusal; /* LC3_ACCEPTED, or why the call was refused */
} lc3_counted;

/* The addresses of a monitor's routines: what the words x0000 to x01FF of memory hold. */
typedef struct {
    uint16_t getc, out, puts, input, putsp, halt; /* TRAP x20 to x25; input is IN's */
    uint16_t trap;                                /* every other trap */
    uint16_t exception;                           /* privilege, illegal opcode, access */
    uint16_t interrupt;                           /* every other word of x0100 to x01FF */
} lc3_routines;

/*
 * The version of the interface that the library was built for. A host that loads the library at
 * run time compares it with its header's LC3_VERSION before any other call.
 */
uint32_t lc3_version(void);

/*
 * Loads an object file into memory and makes the record of a machine that is to run it.
 *
 * The file's first word is the origin, and the others are stored from there on; each is two bytes,
 * the high byte first. No other word of memory changes.
 *
 * The record has PC at the origin, User mode if user is true and Supervisor mode if not,
 * condition code Z, priority 0, clock 0 and the clock enabled. The supervisor stack begins at x3000
 * and the user stack at user_stack: R6 is the current mode's pointer, the other one is saved. All
 * else is 0. No run is refused for such a record, or for such a memory.
 *
 * A host with several files, such as a monitor, answers and a candidate's program, starts each, the
 * one that is to run last, and keeps the last record. A file of two bytes, an origin alone, starts
 * a machine at that address with nothing loaded.
 *
 * The file may lie anywhere, whatever the mode, even on vectors, the monitor's routines and the
 * examiner's words: user protects memory from the program's steps, not from its file. For a file
 * that is not trusted use lc3_start_user.
 */
lc3_started lc3_start(const uint8_t *file, size_t file_len, uint16_t *memory, size_t memory_len,
                      lc3_bool user, uint16_t user_stack);

/*
 * Starts a file that is not trusted, such as a candidate's: as lc3_start does it in User mode, but
 * the origin and every word of the file must lie in x3000 to xFDFF. No other file is loaded, so no
 * word of the monitor's, of the examiner's or behind a device register is replaced.
 *
 * Beside the ready-made monitor no program that is started so learns or changes a word of x02A5 to
 * x2FF9, or a lent word from xFE00 on, however long it is run from the record answered, by lc3_run,
 * lc3_run_long, lc3_step or lc3_run_logged: that is proved (crates/sitting/specs/HandedIn.antt).
 */
lc3_started lc3_start_user(const uint8_t *file, size_t file_len, uint16_t *memory,
                           size_t memory_len, uint16_t user_stack);

/*
 * Runs a machine for up to n steps. It stops earlier where the machine is halted or the output is
 * full.
 *
 * memory   65,536 words, altered in place. The words at the device addresses are never reached by
 *          loads and stores, but are by fetches, pushes, pops and vectors.
 * times    when each key is pressed, on the record's clock: none below it, none below the one
 *          before. Keys of equal time arrive in list order.
 * bytes    the keys, as many as times. A key that finds the one before it unread replaces it: KBDR
 *          holds one key.
 * output   takes the bytes shown, in order from the first; what lies after them is left as lent.
 *
 * To go on with a run, hand in the answered record, the same memory, the lists without their
 * first answer.keys keys, and an output with a free byte. A run that is divided in any such way
 * comes to what the undivided run comes to.
 */
lc3_answer lc3_run(lc3_record record, uint16_t *memory, size_t memory_len, const uint64_t *times,
                   size_t times_len, const uint8_t *bytes, size_t bytes_len, uint8_t *output,
                   size_t output_len, uint64_t n);

/*
 * Runs for long sittings: answers and leaves what lc3_run does, on every call. It keeps the
 * instructions of four pages of 256 words, read in advance. So it is faster, except for a program
 * that stays only a few steps in each of many pages. A call of fewer than 256 steps reads none in
 * advance.
 */
lc3_answer lc3_run_long(lc3_record record, uint16_t *memory, size_t memory_len,
                        const uint64_t *times, size_t times_len, const uint8_t *bytes,
                        size_t bytes_len, uint8_t *output, size_t output_len, uint64_t n);

/*
 * Runs one step on the host's own record. It does what lc3_run does with n = 1, and stores the
 * answered record in *record. A refused or stopped step leaves every field of *record as it was.
 */
lc3_report lc3_step(lc3_record *record, uint16_t *memory, size_t memory_len, const uint64_t *times,
                    size_t times_len, const uint8_t *bytes, size_t bytes_len, uint8_t *output,
                    size_t output_len);

/*
 * Runs as lc3_run does, and logs each step: what it did and by which rule. A step takes
 * LC3_LOG_WORDS words of the log, from its start on:
 *
 *   first    PC before the step
 *   second   the word fetched; 0 where none was, which is so at an interrupt and where the fetch
 *            itself raised the access exception
 *   third    the reason, LC3_REASON_INSTRUCTION to LC3_REASON_TIMER
 *
 * What lies after the words written is left as lent. Where fewer than LC3_LOG_WORDS words are free
 * the run stops before the next step with LC3_LOG_FULL. Apart from the log, the answer and all that
 * is left are those of lc3_run; with LC3_LOG_FULL they are those of lc3_run for answer.steps steps,
 * but for the stop. A logged step takes up to three times the instructions of one of lc3_run.
 */
lc3_logged_answer lc3_run_logged(lc3_record record, uint16_t *memory, size_t memory_len,
                                 const uint64_t *times, size_t times_len, const uint8_t *bytes,
                                 size_t bytes_len, uint8_t *output, size_t output_len,
                                 uint16_t *log, size_t log_len, uint64_t n);

/*
 * The run, the single step and the logged run for courses on the second edition of the book: as
 * lc3_run, lc3_step and lc3_run_logged, in every refusal, count, stop and field, but for five rules.
 *
 * - LEA sets the condition codes.
 * - TRAP puts the address of the next instruction in R7 and takes PC from its vector word. It
 *   pushes nothing and the mode stays.
 * - No access exception exists: User mode reaches every address, the device registers too.
 * - xFFFC is a plain word: the PSR has no address.
 * - JSRR R7 goes on at the next instruction, since R7 is overwritten first.
 *
 * A run with none of this (no LEA, TRAP or JSRR R7, no privileged address in User mode, no xFFFC)
 * ends exactly as lc3_run does. Nothing is protected from a program in User mode here: where a
 * candidate may not see the examiner's words, use lc3_run.
 */
lc3_answer lc3_run_second(lc3_record record, uint16_t *memory, size_t memory_len,
                          const uint64_t *times, size_t times_len, const uint8_t *bytes,
                          size_t bytes_len, uint8_t *output, size_t output_len, uint64_t n);

lc3_report lc3_step_second(lc3_record *record, uint16_t *memory, size_t memory_len,
                           const uint64_t *times, size_t times_len, const uint8_t *bytes,
                           size_t bytes_len, uint8_t *output, size_t output_len);

/* A TRAP is logged as an instruction here, and every step that is no interrupt with its word. */
lc3_logged_answer lc3_run_logged_second(lc3_record record, uint16_t *memory, size_t memory_len,
                                        const uint64_t *times, size_t times_len,
                                        const uint8_t *bytes, size_t bytes_len, uint8_t *output,
                                        size_t output_len, uint16_t *log, size_t log_len,
                                        uint64_t n);

/*
 * Tells what the next step of a run does, and makes none: nothing that is lent is altered. The step
 * is the one that lc3_run, or lc3_run_second, would make first if it were handed the same and the
 * output had room: the keys of its time arrive in it and the timer's count falls.
 *
 * It tells of words of memory, not of the device registers that loads and stores reach instead.
 *
 *   reads    first the word at PC, unless nothing is fetched (word is 0 then: an interrupt, or a
 *            fetch that is denied); then the pointer of LDI and STI, what LD, LDR and LDI load, or
 *            the two words that RTI pops; last the vector word of a trap, exception or interrupt,
 *            also where a push of the same step has just replaced it
 *   writes   the word that ST, STR or STI replaces; or the two that an entry pushes, PSR's first
 *
 * A word that the step does not read does not matter to it, and one that it does not write stays.
 * By the second edition TRAP is an instruction as any, told with reason 0: it enters nothing.
 */
lc3_told lc3_tell(lc3_record record, const uint16_t *memory, size_t memory_len,
                  const uint64_t *times, size_t times_len, const uint8_t *bytes, size_t bytes_len);

lc3_told lc3_tell_second(lc3_record record, const uint16_t *memory, size_t memory_len,
                         const uint64_t *times, size_t times_len, const uint8_t *bytes,
                         size_t bytes_len);

/*
 * Reads a word as an instruction, with a mask of its wrong bits. Every word is an instruction; bits
 * that its format fixes are ignored, and those of them that are wrong in the word are set in the
 * mask, which is 0 for a proper word. What lc3_write makes of the instruction differs from the word
 * in exactly the bits of the mask. A run ignores them too.
 */
lc3_reading lc3_read(uint16_t word);

/*
 * Writes an instruction as a word. The bits that its format fixes are as the format has them. A
 * kind above LC3_TRAP is refused with LC3_REFUSED_FIELD, whatever its operands; so is a value
 * that does not fit into 16 bits where the kind takes one, as any other value out of range.
 */
lc3_written lc3_write(lc3_instruction instruction);

/*
 * Writes a word as a line of text: x14E7 gives "ADD R2, R3, #7" and a line feed. No zero byte
 * follows, no line has more than LC3_MAX_LINE bytes, and what lies after it is left as lent.
 *
 * A line is the mnemonic, a space, and the operands of the book's assembler parted by a comma and a
 * space, with the offset in place of a label. Registers are R0 to R7; signed fields are # and a
 * decimal number; a trap vector is x and two hexadecimal digits. All letters are capitals, those of
 * hexadecimal digits too, but for the codes of a BR, which follow it in the order n, z, p: x09FF
 * gives "BRn #-1", x0A00 "BRnp #0", xF0AB "TRAP xAB". RTI, and RET for JMP R7, stand alone. A
 * reserved word, one with wrong fixed bits and a BR that tests nothing are data, with four
 * hexadecimal digits: xDEAD gives ".FILL xDEAD". Distinct words give distinct lines.
 */
lc3_counted lc3_line(uint16_t word, uint8_t *output, size_t output_len);

/* The bytes of a word's line, its line feed included: what lc3_line answers where the line fits. */
size_t lc3_line_length(uint16_t word);

/*
 * Lists a range of memory: the lines of count words from first on, one after the other, each as
 * lc3_line writes it. No page has more than count * LC3_MAX_LINE bytes, no zero byte follows, and
 * what lies after it is left as lent. A page of no lines is accepted.
 */
lc3_counted lc3_page(const uint16_t *memory, size_t memory_len, uint16_t first, size_t count,
                     uint8_t *output, size_t output_len);

/*
 * Writes a range of memory as an object file. The range is that of the given number of words from
 * origin on; the file takes 2 + 2 * words bytes from the start of output, and what lies after them
 * is left as lent. A range of no words is a file of two bytes.
 */
lc3_counted lc3_save(const uint16_t *memory, size_t memory_len, uint16_t origin, size_t words,
                     uint8_t *output, size_t output_len);

/*
 * Puts the ready-made monitor into memory: the words x0000 to x02A4, and no other. Its routines are
 * GETC, OUT, PUTS, IN, PUTSP and HALT of Table A.3 at trap vectors x20 to x25; every other trap and
 * the three exceptions halt and show nothing; interrupts return at once. docs/MONITOR.md describes
 * them, docs/monitor.lst lists them. Answers the refusal.
 *
 * A candidate's program is then started by lc3_start_user. The routines use the supervisor stack
 * from x2FFF down to x2FFA; where devices are enabled, interrupts use it down to x2FF6.
 */
uint32_t lc3_monitor(uint16_t *memory, size_t memory_len);

/* Where the ready-made monitor's routines are. */
lc3_routines lc3_monitor_routines(void);

/*
 * Writes the words x0000 to x01FF of a monitor with these routines to the start of output, whose
 * other words are left as lent, so that output may be memory itself. Answers the refusal:
 * LC3_REFUSED_OUTPUT where output has fewer than LC3_VECTOR_WORDS words. The routines of
 * lc3_monitor_routines give the very words that lc3_monitor puts there.
 */
uint32_t lc3_vectors(lc3_routines routines, uint16_t *output, size_t output_len);

/*
 * Tests a claim about any class's monitor. Where it finds nothing wrong, a sitting on this memory
 * tells nothing of the secret words and leaves them as they were. A sitting is a candidate's program
 * in User mode with Saved_SSP x3000, and any calls of lc3_run and the like. docs/CERTIFY.md says
 * what is claimed and what is not. Writes nothing and accepts every argument. Any tool may make the
 * table: nothing in it is believed untested.
 *
 * - kinds: what each word from x0000 on is: 1 it never changes; 2 it is the monitor's own, which the
 *   routines may write; 0 it is secret, as are the words past the end of kinds or of memory.
 * - lowest: the lowest word of the routines' stack, which ends at x2FFF. Four words below it are for
 *   interrupts.
 * - watched: eight addresses of words of which the table says something; 0 for none.
 * - ends: for each word from x0200 on, where its row of states ends in the table, counted in states.
 *   A row begins where the one before it ends; one that ends past the table ends with it.
 * - table: LC3_STATE_NUMBERS numbers for each state, in which each is what is known of a value: of
 *   R0 to R7, of the one that the codes were set from, of the watched words. A value is its kind
 *   times 65,536, and its number: 0 nothing; 1 some value; 2 this number; 3 x8000 or more; 4 less;
 *   5 R0 plus this number; 6 an address of User mode's.
 */
lc3_certified lc3_certify(const uint16_t *memory, size_t memory_len, const uint8_t *kinds,
                          size_t kinds_len, uint16_t lowest, const uint16_t *watched,
                          size_t watched_len, const uint32_t *ends, size_t ends_len,
                          const uint32_t *table, size_t table_len);

#ifdef __cplusplus
}
#endif

/* Compilers that know no assertion refuse an array of -1 elements. */
#if defined(__cplusplus) && __cplusplus >= 201103L
#define LC3_LAYOUT(condition) static_assert(condition, #condition)
#elif !defined(__cplusplus) && defined(__STDC_VERSION__) && __STDC_VERSION__ >= 201112L
#define LC3_LAYOUT(condition) _Static_assert(condition, #condition)
#else
#define LC3_LAYOUT(condition) extern const char lc3_layout[(condition) ? 1 : -1]
#endif

/* The library was built for this layout: a compiler with another one stops here. */
LC3_LAYOUT(sizeof(lc3_bool) == 1);
LC3_LAYOUT(sizeof(size_t) == 8);

LC3_LAYOUT(sizeof(lc3_record) == 48);
LC3_LAYOUT(offsetof(lc3_record, regs) == 0);
LC3_LAYOUT(offsetof(lc3_record, pc) == 16);
LC3_LAYOUT(offsetof(lc3_record, psr) == 18);
LC3_LAYOUT(offsetof(lc3_record, saved_ssp) == 20);
LC3_LAYOUT(offsetof(lc3_record, saved_usp) == 22);
LC3_LAYOUT(offsetof(lc3_record, kbsr) == 24);
LC3_LAYOUT(offsetof(lc3_record, kbdr) == 26);
LC3_LAYOUT(offsetof(lc3_record, mcr) == 28);
LC3_LAYOUT(offsetof(lc3_record, busy) == 30);
LC3_LAYOUT(offsetof(lc3_record, timer_status) == 32);
LC3_LAYOUT(offsetof(lc3_record, timer_interval) == 34);
LC3_LAYOUT(offsetof(lc3_record, timer_count) == 36);
LC3_LAYOUT(offsetof(lc3_record, clock) == 40);

LC3_LAYOUT(sizeof(lc3_answer) == 88);
LC3_LAYOUT(offsetof(lc3_answer, record) == 0);
LC3_LAYOUT(offsetof(lc3_answer, steps) == 48);
LC3_LAYOUT(offsetof(lc3_answer, keys) == 56);
LC3_LAYOUT(offsetof(lc3_answer, shown) == 64);
LC3_LAYOUT(offsetof(lc3_answer, index) == 72);
LC3_LAYOUT(offsetof(lc3_answer, refusal) == 80);
LC3_LAYOUT(offsetof(lc3_answer, stop) == 84);

LC3_LAYOUT(sizeof(lc3_report) == 40);
LC3_LAYOUT(offsetof(lc3_report, steps) == 0);
LC3_LAYOUT(offsetof(lc3_report, keys) == 8);
LC3_LAYOUT(offsetof(lc3_report, shown) == 16);
LC3_LAYOUT(offsetof(lc3_report, index) == 24);
LC3_LAYOUT(offsetof(lc3_report, refusal) == 32);
LC3_LAYOUT(offsetof(lc3_report, stop) == 36);

LC3_LAYOUT(sizeof(lc3_logged_answer) == 96);
LC3_LAYOUT(offsetof(lc3_logged_answer, record) == 0);
LC3_LAYOUT(offsetof(lc3_logged_answer, steps) == 48);
LC3_LAYOUT(offsetof(lc3_logged_answer, keys) == 56);
LC3_LAYOUT(offsetof(lc3_logged_answer, shown) == 64);
LC3_LAYOUT(offsetof(lc3_logged_answer, logged) == 72);
LC3_LAYOUT(offsetof(lc3_logged_answer, index) == 80);
LC3_LAYOUT(offsetof(lc3_logged_answer, refusal) == 88);
LC3_LAYOUT(offsetof(lc3_logged_answer, stop) == 92);

LC3_LAYOUT(sizeof(lc3_addresses) == 8);
LC3_LAYOUT(offsetof(lc3_addresses, count) == 0);
LC3_LAYOUT(offsetof(lc3_addresses, at) == 2);

LC3_LAYOUT(sizeof(lc3_told) == 40);
LC3_LAYOUT(offsetof(lc3_told, index) == 0);
LC3_LAYOUT(offsetof(lc3_told, refusal) == 8);
LC3_LAYOUT(offsetof(lc3_told, stop) == 12);
LC3_LAYOUT(offsetof(lc3_told, word) == 16);
LC3_LAYOUT(offsetof(lc3_told, reason) == 18);
LC3_LAYOUT(offsetof(lc3_told, reads) == 20);
LC3_LAYOUT(offsetof(lc3_told, writes) == 28);

LC3_LAYOUT(sizeof(lc3_instruction) == 8);
LC3_LAYOUT(offsetof(lc3_instruction, kind) == 0);
LC3_LAYOUT(offsetof(lc3_instruction, a) == 1);
LC3_LAYOUT(offsetof(lc3_instruction, b) == 2);
LC3_LAYOUT(offsetof(lc3_instruction, c) == 3);
LC3_LAYOUT(offsetof(lc3_instruction, value) == 4);

LC3_LAYOUT(sizeof(lc3_reading) == 12);
LC3_LAYOUT(offsetof(lc3_reading, instruction) == 0);
LC3_LAYOUT(offsetof(lc3_reading, mask) == 8);

LC3_LAYOUT(sizeof(lc3_written) == 8);
LC3_LAYOUT(offsetof(lc3_written, word) == 0);
LC3_LAYOUT(offsetof(lc3_written, refusal) == 4);

LC3_LAYOUT(sizeof(lc3_started) == 56);
LC3_LAYOUT(offsetof(lc3_started, record) == 0);
LC3_LAYOUT(offsetof(lc3_started, words) == 48);
LC3_LAYOUT(offsetof(lc3_started, refusal) == 52);

LC3_LAYOUT(sizeof(lc3_counted) == 16);
LC3_LAYOUT(offsetof(lc3_counted, count) == 0);
LC3_LAYOUT(offsetof(lc3_counted, refusal) == 8);

LC3_LAYOUT(sizeof(lc3_routines) == 18);
LC3_LAYOUT(offsetof(lc3_routines, getc) == 0);
LC3_LAYOUT(offsetof(lc3_routines, out) == 2);
LC3_LAYOUT(offsetof(lc3_routines, puts) == 4);
LC3_LAYOUT(offsetof(lc3_routines, input) == 6);
LC3_LAYOUT(offsetof(lc3_routines, putsp) == 8);
LC3_LAYOUT(offsetof(lc3_routines, halt) == 10);
LC3_LAYOUT(offsetof(lc3_routines, trap) == 12);
LC3_LAYOUT(offsetof(lc3_routines, exception) == 14);
LC3_LAYOUT(offsetof(lc3_routines, interrupt) == 16);

LC3_LAYOUT(sizeof(lc3_certified) == 12);
LC3_LAYOUT(offsetof(lc3_certified, finding) == 0);
LC3_LAYOUT(offsetof(lc3_certified, address) == 4);
LC3_LAYOUT(offsetof(lc3_certified, state) == 8);

#undef LC3_LAYOUT

#endif
