/*
 * The rules that the plain and the tuned C interpreter share: access control, entry and RTI, the
 * device registers, start and end of a step, and refusals.
 */
#ifndef RULES_H
#define RULES_H

#include "fields.h"

#include <fanthrig/lc3.h>

/* Addresses of the vectors. */
enum { PRIVILEGE = 0x0100, ILLEGAL = 0x0101, ACCESS = 0x0102, KEYBOARD = 0x0180, TIMER = 0x0181 };

/* The priorities of the interrupts, as they stand in PSR. */
enum { PRIORITY_4 = 0x0400, PRIORITY_6 = 0x0600 };

/* The display: the lent output and how much of it is taken. */
typedef struct {
    uint8_t *bytes;
    size_t length, shown;
} display;

static inline bool denied(const lc3_record *m, uint16_t address) {
    return (m->psr & LC3_PSR_USER) && (address < 0x3000 || address >= 0xFE00);
}

/* Puts a result into a register and sets the condition codes. */
static inline void put(lc3_record *m, unsigned r, uint16_t value) {
    uint16_t code = value == 0 ? LC3_PSR_Z : value & 0x8000 ? LC3_PSR_N : LC3_PSR_P;
    m->regs[r] = value;
    m->psr = (m->psr & ~7) | code;
}

/* Entry by a vector. The vector's word is read after the pushes, which may have replaced it. */
static void enter(lc3_record *m, uint16_t *memory, uint16_t vector, uint16_t pc) {
    uint16_t psr = m->psr, sp = m->regs[6];
    if (psr & LC3_PSR_USER) {
        m->saved_usp = sp;
        sp = m->saved_ssp;
        m->psr = psr & 0x7FFF;
    }
    memory[--sp] = psr;
    memory[--sp] = pc;
    m->regs[6] = sp;
    m->pc = memory[vector];
}

/* RTI: both words are popped before R6 changes stacks. */
static void leave(lc3_record *m, const uint16_t *memory) {
    uint16_t sp = m->regs[6];
    m->pc = memory[sp++];
    m->psr = memory[sp++] & 0x8707;
    if (m->psr & LC3_PSR_USER) {
        m->saved_ssp = sp;
        sp = m->saved_usp;
    }
    m->regs[6] = sp;
}

/* A load of the timer's status clears ready. */
static uint16_t timer_status(lc3_record *m) {
    uint16_t status = m->timer_status;
    m->timer_status &= LC3_TSR_INTERRUPT;
    return status;
}

static inline uint16_t load(lc3_record *m, const uint16_t *memory, uint16_t address) {
    if (address < 0xFE00) return memory[address];
    switch (address) {
    case LC3_ADDRESS_KBSR: return m->kbsr;
    case LC3_ADDRESS_KBDR: m->kbsr &= LC3_KBSR_INTERRUPT; return m->kbdr;
    case LC3_ADDRESS_DSR: return m->busy ? 0 : 0x8000;
    case LC3_ADDRESS_DDR: return 0;
    case LC3_ADDRESS_TSR: return timer_status(m);
    case LC3_ADDRESS_TIR: return m->timer_interval;
    case LC3_ADDRESS_PSR: return m->psr;
    case LC3_ADDRESS_MCR: return m->mcr;
    default: return memory[address];
    }
}

/* False: a byte is to be shown and there is no free one; nothing is stored. */
static inline bool store(lc3_record *m, uint16_t *memory, display *out, uint16_t address,
                         uint16_t value) {
    if (address < 0xFE00) {
        memory[address] = value;
        return true;
    }
    switch (address) {
    case LC3_ADDRESS_KBSR:
        m->kbsr = (m->kbsr & LC3_KBSR_READY) | (value & LC3_KBSR_INTERRUPT);
        return true;
    case LC3_ADDRESS_KBDR: return true;
    case LC3_ADDRESS_DSR: return true;
    case LC3_ADDRESS_DDR:
        if (m->busy) return true;
        if (out->shown == out->length) return false;
        out->bytes[out->shown++] = value;
        m->busy = LC3_MAX_BUSY + 1; /* the end of this very step takes 1 off */
        return true;
    case LC3_ADDRESS_TSR:
        m->timer_status = (m->timer_status & LC3_TSR_READY) | (value & LC3_TSR_INTERRUPT);
        return true;
    case LC3_ADDRESS_TIR: m->timer_interval = m->timer_count = value; return true;
    case LC3_ADDRESS_PSR: m->psr = (m->psr & LC3_PSR_USER) | (value & 0x0707); return true;
    case LC3_ADDRESS_MCR: m->mcr = value & LC3_MCR_CLOCK; return true;
    default: memory[address] = value; return true;
    }
}

/* The start of a step, after its keys have arrived: the timer counts. Off, its count is 0. */
static inline void count_timer(lc3_record *m) {
    if (m->timer_count && --m->timer_count == 0) {
        m->timer_status |= LC3_TSR_READY;
        m->timer_count = m->timer_interval;
    }
}

/* The interrupt of a device that is ready and enabled, if the priority is below the device's own. */
static inline bool interrupt(lc3_record *m, uint16_t *memory, uint16_t status, uint16_t vector,
                             uint16_t priority) {
    if (status != (LC3_KBSR_READY | LC3_KBSR_INTERRUPT)) return false;
    if ((m->psr & LC3_PSR_PRIORITY) >= priority) return false;
    enter(m, memory, vector, m->pc);
    m->psr = (m->psr & ~LC3_PSR_PRIORITY) | priority;
    return true;
}

/* The end of a step: a busy display comes nearer to being ready. */
static inline void end_step(lc3_record *m) {
    if (m->busy) m->busy--;
}

static bool sound(const lc3_record *m) {
    return !(m->psr & ~0x8707) && !(m->kbsr & ~0xC000) && !(m->kbdr & ~0x00FF) &&
           !(m->mcr & ~0x8000) && m->busy <= LC3_MAX_BUSY && !(m->timer_status & ~0xC000) &&
           m->timer_count <= m->timer_interval && !m->timer_count == !m->timer_interval &&
           m->clock <= LC3_MAX_CLOCK;
}

/* Which of the times is at fault goes to *index, and is 0 where none is. */
static uint32_t times_refusal(const uint64_t *times, size_t length, uint64_t clock,
                              uint64_t *index) {
    uint64_t last = clock;
    for (size_t i = 0; i < length; i++) {
        if (times[i] < last) {
            *index = i;
            return times[i] < clock ? LC3_REFUSED_TIME : LC3_REFUSED_ORDER;
        }
        last = times[i];
    }
    return LC3_ACCEPTED;
}

static uint32_t refusal(const lc3_record *m, size_t memory_len, const uint64_t *times,
                        size_t times_len, size_t bytes_len, uint64_t n, uint64_t *index) {
    if (memory_len != LC3_MEMORY_WORDS) return LC3_REFUSED_MEMORY;
    if (!sound(m)) return LC3_REFUSED_RECORD;
    if (n > LC3_MAX_STEPS || m->clock + n > LC3_MAX_CLOCK) return LC3_REFUSED_STEPS;
    if (times_len != bytes_len) return LC3_REFUSED_LISTS;
    return times_refusal(times, times_len, m->clock, index);
}

#endif
