/*
 * Times lc3_line and lc3_page over all words against a plain C formatter, after a comparison of all
 * lines and of the page of all words.
 *
 *   lines REPEATS              prints a line for each call and order of the words: both times in
 *                              nanoseconds a line, and their ratio
 *   lines count SIDE PASSES    makes the passes of one side alone, for a count of instructions;
 *                              SIDE is line, page, plain-line or plain-page
 *
 * Each time is the best of REPEATS passes over the 65,536 words, which stand in memory in order, or
 * mixed at random; the two sides take turns. The plain page is the plain lines, one after the other
 * until one does not fit: unlike lc3_page it writes before it knows that the page fits.
 */
#define _POSIX_C_SOURCE 199309L /* clock_gettime */
#include <fanthrig/lc3.h>

#include <stdio.h>
#include <stdlib.h>
#include <string.h>
#include <time.h>

enum { WORDS = 65536 };

/* ---- The plain formatter ---- */

static char *text(char *p, const char *s) {
    while (*s) *p++ = *s++;
    return p;
}

static char *reg(char *p, const char *before, int r) {
    p = text(p, before);
    *p++ = 'R';
    *p++ = (char)('0' + (r & 7));
    return p;
}

static char *number(char *p, const char *before, int word, int bits) {
    int n = (word & ((1 << bits) - 1)) - (word & 1 << (bits - 1) ? 1 << bits : 0);
    char digits[8];
    int count = 0;
    p = text(p, before);
    *p++ = '#';
    if (n < 0) {
        *p++ = '-';
        n = -n;
    }
    do {
        digits[count++] = (char)('0' + n % 10);
        n /= 10;
    } while (n);
    while (count) *p++ = digits[--count];
    return p;
}

static char *hex(char *p, int n, int digits) {
    while (digits--) *p++ = "0123456789ABCDEF"[n >> 4 * digits & 15];
    return p;
}

static char *operate(char *p, const char *name, int word) {
    p = reg(reg(text(p, name), " ", word >> 9), ", ", word >> 6);
    return word & 0x20 ? number(p, ", ", word, 5) : reg(p, ", ", word);
}

static char *based(char *p, const char *name, int word) {
    return number(reg(reg(text(p, name), " ", word >> 9), ", ", word >> 6), ", ", word, 6);
}

static char *relative(char *p, const char *name, int word) {
    return number(reg(text(p, name), " ", word >> 9), ", ", word, 9);
}

static char *branch(char *p, int word) {
    p = text(p, "BR");
    if (word & 0x0800) *p++ = 'n';
    if (word & 0x0400) *p++ = 'z';
    if (word & 0x0200) *p++ = 'p';
    return number(p, " ", word, 9);
}

/* The end of the instruction's text, or NULL where the word is data. */
static char *instruction(char *p, int word) {
    switch (word >> 12) {
    case 0x0: return word & 0x0E00 ? branch(p, word) : NULL;
    case 0x1: return (word & 0x38) % 0x20 && !(word & 0x20) ? NULL : operate(p, "ADD", word);
    case 0x2: return relative(p, "LD", word);
    case 0x3: return relative(p, "ST", word);
    case 0x4:
        if (word & 0x0800) return number(text(p, "JSR"), " ", word, 11);
        return word & 0x0E3F ? NULL : reg(text(p, "JSRR"), " ", word >> 6);
    case 0x5: return (word & 0x38) % 0x20 && !(word & 0x20) ? NULL : operate(p, "AND", word);
    case 0x6: return based(p, "LDR", word);
    case 0x7: return based(p, "STR", word);
    case 0x8: return word & 0x0FFF ? NULL : text(p, "RTI");
    case 0x9:
        if ((word & 0x3F) != 0x3F) return NULL;
        return reg(reg(text(p, "NOT"), " ", word >> 9), ", ", word >> 6);
    case 0xA: return relative(p, "LDI", word);
    case 0xB: return relative(p, "STI", word);
    case 0xC:
        if (word == 0xC1C0) return text(p, "RET");
        return word & 0x0E3F ? NULL : reg(text(p, "JMP"), " ", word >> 6);
    case 0xE: return relative(p, "LEA", word);
    case 0xF: return word & 0x0F00 ? NULL : hex(text(p, "TRAP x"), word & 0xFF, 2);
    default: return NULL;
    }
}

static lc3_counted plain_line(uint16_t word, uint8_t *output, size_t output_len) {
    char line[LC3_MAX_LINE];
    char *end = instruction(line, word);
    if (!end) end = hex(text(line, ".FILL x"), word, 4);
    *end++ = '\n';
    size_t length = (size_t)(end - line);
    if (output_len < length) return (lc3_counted){0, LC3_REFUSED_OUTPUT};
    memcpy(output, line, length);
    return (lc3_counted){length, LC3_ACCEPTED};
}

/* Lines until one does not fit. */
static lc3_counted plain_page(const uint16_t *memory, size_t words, uint16_t first, size_t count,
                              uint8_t *output, size_t output_len) {
    if (words != WORDS) return (lc3_counted){0, LC3_REFUSED_MEMORY};
    if (count > (size_t)WORDS - first) return (lc3_counted){0, LC3_REFUSED_PAGE};
    size_t at = 0;
    for (size_t i = 0; i < count; i++) {
        lc3_counted line = plain_line(memory[first + i], output + at, output_len - at);
        if (line.refusal) return (lc3_counted){0, line.refusal};
        at += line.count;
    }
    return (lc3_counted){at, LC3_ACCEPTED};
}

/* ---- Comparison and time ---- */

typedef lc3_counted line_function(uint16_t, uint8_t *, size_t);
typedef lc3_counted page_function(const uint16_t *, size_t, uint16_t, size_t, uint8_t *, size_t);

static uint16_t in_order[WORDS], mixed[WORDS];
static uint8_t page_bytes[WORDS * LC3_MAX_LINE], plain_bytes[WORDS * LC3_MAX_LINE];
static volatile uint64_t total;

static bool same_line(uint16_t word) {
    uint8_t ours[LC3_MAX_LINE] = {0}, theirs[LC3_MAX_LINE] = {0};
    lc3_counted a = lc3_line(word, ours, sizeof ours), b = plain_line(word, theirs, sizeof theirs);
    return a.count == b.count && a.refusal == b.refusal && !memcmp(ours, theirs, sizeof ours);
}

static bool same_page(const uint16_t *words) {
    lc3_counted a = lc3_page(words, WORDS, 0, WORDS, page_bytes, sizeof page_bytes);
    lc3_counted b = plain_page(words, WORDS, 0, WORDS, plain_bytes, sizeof plain_bytes);
    return a.count == b.count && a.refusal == b.refusal &&
           !memcmp(page_bytes, plain_bytes, sizeof page_bytes);
}

static double nanoseconds(void) {
    struct timespec t;
    clock_gettime(CLOCK_MONOTONIC, &t);
    return (double)t.tv_sec * 1e9 + (double)t.tv_nsec;
}

/* Nanoseconds a line, over all words. */
static double line_pass(line_function *line, const uint16_t *words) {
    uint8_t output[LC3_MAX_LINE];
    double start = nanoseconds();
    for (int i = 0; i < WORDS; i++) {
        total += line(words[i], output, sizeof output).count + output[0];
    }
    return (nanoseconds() - start) / WORDS;
}

static double page_pass(page_function *page, const uint16_t *words) {
    double start = nanoseconds();
    total += page(words, WORDS, 0, WORDS, page_bytes, sizeof page_bytes).count + page_bytes[0];
    return (nanoseconds() - start) / WORDS;
}

static void report(const char *name, double library, double plain) {
    printf("%-18s %5.1f ns a line, plain C %5.1f ns, ratio %.2f\n", name, library, plain,
           library / plain);
}

static void compare(const char *line_name, const char *page_name, const uint16_t *words,
                    int repeats) {
    double line = 1e9, plain = 1e9, page = 1e9, joined = 1e9;
    for (int i = 0; i < repeats; i++) {
        double a = line_pass(lc3_line, words), b = line_pass(plain_line, words);
        double c = page_pass(lc3_page, words), d = page_pass(plain_page, words);
        if (a < line) line = a;
        if (b < plain) plain = b;
        if (c < page) page = c;
        if (d < joined) joined = d;
    }
    report(line_name, line, plain);
    report(page_name, page, joined);
}

static int passes(const char *side, int count) {
    for (int i = 0; i < count; i++) {
        if (!strcmp(side, "line")) line_pass(lc3_line, in_order);
        else if (!strcmp(side, "plain-line")) line_pass(plain_line, in_order);
        else if (!strcmp(side, "page")) page_pass(lc3_page, in_order);
        else if (!strcmp(side, "plain-page")) page_pass(plain_page, in_order);
        else return 2;
    }
    return 0;
}

/* All words in order, and in an order of no pattern. */
static void fill(void) {
    uint32_t random = 1;
    for (int i = 0; i < WORDS; i++) in_order[i] = mixed[i] = (uint16_t)i;
    for (int i = WORDS - 1; i > 0; i--) {
        random = random * 1664525u + 1013904223u;
        int j = (int)((random >> 8) % (uint32_t)(i + 1));
        uint16_t word = mixed[i];
        mixed[i] = mixed[j];
        mixed[j] = word;
    }
}

int main(int argc, char **argv) {
    fill();
    if (argc > 3 && !strcmp(argv[1], "count")) return passes(argv[2], atoi(argv[3]));
    for (int word = 0; word < WORDS; word++) {
        if (same_line((uint16_t)word)) continue;
        fprintf(stderr, "lines: x%04X differs\n", (unsigned)word);
        return 1;
    }
    if (!same_page(in_order) || !same_page(mixed)) {
        fprintf(stderr, "lines: a page differs\n");
        return 1;
    }
    int repeats = argc > 1 ? atoi(argv[1]) : 200;
    compare("lc3_line", "lc3_page", in_order, repeats);
    compare("lc3_line, mixed", "lc3_page, mixed", mixed, repeats);
    return 0;
}
