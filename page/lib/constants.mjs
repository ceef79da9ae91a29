// The numbers of lc3.h, under names of their own language, and what they are called in words.

export const VERSION = 7;
export const MEMORY_WORDS = 65536;
export const MAX_STEPS = 1048576;
export const MAX_CLOCK = 2 ** 48;
export const MAX_LINE = 17;
export const LOG_WORDS = 3;
export const VECTOR_WORDS = 512;
export const MONITOR_WORDS = 677;
export const WATCHED_WORDS = 8;
export const STATE_NUMBERS = 17;

export const PSR_USER = 0x8000;
export const PSR_PRIORITY = 0x0700;
export const KBSR_READY = 0x8000;
export const KBDR_BYTE = 0x00ff;
export const MCR_CLOCK = 0x8000;
export const TSR_READY = 0x8000;

export const ADDRESSES = {
    KBSR: 0xfe00, KBDR: 0xfe02, DSR: 0xfe04, DDR: 0xfe06, TSR: 0xfe08, TIR: 0xfe0a, PSR: 0xfffc, MCR: 0xfffe,
};

export const USER_ORIGIN = 0x3000;
export const USER_END = 0xfe00; // the first address behind User mode's
export const USER_STACK = 0xfdff;

// What is found wrong first with a claim about a monitor.
export const Finding = {
    CERTIFIED: 0, WRONG_WATCHED: 1, WRONG_ROOM: 2, WRONG_VECTOR: 3, WRONG_INTERRUPT: 4, WRONG_WORD: 5, WRONG_STACK: 6,
    WRONG_INSTRUCTION: 7,
};

// The negative stops are a sitting's own: no call answers them.
export const Stop = { DONE: 0, HALTED: 1, OUTPUT_FULL: 2, LOG_FULL: 3, BREAKPOINT: -1, INTERRUPTED: -2 };

export const STOP_TEXTS = {
    0: "all steps asked for were made",
    1: "the machine is halted",
    2: "the output is full",
    3: "the log is full",
    [-1]: "the next instruction is at a breakpoint",
    [-2]: "interrupted by a signal",
};

export const Reason = { INSTRUCTION: 0, TRAP: 1, PRIVILEGE: 2, ILLEGAL: 3, ACCESS: 4, KEYBOARD: 5, TIMER: 6 };

// The vector words of the reasons that have one of their own.
export const VECTORS = { 2: 0x0100, 3: 0x0101, 4: 0x0102, 5: 0x0180, 6: 0x0181 };

export const REASON_TEXTS = [
    "instruction", "trap", "privilege exception", "illegal opcode exception", "access exception", "keyboard interrupt",
    "timer interrupt",
];

export const Kind = {
    BR: 0, ADD_REGISTER: 1, ADD_IMMEDIATE: 2, LD: 3, ST: 4, JSR: 5, JSRR: 6, AND_REGISTER: 7, AND_IMMEDIATE: 8, LDR: 9,
    STR: 10, RTI: 11, NOT: 12, LDI: 13, STI: 14, JMP: 15, RESERVED: 16, LEA: 17, TRAP: 18,
};

export const REFUSALS = {
    1: "a register is above 7: name R0 to R7 by 0 to 7",
    2: "a value is out of its field's range, or the kind is unknown",
    3: "the mask of the BR is above 7: add up 4 for n, 2 for z and 1 for p",
    11: "memory is not 65,536 words",
    12: "the record has an undefined bit, a busy or timer count out of range, or a clock above 2^48: set only the bits "
        + "that PSR, KBSR, KBDR, MCR and TSR have",
    13: "more than 1,048,576 steps are asked for, or the clock would pass 2^48: make several calls of fewer steps",
    14: "the lists of key times and keys differ in length: give each key one time",
    15: "a key's time is below the clock: leave out the keys that have arrived",
    16: "what is to be written does not fit the output: lend a longer one",
    17: "the file has an odd number of bytes, or fewer than two: an object file is an origin and words, of two bytes "
        + "each",
    18: "the range goes beyond the last word of memory, xFFFF: lower the origin, or take fewer words; a file of "
        + "another format does not begin with its origin",
    19: "a key's time is below the time before it: put the keys in order of time",
    20: "the page goes beyond the last word of memory, xFFFF: take fewer lines",
    21: "the file does not lie in x3000 to xFDFF, where a candidate's belongs: give it another origin, or take fewer "
        + "words",
};

// A call that was refused, with its number and the index that belongs to it.
export class Refused extends Error {
    constructor(number, index = 0, subject = "") {
        super(`${subject ? `${subject}: ` : ""}refused (${number}): ${REFUSALS[number] ?? "an unknown reason"}`);
        this.name = "Refused";
        this.number = number;
        this.index = index;
    }
}

// The fields of a record that have 16 bits, in its order: those that are registers under the names of the book.
export const PLACES = {
    R0: 0, R1: 1, R2: 2, R3: 3, R4: 4, R5: 5, R6: 6, R7: 7, PC: 8, PSR: 9, Saved_SSP: 10, Saved_USP: 11, KBSR: 12,
    KBDR: 13, MCR: 14, busy: 15, TSR: 16, TIR: 17, timer_count: 18,
};
export const REGISTERS = Object.keys(PLACES).filter((name) => name !== "busy" && name !== "timer_count");

export const hex = (word) => `x${word.toString(16).toUpperCase().padStart(4, "0")}`;
export const signed = (word) => (word > 32767 ? word - 65536 : word);

// Whether User mode may not access an address.
export const privileged = (address) => address < USER_ORIGIN || address >= USER_END;
