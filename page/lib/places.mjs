// Where the words of object files may lie: what Python's `fanthrig.places` sees to.
import { MONITOR_WORDS, USER_END, USER_ORIGIN, hex } from "./constants.mjs";

const MONITOR_STACK = 10; // six words of PUTSP, and two each of a keyboard's and a timer's interrupt on the way
const MONITOR = [
    { name: "the ready-made monitor", origin: 0, words: MONITOR_WORDS },
    { name: "the stack of the ready-made monitor", origin: USER_ORIGIN - MONITOR_STACK, words: MONITOR_STACK },
];

// A file, or a PC, that is where it may not be.
export class PlaceError extends Error {
    constructor(text) {
        super(text);
        this.name = "PlaceError";
    }
}

const subject = ({ name, origin }) => name || `the file at ${hex(origin)}`;
const range = (first, end) => (end - first === 1 ? hex(first) : `${hex(first)} to ${hex(end - 1)}`);

// That an examiner's file lies in privileged memory alone, and beside the ready-made monitor where that is in memory.
export function checkExaminer(program, monitor) {
    // A file of an origin alone has its place there.
    const first = Math.max(program.origin, USER_ORIGIN);
    const end = Math.min(program.origin + Math.max(program.words, 1), USER_END);
    if (first < end) {
        throw new PlaceError(`${subject(program)}: refused: it has ${range(first, end)}, which every program reads and `
            + "replaces: an examiner's file lies below x3000 or from xFE00 on");
    }
    checkApart(program, monitor ? MONITOR : []);
}

// That a file has no word in common with others.
export function checkApart(program, others) {
    for (const other of others) {
        const first = Math.max(program.origin, other.origin);
        const end = Math.min(program.origin + program.words, other.origin + other.words);
        if (first >= end) continue;
        throw new PlaceError(`${subject(program)}: refused: it overlaps ${subject(other)} at ${range(first, end)}: `
            + "give one of them another origin, or leave one out");
    }
}

// That a program in User mode starts in words that it can reach.
export function checkPc(pc) {
    if (pc >= USER_ORIGIN && pc < USER_END) return;
    throw new PlaceError(`PC ${hex(pc)} is refused: a program in User mode starts in ${range(USER_ORIGIN, USER_END)}`);
}
