// How a run ended, told in the terms of the program and not of the monitor that served it, in the words of the command.
import {
    MCR_CLOCK, MEMORY_WORDS, MONITOR_WORDS, PSR_USER, Reason, REASON_TEXTS, STOP_TEXTS, Stop, VECTORS, VECTOR_WORDS,
    hex, privileged,
} from "./constants.mjs";
import { leftBy, strayedBy } from "./own.mjs";
import { STORES, loggedStep } from "./steps.mjs";

const TRAPS = VECTOR_WORDS / 2;
const HALT_VECTOR = 0x25;
const STRINGS = { 0x22: "PUTS", 0x24: "PUTSP" }; // the traps that show a string
const EXCEPTIONS = [Reason.PRIVILEGE, Reason.ILLEGAL, Reason.ACCESS];
const CRASHES = ["exception", "trap without service", "string refused"];
const KINDS = {
    [Stop.OUTPUT_FULL]: "output limit", [Stop.BREAKPOINT]: "breakpoint", [Stop.INTERRUPTED]: "interrupted",
};
const byte = (number) => `x${number.toString(16).toUpperCase().padStart(2, "0")}`;

// What the command says of a program that waits where no more keys come, and of one that goes round and round.
export const WAITS = "the program waits for a key, and no more keys come";
export const LOOPS = "the program goes round in a loop that not even a key can end";

// The vector of a TRAP by either edition's rules, or null for another step.
const vectorOf = ({ word }) => (word !== null && word >> 12 === 15 ? word & 0xff : null);

// How a run ended that led to the end of a past: its kind, the text, PC and word of the program's own instruction, the
// reason by which the program was left, and whether that is a crash. `line` tells the line of a word.
export function endingOf(past, stop, line) {
    const { machine } = past, left = leftBy(past), halted = !(machine.get("MCR") & MCR_CLOCK);
    const told = (left && crash(machine, left, halted)) ?? (halted ? halting(past, machine, left) : null)
        ?? at(KINDS[stop] ?? "steps made", STOP_TEXTS[stop], machine, left ?? strayedBy(past));
    const text = told.word === null ? "User mode fetches nothing there" : line(told.word);
    return { ...told, crash: CRASHES.includes(told.kind), place: `PC ${hex(told.pc)}: ${text}` };
}

// The line that the command writes at the end of a run.
export function endLine({ text, place }, steps) {
    return `${text}; ${steps} ${steps === 1 ? "step" : "steps"}; ${place}`;
}

// An ending where the program was left, or else where the machine stands.
function at(kind, text, machine, left) {
    if (left) {
        const { pc, word, reason } = left.step, vector = vectorOf(left.step);
        return { kind, text, pc, word, reason: vector === null ? reason : Reason.TRAP, vector, left };
    }
    const pc = machine.get("PC"), denied = machine.edition === 3 && machine.get("PSR") & PSR_USER && privileged(pc);
    return { kind, text, pc, word: denied ? null : machine.words[pc], reason: null, vector: null, left: null };
}

// The ending of a program that was stopped for what it did: by the entry that left it, or by one inside of that which
// has no routine of its own. A machine that runs on has crashed where the entry leads to no routine at all: to x0000,
// and the word there is x0000 too.
function crash(machine, left, halted) {
    const { words } = machine;
    for (const step of [left.step, ...left.inner]) {
        const vector = vectorOf(step), exception = EXCEPTIONS.includes(step.reason);
        if (!exception && (vector === null || hasService(words, vector))) continue;
        const word = words[exception ? VECTORS[step.reason] : vector];
        if (!halted && (word || words[0])) continue;
        if (exception) return at("exception", `stopped by the ${REASON_TEXTS[step.reason]}`, machine, left);
        return at("trap without service", `stopped by TRAP ${byte(vector)}, which has no service`, machine, left);
    }
    return null;
}

// How a machine came to be halted by a program that has not crashed otherwise.
function halting(past, machine, left) {
    if (!left) return haltedItself(past, machine);
    const vector = vectorOf(left.step);
    if (vector === HALT_VECTOR) return at("halted", "halted by HALT", machine, left);
    const reasons = [left.step, ...left.inner].map(({ reason }) => reason);
    const interrupt = reasons.find((reason) => reason >= Reason.KEYBOARD);
    if (interrupt === undefined && vector in STRINGS && isReadyMade(machine, vector)) {
        const text = `stopped by ${STRINGS[vector]}, whose string came to privileged memory`;
        return at("string refused", text, machine, left);
    }
    const name = interrupt === undefined ? `TRAP ${byte(vector)}` : `the ${REASON_TEXTS[interrupt]}`;
    return at("store to MCR", `halted by a store to MCR in the routine of ${name}`, machine, left);
}

// A machine that was halted by the program itself, or from outside.
function haltedItself(past, machine) {
    const kind = "store to MCR";
    if (past.clock > past.start) {
        const step = loggedStep(...past.log(past.clock - 1));
        if (step.word !== null && STORES.includes(step.word >> 12)) {
            const strayed = strayedBy(past);
            if (strayed && privileged(step.pc))
                return at(kind, `halted by a store to MCR in privileged memory, at ${hex(step.pc)}`, machine, strayed);
            return at(kind, "halted by a store to MCR", machine, { step, inner: [] });
        }
    }
    return at(kind, "halted from outside", machine, null);
}

// Whether a trap has a routine of its own: its vector word is not the one that most of the 256 have, nor x0000. TRAP
// x25 is HALT wherever it leads.
function hasService(words, vector) {
    const routine = words[vector], alike = words.subarray(0, TRAPS).filter((word) => word === routine).length;
    return routine !== 0 && (vector === HALT_VECTOR || 2 * alike <= TRAPS);
}

// Whether the ready-made monitor's own routine serves a trap.
function isReadyMade(machine, vector) {
    const { library } = machine;
    library.readyMade ??= readyMade(library);
    const { words } = machine, made = library.readyMade;
    const same = made.subarray(VECTOR_WORDS).every((word, place) => word === words[VECTOR_WORDS + place]);
    return same && words[vector] === made[vector];
}

function readyMade(library) {
    const memory = library.lend(2 * MEMORY_WORDS);
    library.monitor(memory, MEMORY_WORDS);
    return library.words(memory, MONITOR_WORDS).slice();
}
