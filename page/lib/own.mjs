// By which step the program was left last, for a routine of the monitor that serves it: what Python's `fanthrig.own`
// finds.
//
// An entry (a trap, an exception or an interrupt) leads from the program to a routine, and RTI leads back. Entries
// from which no RTI has returned are open. By the second edition's rules a TRAP is a call, from which RET returns.
// All is read from the log of the last steps, backwards; where a routine has served for longer, from the entries
// since the last snapshot in User mode; and where that is too far back as well, from what the entry saved on the
// supervisor stack.
import { LOG_WORDS, PLACES, PSR_USER, Reason, privileged } from "./constants.mjs";
import { inUserMode } from "./past.mjs";
import { loggedStep } from "./steps.mjs";

const LOOKED_THROUGH = [1 << 9, 1 << 16, 1 << 20];
const MOST_OPEN = 16; // the open entries that are looked at
const FARTHEST = 1 << 23; // the most steps that are made once more to find entries
const LONGEST_LOOP = 64; // the steps of the longest loop that is noticed, so that it is not followed to its end
const PSR_BITS = 0x8707;
const RAISED = { 8: Reason.PRIVILEGE, 13: Reason.ILLEGAL }; // the exceptions that an opcode raises in User mode

// What a step does to the routines that are open.
const Effect = { NOTHING: 0, CALLS: 1, ENTERS: 2, RETURNS: 3 };

const stepAt = (log, place) => loggedStep(...log.subarray(LOG_WORDS * place, LOG_WORDS * (place + 1)));
const userMode = (shorts) => Boolean(shorts[PLACES.PSR] & PSR_USER);

// The step by which the program was left and has not been returned to, or null where the program itself runs: its
// clock, the step, the fields of the record before it, the entries that are open inside of it, and whether it was
// found.
export function leftBy(past) {
    const third = past.edition === 3;
    if (third && userMode(past.shortsAt(past.clock))) return null;
    let found = null;
    for (const first of beginnings(past)) {
        const near = past.nearer(first), log = near.log(first);
        found = leftIn(near, log, (place) => first + place);
        if (found && userMode(found.shorts)) return found;
    }
    return leftFarBack(past) ?? leftByFrame(past) ?? found;
}

// The last step outside of a program that no routine serves and that came into privileged memory, as by a JMP; or null.
export function strayedBy(past) {
    const here = past.shortsAt(past.clock)[PLACES.PC];
    if (past.stackBase !== null || privileged(past.firstPc) || !privileged(here)) return null;
    for (const first of beginnings(past)) {
        const near = past.nearer(first), log = near.log(first);
        for (let place = log.length / LOG_WORDS - 1; place >= 0; place--) {
            if (privileged(log[LOG_WORDS * place])) continue;
            return left(near, stepAt(log, place), first + place, { strayed: true });
        }
    }
    return null;
}

function left(past, step, clock, more = {}) {
    return { clock, step, shorts: past.shortsAt(clock), inner: [], found: true, strayed: false, ...more };
}

// The clocks from which on the log is looked through. It is worth to look far back only for a program in User mode.
function* beginnings(past) {
    for (const count of past.stackBase === null ? LOOKED_THROUGH.slice(0, 2) : LOOKED_THROUGH) {
        yield Math.max(past.clock - count, past.start);
        if (past.clock - count <= past.start) return;
    }
}

// From a log of steps whose numbers `clockOf` tells: the last open entry that was made in User mode; else the last one
// outside of privileged memory; else the first.
function leftIn(past, log, clockOf) {
    const places = openPlaces(log, past.edition), inner = [];
    let found = null;
    // Where there are many, the first of all is looked at as well: with it the trouble began.
    for (const place of [...places.slice(0, MOST_OPEN), ...places.slice(MOST_OPEN).slice(-1)]) {
        const step = stepAt(log, place), here = left(past, step, clockOf(place), { inner: [...inner].reverse() });
        if (past.edition === 3 && userMode(here.shorts)) return here;
        if (!found || privileged(found.step.pc)) found = here;
        inner.push(step);
    }
    return found;
}

function effectOf(word, reason, edition) {
    if (reason !== Reason.INSTRUCTION) return Effect.ENTERS;
    const opcode = word >> 12;
    if (opcode === 8) return Effect.RETURNS;
    if (edition === 3) return Effect.NOTHING;
    if (opcode === 12 && ((word >> 6) & 7) === 7) return Effect.RETURNS;
    return opcode === 4 ? Effect.CALLS : opcode === 15 ? Effect.ENTERS : Effect.NOTHING;
}

// The entries of a log from which nothing has returned, the last one first, each by its place among the steps.
function openPlaces(log, edition) {
    const found = [];
    let returned = 0;
    for (let place = log.length / LOG_WORDS - 1; place >= 0; place--) {
        const effect = effectOf(log[LOG_WORDS * place + 1], log[LOG_WORDS * place + 2], edition);
        if (effect === Effect.RETURNS) returned++;
        else if (effect && returned) returned--;
        else if (effect === Effect.ENTERS) found.push(place);
    }
    return found;
}

// The entries and RTIs of a log by the third edition's rules, each by its place among the steps.
function entryPlaces(log) {
    const places = [];
    for (let place = 0; LOG_WORDS * place < log.length; place++)
        if (log[LOG_WORDS * place + 2] || log[LOG_WORDS * place + 1] >> 12 === 8) places.push(place);
    return places;
}

function leftFarBack(past) {
    const mark = past.marks.filter(inUserMode).at(-1);
    if (past.edition === 2 || !mark) return null;
    const entries = entriesSince(past, mark.clock);
    if (!entries) return null;
    const found = leftIn(past, Uint16Array.from(entries.log), (place) => entries.clocks[place]);
    return found && userMode(found.shorts) ? found : null;
}

// Entries and RTIs of a past from a clock on, which alone change the mode; or null where that takes too many steps. A
// machine that does nothing but wait is not followed any further.
function entriesSince(past, first) {
    const clocks = [], log = [];
    for (const part of past.logs(first)) {
        const { clock } = past.follower, begun = clock - part.length / LOG_WORDS, before = clocks.length;
        for (const place of entryPlaces(part)) {
            clocks.push(begun + place);
            log.push(...part.subarray(LOG_WORDS * place, LOG_WORDS * (place + 1)));
        }
        if (clocks.length === before && waitsToTheEnd(past)) break;
        if (clock < past.clock && clock - first >= FARTHEST) return null;
    }
    return { clocks, log };
}

// Whether the machine that follows goes round in a few steps, without an entry or an RTI, and nothing comes from
// outside before the end of the past. It is left as it stands.
function waitsToTheEnd(past) {
    const { follower } = past, { clock, arrived, times } = follower;
    if (arrived < times.length && times[arrived] < past.clock) return false;
    if (past.made && past.alterations[past.made - 1].clock >= clock) return false;
    const here = follower.snapshot();
    Object.assign(follower, { times: [], arrived: 0 });
    const round = follower.goesRound(LONGEST_LOOP), [, log] = follower.advanceLogged(LONGEST_LOOP);
    follower.times = times;
    follower.restore(here);
    return round && entryPlaces(log).length === 0;
}

// From what an entry in User mode has pushed first on the supervisor stack, PSR and then PC, where the stack is still
// filled that far. A TRAP pushes the address behind it, and an exception that of the instruction.
function leftByFrame(past) {
    const base = past.stackBase;
    if (base === null) return null;
    const machine = past.machineAt(past.clock), shorts = machine.shorts.slice(), words = machine.words;
    const pc = words[(base - 2) & 0xffff], psr = words[(base - 1) & 0xffff];
    const depth = (base - shorts[PLACES.R6]) & 0xffff;
    if (depth < 2 || depth >= 0x8000 || psr & ~PSR_BITS || !(psr & PSR_USER)) return null;
    const before = (pc - 1) & 0xffff, trap = words[before] >> 12 === 15;
    const at = trap ? before : pc, reason = trap ? Reason.TRAP : RAISED[words[pc] >> 12];
    if (reason === undefined) return null;
    const step = { pc: at, word: words[at], reason };
    shorts[PLACES.PC] = at;
    shorts[PLACES.PSR] = psr;
    shorts[PLACES.R6] = shorts[PLACES.Saved_USP];
    return { clock: past.clock, step, shorts, inner: [], found: false, strayed: false };
}
