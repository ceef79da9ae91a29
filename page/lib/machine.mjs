// A machine in lent buffers: record, memory, keys and display, with the calls that make its steps.
import {
    KBDR_BYTE, KBSR_READY, LOG_WORDS, MAX_STEPS, MEMORY_WORDS, PLACES, Refused, Stop,
} from "./constants.mjs";
import { RECORD_BYTES, accepted } from "./library.mjs";
import { changesOf, loggedStep, wordsAt } from "./steps.mjs";

export const LOGGED_AT_ONCE = 65536; // the steps of a logged run in one call
const ROOM = 4096; // bytes of the display that are lent at once
const KEYS_AT_ONCE = 1024; // keys that are lent at once, and all those of the same time as the last
const WORDS = BigInt(MEMORY_WORDS);
const [STEPS, KEYS, SHOWN, REFUSAL, STOP] = [12, 14, 16, 22, 23]; // places of an answer with a log, in units of 4 bytes

const same = (some, others) => some.every((value, at) => value === others[at]);

export class Machine {
    // A halted machine with empty memory. Machines of one library take turns with one log and one output.
    constructor(library, edition) {
        this.library = library;
        this.edition = edition;
        this.memoryAt = library.lend(2 * MEMORY_WORDS);
        this.recordAt = library.lend(RECORD_BYTES);
        library.shared ??= {
            output: library.lend(ROOM), log: library.lend(2 * LOG_WORDS * LOGGED_AT_ONCE), keysRoom: 0,
        };
        this.times = [];
        this.keys = [];
        this.arrived = 0;
        this.limit = Infinity;
        this.clearDisplay();
    }

    get words() { return this.library.words(this.memoryAt, MEMORY_WORDS); }
    get shorts() { return this.library.shorts(this.recordAt); }
    get record() { return this.library.bytes(this.recordAt, RECORD_BYTES); }
    get clock() { return this.library.clock(this.recordAt); }
    get(name) { return this.shorts[PLACES[name]]; }

    // An empty display; so many bytes were shown before that are not asked for.
    clearDisplay(shown = 0) {
        this.output = new Uint8Array(ROOM);
        this.shown = this.dropped = shown;
    }

    // The bytes of the display from one of them on, as far as they are held.
    displayed(first = 0) {
        return this.output.subarray(Math.max(first - this.dropped, 0), this.shown - this.dropped);
    }

    take(count) {
        const held = this.shown - this.dropped;
        if (held + count > this.output.length) {
            const larger = new Uint8Array(2 * (held + count));
            larger.set(this.output.subarray(0, held));
            this.output = larger;
        }
        this.output.set(this.library.bytes(this.library.shared.output, count), held);
        this.shown += count;
    }

    // The keys that are lent next, and the clock of the first one that is not: no call may go beyond it.
    lendKeys() {
        const { library, times, arrived } = this, { shared } = library;
        let end = Math.min(arrived + KEYS_AT_ONCE, times.length);
        while (end > arrived && end < times.length && times[end] === times[end - 1]) end++;
        const count = end - arrived;
        if (count > shared.keysRoom || !shared.keysRoom) {
            shared.keysRoom = 2 * count + KEYS_AT_ONCE;
            shared.times = library.lend(8 * shared.keysRoom);
            shared.keys = library.lend(shared.keysRoom);
        }
        if (count) {
            library.longs(shared.times, count).set(times.slice(arrived, end).map(BigInt));
            library.bytes(shared.keys, count).set(this.keys.slice(arrived, end));
        }
        return [count, end < times.length ? Number(times[end]) : Infinity];
    }

    // All that is lent to a call, with so many keys.
    lent(keysLength) {
        const { shared } = this.library;
        return {
            memory: this.memoryAt, memoryLength: MEMORY_WORDS, times: shared.times, timesLength: keysLength,
            keys: shared.keys, keysLength, output: shared.output,
            outputLength: Math.max(Math.min(ROOM, this.limit - this.shown), 0),
        };
    }

    // What the next step does, which is not made.
    told() {
        const tell = this.edition === 2 ? "tellSecond" : "tell", [count] = this.lendKeys();
        return accepted(this.library[tell](this.recordAt, this.lent(count)));
    }

    // Makes one call of at most n steps, with all that is lent, and books what it answers.
    call(n, make) {
        const [count, until] = this.lendKeys();
        const answer = accepted(make(this.lent(count), Math.min(n, MAX_STEPS, until - this.clock)));
        this.arrived += answer.keys;
        this.take(answer.shown);
        return answer;
    }

    // Whether a run that stopped may go on at once: the output was full, and the display has no limit there.
    goesOn(stop) { return stop === Stop.OUTPUT_FULL && this.shown < this.limit; }

    // Makes up to n steps.
    advance(n) {
        const run = this.edition === 2 ? "runSecond" : "run", { library } = this;
        while (true) {
            const answer = this.call(n, (lent, steps) => library[run](this.recordAt, lent, steps));
            n -= answer.steps;
            if (answer.stop === Stop.DONE ? n <= 0 : !this.goesOn(answer.stop)) return answer.stop;
        }
    }

    // Makes up to n steps, at most LOGGED_AT_ONCE, and tells why it stopped, with the words of their log.
    advanceLogged(n) {
        const run = this.edition === 2 ? "runLoggedSecond" : "runLogged", { library } = this, { log } = library.shared;
        let left = Math.min(n, LOGGED_AT_ONCE), logged = 0;
        while (true) {
            const room = [log + 2 * logged, LOG_WORDS * LOGGED_AT_ONCE - logged];
            const answer = this.call(left, (lent, steps) => library[run](this.recordAt, lent, ...room, steps));
            left -= answer.steps;
            logged += answer.logged;
            if (answer.stop === Stop.DONE ? left <= 0 : !this.goesOn(answer.stop))
                return [answer.stop, library.words(log, logged).slice()];
        }
    }

    // Makes up to n steps, one at a time. `each` is told the words of a step's log, with the fields of the record as
    // they were in `before`, and ends it by answering true.
    advanceSingly(n, before, each) {
        for (let made = 0; made < n;) {
            const [count, until] = this.lendKeys(), most = Math.min(n - made, until - this.clock);
            const [some, stop] = this.singleSteps(most, BigInt(count), before, each);
            made += some;
            if (stop !== null) return stop;
        }
        return Stop.DONE;
    }

    // The same until a key arrives: views and numbers are made once for many steps, for the sake of speed.
    singleSteps(n, keys, before, each) {
        const { library, recordAt, memoryAt, shorts } = this, { shared, answer } = library, { calls } = library;
        const { times, keys: keysAt, output, log: logAt } = shared, log = library.words(logAt, LOG_WORDS);
        const run = this.edition === 2 ? calls.lc3_run_logged_second : calls.lc3_run_logged;
        const all = library.bytes(0, library.top), numbers = new Uint32Array(all.buffer, answer, 24);
        for (let made = 0; made < n; made++) {
            before.set(shorts);
            const room = this.shown < this.limit ? 1n : 0n;
            run(answer, recordAt, memoryAt, WORDS, times, keys, keysAt, keys, output, room, logAt, 3n, 1n);
            all.copyWithin(recordAt, answer, answer + RECORD_BYTES);
            if (!numbers[STEPS]) return [made, accepted({ refusal: numbers[REFUSAL], stop: numbers[STOP] }).stop];
            this.arrived += numbers[KEYS];
            if (numbers[SHOWN]) this.take(1);
            if (each(log[0], log[1], log[2])) return [made + 1, Stop.BREAKPOINT];
            if (numbers[KEYS]) return [made + 1, null];
        }
        return [n, null];
    }

    // Up to n steps, but no further than to where `placeIn` finds in the log that it is to stop: after so many steps,
    // or -1. The machine is then put back, and makes the steps before that once more.
    advanceTo(n, placeIn) {
        const before = this.snapshot(), [stop, log] = this.advanceLogged(n), steps = placeIn(log);
        if (steps < 0) return stop;
        if (LOG_WORDS * steps < log.length) {
            this.restore(before);
            this.advance(steps);
        }
        return Stop.BREAKPOINT;
    }

    // Makes one step and tells all that it did; or null where none is made.
    traced() {
        const { word, reason, writes } = this.told(), { clock, arrived, shown } = this;
        const was = this.shorts.slice(), old = wordsAt(this.words, writes);
        if (this.advance(1) !== Stop.DONE) return null;
        return {
            ...loggedStep(was[PLACES.PC], word, reason), clock, changes: changesOf(was, this.shorts, old, this.words),
            keys: this.keys.slice(arrived, this.arrived), shown: [...this.displayed(shown)],
        };
    }

    snapshot() {
        const { clock, arrived, shown } = this;
        return { clock, record: this.record.slice(), memory: this.words.slice(), arrived, shown };
    }

    // Puts the machine back to where it stood; the keys stay in their lists.
    restore({ record, memory, arrived, shown }) {
        this.record.set(record);
        this.words.set(memory);
        this.arrived = arrived;
        this.shown = shown;
    }

    // Stands where another machine stands, with the same keys.
    follow(other, snapshot = other.snapshot()) {
        this.edition = other.edition;
        this.times = other.times.slice();
        this.keys = other.keys.slice();
        this.clearDisplay(snapshot.shown);
        this.restore(snapshot);
        return this;
    }

    // Sets a register; TIR begins to count, as after a store. A record that no run takes is refused.
    set(name, value) {
        const kept = this.record.slice();
        this.shorts[PLACES[name]] = value;
        if (name === "TIR") this.shorts[PLACES.timer_count] = value;
        const lent = { memory: this.memoryAt, memoryLength: MEMORY_WORDS };
        for (const buffer of ["times", "keys", "output"]) Object.assign(lent, { [buffer]: 8, [`${buffer}Length`]: 0 });
        const { refusal } = this.library.run(this.recordAt, lent, 0);
        if (!refusal) return;
        this.record.set(kept);
        throw new Refused(refusal);
    }

    // Makes steps until the machine stands as it does now, but for the clock, and has shown nothing; whether it does so
    // within so many.
    goesRound(most) {
        const state = this.shorts.slice(), { shown } = this, words = this.words.slice();
        for (let made = 0; made < most; made++) {
            if (this.advance(1) !== Stop.DONE || this.shown !== shown) return false;
            if (same(state, this.shorts) && same(words, this.words)) return true;
        }
        return false;
    }

    // Whether a key that arrives now alters nothing in so many steps, after which the machine stands as it does now,
    // but that the key waits to be read.
    ignoresAKey(steps) {
        const words = this.words.slice(), expected = this.shorts.slice(), { shown } = this;
        expected[PLACES.KBSR] |= KBSR_READY;
        expected[PLACES.KBDR] ^= KBDR_BYTE;
        this.times.push(this.clock);
        this.keys.push(expected[PLACES.KBDR]);
        const stop = this.advance(steps);
        return stop === Stop.DONE && this.shown === shown && same(expected, this.shorts) && same(words, this.words);
    }
}
