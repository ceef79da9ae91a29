// The calls of lc3.h over fanthrig.wasm, one to one: lc3_run_logged is runLogged, and so on.
//
// An instance imports nothing and reaches its own memory alone. Buffers are lent from there by `lend`, which gives
// the place of the first byte; so no two overlap. What the header answers as a struct is an object here, with a
// refusal of 0 where the call was obeyed. `accepted` makes an error of any other.
import { Refused, VERSION } from "./constants.mjs";

export const RECORD_BYTES = 48;
const SHORTS = 19; // the fields of 16 bits, which stand before the clock
const CLOCK = 40;
const ANSWER_BYTES = 96; // of the largest struct that is answered
const ROUTINES_BYTES = 18;
const PAGE = 65536;

// An answer that was not refused, or the error that says why it was.
export function accepted(answer) {
    if (answer.refusal) throw new Refused(answer.refusal, answer.index);
    return answer;
}

export class Library {
    constructor(module) {
        this.calls = new WebAssembly.Instance(module).exports;
        this.top = this.calls.__heap_base.value;
        if (this.version() !== VERSION) throw new Error("fanthrig.wasm is of another version than this module");
        this.answer = this.lend(ANSWER_BYTES);
        this.routines = this.lend(ROUTINES_BYTES);
        this.copy = this.lend(RECORD_BYTES);
    }

    // Lends so many bytes, aligned for any element, for good.
    lend(bytes) {
        const at = this.top, { memory } = this.calls;
        this.top = (at + bytes + 7) & ~7;
        const pages = Math.ceil((this.top - memory.buffer.byteLength) / PAGE);
        if (pages > 0) memory.grow(pages);
        return at;
    }

    // Views of lent buffers. They end when the next buffer is lent.

    bytes(at, count) { return new Uint8Array(this.calls.memory.buffer, at, count); }
    words(at, count) { return new Uint16Array(this.calls.memory.buffer, at, count); }
    numbers(at, count) { return new Uint32Array(this.calls.memory.buffer, at, count); }
    longs(at, count) { return new BigUint64Array(this.calls.memory.buffer, at, count); }
    view(at, count) { return new DataView(this.calls.memory.buffer, at, count); }
    shorts(record) { return this.words(record, SHORTS); }
    clock(record) { return Number(this.view(record, RECORD_BYTES).getBigUint64(CLOCK, true)); }

    // Numbers of the struct that was answered last.

    long(at) { return Number(this.answered.getBigUint64(at, true)); }
    short(at) { return this.answered.getUint32(at, true); }

    // A view of that struct, which is made anew where memory has grown.
    get answered() {
        const { buffer } = this.calls.memory;
        if (this.seen?.buffer !== buffer) this.seen = new DataView(buffer, this.answer, ANSWER_BYTES);
        return this.seen;
    }

    version() { return this.calls.lc3_version(); }

    // Starting. The record is put where it is asked for; where refused, all of it is 0.

    start(file, fileLength, memory, memoryLength, user, stack, record) {
        this.calls.lc3_start(this.answer, file, BigInt(fileLength), memory, BigInt(memoryLength), user ? 1 : 0, stack);
        return this.started(record);
    }

    startUser(file, fileLength, memory, memoryLength, stack, record) {
        this.calls.lc3_start_user(this.answer, file, BigInt(fileLength), memory, BigInt(memoryLength), stack);
        return this.started(record);
    }

    started(record) {
        this.put(record);
        return { words: this.short(48), refusal: this.short(52) };
    }

    put(record) { this.bytes(0).copyWithin(record, this.answer, this.answer + RECORD_BYTES); }

    // Runs. `lent` has memory, times, keys and output, each with its length. The record is the call's own to alter,
    // and is then set to the one that is answered.

    run(record, lent, n) { return this.runBy("lc3_run", record, lent, n); }
    runLong(record, lent, n) { return this.runBy("lc3_run_long", record, lent, n); }
    runSecond(record, lent, n) { return this.runBy("lc3_run_second", record, lent, n); }

    runBy(name, record, lent, n) {
        this.calls[name](this.answer, record, ...buffers(lent), BigInt(n));
        this.put(record);
        return { ...this.counts(48), index: this.long(72), refusal: this.short(80), stop: this.short(84) };
    }

    runLogged(...lent) { return this.loggedBy("lc3_run_logged", ...lent); }
    runLoggedSecond(...lent) { return this.loggedBy("lc3_run_logged_second", ...lent); }

    loggedBy(name, record, lent, log, logLength, n) {
        this.calls[name](this.answer, record, ...buffers(lent), log, BigInt(logLength), BigInt(n));
        this.put(record);
        const counts = { ...this.counts(48), logged: this.long(72) };
        return { ...counts, index: this.long(80), refusal: this.short(88), stop: this.short(92) };
    }

    // Steps, which alter the record where it stands.

    step(record, lent) { return this.stepBy("lc3_step", record, lent); }
    stepSecond(record, lent) { return this.stepBy("lc3_step_second", record, lent); }

    stepBy(name, record, lent) {
        this.calls[name](this.answer, record, ...buffers(lent));
        return { ...this.counts(0), index: this.long(24), refusal: this.short(32), stop: this.short(36) };
    }

    // What the next step does, which is not made. The record stays as it is: the call has a copy of its own to alter.

    tell(record, lent) { return this.tellBy("lc3_tell", record, lent); }
    tellSecond(record, lent) { return this.tellBy("lc3_tell_second", record, lent); }

    tellBy(name, record, lent) {
        this.bytes(0).copyWithin(this.copy, record, record + RECORD_BYTES);
        this.calls[name](this.answer, this.copy, ...buffers(lent).slice(0, 6));
        const words = this.words(this.answer, 20);
        const addresses = (at) => [...words.subarray(at + 1, at + 1 + words[at])];
        const step = { word: words[8], reason: words[9], reads: addresses(10), writes: addresses(14) };
        return { ...step, index: this.long(0), refusal: this.short(8), stop: this.short(12) };
    }

    counts(at) { return { steps: this.long(at), keys: this.long(at + 8), shown: this.long(at + 16) }; }

    // Words and lines.

    read(word) {
        this.calls.lc3_read(this.answer, word);
        const view = this.view(this.answer, 12), [kind, a, b, c] = this.bytes(this.answer, 4);
        return { kind, a, b, c, value: view.getInt32(4, true), mask: view.getUint16(8, true) };
    }

    write({ kind, a = 0, b = 0, c = 0, value = 0 }) {
        const low = BigInt((kind | (a << 8) | (b << 16) | (c << 24)) >>> 0);
        const written = BigInt.asUintN(64, this.calls.lc3_write(low | (BigInt(value >>> 0) << 32n)));
        return { word: Number(written & 0xffffn), refusal: Number(written >> 32n) };
    }

    counted() { return { count: this.long(0), refusal: this.short(8) }; }

    line(word, output, outputLength) {
        this.calls.lc3_line(this.answer, word, output, BigInt(outputLength));
        return this.counted();
    }

    lineLength(word) { return Number(this.calls.lc3_line_length(word)); }

    page(memory, memoryLength, first, count, output, outputLength) {
        const range = [memory, BigInt(memoryLength), first, BigInt(count)];
        this.calls.lc3_page(this.answer, ...range, output, BigInt(outputLength));
        return this.counted();
    }

    // Object files and the monitor.

    save(memory, memoryLength, origin, words, output, outputLength) {
        const range = [memory, BigInt(memoryLength), origin, BigInt(words)];
        this.calls.lc3_save(this.answer, ...range, output, BigInt(outputLength));
        return this.counted();
    }

    monitor(memory, memoryLength) { return { refusal: this.calls.lc3_monitor(memory, BigInt(memoryLength)) }; }

    monitorRoutines() {
        this.calls.lc3_monitor_routines(this.answer);
        const [getc, out, puts, input, putsp, halt, trap, exception, interrupt] = this.words(this.answer, 9);
        return { getc, out, puts, input, putsp, halt, trap, exception, interrupt };
    }

    vectors(routines, output, outputLength) {
        const { getc, out, puts, input, putsp, halt, trap, exception, interrupt } = routines;
        this.words(this.routines, 9).set([getc, out, puts, input, putsp, halt, trap, exception, interrupt]);
        return { refusal: this.calls.lc3_vectors(this.routines, output, BigInt(outputLength)) };
    }

    // Tests a claim about a monitor. `claim` has lowest, and memory, kinds, watched, ends and table, each with its
    // length. A finding of 0 says that it holds; no claim is refused.
    certify(claim) {
        const { memory, memoryLength, kinds, kindsLength, lowest, watched, watchedLength } = claim;
        const { ends, endsLength, table, tableLength } = claim;
        const words = [memory, BigInt(memoryLength), kinds, BigInt(kindsLength)];
        const rows = [watched, BigInt(watchedLength), ends, BigInt(endsLength), table, BigInt(tableLength)];
        this.calls.lc3_certify(this.answer, ...words, lowest, ...rows);
        return { finding: this.short(0), address: this.short(4), state: this.short(8) };
    }
}

// The lent buffers of a run or a step with their lengths, in the order of the header. Hosts make millions of steps by
// single calls, so they are written out.
function buffers({ memory, memoryLength, times, timesLength, keys, keysLength, output, outputLength }) {
    const words = [memory, BigInt(memoryLength), times, BigInt(timesLength)];
    return [...words, keys, BigInt(keysLength), output, BigInt(outputLength)];
}
