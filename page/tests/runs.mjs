// The runs and steps of fanthrig.wasm against runs of the reference simulator, in the form that host/tests/stored.rs
// describes:     node runs.mjs RUNS.txt... [--library FILE.wasm]
//
// Each run is made by every call that may make it. Compared are the record, memory, the output with what lies around
// it, all counts, the refusal, the index, the stop, and the log.
import { strict as assert } from "node:assert";
import { parseArgs } from "node:util";
import { Library, MEMORY_WORDS } from "../../build/fanthrig.mjs";
import { bytesOf, compiled, linesOf, same, seconds, spoilAnswer } from "./support.mjs";

const { values, positionals } = parseArgs({ options: { library: { type: "string" } }, allowPositionals: true });
const library = new Library(await compiled(values.library));
const GUARD = 16, FILL = 0xa5, LOG_STEPS = 70000, SPARE = 9; // words of a log beyond those that are written

// A lent buffer with bytes before and after it that must stay as they are.
class Lent {
    constructor(bytes) {
        this.base = library.lend(bytes + 2 * GUARD);
        this.at = this.base + GUARD;
    }

    set(bytes) {
        this.count = bytes.length;
        const all = this.whole();
        all.fill(FILL);
        all.set(bytes, GUARD);
    }

    whole() { return library.bytes(this.base, this.count + 2 * GUARD); }
    get() { return library.bytes(this.at, this.count); }

    check() {
        const filled = (bytes) => bytes.every((byte) => byte === FILL), all = this.whole();
        assert(filled(all.subarray(0, GUARD)) && filled(all.subarray(GUARD + this.count)), "bytes around a buffer");
    }
}

const memory = new Lent(2 * MEMORY_WORDS + 2), times = new Lent(8 * 4096), keys = new Lent(4096);
const output = new Lent(65536), record = new Lent(48), log = new Lent(6 * LOG_STEPS);
const template = Uint16Array.from({ length: MEMORY_WORDS + 1 }, (_, at) => (at * 0x9e37 + 0x79b9) & 0xffff);
const met = { runs: 0, calls: 0, steps: 0, refusals: new Set(), stops: new Set(), reasons: new Set() };
const list = (text) => (text ? text.split(",") : []);
const COUNTS = ["refusal", "index", "steps", "keys", "shown", "stop"];

function recordOf(text) {
    const parts = list(text), view = new DataView(new ArrayBuffer(48));
    parts.slice(0, 19).forEach((word, at) => view.setUint16(2 * at, Number.parseInt(word, 16), true));
    view.setBigUint64(40, BigInt(parts[19]), true);
    return bytesOf(view);
}

// The fields of a record without its padding.
const fields = (bytes) => Buffer.concat([bytes.subarray(0, 38), bytes.subarray(40)]);

// Words with some of them replaced, in a place that the next run uses again.
const [BEFORE, AFTER] = [0, 1].map(() => new Uint16Array(MEMORY_WORDS + 1));
function planted(place, words, text) {
    const copy = place.subarray(0, words.length);
    copy.set(words);
    for (const item of list(text)) {
        const [address, word] = item.split(":").map((part) => Number.parseInt(part, 16));
        if (address < copy.length) copy[address] = word;
    }
    return copy;
}

// One run as it is stored.
class Run {
    constructor(line) {
        const part = Object.fromEntries(line.split(" ").map((item) => item.split("=")));
        this.before = recordOf(part.record);
        this.after = recordOf(part.after);
        this.words = planted(BEFORE, template.subarray(0, Number(part.length)), part.words);
        this.wordsAfter = bytesOf(planted(AFTER, this.words, part.changed));
        this.times = bytesOf(BigUint64Array.from(list(part.times), BigInt));
        this.bytes = Buffer.from(part.bytes, "hex");
        this.output = Buffer.from(part.output, "hex");
        this.left = Buffer.from(part.left, "hex");
        this.answer = list(part.answer).map(Number);
        this.n = BigInt(part.n);
        this.second = part.edition === "2";
        this.log = part.log === "-" ? null : Uint16Array.from(list(part.log), (word) => Number.parseInt(word, 16));
    }

    get refusal() { return this.answer[0]; }
    get steps() { return this.answer[2]; }

    lend() {
        memory.set(bytesOf(this.words));
        times.set(this.times);
        keys.set(this.bytes);
        output.set(this.output);
        record.set(this.before);
        spoilAnswer(library);
        return {
            memory: memory.at, memoryLength: this.words.length, times: times.at, timesLength: this.times.length / 8,
            keys: keys.at, keysLength: this.bytes.length, output: output.at, outputLength: this.output.length,
        };
    }

    // That record, memory and output are as stored, and no byte around them was altered.
    compare() {
        assert(same(fields(record.get()), fields(this.after)), "record");
        assert(same(memory.get(), this.wordsAfter), "memory");
        assert(same(output.get(), this.left), "output");
        assert(same(times.get(), this.times) && same(keys.get(), this.bytes), "keys");
        for (const buffer of [memory, output, times, keys, record]) buffer.check();
        met.calls++;
        met.steps += this.steps;
    }

    byRun(call) {
        const lent = this.lend(), answer = library[call](record.at, lent, this.n);
        assert.deepEqual(COUNTS.map((name) => answer[name]), this.answer);
        this.compare();
    }

    logged(room) {
        const call = this.second ? "runLoggedSecond" : "runLogged";
        return library[call](record.at, this.lend(), log.at, room, this.n);
    }

    byLoggedRun() {
        const room = this.log.length + SPARE;
        log.set(new Uint8Array(2 * room));
        const answer = this.logged(room);
        assert.deepEqual([...COUNTS, "logged"].map((name) => answer[name]), [...this.answer, this.log.length]);
        assert(same(log.get().subarray(0, 2 * this.log.length), bytesOf(this.log)), "log");
        assert(log.get().subarray(2 * this.log.length).every((byte) => byte === 0), "rest of the log");
        log.check();
        this.compare();
    }

    // A log that ends in the middle of the run: what is left is what a run of so many steps leaves.
    byShortLog() {
        const room = 3 * (this.steps >> 1) + (this.steps % 3);
        if (this.refusal || this.steps < 2) return;
        log.set(new Uint8Array(2 * room));
        const answer = this.logged(room), kept = record.get().slice();
        const made = Math.floor(room / 3), words = memory.get().slice(), shown = output.get().slice();
        const stop = made < this.steps ? 3 : this.answer[5];
        assert.deepEqual([answer.steps, answer.logged, answer.stop], [made, 3 * made, stop]);
        assert(same(log.get().subarray(0, 6 * made), bytesOf(this.log.subarray(0, 3 * made))), "short log");
        log.check();
        library[this.second ? "runSecond" : "run"](record.at, this.lend(), BigInt(made));
        assert(same(fields(record.get()), fields(kept)), "record of a short run");
        assert(same(memory.get(), words) && same(output.get(), shown), "memory or output of a short run");
        met.calls++;
    }

    // What is told of each step before it is made is what the log has of it.
    bySteps(call) {
        const lent = this.lend(), tell = call.replace("step", "tell");
        let came = 0, shown = 0;
        for (let made = 0; made < this.steps; made++) {
            const { word, reason } = library[tell](record.at, lent), [, fetched, by] = this.log.subarray(3 * made);
            if (word !== fetched || reason !== by) assert.fail(`step ${made}: ${[word, reason]} was told`);
            const { steps, refusal, index, stop, ...counts } = library[call](record.at, lent);
            if (steps !== 1 || refusal || index || stop) assert.fail(`step ${made}: ${[steps, refusal, index, stop]}`);
            came += counts.keys;
            shown += counts.shown;
            lent.times += 8 * counts.keys;
            lent.keys += counts.keys;
            lent.output += counts.shown;
            lent.timesLength = lent.keysLength -= counts.keys;
            lent.outputLength -= counts.shown;
        }
        assert.deepEqual([came, shown], this.answer.slice(3, 5));
        this.compare();
    }

    // A step that is refused as the run is, but that n steps may be too many where one is not.
    byRefusedStep(call) {
        if (this.refusal === 13) return;
        const report = library[call](record.at, this.lend());
        const full = new DataView(this.before.buffer).getBigUint64(40, true) >= 1n << 48n && this.refusal > 13;
        assert.deepEqual([report.steps, report.keys, report.shown, report.stop], [0, 0, 0, 0]);
        assert.deepEqual([report.refusal, report.index], full ? [13, 0] : [this.refusal, this.answer[1]]);
        const { refusal, index, reads } = library[call.replace("step", "tell")](record.at, this.lend());
        assert.deepEqual([refusal, index, reads], [report.refusal, report.index, []]);
        this.compare();
    }

    all() {
        for (const call of this.second ? ["runSecond"] : ["run", "runLong"]) this.byRun(call);
        const step = this.second ? "stepSecond" : "step";
        if (this.refusal) this.byRefusedStep(step);
        else if (this.log) this.bySteps(step);
        if (this.log) {
            this.byLoggedRun();
            this.byShortLog();
        }
        met.runs++;
        met.refusals.add(this.refusal);
        if (!this.refusal) met.stops.add(this.answer[5]);
        for (let at = 2; at < (this.log?.length ?? 0); at += 3) met.reasons.add(this.log[at]);
    }
}

const begun = performance.now();
for (const file of positionals) {
    let number = 0;
    for await (const line of linesOf(file)) {
        number++;
        try {
            new Run(line).all();
        } catch (error) {
            error.message = `${file}, line ${number}: ${error.message}`;
            throw error;
        }
    }
    assert(number > 0, `${file} has no run`);
}
const sorted = (set) => [...set].sort((one, other) => one - other).join(" ");
const counts = `${met.calls} comparisons, ${met.steps} steps`;
console.log(`${met.runs} runs of the reference, ${counts}: all equal, ${seconds(begun)}`);
console.log(`refusals ${sorted(met.refusals)}; stops ${sorted(met.stops)}; reasons ${sorted(met.reasons)}`);
