// What page.mjs and figures.mjs have the browser do, with the library of the page.
const Library = lc3.sitting.library.constructor;
const library = new Library(lc3.module);
const places = {
    memory: library.lend(131074), times: library.lend(32768), keys: library.lend(4096), output: library.lend(65536),
};
const record = library.lend(48), log = library.lend(6 * 65536);
const list = (text) => (text ? text.split(",") : []);
const bytes = (text) => Uint8Array.from(text.match(/../g) ?? [], (two) => Number.parseInt(two, 16));
const template = Uint16Array.from({ length: 65537 }, (_, at) => (at * 0x9e37 + 0x79b9) & 0xffff);

function planted(words, text) {
    const copy = words.slice();
    for (const [address, word] of list(text).map((item) => item.split(":").map((part) => Number.parseInt(part, 16))))
        if (address < copy.length) copy[address] = word;
    return copy;
}

function fields(text) { return list(text).map((part, at) => (at < 19 ? Number.parseInt(part, 16) : Number(part))); }

function lend(part, words) {
    const times = BigUint64Array.from(list(part.times), BigInt), keys = bytes(part.bytes), output = bytes(part.output);
    const before = fields(part.record);
    library.words(places.memory, words.length).set(words);
    library.longs(places.times, times.length).set(times);
    library.bytes(places.keys, keys.length).set(keys);
    library.bytes(places.output, output.length).set(output);
    library.shorts(record).set(before.slice(0, 19));
    library.longs(record + 40, 1)[0] = BigInt(list(part.record)[19]);
    const lengths = { memoryLength: words.length, timesLength: times.length, keysLength: keys.length };
    return { ...places, ...lengths, outputLength: output.length };
}

function compare(lines) {
    let calls = 0;
    for (const line of lines) {
        const part = Object.fromEntries(line.split(" ").map((item) => item.split("=")));
        const words = planted(template.subarray(0, Number(part.length)), part.words);
        const after = planted(words, part.changed);
        for (const call of part.edition === "2" ? ["runSecond"] : ["run", "runLong"]) {
            const answer = library[call](record, lend(part, words), BigInt(part.n));
            const told = ["refusal", "index", "steps", "keys", "shown", "stop"].map((name) => answer[name]).join();
            const now = [...library.shorts(record), library.clock(record)], left = bytes(part.left);
            const same = told === part.answer && now.join() === fields(part.after).join()
                && library.words(places.memory, words.length).every((word, at) => word === after[at])
                && library.bytes(places.output, left.length).every((byte, at) => byte === left[at]);
            if (!same) throw new Error(`${call} differs: ${line.slice(0, 500)}`);
            calls++;
        }
    }
    return calls;
}

// Million steps a second of each call, the best of several, for a program of two loops.
function rates() {
    const program = [0x5020, 0x2207, 0x2407, 0x1021, 0x14bf, 0x03fd, 0x127f, 0x03fa, 0x0ff7, 0x012c, 0x03e8];
    const lent = { ...places, memoryLength: 65536, timesLength: 0, keysLength: 0, outputLength: 8 };
    return ["run", "runLong", "runLogged"].map((name) => {
        library.words(places.memory, 65536).fill(0);
        library.words(places.memory + 0x6000, program.length).set(program);
        library.bytes(record, 48).fill(0);
        library.shorts(record).set([0x3000, 0x8002, 0, 0, 0, 0, 0x8000], 8);
        let best = 0;
        for (let turn = 0; turn < 200; turn++) { // a busy host takes its time to compile what is called often
            const begun = performance.now(), n = name === "runLogged" ? 65536 : 1048576;
            for (let again = 0; again < 1048576 / n; again++)
                if (name === "runLogged") library.runLogged(record, lent, log, 196608, n);
                else library[name](record, lent, n);
            best = Math.max(best, 1048.576 / (performance.now() - begun));
        }
        return [name, best];
    });
}
