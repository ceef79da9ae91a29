// lc3_run_long must come to what lc3_run does:     node windows.mjs [--library FILE.wasm]
//
// It reads the instructions of 256 words in advance: so there are programs that replace a word and obey it at once, for
// each place of such a window and around its edges. And it makes stretches of steps at once that reach no device: so
// there are stretches of each length between two accesses to one, with the display busy and the timer on its way.
import { strict as assert } from "node:assert";
import { parseArgs } from "node:util";
import { Library, MEMORY_WORDS } from "../../build/fanthrig.mjs";
import { compiled, spoilAnswer } from "./support.mjs";

const { values } = parseArgs({ options: { library: { type: "string" } } });
const library = new Library(await compiled(values.library));
const memory = library.lend(2 * MEMORY_WORDS), record = library.lend(48), other = library.lend(8);
const lent = { memory, memoryLength: MEMORY_WORDS };
for (const name of ["times", "keys", "output"]) Object.assign(lent, { [name]: other, [`${name}Length`]: 0 });

// Two instructions take turns at the address in R2, and R4 leads back from behind it.
const ADD = 0x1261, SUBTRACT = 0x127e, BACK = 0xc100; // R1 + 1, R1 - 2, JMP R4
const LOOP = [
    0x200b, 0x240b, 0x280b, 0x2a0b, // LD R0, LD R2, LD R4, LD R5
    0, 0xc080, // a store of R0; JMP R2
    0x1620, 0x1160, 0x1ae0, 0x0ffa, // R0 and R5 are exchanged by R3; BRnzp to the store
];

// The stores by which R0 comes to the address in R2: STR, STI and, where it is near, ST.
function storesTo(target, origin) {
    const offset = target - (origin + 5);
    return [0x7080, 0xb008, ...(offset < 256 ? [0x3000 | offset] : [])];
}

function ended(call, origin, target, store) {
    const words = library.words(memory, MEMORY_WORDS);
    words.fill(0);
    words.set([...LOOP, 0, 0, ADD, target, origin + 6, SUBTRACT], origin);
    words[origin + 4] = store;
    words[target + 1] = BACK;
    library.bytes(record, 48).fill(0);
    library.shorts(record).set([origin, 0x8002, 0, 0, 0, 0, 0x8000], 8);
    spoilAnswer(library);
    const answer = library[call](record, lent, 1000);
    return [answer, [...library.shorts(record)], Buffer.from(library.words(memory, MEMORY_WORDS).slice().buffer)];
}

// A loop of 400 steps, a store to DDR, some steps that reach no device, DSR and TSR loaded; and all of it again.
function reached(call, between, interval, n) {
    const words = library.words(memory, MEMORY_WORDS), adds = Array(between).fill(0x14a1);
    words.fill(0);
    words.set([0x220f, 0x127f, 0x03fe, 0xb00d, ...adds, 0xa60d - between, 0xa80d - between, 0x0ff9 - between], 0x3000);
    words.set([200, 0xfe06, 0xfe04, 0xfe08], 0x3010);
    library.bytes(record, 48).fill(0);
    library.shorts(record).set([0x3000, 2, 0, 0, 0, 0, 0x8000, 0, 0, interval, interval], 8);
    spoilAnswer(library);
    const answer = library[call](record, { ...lent, outputLength: 8 }, n);
    return [answer, [...library.shorts(record)]];
}

let count = 0;
for (const origin of [0x3000, 0x3040, 0x30f8]) {
    for (let target = origin + LOOP.length + 8; target < origin + 0x220; target++) {
        for (const store of storesTo(target, origin)) {
            assert.deepEqual(ended("runLong", origin, target, store), ended("run", origin, target, store));
            count++;
        }
    }
}
let stretches = 0;
for (let between = 0; between < 10; between++) {
    for (const interval of [0, 9, 405, 409]) {
        for (let n = 400; n < 425; n++, stretches++)
            assert.deepEqual(reached("runLong", between, interval, n), reached("run", between, interval, n));
        assert.deepEqual(reached("runLong", between, interval, 9000), reached("run", between, interval, 9000));
    }
}
console.log(`${count} programs that replace what they obey, ${stretches} runs to and between accesses to devices: `
    + "lc3_run_long comes to what lc3_run does");
