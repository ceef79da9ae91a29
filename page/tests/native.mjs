// fanthrig.wasm and the module over it against what the native library and the Python module answered, as native.py
// wrote it:     node native.mjs ANSWERS.jsonl [--library FILE.wasm] [--recordings FOLDER]
import { strict as assert } from "node:assert";
import { createHash } from "node:crypto";
import { mkdir, writeFile } from "node:fs/promises";
import { join } from "node:path";
import { parseArgs } from "node:util";
import {
    ADDRESSES, Library, LineError, MEMORY_WORDS, Refused, Sitting, endLine, isSwapped, isText, otherFormat, recordingOf,
    replayed,
    wordOf,
} from "../../build/fanthrig.mjs";
import { bytesOf, compiled, linesOf, seconds, spoilAnswer } from "./support.mjs";

const { values, positionals } = parseArgs({
    options: { library: { type: "string" }, recordings: { type: "string" } }, allowPositionals: true,
});
const module = await compiled(values.library);
const library = new Library(module), equal = assert.deepEqual;
const memoryAt = library.lend(2 * MEMORY_WORDS), recordAt = library.lend(48);
const fileAt = library.lend(200_000), outAt = library.lend(1_300_000);
const digest = (view) => createHash("sha256").update(bytesOf(view)).digest("hex");
const hexOf = (bytes) => Buffer.from(bytes).toString("hex");
const unhex = (text) => new Uint8Array(Buffer.from(text, "hex"));
const fieldsAt = (of, at) => [...of.shorts(at), of.clock(at)];
const WATCHED = [0, 500, 1e9]; // steps in which words that are read before they are written are looked for
const RECORDED = 100; // recordings of this side that Python replays
let memory, claim;

// The refusal of a call that throws it.
function refusalOf(make) {
    try {
        make();
        return 0;
    } catch (error) {
        if (error instanceof Refused) return error.number;
        throw error;
    }
}

function started(name, test) {
    const file = unhex(test.file);
    library.words(memoryAt, MEMORY_WORDS).set(memory);
    library.bytes(fileAt, file.length).set(file);
    const lent = [fileAt, file.length, memoryAt, test.length], user = name === "start" ? [test.user] : [];
    spoilAnswer(library);
    const { words, refusal } = library[name](...lent, ...user, test.stack, recordAt);
    const got = [...fieldsAt(library, recordAt), words];
    equal([refusal, got], [test.refusal, test.got ?? got.map(() => 0)]);
    equal(digest(library.words(memoryAt, test.length)), test.memory);
}

function ranged(name, test) {
    library.words(memoryAt, MEMORY_WORDS).set(memory);
    library.bytes(outAt, test.room + 8).fill(0);
    spoilAnswer(library);
    const { count, refusal } = library[name](memoryAt, MEMORY_WORDS, test.first, test.count, outAt, test.room);
    equal([refusal, count, digest(library.bytes(outAt, test.room))], [test.refusal, ...test.got]);
    equal(hexOf(library.bytes(outAt + test.room, 8)), "0000000000000000");
}

// A sitting with the program of one of Python's.
function loaded(test, watched) {
    const { user, edition, monitor, anywhere } = test;
    const sitting = new Sitting(module, { user, edition, monitor, anywhere, watched });
    sitting.load(unhex(test.file), "");
    sitting.start();
    sitting.breakpoints = new Set(test.breakpoints);
    return sitting;
}

// Types, alters and runs as it was done there; answers why the run stopped.
function done(sitting, doing) {
    if (doing.alter) equal(refusalOf(() => altered(sitting, ...doing.alter)), doing.refusal);
    sitting.type([...unhex(doing.typed)]);
    if (doing.press) sitting.press([doing.press[0]], doing.press[1]);
    return doing.single ? sitting.step() : sitting.run(doing.steps);
}

// A sitting that makes what is told of one of Python's.
function seated(test, watched) {
    const sitting = loaded(test, watched);
    for (const doing of test.doings) {
        const { clock } = sitting, stop = done(sitting, doing), ending = sitting.ending();
        equal([stop, sitting.clock - clock, endLine(ending, sitting.clock), ending.kind],
            [doing.stop, doing.made, doing.ending, doing.kind]);
    }
    return sitting;
}

// Words that were neither written nor read before they were written can't matter: with others in their place, all comes
// to the same.
function othersInPlace(test, { flags }) {
    const sitting = loaded(test, 0), { words } = sitting, devices = new Set(Object.values(ADDRESSES));
    flags.forEach((flag, address) => { if (!flag && !devices.has(address)) words[address] ^= 0xa5a5; });
    for (const doing of test.doings) done(sitting, doing);
    equal(fieldsAt(sitting.library, sitting.machine.recordAt), test.record);
    equal([hexOf(sitting.display), sitting.keys], [test.display, test.keys]);
}

function altered(sitting, name, value) {
    if (name.startsWith("x")) sitting.setWord(Number.parseInt(name.slice(1), 16), value);
    else sitting.set(name, value);
}

function asLeft(sitting, test) {
    equal(fieldsAt(sitting.library, sitting.machine.recordAt), test.record);
    equal(digest(sitting.words), test.memory);
    equal(hexOf(sitting.display), test.display);
    equal(sitting.keys, test.keys);
}

// Goes back by some steps and forth again: the same end.
function backAndForth(sitting, test) {
    if (test.doings.some(({ typed, press }) => typed || press)) return;
    const { clock } = sitting, goal = Math.max(clock - 3, 0);
    sitting.breakpoints.clear();
    sitting.back(goal);
    equal(sitting.clock, goal);
    const { alterations } = JSON.parse(test.recording);
    if (alterations.some((one) => one.clock > goal)) return;
    while (sitting.clock < clock) sitting.run(1);
    asLeft(sitting, test);
}

// A recording without what depends on how memory is compressed.
function plain(text) {
    const { digest: _, start, ...others } = JSON.parse(text);
    return { ...others, start: start.record };
}

let recorded = 0;
async function recordings(sitting, test) {
    const text = await recordingOf(sitting);
    equal(plain(text), plain(test.recording));
    const again = await replayed(module, test.recording);
    asLeft(again, test);
    if (!values.recordings || recorded >= RECORDED) return;
    await mkdir(values.recordings, { recursive: true });
    await writeFile(join(values.recordings, `${recorded++}.json`), text);
}

const TESTS = {
    word({ word, line, read }) {
        spoilAnswer(library);
        const { count, refusal } = library.line(word, outAt, 17);
        equal([String.fromCharCode(...library.bytes(outAt, count)), refusal], [`${line}\n`, 0]);
        equal([library.lineLength(word), wordOf(library, line)], [count, word]);
        equal(Object.values(library.read(word)), read);
        equal(library.line(word, outAt, count - 1), { count: 0, refusal: 16 });
    },
    write({ instruction: [kind, a, b, c, value], answer: [word, refusal] }) {
        equal(library.write({ kind, a, b, c, value }), { word, refusal });
    },
    text({ text, word, problem, operand }) {
        try {
            equal(wordOf(library, text), word);
        } catch (error) {
            if (!(error instanceof LineError)) throw error;
            equal([error.problem, error.operand], [problem, operand]);
        }
    },
    memory({ words }) { memory = new Uint16Array(unhex(words).buffer); },
    start(test) { started("start", test); },
    startUser(test) { started("startUser", test); },
    page(test) { ranged("page", test); },
    save(test) { ranged("save", test); },
    monitor({ length, refusal, memory: expected }) {
        library.words(memoryAt, MEMORY_WORDS).fill(0);
        equal(library.monitor(memoryAt, length).refusal, refusal);
        equal(digest(library.words(memoryAt, length)), expected);
    },
    monitorRoutines({ routines }) { equal(Object.values(library.monitorRoutines()), routines); },
    vectors({ routines, room, refusal, output }) {
        const names = Object.keys(library.monitorRoutines());
        library.words(outAt, room).fill(7);
        const named = Object.fromEntries(names.map((name, at) => [name, routines[at]]));
        equal(library.vectors(named, outAt, room).refusal, refusal);
        equal(digest(library.words(outAt, room)), output);
    },
    claim({ call: _, ...parts }) { claim = parts; },
    // A claim that differs from the last one that was told, in the length and in some numbers of its parts.
    certify({ parts, lowest, found }) {
        const asked = { lowest };
        let at = outAt;
        const lent = (name, as, view) => {
            const [length, others] = parts[name] ?? [claim[name].length, []];
            const numbers = view.call(library, asked[as] = at, asked[`${as}Length`] = length);
            numbers.set(claim[name].slice(0, length));
            for (const [place, number] of others) numbers[place] = number;
            at += (numbers.byteLength + 15) & ~7; // and some bytes that are of none
        };
        lent("words", "memory", library.words);
        lent("kinds", "kinds", library.bytes);
        lent("watched", "watched", library.words);
        lent("ends", "ends", library.numbers);
        lent("table", "table", library.numbers);
        equal(Object.values(library.certify(asked)), found);
    },
    format({ file, problem, swapped, text }) {
        const data = unhex(file);
        equal([otherFormat(data), isSwapped(data), isText(data)], [problem, swapped, text]);
    },
    places({ files, problem }) {
        const sitting = new Sitting(module);
        let said = "";
        try {
            files.forEach(([file, examiner], at) => sitting.load(unhex(file), `${at}.obj`, { examiner }));
        } catch (error) {
            said = error.message;
        }
        equal(said, problem);
    },
    async sitting(test, number) {
        const sitting = seated(test, WATCHED[number % WATCHED.length]);
        asLeft(sitting, test);
        equal([hexOf(sitting.typed), sitting.idle()], [test.typed, test.idle]);
        equal(sitting.lastSteps(20).map(({ pc, word, reason }) => [pc, word, reason]), test.last);
        equal(sitting.lastTraced(20).map(({ pc, word, reason }) => [pc, word, reason]), test.last);
        sitting.nextStep();
        asLeft(sitting, test); // looking at the past or at the next step leaves the present
        await recordings(sitting, test);
        if (sitting.watched > 1e6) othersInPlace(test, sitting.watch);
        backAndForth(sitting, test);
    },
};

const begun = performance.now(), counts = {};
let number = 0;
for await (const line of linesOf(positionals[0])) {
    const test = JSON.parse(line);
    number++;
    try {
        await TESTS[test.call](test, number);
    } catch (error) {
        error.message = `line ${number}, ${test.call}: ${error.message}\n${line.slice(0, 1000)}`;
        throw error;
    }
    counts[test.call] = (counts[test.call] ?? 0) + 1;
}
console.log(`all as the native library and Python answer, ${seconds(begun)}:`);
console.log(Object.entries(counts).map(([name, count]) => `${count} ${name}`).join(", "));
