// Recordings: sittings as files, in the format that the command writes and reads. Python's `fanthrig.recording`
// describes it.
import { MAX_CLOCK, MEMORY_WORDS, PLACES, REGISTERS, Refused, STOP_TEXTS, Stop } from "./constants.mjs";
import { canonical, indented, parse } from "./json.mjs";
import { Machine } from "./machine.mjs";
import { sha256 } from "./sha256.mjs";
import { Sitting } from "./sitting.mjs";

const FORMAT = "lc3 sitting", FORMAT_VERSION = 2;
const LONGEST = 1 << 26;
const REPLAY_STEPS = 10_000_000_000;
const AT_ONCE = 1 << 24; // steps of a replay between which its caller may do other things
const LONG_LIMIT = 2n ** 64n - 1n, WORD_LIMIT = 0xffff;
// The fields of a record that are no registers R0 to R7, by the names that the file has for them.
const FIELDS = {
    pc: PLACES.PC, psr: PLACES.PSR, saved_ssp: PLACES.Saved_SSP, saved_usp: PLACES.Saved_USP, kbsr: PLACES.KBSR,
    kbdr: PLACES.KBDR, mcr: PLACES.MCR, busy: PLACES.busy, timer_status: PLACES.TSR, timer_interval: PLACES.TIR,
    timer_count: PLACES.timer_count,
};

// A file that is no recording of a sitting, or one that can't be replayed; `other` where it came to another end.
export class RecordingError extends Error {
    constructor(text, other = false) {
        super(text);
        this.name = "RecordingError";
        this.other = other;
    }
}

// Writing.

const digits = (bytes) => Array.from(bytes, (byte) => byte.toString(16).padStart(2, "0")).join("");
const base64 = (bytes) => btoa(Array.from(bytes, (byte) => String.fromCharCode(byte)).join(""));
const ascii = (text) => Uint8Array.from(text, (letter) => letter.charCodeAt(0));

// Words as bytes, the high byte first in each.
function highFirst(words) {
    const bytes = new Uint8Array(2 * words.length), view = new DataView(bytes.buffer);
    words.forEach((word, at) => view.setUint16(2 * at, word));
    return bytes;
}

function fromHighFirst(bytes) {
    const view = new DataView(bytes.buffer, bytes.byteOffset, bytes.length);
    return Uint16Array.from({ length: bytes.length / 2 }, (_, at) => view.getUint16(2 * at));
}

// Bytes through one of the browser's own streams, at most so many.
async function through(stream, bytes, most = Infinity) {
    const parts = [], reader = new Blob([bytes]).stream().pipeThrough(stream).getReader();
    let count = 0;
    for (let part = await reader.read(); !part.done && count <= most; part = await reader.read()) {
        parts.push(part.value);
        count += part.value.length;
    }
    if (count > most) await reader.cancel();
    return new Uint8Array(await new Blob(parts).arrayBuffer());
}

function recordData(shorts, clock) {
    const record = { regs: [...shorts.subarray(0, 8)] };
    for (const [name, at] of Object.entries(FIELDS)) record[name] = shorts[at];
    return { ...record, clock };
}

function endData(machine) {
    const { shorts, clock, shown } = machine;
    const memory = sha256(highFirst(machine.words)), display = sha256(machine.displayed());
    return { record: recordData(shorts, clock), memory, display, shown };
}

function alterationData({ clock, register, value, address, words }) {
    return words ? { clock, address, words: digits(highFirst(words)) } : { clock, register, value };
}

// The data with their digest, in the place of any that they have.
function sealed({ digest: _, ...others }) { return { ...others, digest: sha256(ascii(canonical(others))) }; }

// The sitting so far as the text of a file.
export async function recordingOf(sitting) {
    sitting.begin();
    const { machine, marks } = sitting, begun = sitting.follower.follow(machine, marks[0]);
    const typed = sitting.left ?? { bytes: sitting.typed, look: sitting.look, since: sitting.since };
    const data = {
        format: FORMAT, version: FORMAT_VERSION, edition: sitting.edition,
        programs: sitting.programs.map((program) => ({ ...program })),
        start: { record: recordData(begun.shorts, begun.clock), memory: "" },
        keys: machine.times.map((time, at) => [time, machine.keys[at]]),
        alterations: sitting.alterations.map(alterationData),
        steps: machine.clock - begun.clock, end: endData(machine),
        typed: { bytes: base64(typed.bytes), look: typed.look, since: typed.since },
    };
    data.start.memory = base64(await through(new CompressionStream("deflate"), highFirst(marks[0].memory)));
    return `${indented(sealed(data))}\n`;
}

// Reading.

function fail(problem) { throw new RecordingError(`no recording of a sitting: ${problem}`); }

function member(data, name) {
    if (typeof data !== "object" || data === null) fail("it is not an object");
    if (!(name in data)) fail(`'${name}' is missing`);
    return data[name];
}

function whole(value, greatest, name) {
    if (typeof value !== "number" && typeof value !== "bigint") fail(`${name} must be a whole number`);
    if (value < 0 || value > greatest) fail(`${name} is ${value}, and must be from 0 to ${greatest}`);
    return value;
}

function bytesOf(text, name) {
    if (typeof text !== "string" || !/^([A-Za-z0-9+/]{4})*([A-Za-z0-9+/]{2}==|[A-Za-z0-9+/]{3}=)?$/.test(text))
        fail(`${name} is not in base64`);
    return ascii(atob(text));
}

function unsealed(data) {
    const format = member(data, "format"), version = whole(member(data, "version"), LONG_LIMIT, "version");
    if (format !== FORMAT) fail(`its format is '${format}', not '${FORMAT}'`);
    if (version !== 1 && version !== FORMAT_VERSION)
        fail(`its version is ${version}, and this reads 1 and ${FORMAT_VERSION}`);
    if ((version > 1 || "digest" in data) && member(data, "digest") !== sealed({ ...data }).digest)
        fail("its digest is that of other data: it was damaged or altered");
    return data;
}

async function memoryOf(text) {
    let bytes;
    try {
        bytes = await through(new DecompressionStream("deflate"), bytesOf(text, "memory"), 2 * MEMORY_WORDS);
    } catch (error) {
        if (error instanceof RecordingError) throw error;
        fail("memory is not compressed by zlib");
    }
    if (bytes.length !== 2 * MEMORY_WORDS) fail(`memory is not ${MEMORY_WORDS} words`);
    return fromHighFirst(bytes);
}

// The bytes of a record of the file, one that a run takes. `machine` is there to try it.
function recordOf(data, machine) {
    const registers = member(data, "regs");
    if (!Array.isArray(registers) || registers.length !== 8) fail("a record has 8 registers");
    machine.record.fill(0);
    registers.forEach((value, at) => { machine.shorts[at] = whole(value, WORD_LIMIT, "a register"); });
    for (const [name, at] of Object.entries(FIELDS)) machine.shorts[at] = whole(member(data, name), WORD_LIMIT, name);
    const clock = whole(member(data, "clock"), MAX_CLOCK, "clock");
    machine.library.longs(machine.recordAt + 40, 1)[0] = BigInt(clock);
    tried(() => machine.set("R0", registers[0]));
    return machine.record.slice();
}

function tried(make) {
    try {
        make();
    } catch (error) {
        if (error instanceof Refused) fail(error.message.replace(/^refused \(\d+\): /, ""));
        throw error;
    }
}

function alterationOf(data, machine) {
    const clock = whole(member(data, "clock"), MAX_CLOCK, "clock");
    if ("register" in data) {
        const { register } = data;
        if (!REGISTERS.includes(register)) fail(`'${register}' is no register`);
        const value = whole(member(data, "value"), WORD_LIMIT, register);
        machine.record.fill(0);
        tried(() => machine.set(register, value));
        return { clock, register, value };
    }
    const address = whole(member(data, "address"), WORD_LIMIT, "address"), text = member(data, "words");
    if (typeof text !== "string" || !/^([0-9a-fA-F]{4})*$/.test(text))
        fail("the words of an alteration have four hexadecimal digits each");
    const words = Uint16Array.from(text.match(/.{4}/g) ?? [], (word) => Number.parseInt(word, 16));
    if (address + words.length > MEMORY_WORDS) fail("an alteration goes beyond the last word of memory");
    return { clock, address, words };
}

function programOf(data) {
    const name = member(data, "name"), origin = whole(member(data, "origin"), WORD_LIMIT, "origin");
    if (typeof name !== "string") fail("the name of a program is no text");
    return { name, origin, words: whole(member(data, "words"), MEMORY_WORDS - origin, "words") };
}

function endOf(data, machine) {
    for (const name of ["memory", "display"])
        if (!/^[0-9a-f]{64}$/.test(String(member(data, name)))) fail(`the ${name} at the end is no SHA-256`);
    recordOf(member(data, "record"), machine);
    const { memory, display, shown } = data;
    return { record: data.record, clock: machine.clock, memory, display, shown: whole(shown, MAX_CLOCK, "shown") };
}

function typedOf(data) {
    const bytes = bytesOf(member(data, "bytes"), "typed text");
    const look = whole(member(data, "look"), MAX_CLOCK * 2, "look");
    const since = whole(member(data, "since"), MAX_CLOCK, "since");
    if (look < since) fail("the keyboard is not looked at before the last key");
    return { bytes, look, since };
}

function inOrder(clocks, least, name) {
    clocks.forEach((clock, at) => {
        if (clock < (at ? clocks[at - 1] : least)) fail(`the ${name} are not in order of time from the start on`);
    });
}

function list(data, name) {
    const items = member(data, name);
    if (!Array.isArray(items)) fail(`${name} is no list`);
    return items;
}

function keyOf(item) {
    if (!Array.isArray(item) || item.length !== 2) fail("a key is a time and a byte");
    return [whole(item[0], LONG_LIMIT, "time"), whole(item[1], 255, "key")];
}

// The recording of a file's text, or a RecordingError that says what is wrong in it. `machine` is used to try records.
async function recordingIn(text, machine) {
    let data;
    try {
        data = parse(text);
    } catch (error) {
        fail(error.message);
    }
    unsealed(data);
    const edition = whole(member(data, "edition"), LONG_LIMIT, "edition");
    if (edition !== 2 && edition !== 3) fail(`${edition} is no edition`);
    const start = member(data, "start"), memory = await memoryOf(member(start, "memory"));
    const record = recordOf(member(start, "record"), machine), { clock } = machine;
    const keys = list(data, "keys").map(keyOf);
    const alterations = list(data, "alterations").map((item) => alterationOf(item, machine));
    const end = endOf(member(data, "end"), machine), typed = typedOf(member(data, "typed"));
    inOrder(keys.map(([time]) => time), clock, "keys");
    inOrder(alterations.map((alteration) => alteration.clock), clock, "alterations");
    const steps = end.clock - clock;
    if (whole(member(data, "steps"), MAX_CLOCK, "steps") !== steps)
        fail("its steps are not those from its start to its end");
    if (end.shown > steps) fail("more bytes are shown than steps made");
    const programs = list(data, "programs").map(programOf);
    return { edition, record, memory, keys, alterations, end, typed, steps, programs };
}

// A sitting at the start of a recording: its keys and alterations come at their times, however it is run.
export async function sittingOf(module, text, options = {}) {
    if (text.length > LONGEST) fail(`over ${LONGEST >> 20} MiB`);
    const sitting = new Sitting(module, { ...options, monitor: false });
    const recording = await recordingIn(text, new Machine(sitting.library, 3)), { machine } = sitting;
    machine.edition = recording.edition;
    machine.record.set(recording.record);
    machine.words.set(recording.memory);
    machine.times = recording.keys.map(([time]) => time);
    machine.keys = recording.keys.map(([, key]) => key);
    sitting.programs = recording.programs;
    if (recording.programs.length) sitting.origin = recording.programs.at(-1).origin;
    sitting.watch.flags.forEach((_, at, flags) => { flags[at] = machine.words[at] ? 1 : 0; });
    for (const { origin, words } of recording.programs) sitting.watch.writeRange(origin, words);
    sitting.begin();
    sitting.alterations = recording.alterations;
    sitting.left = { ...recording.typed, until: recording.end.clock };
    return { sitting, recording };
}

// Replays a recording to its end, and answers the sitting there; or a RecordingError that says in what it came to
// another. The steps made and those to make are told to `between` now and then, which may take its time.
export async function replayed(module, text, { between = null, ...options } = {}) {
    const { sitting, recording } = await sittingOf(module, text, options), { steps } = recording;
    if (steps > REPLAY_STEPS) throw new RecordingError(`the sitting has ${steps} steps, more than ${REPLAY_STEPS}`);
    const begun = sitting.clock, left = () => begun + steps - sitting.clock;
    let stop = sitting.run(Math.min(steps, AT_ONCE));
    while (left() && stop === Stop.DONE) {
        await between?.(steps - left(), steps);
        stop = sitting.run(Math.min(left(), AT_ONCE));
    }
    const made = steps - left();
    if (made < steps)
        throw new RecordingError(`the replay stops after ${made} of ${steps} steps: ${STOP_TEXTS[stop]}`, true);
    const came = endData(sitting.machine);
    for (const name of ["record", "memory", "display", "shown"]) {
        if (canonical(came[name]) !== canonical(recording.end[name]))
            throw new RecordingError(`the replay comes to another ${name} than the sitting`, true);
    }
    return sitting;
}
