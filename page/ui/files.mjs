// Opening and saving: object files, recordings, programs as text, and the examples.
import { Refused, hex } from "../lib/constants.mjs";
import { endLine } from "../lib/ending.mjs";
import { SWAPPED, isSwapped, isText, otherFormat } from "../lib/formats.mjs";
import { recordingOf } from "../lib/recording.mjs";
import { $, download, tell } from "./dom.mjs";
import { stop } from "./running.mjs";
import { drawAll, keepSeen, recordedSitting, seat, seated } from "./seat.mjs";

// The longest files that are read: what the command takes.
const LONGEST_PROGRAM = 1 << 22, LONGEST_RECORDING = 1 << 26;

export const EXAMPLES = {
    hello: { title: "hello", files: ["hello"] },
    echo: { title: "echo (type a line)", files: ["echo"] },
    sieve: { title: "sieve", files: ["sieve"] },
    tasks: { title: "tasks (timer interrupts)", files: ["tasks"], supervisor: true },
    answers: { title: "answers (protection)", files: ["examiner", "answers"] },
};

// What stands inside of the page, or beside it where the page is not one file.
export async function bytesOf(id, path) {
    const inside = $(id);
    if (inside) return Uint8Array.from(atob(inside.textContent.trim()), (letter) => letter.charCodeAt(0));
    const answer = await fetch(path);
    if (!answer.ok) throw new Error(`${path}: ${answer.status}`);
    return new Uint8Array(await answer.arrayBuffer());
}

export function settings() {
    const user = $("mode").value !== "supervisor", edition = Number($("edition").value);
    return { user, edition, monitor: $("monitor").checked, anywhere: $("anywhere").checked };
}

const isRecording = (name) => /\.json$/i.test(name);

// The ready-made monitor does not serve the second edition.
function drawSettings() { $("monitor").disabled = $("edition").value === "2"; }

// What is wrong with a file, in words.
function problemOf(error, files) {
    const swapped = error instanceof Refused && files.find(({ bytes }) => isSwapped(bytes));
    if (swapped) return `${swapped.name}: refused: ${SWAPPED}`;
    if (error instanceof Refused && error.number === 21)
        return `${error.message}; or have files lie anywhere, or start in Supervisor mode with it (Machine…)`;
    return error.message;
}

let opened = 0;
// Begins to open something, which may take its time, and answers whether nothing else was opened since.
function opening() {
    const number = ++opened;
    return () => number === opened;
}

// Loads files in the place of those that are there, or says why not.
export function load(files) {
    opening();
    try {
        for (const { name, bytes } of files) {
            const problem = isText(bytes) ? "it is text: open it alone, and load it" : otherFormat(bytes);
            if (problem) throw new Error(`${name}: refused: ${problem}`);
        }
        seat.sitting = keepBreakpoints(seated(files, settings()));
    } catch (error) {
        tell(problemOf(error, files), "wrong");
        return false;
    }
    Object.assign(seat, { files, recording: null });
    begun();
    return true;
}

// The same breakpoints in a sitting that takes the place of another.
function keepBreakpoints(sitting) {
    if (seat.sitting) sitting.breakpoints = new Set(seat.sitting.breakpoints);
    return sitting;
}

// Goes to the start: of the recording that was opened, with its keys to come at their times, or of the files.
export async function restart() {
    if (!seat.recording) return reset();
    const isLast = opening(), sitting = await recordedSitting(seat.recording);
    if (!isLast()) return;
    seat.sitting = keepBreakpoints(sitting);
    begun();
    tell(`${seat.recording.name} stands at its start: its keys come at their times.`);
}

// Starts again: the files anew, by the settings as they are.
export function reset() {
    drawSettings();
    if (!load(seat.files)) $("settings").open = true;
}

function begun() {
    const { sitting } = seat, last = sitting.programs.at(-1);
    Object.assign(seat, { running: null, waiting: false, chosen: sitting.pc });
    if ($("rows").contains(document.activeElement)) document.activeElement.blur(); // a word that was edited is no more
    drawSettings();
    keepSeen();
    document.title = last ? `${last.name} – LC-3` : "LC-3";
    const beside = sitting.programs.slice(0, -1).map((program) => program.name).join(", ");
    const words = last && (last.words === 1 ? "1 word" : `${last.words} words`);
    tell(last ? `${last.name}: ${words} from ${hex(last.origin)} on${beside && `, beside ${beside}`}. Ready to run.`
        : "Open an object file, drop one here, choose an example, or write a program.");
    drawAll();
}

async function openRecording({ name, bytes }, isLast) {
    const recording = { name, text: new TextDecoder().decode(bytes) };
    stop();
    tell(`${name} is being replayed.`);
    // A long one is replayed while the page can be used; whoever opens something else does not wait for it.
    const sitting = await recordedSitting(recording, async (made, steps) => {
        tell(`${name} is being replayed: ${Math.floor((100 * made) / steps)} %.`);
        await new Promise((resolve) => { setTimeout(resolve); });
        if (!isLast()) throw new Error("something else was opened");
    });
    if (!isLast()) return;
    seat.sitting = keepBreakpoints(sitting);
    Object.assign(seat, { files: [], recording });
    $("edition").value = String(sitting.edition);
    begun();
    tell(`${name} is replayed, and comes to its end: ${endLine(sitting.ending(), sitting.clock)}`);
}

// The bytes of a file that is not too long to be what it is for, and can be read.
async function read(file) {
    const { name, size } = file, most = isRecording(name) ? LONGEST_RECORDING : LONGEST_PROGRAM;
    if (size > most) throw new Error(`${name}: refused: it is longer than ${most >> 20} MiB`);
    try {
        return { name, bytes: new Uint8Array(await file.arrayBuffer()) };
    } catch {
        throw new Error(`${name}: it cannot be read: a folder is not opened, but the files in it`);
    }
}

async function taken(list, openText, isLast) {
    const files = [];
    for (const file of list) files.push(await read(file));
    if (!isLast() || !files.length) return;
    const [first] = files;
    if (files.length === 1 && isRecording(first.name)) return openRecording(first, isLast);
    if (files.length > 1 || !(/\.txt$/i.test(first.name) || isText(first.bytes))) return load(files);
    openText(new TextDecoder().decode(first.bytes));
    tell(`${first.name} is opened as a text: “Load into the machine” makes words of it.`);
}

// Opens what was chosen or dropped: a recording, a program as text, or object files.
export async function openFiles(list, openText) {
    const isLast = opening();
    $("examples").value = "";
    try {
        await taken(list, openText, isLast);
    } catch (error) {
        if (isLast()) tell(error.message, "wrong");
    }
}

export async function openExample(name) {
    const { files, supervisor = false } = EXAMPLES[name], parts = [], isLast = opening();
    for (const file of files)
        parts.push({ name: `${file}.obj`, bytes: await bytesOf(`example-${file}`, `../examples/${file}.obj`) });
    if (!isLast()) return;
    $("mode").value = supervisor ? "supervisor" : "user";
    $("edition").value = "3";
    $("monitor").checked = true;
    $("anywhere").checked = supervisor;
    $("examples").value = name;
    load(parts);
}

export async function saveRecording() {
    const name = seat.sitting.programs.at(-1)?.name.replace(/\.obj$/i, "") || "sitting";
    download(`${name}.json`, await recordingOf(seat.sitting), "application/json");
    const count = seat.sitting.clock.toLocaleString("en");
    tell(`The sitting of ${count} steps is saved as ${name}.json: lc3 run --replay reads it.`);
}

export function saveProgram() {
    const program = seat.sitting.programs.at(-1);
    if (!program) return tell("No program is loaded.", "wrong");
    download(program.name || "program.obj", seat.sitting.save(program.origin, program.words));
    tell(`${program.name}: its ${program.words} words as they stand in memory are saved.`);
}

