// What the parts of the page share: the sitting, and what is seen of it.
import { Sitting } from "../lib/sitting.mjs";
import { RecordingError, replayed, sittingOf } from "../lib/recording.mjs";

// The first steps of a sitting in which words that are read before they are written are looked for: a second's worth.
export const WATCHED = 1 << 21;
// The most bytes that the display shows: a program that writes without end is stopped before memory is full.
const DISPLAY_LIMIT = 1 << 26;
const LIMITS = { watched: WATCHED, displayLimit: DISPLAY_LIMIT };

export const seat = {
    module: null, // fanthrig.wasm, compiled
    sitting: null,
    files: [], // the object files in memory, as { name, bytes }
    recording: null, // the name and the text of the recording that was opened, where one was
    running: null, // while it runs
    waiting: false, // whether a run waits for a key
    chosen: 0x3000, // the line of the listing that keys go to
    lookAt: null, // the program's own instruction that ended a run, where PC is elsewhere
    editing: null, // the address of the word that is edited
    seen: null, // record and memory at the stop before, to mark what has changed
};

const parts = [];

// Adds a part that draws itself; `all` is said where the machine has stopped and everything may be another.
export function onDraw(draw) { parts.push(draw); }
export function drawAll(all = true) { for (const draw of parts) draw(all); }

// Keeps what is seen now, so that what differs at the next stop can be marked.
export function keepSeen() {
    seat.lookAt = null;
    seat.seen = { record: seat.sitting.machine.shorts.slice(), words: seat.sitting.words.slice() };
}

// Whether a file lies in privileged memory: a monitor, or words for others to use.
export const isBeside = ({ bytes }) => bytes.length > 1 && (bytes[0] < 0x30 || bytes[0] >= 0xfe);

// A sitting with the files in memory: those in privileged memory are there for the others, the last of which runs.
export function seated(files, { user, edition, monitor, anywhere }) {
    const has = monitor && edition === 3, options = { user, edition, monitor: has, anywhere, ...LIMITS };
    const sitting = new Sitting(seat.module, options);
    const order = [...files].sort((one, other) => Number(isBeside(other)) - Number(isBeside(one)));
    const beside = order.slice(0, -1);
    for (const file of order) {
        const examiner = !anywhere && isBeside(file) && (beside.includes(file) || !user);
        sitting.load(file.bytes, file.name, { examiner });
    }
    if (sitting.programs.length) sitting.origin = sitting.programs.at(-1).origin;
    sitting.start();
    return sitting;
}

// The sitting of a recording: at its start, or at its end where `between` is told of the way there; or an error that
// says what is wrong with the file.
export async function recordedSitting({ name, text }, between = null) {
    try {
        if (between) return await replayed(seat.module, text, { between, ...LIMITS });
        return (await sittingOf(seat.module, text, LIMITS)).sitting;
    } catch (error) {
        if (error instanceof RecordingError) throw new Error(`${name}: ${error.message}`);
        throw error;
    }
}
