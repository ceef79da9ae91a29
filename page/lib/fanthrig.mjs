// The LC-3 for hosts in JavaScript: the calls of lc3.h over fanthrig.wasm, and sittings made of them.
//
//     const module = await WebAssembly.compile(bytes);
//     const sitting = new Sitting(module);
//     sitting.load(file, "hello.obj");
//     sitting.start();
//     sitting.run(10_000);
//     endLine(sitting.ending(), sitting.clock);
//
// Every step is made by the library. What stands here lends it buffers, hands it keys at their times, keeps what it
// shows, and looks through its log.
export {
    ADDRESSES, Finding, KBDR_BYTE, KBSR_READY, Kind, LOG_WORDS, MAX_CLOCK, MAX_LINE, MAX_STEPS, MCR_CLOCK, MEMORY_WORDS,
    MONITOR_WORDS, PLACES, PSR_PRIORITY, PSR_USER, REASON_TEXTS, REFUSALS, REGISTERS, Reason, Refused,
    STATE_NUMBERS, STOP_TEXTS, Stop, TSR_READY, USER_END, USER_ORIGIN, USER_STACK, VECTOR_WORDS, VERSION, WATCHED_WORDS,
    hex, privileged, signed,
} from "./constants.mjs";
export { Library, accepted } from "./library.mjs";
export { binary, objectFile, portable, sourceOf, textOf } from "./source.mjs";
export { fieldsOf, valueText } from "./fields.mjs";
export { nextInWords } from "./telling.mjs";
export { LineError, TRAPS, numberOf, wordOf } from "./words.mjs";
export { LOOPS, WAITS, endLine } from "./ending.mjs";
export { PlaceError } from "./places.mjs";
export { SWAPPED, isSwapped, isText, otherFormat } from "./formats.mjs";
export { RecordingError, recordingOf, replayed, sittingOf } from "./recording.mjs";
export { sha256 } from "./sha256.mjs";
export { Sitting } from "./sitting.mjs";
