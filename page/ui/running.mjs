// Running: frames of steps between which the page is drawn, single steps, and going back.
import { Stop, hex } from "../lib/constants.mjs";
import { LOOPS, endLine } from "../lib/ending.mjs";
import { $, steps, tell } from "./dom.mjs";
import { drawAll, keepSeen, onDraw, seat } from "./seat.mjs";

const FULL = 24; // the slider's place for full speed; below it ten places are a factor of 100
const FIRST = 1 << 10, MORE = 1 << 18; // steps between two looks at the time
const DRAWN_EVERY = 80; // milliseconds: nobody reads more changes

// Steps a second, as the slider has it: 1 to about 40,000, or as many as there can be.
export function rate() {
    const place = Number($("speed").value);
    return place >= FULL ? Infinity : Math.round(10 ** (place / 5));
}

// By how many calls a step leads deeper: 1 for JSR, JSRR and every entry, -1 for RET and RTI.
function deeper(word, reason) {
    if (reason) return 1;
    const opcode = word >> 12;
    if (opcode === 4 || (opcode === 15 && seat.sitting.edition === 2)) return 1;
    return opcode === 8 || (opcode === 12 && ((word >> 6) & 7) === 7) ? -1 : 0;
}

// What ends a run after the step that brings it to so many calls above or below where it began.
function untilDepth(goal) {
    const calls = { depth: 0, met: false };
    calls.after = (word, reason) => {
        calls.depth += deeper(word, reason);
        calls.met = calls.depth <= goal;
        return calls.met;
    };
    return calls;
}

const HALTED = "The machine is halted. Reset starts it again.";

function go(calls = null) {
    const { sitting } = seat;
    if (seat.running) return;
    if (sitting.halted) return tell(HALTED);
    sitting.passed = sitting.here(); // it goes on from a breakpoint
    keepSeen();
    seat.running = { calls, owed: 1, since: performance.now(), drawn: 0 };
    seat.waiting = false;
    tell("Running.");
    drawButtons();
    nextFrame();
}

// Has the next steps of this run made, unless another has begun by then.
function nextFrame() {
    const { running } = seat;
    requestAnimationFrame((now) => { if (seat.running === running && !seat.waiting) frame(now); });
}

export const over = () => go(untilDepth(0));
export const out = () => go(untilDepth(-1));

// Makes the steps of one frame at full speed, and looks early whether the machine waits, so that its clock counts few
// steps of waiting.
function fullSpeed(now) {
    const { calls, since } = seat.running, { sitting } = seat;
    // Two thirds of the time between two frames, so that the page stays usable where drawing is slow.
    const until = performance.now() + Math.min(Math.max(((now - since) * 2) / 3, 10), 40);
    let stop = sitting.run(FIRST, calls?.after);
    const going = () => stop === Stop.DONE && !calls?.met;
    const idle = going() ? sitting.idle() : null;
    while (going() && !idle && performance.now() < until) stop = sitting.run(MORE, calls?.after);
    return [stop, idle];
}

function slowly(now, speed) {
    const { running, sitting } = seat;
    running.owed = Math.min(running.owed + ((now - running.since) / 1000) * speed, speed / 4 + 1);
    const whole = Math.floor(Math.max(running.owed, 0));
    running.owed -= whole;
    if (!whole) return [Stop.DONE, null];
    const stop = sitting.run(whole, running.calls?.after);
    return [stop, stop === Stop.DONE && !running.calls?.met ? sitting.idle() : null];
}

function frame(now) {
    const { running, sitting } = seat, { clock } = sitting, speed = rate();
    const [stop, idle] = speed === Infinity ? fullSpeed(now) : slowly(now, speed);
    running.since = now;
    if (stop !== Stop.DONE || running.calls?.met) return ended(stop);
    if (idle === "waiting") return wait();
    if (idle) return ended(stop, LOOPS);
    if (sitting.clock > clock && (speed !== Infinity || now - running.drawn > DRAWN_EVERY)) {
        running.drawn = now;
        tell("Running.");
        drawAll(speed <= 60);
    }
    nextFrame();
}

// A machine that waits for a key is let be until one comes.
function wait() {
    seat.waiting = true;
    tell("The program waits for a key: type one into the keyboard field.", "waits");
    drawAll();
    if (document.activeElement === document.body) $("keys").focus();
}

// Goes on with a run that waited, since a key has come.
export function wake() {
    if (!seat.running || !seat.waiting) return;
    seat.waiting = false;
    seat.running.since = performance.now();
    nextFrame();
}

// Tells how a run ended, in the words of the command.
function ended(stop, text = "") {
    seat.running = null;
    seat.waiting = false;
    const ending = seat.sitting.ending(stop), told = text && !ending.crash ? { ...ending, text } : ending;
    seat.lookAt = ending.pc;
    tell(endLine(told, seat.sitting.clock), ending.crash ? "wrong" : "");
    drawAll();
}

export function stop() {
    if (!seat.running) return;
    seat.running = null;
    seat.waiting = false;
    const ending = seat.sitting.ending(Stop.DONE);
    tell(endLine({ ...ending, text: "stopped by you" }, seat.sitting.clock));
    drawAll();
}

export const runOrStop = () => (seat.running ? stop() : go());

export function step() {
    const { sitting } = seat;
    if (seat.running) return;
    if (sitting.halted) return tell(HALTED);
    keepSeen();
    stepped(sitting.step());
}

// After a step or some steps back: where the machine stands, or how it ended.
function stepped(stop) {
    const { sitting } = seat;
    if (sitting.halted || stop !== Stop.DONE) return ended(stop);
    tell(`${steps(sitting.clock)} made; PC ${hex(sitting.pc)}: ${sitting.lines(sitting.pc, 1)[0]}`);
    drawAll();
}

export function back() {
    const { sitting } = seat;
    if (seat.running || !canGoBack()) return;
    keepSeen();
    sitting.back(sitting.clock - 1);
    stepped(Stop.DONE);
}

const canGoBack = () => seat.sitting.marks.length > 0 && seat.sitting.clock > seat.sitting.marks[0].clock;

function drawButtons() {
    const running = Boolean(seat.running), { halted } = seat.sitting;
    $("run").lastElementChild.textContent = running ? "Stop" : "Run";
    $("run").querySelector("path").setAttribute("d", running ? "M3 3h10v10H3z" : "M4 2l10 6-10 6z");
    $("run").disabled = !running && halted;
    for (const id of ["step", "over", "out"]) $(id).disabled = running || halted;
    $("back").disabled = running || !canGoBack();
}
onDraw(drawButtons);
