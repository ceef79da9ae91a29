// A sitting: a machine with its programs, keyboard and display, to run, stop, look at, alter and record. It does what
// Python's `fanthrig.Sitting` does, and can go back as well.
import {
    KBSR_READY, LOG_WORDS, MAX_CLOCK, MAX_LINE, MAX_STEPS, MCR_CLOCK, MEMORY_WORDS, MONITOR_WORDS, PLACES, PSR_USER,
    Refused, Stop, USER_ORIGIN, USER_STACK,
} from "./constants.mjs";
import { endingOf } from "./ending.mjs";
import { Library, accepted } from "./library.mjs";
import { Machine } from "./machine.mjs";
import { Past, alter, inUserMode } from "./past.mjs";
import { checkApart, checkExaminer, checkPc } from "./places.mjs";
import { loggedStep } from "./steps.mjs";
import { Watch } from "./watch.mjs";
import { wordOf } from "./words.mjs";

const LONGEST_FILE = 2 + 2 * MEMORY_WORDS + 2; // a longer one fits at no origin
const MARK_EVERY = 1 << 20; // steps between two snapshots that the past is made from
const FIRST_SEARCH = 4096; // the first steps of a run with breakpoints that are made at once; they double
const FIRST_LOOK = 32; // the steps after a key at which the keyboard is looked at for the first time
const LONGEST_WAIT = 64; // the steps of the longest loop that is taken for waiting

export class Sitting {
    // `module` is fanthrig.wasm, compiled. Without more it is a machine of the third edition in User mode with the
    // ready-made monitor and no program; `watched` is the number of first steps in which words that are read before
    // they are written are looked for, and `displayLimit` the most bytes that are shown.
    constructor(module, options = {}) {
        const { monitor = true, edition = 3, user = true, anywhere = false, stack = USER_STACK, watched = 0 } = options;
        const { displayLimit = Infinity } = options;
        this.library = new Library(module);
        this.machine = new Machine(this.library, edition);
        this.follower = new Machine(this.library, edition);
        this.machine.limit = displayLimit;
        this.fileAt = this.library.lend(LONGEST_FILE);
        this.pageAt = this.library.lend(MAX_LINE * MEMORY_WORDS);
        Object.assign(this, { user, anywhere, stack, watched, hasMonitor: monitor });
        this.origin = USER_ORIGIN;
        this.startedWith = 0;
        this.breakpoints = new Set();
        this.programs = [];
        this.marks = [];
        this.loadedWords = new Watch();
        if (monitor) {
            accepted(this.library.monitor(this.machine.memoryAt, MEMORY_WORDS));
            this.loadedWords.writeRange(0, MONITOR_WORDS);
        }
        this.start(USER_ORIGIN, user, stack, true);
    }

    get edition() { return this.machine.edition; }
    get words() { return this.machine.words; }
    get clock() { return this.machine.clock; }
    get pc() { return this.machine.get("PC"); }
    get halted() { return !(this.machine.get("MCR") & MCR_CLOCK); }
    get display() { return this.machine.displayed(); }
    get(name) { return this.machine.get(name); }

    // The keys that have arrived, each with its time.
    get keys() {
        const { times, keys, arrived } = this.machine;
        return keys.slice(0, arrived).map((key, at) => [times[at], key]);
    }

    // Loading and starting.

    // Loads an object file of a candidate, or of the examiner, where such a file may lie. What is refused alters
    // nothing.
    load(file, name = "", { examiner = false, anywhere = this.anywhere } = {}) {
        const data = file.subarray(0, LONGEST_FILE), confined = !(examiner || anywhere);
        // First it is loaded where nothing is.
        const program = { name, ...this.loadInto(this.follower, data, confined, name) };
        if (examiner && !anywhere) checkExaminer(program, this.hasMonitor);
        if (!this.marks.length) checkApart(program, this.programs.slice(this.startedWith));
        this.loadInto(this.machine, data, confined, name);
        const words = this.words.slice(program.origin, program.origin + program.words);
        this.keep({ clock: this.clock, address: program.origin, words });
        this.loadedWords.writeRange(program.origin, program.words);
        this.programs.push(program);
        if (!examiner) this.origin = program.origin;
        return program;
    }

    loadInto(machine, data, confined, name) {
        const { library } = this, record = this.follower.recordAt;
        library.bytes(this.fileAt, data.length).set(data);
        const file = [this.fileAt, data.length, machine.memoryAt, MEMORY_WORDS];
        const { words, refusal } = confined ? library.startUser(...file, USER_STACK, record)
            : library.start(...file, true, USER_STACK, record);
        if (refusal) throw new Refused(refusal, 0, name);
        return { origin: library.shorts(record)[PLACES.PC], words };
    }

    // Starts anew over memory as it stands: a fresh record at `pc`, or at the origin of the candidate's file that was
    // loaded last, clock 0, an empty display and no keys.
    start(pc = this.origin, user = this.user, stack = this.stack, anywhere = this.anywhere) {
        const { library, machine } = this;
        if (user && !anywhere) checkPc(pc);
        library.bytes(this.fileAt, 2).set([pc >> 8, pc & 0xff]);
        accepted(library.start(this.fileAt, 2, machine.memoryAt, MEMORY_WORDS, user, stack, machine.recordAt));
        Object.assign(this, { user, stack, startedWith: this.programs.length });
        machine.times = [];
        machine.keys = [];
        machine.arrived = 0;
        machine.clearDisplay();
        this.typed = [];
        this.look = this.since = 0;
        this.left = null; // typed text that a replay has left, until its end
        this.alterations = [];
        this.made = 0;
        this.marks = [];
        this.passed = "";
        this.stackBase = null;
        this.firstPc = pc;
        this.stop = Stop.DONE;
        this.watch = new Watch();
        this.watch.flags.set(this.loadedWords.flags);
    }

    // Alterations, which are kept for the recording.

    set(name, value) {
        this.machine.set(name, value & 0xffff);
        this.keep({ clock: this.clock, register: name, value: value & 0xffff });
    }

    // Replaces a word by a number or by a line.
    setWord(address, value) {
        const word = typeof value === "number" ? value & 0xffff : wordOf(this.library, value);
        this.words[address] = word;
        this.watch.write(address);
        this.keep({ clock: this.clock, address, words: Uint16Array.of(word) });
    }

    keep(alteration) {
        if (!this.marks.length) return;
        this.alterations.splice(this.made, 0, alteration);
        this.made++;
    }

    // Lines of text.

    lines(first, count) {
        const { library } = this, room = MAX_LINE * count;
        const page = accepted(library.page(this.machine.memoryAt, MEMORY_WORDS, first, count, this.pageAt, room));
        return new TextDecoder().decode(library.bytes(this.pageAt, page.count)).split("\n").slice(0, count);
    }

    line(word) {
        const { count } = accepted(this.library.line(word, this.pageAt, MAX_LINE));
        return String.fromCharCode(...this.library.bytes(this.pageAt, count - 1));
    }

    // The bytes of an object file with a range of memory.
    save(origin, words) {
        const room = 2 + 2 * words;
        accepted(this.library.save(this.machine.memoryAt, MEMORY_WORDS, origin, words, this.fileAt, room));
        return this.library.bytes(this.fileAt, room).slice();
    }

    // The keyboard.

    // Types keys. Each arrives only when the last one has been read.
    type(keys) {
        this.left = null; // who types at a replay departs from it
        if (keys.length && !this.typed.length) {
            if (!(this.get("KBSR") & KBSR_READY)) this.look = this.clock;
            while (this.look < this.clock) this.putOff();
        }
        for (const key of keys) this.typed.push(key); // there may be more than a call takes
    }

    // Presses keys at a time on the clock, whether the ones before were read or not.
    press(keys, at) {
        const { machine } = this;
        if (at < this.clock) throw new Refused(15);
        let place = machine.arrived;
        while (place < machine.times.length && machine.times[place] <= at) place++;
        machine.times.splice(place, 0, ...keys.map(() => at));
        machine.keys.splice(place, 0, ...keys);
    }

    putOff() { this.look += Math.max(FIRST_LOOK, Math.floor((this.look - this.since) / 8)); }

    // Where it is time to look and the last key was read, the next one typed arrives.
    lookAtKeyboard() {
        while (this.typed.length && this.look <= this.clock) {
            if (this.get("KBSR") & KBSR_READY) {
                this.putOff();
                continue;
            }
            this.press([this.typed.shift()], this.clock);
            this.since = this.clock;
            this.look = this.clock + FIRST_LOOK;
        }
    }

    // Running.

    // Runs so many steps, or until the machine stops of itself, and answers why it stopped. `after` is told the word
    // and the reason of each step, and stops the run by answering true.
    run(steps = Infinity, after = null) {
        const end = Math.min(this.clock + steps, MAX_CLOCK);
        this.begin();
        this.stop = this.go(end, after);
        return this.stop;
    }

    // One step, also at a breakpoint.
    step() {
        this.begin();
        this.settle();
        this.lookAtKeyboard();
        this.stop = this.advance(1, new Set(), null);
        if (this.stop === Stop.DONE) this.settle();
        else this.passed = this.here();
        return this.stop;
    }

    // Keeps the machine as it stands before the first step: there the recording begins.
    begin() {
        if (this.marks.length) return;
        this.mark();
        this.firstPc = this.pc;
    }

    go(end, after) {
        let search = FIRST_SEARCH, ended = false;
        const told = after && ((word, reason) => (ended = after(word, reason)));
        while (true) {
            this.settle();
            if (ended || this.clock >= end) return Stop.DONE;
            if (this.atBreakpoint()) return Stop.BREAKPOINT;
            this.lookAtKeyboard();
            const n = this.reach(end), logged = this.breakpoints.size || after;
            const stop = this.advance(logged ? Math.min(n, search) : n, this.breakpoints, told);
            search *= 2;
            if (stop !== Stop.DONE && stop !== Stop.BREAKPOINT) return stop;
        }
    }

    // Makes up to n steps, fewer where a breakpoint or `after` ends them.
    advance(n, breaks, after) {
        const begun = this.marks[0].clock, left = begun + this.watched - this.clock;
        if (left > 0) return this.watch.advance(this.machine, Math.min(n, left), breaks, after);
        if (!breaks.size && !after) return this.machine.advance(n);
        return this.machine.advanceTo(n, (log) => placeIn(log, breaks, after));
    }

    // The steps up to a clock, or to where something is to be done before.
    reach(end) {
        let goal = Math.min(end, this.clock + MAX_STEPS);
        if (this.typed.length) goal = Math.min(goal, this.look);
        if (this.made < this.alterations.length) goal = Math.min(goal, this.alterations[this.made].clock);
        if (this.left) goal = Math.min(goal, this.left.until);
        return goal - this.clock;
    }

    here() { return `${this.clock} ${this.pc}`; }

    // Whether to stop here: PC is at a breakpoint that no run has stopped at just now.
    atBreakpoint() {
        if (!this.breakpoints.has(this.pc) || this.here() === this.passed) return false;
        this.passed = this.here();
        return true;
    }

    // Makes what a replay alters at this clock, and takes a snapshot where the last one is far back.
    settle() {
        for (; this.made < this.alterations.length && this.alterations[this.made].clock <= this.clock; this.made++)
            this.alterAgain(this.alterations[this.made]);
        if (this.left && this.clock >= this.left.until) {
            const { bytes, look, since } = this.left;
            Object.assign(this, { typed: [...bytes], look, since, left: null });
        }
        if (this.clock - this.marks.at(-1).clock < MARK_EVERY) return;
        this.mark();
        // The start is kept, the last one in User mode, and two more: the log may reach back beyond the last.
        const user = this.marks.slice(1, -2).filter(inUserMode).slice(-1);
        this.marks.splice(1, this.marks.length - 3, ...user);
    }

    alterAgain(alteration) {
        alter(this.machine, alteration);
        if (alteration.words) this.watch.writeRange(alteration.address, alteration.words.length);
    }

    // Takes a snapshot. In User mode the supervisor stack's pointer is seen as well.
    mark() {
        this.marks.push({ ...this.machine.snapshot(), made: this.made, watched: this.watch.flags.slice() });
        if (this.edition === 3 && this.get("PSR") & PSR_USER) this.stackBase = this.get("Saved_SSP");
    }

    // The past.

    past() {
        const { marks, alterations, made, clock, stackBase, firstPc, machine, follower } = this;
        return new Past({ marks: [...marks], alterations, made, clock, stackBase, firstPc, machine, follower });
    }

    // The log of the last steps, at most so many.
    lastSteps(count) {
        if (!this.marks.length) return [];
        const past = this.past(), log = past.log(Math.max(past.clock - count, past.start));
        const words = (at) => log.subarray(LOG_WORDS * at, LOG_WORDS * (at + 1));
        return Array.from({ length: log.length / LOG_WORDS }, (_, at) => loggedStep(...words(at)));
    }

    // The same with all that they did.
    lastTraced(count) {
        if (!this.marks.length) return [];
        const past = this.past(), { follower } = this, found = [];
        let made = past.followed(Math.max(past.clock - count, past.start));
        while (follower.clock < past.clock) {
            found.push(follower.traced());
            for (; made < past.made && past.alterations[made].clock <= follower.clock; made++)
                alter(follower, past.alterations[made]);
        }
        return found;
    }

    // What the next step will do: it is made on another machine. Null where none is made.
    nextStep() {
        if (this.halted) return null;
        const { follower, machine } = this;
        follower.follow(machine);
        // A key that is typed may arrive in this very step.
        if (this.typed.length && this.look <= this.clock && !(this.get("KBSR") & KBSR_READY)) {
            follower.times.splice(follower.arrived, 0, this.clock);
            follower.keys.splice(follower.arrived, 0, this.typed[0]);
        }
        const step = follower.traced();
        return step && { ...step, after: follower.shorts.slice() };
    }

    // Goes back to a clock before this one. What was typed and has arrived since then is typed again.
    back(clock) {
        if (!this.marks.length) return;
        const { machine } = this, goal = Math.max(clock, this.marks[0].clock);
        this.marks = this.marks.filter((mark, at) => !at || mark.clock <= goal);
        const mark = this.marks.at(-1);
        machine.restore(mark);
        this.watch.flags.set(mark.watched);
        this.made = mark.made;
        this.alterations = this.alterations.filter((alteration) => alteration.clock <= goal);
        this.followTo(goal);
        this.typed = [...machine.keys.splice(machine.arrived), ...this.typed];
        machine.times.length = machine.arrived;
        Object.assign(this, { since: this.clock, look: this.clock, left: null, passed: "", stop: Stop.DONE });
    }

    // Makes the steps to a clock once more, with all that was altered on the way and there.
    followTo(goal) {
        while (true) {
            for (; this.made < this.alterations.length && this.alterations[this.made].clock <= this.clock; this.made++)
                this.alterAgain(this.alterations[this.made]);
            if (this.clock >= goal) return;
            const next = Math.min(goal, this.alterations[this.made]?.clock ?? goal);
            this.advance(next - this.clock, new Set(), null);
        }
    }

    // How the last run ended, and where the program stood.
    ending(stop = this.stop) {
        this.begin();
        return endingOf(this.past(), stop, (word) => this.line(word));
    }

    // "waiting" where the machine does nothing but wait for a key, "endless loop" where it goes round and round and not
    // even a key can change that, and else null.
    idle() {
        const { machine, follower } = this;
        const unread = this.typed.length && this.get("KBSR") & KBSR_READY;
        if (this.left || machine.arrived < machine.times.length || (this.typed.length && !unread)) return null;
        follower.follow(machine);
        // A busy display counts its steps, and no record would come again.
        follower.advance(follower.get("busy"));
        const start = follower.snapshot();
        if (!follower.goesRound(LONGEST_WAIT)) return null;
        const round = follower.clock - start.clock;
        follower.restore(start);
        return unread || follower.ignoresAKey(round) ? "endless loop" : "waiting";
    }
}

// After how many steps of a log to stop, or -1. Its first step is made whatever its PC.
function placeIn(log, breaks, after) {
    for (let step = 0; LOG_WORDS * step < log.length; step++) {
        if (step && breaks.has(log[LOG_WORDS * step])) return step;
        if (after?.(log[LOG_WORDS * step + 1], log[LOG_WORDS * step + 2])) return step + 1;
    }
    return -1;
}
