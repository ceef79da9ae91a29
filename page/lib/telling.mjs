// What the next step will do, in words. The library makes the step, on another machine; here it is only told.
import { ADDRESSES, Kind, PLACES, PSR_USER, Reason, VECTORS, hex, privileged } from "./constants.mjs";
import { TRAPS } from "./words.mjs";

const NAMED = Object.fromEntries(Object.entries(ADDRESSES).map(([name, address]) => [address, name]));
const SERVICES = Object.fromEntries(Object.entries(TRAPS).map(([name, vector]) => [vector, name]));
const place = (address) => (address in NAMED ? `${NAMED[address]} (${hex(address)})` : hex(address));
const character = (byte) => (byte > 31 && byte < 127 ? `'${String.fromCharCode(byte)}'` : hex(byte));
const codesOf = (psr) => ["N", "Z", "P"].filter((_, at) => psr & (4 >> at)).join(" ") || "none";
const number = (value) => (value < 0 ? `minus ${-value}` : String(value));
const modeOf = (psr) => `${psr & PSR_USER ? "User" : "Supervisor"} mode, priority ${(psr >> 8) & 7}`;

// A trap by its vector, with the name that Table A.3 has for it.
function trap(vector) {
    const service = vector in SERVICES ? ` (${SERVICES[vector]})` : "";
    return `TRAP x${vector.toString(16).toUpperCase().padStart(2, "0")}${service}`;
}

// One step with the fields of the record before and after it.
class Told {
    constructor(sitting, step) {
        this.words = sitting.words;
        this.second = sitting.edition === 2;
        this.before = sitting.machine.shorts.slice();
        this.after = step.after;
        this.step = step;
        this.reading = step.word === null ? null : sitting.library.read(step.word);
    }

    get next() { return (this.step.pc + 1) & 0xffff; }
    get near() { return (this.next + this.reading.value) & 0xffff; }
    get based() { return (this.before[this.reading.b] + this.reading.value) & 0xffff; }
    get pointer() { return this.words[this.near]; }
    get pc() { return hex(this.after[PLACES.PC]); }
    get codes() { return ` The codes become ${codesOf(this.after[PLACES.PSR])}.`; }
    register(at) { return `R${at} (${hex(this.before[at])})`; }
    goesInto() { return `${hex(this.after[this.reading.a])} goes into R${this.reading.a}.${this.codes}`; }

    // Where an address comes from that is not relative to PC.
    through() { return `takes the address ${place(this.pointer)} from ${place(this.near)} and`; }
    added() {
        const { b, value } = this.reading;
        return `adds ${this.register(b)} and ${number(value)} to the address ${hex(this.based)} and`;
    }

    loaded(address) {
        const { a } = this.reading;
        return `loads the word at ${place(address)}, ${hex(this.after[a])}, into R${a}.${this.codes}`;
    }

    stored(address) {
        const stores = `stores ${this.register(this.reading.a)} at ${place(address)}`;
        if (!(address in NAMED)) return `${stores}, in the place of ${hex(this.words[address])}.`;
        const lost = address === ADDRESSES.DDR && !this.step.shown.length;
        return `${stores}.${lost ? " The display is busy, and the byte is lost." : ""}`;
    }

    operate(verb) {
        const { kind, b, c, value } = this.reading;
        const isRegister = kind === Kind.ADD_REGISTER || kind === Kind.AND_REGISTER;
        return `${verb} ${this.register(b)} and ${isRegister ? this.register(c) : number(value)}: ${this.goesInto()}`;
    }

    branch() {
        const { a } = this.reading, psr = this.before[PLACES.PSR], asked = codesOf(a).split(" ");
        if (!a) return "BR tests no code: the next instruction follows.";
        if (psr & a) return `BR: ${codesOf(psr & a)} is set, so PC becomes ${hex(this.near)}.`;
        const none = asked.length > 1 ? `none of ${asked.join(", ")} is set` : `${asked[0]} is not set`;
        return `BR: ${none}, so the next instruction follows, at ${hex(this.next)}.`;
    }

    call() {
        return `R7 becomes ${hex(this.after[PLACES.R7])}, the address of the next instruction, and PC ${this.pc}.`;
    }

    address() {
        const { a } = this.reading, codes = this.second ? this.codes : " The codes stay.";
        return `LEA puts the address ${hex(this.near)} into R${a}.${codes}`;
    }

    returned() {
        const stack = this.before[PLACES.R6], psr = this.after[PLACES.PSR];
        return `RTI pops PC, ${this.pc}, from ${hex(stack)} and PSR, ${hex(psr)}, from ${hex((stack + 1) & 0xffff)}: `
            + `${modeOf(psr)}.`;
    }

    // An instruction that is obeyed to its end.
    instruction() {
        const add = () => this.operate("ADD adds"), and = () => this.operate("AND takes the bits that are set in both");
        const vector = this.step.word & 0xff;
        const kinds = {
            [Kind.BR]: () => this.branch(),
            [Kind.ADD_REGISTER]: add, [Kind.ADD_IMMEDIATE]: add, [Kind.AND_REGISTER]: and, [Kind.AND_IMMEDIATE]: and,
            [Kind.NOT]: () => `NOT turns over every bit of ${this.register(this.reading.b)}: ${this.goesInto()}`,
            [Kind.LD]: () => `LD ${this.loaded(this.near)}`,
            [Kind.LDI]: () => `LDI ${this.through()} ${this.loaded(this.pointer)}`,
            [Kind.LDR]: () => `LDR ${this.added()} ${this.loaded(this.based)}`,
            [Kind.LEA]: () => this.address(),
            [Kind.ST]: () => `ST ${this.stored(this.near)}`,
            [Kind.STI]: () => `STI ${this.through()} ${this.stored(this.pointer)}`,
            [Kind.STR]: () => `STR ${this.added()} ${this.stored(this.based)}`,
            [Kind.JMP]: () => `PC becomes ${this.pc}, which is R${this.reading.a}.`,
            [Kind.JSR]: () => this.call(), [Kind.JSRR]: () => this.call(), [Kind.RTI]: () => this.returned(),
            // Only by the second edition's rules is this an instruction and no entry.
            [Kind.TRAP]: () => `${trap(vector)}: ${this.call()} That is the word at ${hex(vector)}.`,
        };
        return kinds[this.reading.kind]();
    }

    // Why an entry is made.
    cause() {
        const priority = (this.before[PLACES.PSR] >> 8) & 7, enabled = "interrupts are enabled, and the priority";
        const denied = () => `${this.denied()} is privileged, and the machine is in User mode.`;
        return {
            [Reason.TRAP]: () => `${trap(this.step.word & 0xff)}.`,
            [Reason.PRIVILEGE]: () => "The privilege exception: RTI in User mode.",
            [Reason.ILLEGAL]: () => "The illegal opcode exception: opcode 1101 is reserved.",
            [Reason.ACCESS]: () => `The access exception: ${denied()}`,
            [Reason.KEYBOARD]: () => `The keyboard interrupts: a key is ready, ${enabled} ${priority} is below 4.`,
            [Reason.TIMER]: () => `The timer interrupts: its interval has passed, ${enabled} ${priority} is below 6.`,
        }[this.step.reason]();
    }

    // The address that User mode may not access.
    denied() {
        if (this.step.word === null) return hex(this.step.pc);
        const { kind } = this.reading;
        if (kind === Kind.LDR || kind === Kind.STR) return place(this.based);
        const second = kind === Kind.LDI || kind === Kind.STI;
        return place(second && !privileged(this.near) ? this.pointer : this.near);
    }

    entry() {
        const { reason, word } = this.step, vector = reason === Reason.TRAP ? word & 0xff : VECTORS[reason];
        const stack = this.after[PLACES.R6], pushed = `${hex(stack)} and ${hex((stack + 1) & 0xffff)}`;
        return `${this.cause()} PC and PSR are pushed on the supervisor stack, at ${pushed}; PC becomes ${this.pc}, `
            + `the word at ${hex(vector)}; ${modeOf(this.after[PLACES.PSR])}.`;
    }
}

// The next step of a sitting in words.
export function nextInWords(sitting) {
    const step = sitting.nextStep();
    if (!step) return "The machine is halted: no step is made. Reset starts it again.";
    const told = new Told(sitting, step), keys = step.keys.map((key) => `The key ${character(key)} arrives. `).join("");
    const shown = step.shown.map((byte) => ` The display shows ${character(byte)}.`).join("");
    return `${keys}${step.reason === Reason.INSTRUCTION ? told.instruction() : told.entry()}${shown}`;
}
