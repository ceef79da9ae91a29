// Which words of memory were written, and which were read though nobody had written them.
//
// The library does not tell the addresses of loads and stores. They follow from the record before a step and from the
// reason in its log; so a machine that is watched makes its steps one at a time, each by the library.
import { ADDRESSES, Kind, MEMORY_WORDS, PLACES, PSR_USER, Reason, VECTORS } from "./constants.mjs";

const WRITTEN = 1, READ_BEFORE = 2;
const DEVICES = new Set(Object.values(ADDRESSES));

export class Watch {
    constructor() { this.flags = new Uint8Array(MEMORY_WORDS); }

    write(address) { this.flags[address] |= WRITTEN; }
    writeRange(address, count) { for (let at = 0; at < count; at++) this.write(address + at); }

    read(address) {
        if (!this.flags[address] && !DEVICES.has(address)) this.flags[address] = READ_BEFORE;
    }

    // Whether a word was read before anybody had written it.
    readBefore(address) { return Boolean(this.flags[address] & READ_BEFORE); }

    // Makes up to n steps. Each is told to `after`, which stops the run by answering true; it stops as well before a
    // step at one of the addresses of `breaks`, but for the first.
    advance(machine, n, breaks, after) {
        const before = machine.shorts.slice();
        let pointer = this.pointer(machine, before);
        const booked = (pc, word, reason) => {
            this.step(machine, before, pc, word, reason, pointer);
            const now = machine.shorts;
            pointer = this.pointer(machine, now);
            return after?.(word, reason) || breaks.has(now[PLACES.PC]);
        };
        return machine.advanceSingly(n, before, booked);
    }

    // The word that an LDI or STI takes its address from, which the step itself may replace. What a device register
    // holds at the time of the step is not known, and no address is booked then.
    pointer(machine, shorts) {
        const pc = shorts[PLACES.PC], word = machine.words[pc], opcode = word >> 12;
        if (opcode !== 10 && opcode !== 11) return null;
        const address = near(machine, pc, word);
        return DEVICES.has(address) ? null : machine.words[address];
    }

    // Books one step, from the record before it, its log, and the pointer of an LDI or STI.
    step(machine, before, pc, word, reason, pointer) {
        if (reason === Reason.INSTRUCTION) {
            this.read(pc);
            return this.instruction(machine, before, pc, word, pointer);
        }
        const opcode = word >> 12;
        if (reason < Reason.KEYBOARD && !(reason === Reason.ACCESS && !word)) this.read(pc);
        // An access exception of these has read the pointer, unless that was denied: then it lies where nobody looks.
        if (reason === Reason.ACCESS && (opcode === 10 || opcode === 11)) this.read(near(machine, pc, word));
        this.read(reason === Reason.TRAP ? word & 0xff : VECTORS[reason]);
        const stack = before[before[PLACES.PSR] & PSR_USER ? PLACES.Saved_SSP : PLACES.R6];
        this.write((stack - 1) & 0xffff);
        this.write((stack - 2) & 0xffff);
    }

    // Books an instruction that was obeyed to its end.
    instruction(machine, before, pc, word, pointer) {
        const { kind, b, value } = decoded(machine.library, word);
        if (kind === Kind.LD) this.read(near(machine, pc, word));
        else if (kind === Kind.ST) this.write(near(machine, pc, word));
        else if (kind === Kind.LDR) this.read((before[b] + value) & 0xffff);
        else if (kind === Kind.STR) this.write((before[b] + value) & 0xffff);
        else if (kind === Kind.LDI || kind === Kind.STI) {
            this.read(near(machine, pc, word));
            if (pointer !== null) this[kind === Kind.LDI ? "read" : "write"](pointer);
        } else if (kind === Kind.RTI) for (const place of [0, 1]) this.read((before[PLACES.R6] + place) & 0xffff);
        else if (kind === Kind.TRAP) this.read(word & 0xff);
    }
}

// The address that an instruction at an address reaches relative to PC.
function near({ library }, pc, word) { return (pc + 1 + decoded(library, word).value) & 0xffff; }

// The reading of a word, kept for the next time: a program obeys few words many times.
function decoded(library, word) {
    library.readings ??= [];
    library.readings[word] ??= library.read(word);
    return library.readings[word];
}
