// The fields of a word, as Figure A.2 of the book draws them.
import { Kind, signed } from "./constants.mjs";

const OPCODE = ["opcode", 4, "opcode"];
const register = (name) => [name, 3, "register"];
const number = (name, bits) => [name, bits, "number"];
const fixed = (bits) => ["", bits, "fixed"];
const operate = [OPCODE, register("DR"), register("SR1")];
const toRegister = [OPCODE, register("DR"), number("PCoffset9", 9)];
const fromRegister = [OPCODE, register("SR"), number("PCoffset9", 9)];

// The name, the number of bits and the kind of each field, from bit 15 down.
const FORMATS = {
    [Kind.BR]: [OPCODE, ["n", 1, "code"], ["z", 1, "code"], ["p", 1, "code"], number("PCoffset9", 9)],
    [Kind.ADD_REGISTER]: [...operate, fixed(1), fixed(2), register("SR2")],
    [Kind.ADD_IMMEDIATE]: [...operate, fixed(1), number("imm5", 5)],
    [Kind.AND_REGISTER]: [...operate, fixed(1), fixed(2), register("SR2")],
    [Kind.AND_IMMEDIATE]: [...operate, fixed(1), number("imm5", 5)],
    [Kind.NOT]: [OPCODE, register("DR"), register("SR"), fixed(6)],
    [Kind.LD]: toRegister, [Kind.LDI]: toRegister, [Kind.LEA]: toRegister,
    [Kind.ST]: fromRegister, [Kind.STI]: fromRegister,
    [Kind.LDR]: [OPCODE, register("DR"), register("BaseR"), number("offset6", 6)],
    [Kind.STR]: [OPCODE, register("SR"), register("BaseR"), number("offset6", 6)],
    [Kind.JMP]: [OPCODE, fixed(3), register("BaseR"), fixed(6)],
    [Kind.JSR]: [OPCODE, fixed(1), number("PCoffset11", 11)],
    [Kind.JSRR]: [OPCODE, fixed(1), fixed(2), register("BaseR"), fixed(6)],
    [Kind.RTI]: [OPCODE, fixed(12)],
    [Kind.TRAP]: [OPCODE, fixed(4), number("trapvect8", 8)],
    [Kind.RESERVED]: [OPCODE, ["reserved", 12, "reserved"]],
};
const NAMES = [
    "BR", "ADD", "ADD", "LD", "ST", "JSR", "JSRR", "AND", "AND", "LDR", "STR", "RTI", "NOT", "LDI", "STI", "JMP",
    "reserved", "LEA", "TRAP",
];

// What the bits of a field say.
function meaningOf(name, kind, value, bits, reading) {
    if (kind === "opcode") return NAMES[reading.kind];
    if (kind === "register") return `R${value}`;
    if (kind === "code") return value ? "yes" : "no";
    if (kind !== "number") return "";
    if (name === "trapvect8") return `x${value.toString(16).toUpperCase().padStart(2, "0")}`;
    return `#${value >> (bits - 1) ? value - 2 ** bits : value}`;
}

// The fields of a word from bit 15 down: name, kind, the highest bit, the bits, what they say, and those that are
// wrong.
export function fieldsOf(library, word) {
    const reading = library.read(word);
    let low = 16;
    return FORMATS[reading.kind].map(([name, bits, kind]) => {
        low -= bits;
        const value = (word >> low) & (2 ** bits - 1), wrong = (reading.mask >> low) & (2 ** bits - 1);
        const text = meaningOf(name, kind, value, bits, reading);
        return { name, kind, high: low + bits - 1, bits, value, wrong, text };
    });
}

// A word as a number and as a character, where it is one.
export function valueText(word) {
    const letter = word > 32 && word < 127 ? ` '${String.fromCharCode(word)}'` : "";
    return `#${signed(word)}${letter}`;
}
