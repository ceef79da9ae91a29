// A line of text as a word: the inverse of the library's lines, with the errors that Python's `fanthrig.word` tells.
import { Kind } from "./constants.mjs";
import { accepted } from "./library.mjs";

// A text that is no line: what is wrong in it, and the operand at fault, from 1, or 0 where none is.
export class LineError extends Error {
    constructor(text, problem, operand = 0) {
        super(`${quoted(text)}: ${problem}`);
        this.name = "LineError";
        this.problem = problem;
        this.operand = operand;
    }
}

const short = (text) => (text.length <= 60 ? text : `${text.slice(0, 57)}...`);
// A text in quotes as Python writes it.
function quoted(text) {
    const plain = short(text).replaceAll("\\", "\\\\");
    return plain.includes("'") && !plain.includes('"') ? `"${plain}"` : `'${plain.replaceAll("'", "\\'")}'`;
}

// The place of an operand: what the book calls it, and the range of a number there.
const register = (name) => ({ name, register: true, expected: `${name}, R0 to R7, expected` });
const number = (name, least, greatest) =>
    ({ name, least, greatest, expected: `${name} from ${least} to ${greatest} expected` });
const DR = register("DR"), SR = register("SR"), SR1 = register("SR1"), BASE = register("BaseR");
const SECOND = { ...number("SR2 or imm5", -16, 15), register: true, either: true };
const OFFSET6 = number("offset6", -32, 31), OFFSET9 = number("PCoffset9", -256, 255);
const OFFSET11 = number("PCoffset11", -1024, 1023), VECTOR = number("trapvect8", 0, 255);
const DATA = number("a word", -32768, 65535);

// The names that Table A.3 of the book has for traps.
export const TRAPS = { GETC: 0x20, OUT: 0x21, PUTS: 0x22, IN: 0x23, PUTSP: 0x24, HALT: 0x25 };

const binary = (withRegister, withNumber) => (a, b, last) =>
    (last.register ? { kind: withRegister, a: a.value, b: b.value, c: last.value }
        : { kind: withNumber, a: a.value, b: b.value, value: last.value });
const toRegister = (kind) => (a, v) => ({ kind, a: a.value, value: v.value });
const based = (kind) => (a, b, v) => ({ kind, a: a.value, b: b.value, value: v.value });
const ofOne = (kind) => (a) => ({ kind, a: a.value });
const ofNumber = (kind) => (v) => ({ kind, value: v.value });

// What each mnemonic takes, and the instruction that it makes of its operands.
const FORMS = {
    ADD: [[DR, SR1, SECOND], binary(Kind.ADD_REGISTER, Kind.ADD_IMMEDIATE)],
    AND: [[DR, SR1, SECOND], binary(Kind.AND_REGISTER, Kind.AND_IMMEDIATE)],
    NOT: [[DR, SR], (a, b) => ({ kind: Kind.NOT, a: a.value, b: b.value })],
    LDR: [[DR, BASE, OFFSET6], based(Kind.LDR)],
    STR: [[SR, BASE, OFFSET6], based(Kind.STR)],
    LD: [[DR, OFFSET9], toRegister(Kind.LD)],
    LDI: [[DR, OFFSET9], toRegister(Kind.LDI)],
    LEA: [[DR, OFFSET9], toRegister(Kind.LEA)],
    ST: [[SR, OFFSET9], toRegister(Kind.ST)],
    STI: [[SR, OFFSET9], toRegister(Kind.STI)],
    JSR: [[OFFSET11], ofNumber(Kind.JSR)],
    JSRR: [[BASE], ofOne(Kind.JSRR)],
    JMP: [[BASE], ofOne(Kind.JMP)],
    RET: [[], () => ({ kind: Kind.JMP, a: 7 })],
    RTI: [[], () => ({ kind: Kind.RTI })],
    TRAP: [[VECTOR], ofNumber(Kind.TRAP)],
};
// BR alone is BRnzp, as the book's assembler has it.
for (const codes of ["", "N", "Z", "P", "NZ", "NP", "ZP", "NZP"]) {
    const mask = codes ? [..."NZP"].reduce((sum, code, at) => sum + (codes.includes(code) ? 4 >> at : 0), 0) : 7;
    FORMS[`BR${codes}`] = [[OFFSET9], (v) => ({ kind: Kind.BR, a: mask, value: v.value })];
}
for (const [name, vector] of Object.entries(TRAPS)) FORMS[name] = [[], () => ({ kind: Kind.TRAP, value: vector })];
FORMS[".FILL"] = [[DATA], null];

// The number that an operand is, decimal after # or hexadecimal after x or 0x; or null.
export function numberOf(operand) {
    const decimal = /^#([+-]?[0-9]{1,9})$/.exec(operand);
    if (decimal) return Number(decimal[1]);
    const digits = /^(-?)0?x([0-9A-F]{1,8})$/i.exec(operand);
    return digits ? Number.parseInt(digits[1] + digits[2], 16) : null;
}

function operandOf(operand, place) {
    if (!operand) throw new Error(`it is empty; ${place.expected}`);
    const named = /^R([0-7])$/i.exec(operand), value = numberOf(operand);
    if (named && place.register) return { register: true, value: Number(named[1]) };
    if (named || (value !== null && place.register && !place.either))
        throw new Error(`${operand} is ${named ? "a register" : "a number"}; ${place.expected}`);
    if (value === null) throw new Error(`${short(operand)} is ${notAnOperand(operand)}; ${place.expected}`);
    if (value < place.least || value > place.greatest) throw new Error(`${operand} is out of range; ${place.expected}`);
    return { register: false, value };
}

function notAnOperand(operand) {
    if (/^R[0-9]+$/i.test(operand)) return "no register";
    if (operand.includes(";")) return "no operand: a line has no comment";
    if (/^[+-]?[0-9]+$/.test(operand)) return "no operand: a decimal number begins with # and a hexadecimal one with x";
    if (/^(#.*|-?0?x[0-9A-F]+)$/is.test(operand)) return "no number that a word holds";
    if (/^[A-Z_][A-Z_0-9]*$/i.test(operand)) return "no operand: a line has offsets in the place of labels";
    return "neither a register nor a number";
}

function formOf(mnemonic) {
    const name = mnemonic.toUpperCase();
    if (Object.hasOwn(FORMS, name)) return FORMS[name];
    if (/^BR[NZP]+$/.test(name))
        throw new Error(`${mnemonic} is no branch; its codes are some of n, z, p in that order`);
    if ([".ORIG", ".END", ".BLKW", ".STRINGZ"].includes(name))
        throw new Error(`${mnemonic} is for an assembler; the only one here is .FILL`);
    const known = "BR, ADD, LD, ST, JSR, JSRR, AND, LDR, STR, RTI, NOT, LDI, STI, JMP, RET, LEA, TRAP";
    const traps = Object.keys(TRAPS).join(", ");
    throw new Error(`${quoted(mnemonic)} is no mnemonic; one of ${known}, ${traps} or .FILL expected`);
}

// The mnemonic and the operands of a text.
function partsOf(text) {
    const plain = text.replace(/^[ \t\r\n]+|[ \t\r\n]+$/g, "").replaceAll("\t", " ");
    const strange = /[^ -~]/u.exec(plain);
    if (strange) throw new LineError(text, `'${strange[0]}' is no character of a line`);
    const [mnemonic, ...rest] = plain.split(" "), operands = rest.join(" ").trim();
    if (!mnemonic) throw new LineError(text, "it is empty; a mnemonic and its operands expected");
    return [mnemonic, operands ? operands.split(",").map((part) => part.trim()) : []];
}

function countProblem(name, places, given) {
    if (!places.length) return `${name} takes no operand, and ${given} ${given === 1 ? "is" : "are"} given`;
    const takes = places.map((place) => place.name).join(", ");
    const many = places.length === 1 ? "operand" : "operands parted by commas";
    return `${name} takes ${places.length} ${many} (${takes}), and ${given || "none"} given`;
}

// The word of a line of text, or a LineError.
export function wordOf(library, text) {
    const [mnemonic, operands] = partsOf(text), name = mnemonic.toUpperCase();
    let form;
    try {
        form = formOf(mnemonic);
    } catch (error) {
        throw new LineError(text, error.message);
    }
    const [places, make] = form;
    if (operands.length !== places.length) throw new LineError(text, countProblem(name, places, operands.length));
    const values = operands.map((operand, at) => {
        try {
            return operandOf(operand, places[at]);
        } catch (error) {
            throw new LineError(text, `operand ${at + 1} of ${name}: ${error.message}`, at + 1);
        }
    });
    return make ? accepted(library.write(make(...values))).word : values[0].value & 0xffff;
}
