// A program as text, word by word: the origin first, each word as 16 binary digits, as x and four hexadecimal digits,
// as a line such as ADD R2, R3, #7, or as `lc3 list` writes it, with address and word before the line. What follows a
// semicolon is a comment. There are no labels: this is no assembler. `portable` writes bare lines as `lc3 list` does,
// and then the command reads the text as well (Python's `fanthrig.programs`).
import { MEMORY_WORDS, hex } from "./constants.mjs";
import { LineError, wordOf } from "./words.mjs";

// A text that is no word, and the part of it that is wrong.
class WordError extends Error {
    constructor(problem, from, to) {
        super(problem);
        this.from = from;
        this.to = to;
    }
}

// The place of an operand of a line, from 1; of the whole line for 0.
function placeOf(text, operand) {
    if (!operand) return [0, text.length];
    const begin = /^\S+\s*/.exec(text)[0].length, parts = text.slice(begin).split(",");
    const from = begin + parts.slice(0, operand - 1).reduce((sum, part) => sum + part.length + 1, 0);
    const part = parts[operand - 1] ?? "", indent = part.length - part.trimStart().length;
    return [from + indent, Math.max(from + part.trimEnd().length, from + indent + 1)];
}

const LISTED = /^(0?x[0-9a-f]{4})\s+(0?x[0-9a-f]{4})\s+(\S.*)$/i;
const digits4 = (text) => Number.parseInt(text.slice(-4), 16);

// What a line has: its word, and a listed one also its address.
function entryIn(library, text) {
    const listed = LISTED.exec(text);
    if (!listed) return { word: wordIn(library, text), address: null };
    const [, address, word, line] = listed, from = text.length - line.length, told = wordIn(library, line, from);
    if (told !== digits4(word))
        throw new WordError(`this line is of ${hex(told)}, and not of ${hex(digits4(word))}`, from, text.length);
    return { word: told, address: digits4(address) };
}

function wordIn(library, text, begun = 0) {
    const fail = (problem) => { throw new WordError(problem, 0, text.length); };
    if (/^[01][01\s]*$/.test(text)) {
        const digits = text.replace(/\s/g, "");
        const count = digits.length === 1 ? "is 1" : `are ${digits.length}`;
        if (digits.length !== 16) fail(`a word has 16 binary digits, and here ${count}`);
        return Number.parseInt(digits, 2);
    }
    if (/^0?x/i.test(text)) {
        if (!/^0?x[0-9a-f]{4}$/i.test(text)) fail("x and four hexadecimal digits expected, as x3000");
        return digits4(text);
    }
    try {
        return wordOf(library, text);
    } catch (error) {
        if (!(error instanceof LineError)) throw error;
        const [from, to] = placeOf(text, error.operand);
        throw new WordError(error.problem, begun + from, begun + to);
    }
}

// The origin: a word in digits, or the address of a listed line, which is the first word as well.
function originIn(library, text) {
    if (/^[01x]/i.test(text)) return entryIn(library, text);
    throw new WordError("the origin comes first, as 16 binary digits or as x3000", 0, text.length);
}

// A program that is read row by row.
class Source {
    constructor(library) { Object.assign(this, { library, origin: null, words: [], rows: [] }); }

    // Takes the next row of the text, without its comment.
    take(text) {
        const row = { address: null, word: null, isOrigin: false, error: null }, plain = text.trim();
        this.rows.push(row);
        if (!plain) return;
        const indent = text.length - text.trimStart().length;
        try {
            this.read(row, plain);
        } catch (error) {
            if (!(error instanceof WordError)) throw error;
            row.error = { problem: error.message, from: indent + error.from, to: indent + error.to };
            if (row.isOrigin) this.origin = 0x3000;
        }
    }

    read(row, plain) {
        let entry = null;
        if (this.origin === null) {
            row.isOrigin = true;
            entry = originIn(this.library, plain);
            row.word = this.origin = entry.address ?? entry.word;
            if (entry.address === null) return;
            row.isOrigin = false;
        }
        row.address = this.origin + this.words.length;
        this.words.push(0);
        if (row.address >= MEMORY_WORDS) throw new WordError("the word lies beyond xFFFF", 0, plain.length);
        entry ??= entryIn(this.library, plain);
        if (entry.address !== null && entry.address !== row.address)
            throw new WordError(`the address of this word is ${hex(row.address)}`, 0, plain.length);
        row.word = this.words[this.words.length - 1] = entry.word;
    }
}

// The rows of a text, one for each of its lines: a word with its address, an origin, an error, or nothing.
export function sourceOf(library, text) {
    const source = new Source(library);
    for (const line of text.split("\n")) source.take(line.split(";")[0]);
    const { rows, origin, words } = source;
    return { rows, origin, words, errors: rows.filter((row) => row.error).length };
}

// The text with its bare lines as `lc3 list` writes them. All else, comments too, stays as it is.
export function portable(text, { rows }) {
    return text.split("\n").map((line, at) => {
        const { address, word } = rows[at], code = line.split(";")[0], plain = code.trim();
        if (address === null || LISTED.test(plain) || /^([01]|0?x)/i.test(plain)) return line;
        return `${hex(address)}  ${hex(word)}  ${plain}${code.slice(code.trimEnd().length)}${line.slice(code.length)}`;
    }).join("\n");
}

// The object file of a program.
export function objectFile({ origin, words }) {
    const bytes = new Uint8Array(2 + 2 * words.length), view = new DataView(bytes.buffer);
    [origin, ...words].forEach((word, at) => view.setUint16(2 * at, word));
    return bytes;
}

// The text of a program: each word as its line, with its address as a comment.
export function textOf(origin, lines) {
    const rows = lines.map((line, at) => `${line.padEnd(18)}; ${hex(origin + at)}`);
    return [`${hex(origin).padEnd(18)}; the origin`, ...rows, ""].join("\n");
}

export const binary = (word) => word.toString(2).padStart(16, "0").replace(/(....)(?=.)/g, "$1 ");
