// JSON as the files of the product have it: whole numbers of few digits, and no member of an object twice. Numbers
// that a double does not hold are BigInt.

const MOST_DIGITS = 20;
const MOST_DEEP = 100;
const ESCAPES = { b: "\b", f: "\f", n: "\n", r: "\r", t: "\t", '"': '"', "\\": "\\", "/": "/" };

class Reader {
    constructor(text) {
        this.text = text;
        this.at = 0;
    }

    fail(problem) { throw new Error(`${problem} at character ${this.at}`); }
    space() { while (" \t\n\r".includes(this.text[this.at] ?? "x")) this.at++; }

    take(character) {
        this.space();
        if (this.text[this.at] !== character) return false;
        this.at++;
        return true;
    }

    expect(character) { if (!this.take(character)) this.fail(`${character} expected`); }

    value(depth = 0) {
        if (depth > MOST_DEEP) this.fail("too many objects inside of one another");
        this.space();
        const first = this.text[this.at];
        if (first === "{") return this.object(depth);
        if (first === "[") return this.list(depth);
        if (first === '"') return this.string();
        const [word] = /^[-+.\w]*/.exec(this.text.slice(this.at, this.at + 64));
        this.at += word.length;
        if (Object.hasOwn(CONSTANTS, word)) return CONSTANTS[word];
        return this.number(word);
    }

    number(word) {
        if (!/^-?(0|[1-9][0-9]*)$/.test(word)) throw new Error(`${word.slice(0, MOST_DIGITS)} is no whole number`);
        if (word.replace("-", "").length > MOST_DIGITS) throw new Error(`a number has more than ${MOST_DIGITS} digits`);
        const number = Number(word);
        return Number.isSafeInteger(number) ? number + 0 : BigInt(word);
    }

    list(depth) {
        const items = [];
        this.expect("[");
        if (this.take("]")) return items;
        do items.push(this.value(depth + 1)); while (this.take(","));
        this.expect("]");
        return items;
    }

    object(depth) {
        const members = Object.create(null);
        this.expect("{");
        if (this.take("}")) return members;
        do {
            this.space();
            const name = this.string();
            if (name in members) throw new Error(`the member '${name}' is there twice`);
            this.expect(":");
            members[name] = this.value(depth + 1);
        } while (this.take(","));
        this.expect("}");
        return members;
    }

    string() {
        this.expect('"');
        let text = "";
        while (true) {
            const character = this.text[this.at++];
            if (character === undefined || character < " ") this.fail("a string is not closed");
            if (character === '"') return text;
            text += character === "\\" ? this.escape() : character;
        }
    }

    escape() {
        const letter = this.text[this.at++], digits = this.text.slice(this.at, this.at + 4);
        if (letter in ESCAPES) return ESCAPES[letter];
        if (letter !== "u" || !/^[0-9a-fA-F]{4}$/.test(digits)) this.fail("no such escape");
        this.at += 4;
        return String.fromCharCode(Number.parseInt(digits, 16));
    }
}

const CONSTANTS = { true: true, false: false, null: null };

// The data of a text, or an Error that says what is wrong in it.
export function parse(text) {
    const reader = new Reader(text), value = reader.value();
    reader.space();
    if (reader.at < text.length) reader.fail("the text goes on");
    return value;
}

// A string in ASCII, as Python's json writes it.
const ascii = (text) => JSON.stringify(text).replace(/[\u007f-\uffff]/g,
    (letter) => `\\u${letter.charCodeAt(0).toString(16).padStart(4, "0")}`);

// Data as JSON in ASCII with the members of each object in the order of their names and no white space.
export function canonical(data) {
    if (typeof data === "string") return ascii(data);
    if (Array.isArray(data)) return `[${data.map(canonical).join(",")}]`;
    if (typeof data !== "object" || data === null) return String(data);
    return `{${Object.keys(data).sort().map((name) => `${ascii(name)}:${canonical(data[name])}`).join(",")}}`;
}

// The same for people to read: each item in a line of its own, moved in by one space for each level.
export function indented(data, margin = "\n") {
    if (typeof data !== "object" || data === null) return canonical(data);
    const items = Array.isArray(data) ? data.map((item) => indented(item, `${margin} `))
        : Object.entries(data).map(([name, item]) => `${ascii(name)}: ${indented(item, `${margin} `)}`);
    const [open, close] = Array.isArray(data) ? "[]" : "{}";
    return items.length ? `${open}${margin} ${items.join(`,${margin} `)}${margin}${close}` : open + close;
}
