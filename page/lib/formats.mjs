// Files that are plainly no object files of the book's tools, and what to do with them: as Python's `fanthrig.formats`.
import { USER_END, USER_ORIGIN } from "./constants.mjs";

const LC3TOOLS = "it is an object file of lc3tools, which has a format of its own: assemble its source with the book's "
    + "lc3as, or another tool that writes an origin and words";
const ELF = "it is a program for this computer (ELF), and no object file of the LC-3";
const ZIP = "it is a ZIP archive: unpack it, and name the object files in it";
export const SWAPPED = "the low byte of each of its words comes first, and that of an object file last: assemble it "
    + "anew, or swap them, as by dd conv=swab";
const LC3TOOLS_BEGINS = [0x1c, 0x30, 0x15, 0xc0, 0x01];
const SHORTEST_ELF = 52, SHORTEST_TEXT = 8, LONGEST_BEGINNING = 1 << 16;
// Comments, and then an origin in binary or hexadecimal digits, alone in its line: a program that is written as text.
const ORIGIN = /(?:0?x[0-9a-f]{4}|[01](?:[ \t]*[01]){15})[ \t]*[;\r\n]/;
const BEGINS = new RegExp(`^(?:\xef\xbb\xbf)?(?:[ \t\n\v\f\r]|;[^\r\n]*[\r\n])*${ORIGIN.source}`, "i");

const begins = (data, bytes) => bytes.every((byte, at) => data[at] === byte);
const service = (word) => word >= 0xf020 && word <= 0xf025;

// What a file plainly is that is no object file, with what to do; empty where it may be one.
export function otherFormat(data) {
    if (begins(data, LC3TOOLS_BEGINS)) return LC3TOOLS;
    if (begins(data, [0x7f, 0x45, 0x4c, 0x46]) && data.length >= SHORTEST_ELF)
        return [1, 2].includes(data[4]) && [1, 2].includes(data[5]) && data[6] === 1 ? ELF : "";
    return begins(data, [0x50, 0x4b, 3, 4]) && latin(data).includes("PK\u0001\u0002") ? ZIP : "";
}

const latin = (data) => Array.from(data, (byte) => String.fromCharCode(byte)).join("");

// Whether a file is text: lines of characters of UTF-8, and none of control but those that end lines and the like; or
// of Latin-1 where an assembler's .ORIG is among them.
export function isText(data) {
    if (BEGINS.test(latin(data.subarray(0, LONGEST_BEGINNING)))) return true;
    if (data.length < SHORTEST_TEXT || !(data.includes(10) || data.includes(13))) return false;
    let text;
    try {
        text = new TextDecoder("utf-8", { fatal: true }).decode(data);
    } catch {
        text = latin(data);
        if (!/\.orig/i.test(text)) return false;
    }
    return !/\p{C}/u.test(text.replace(/[\t\n\f\r]/g, ""));
}

// Whether a file that was refused is plainly one with the bytes of each word swapped: the other way round it lies in
// User mode's words and calls services, and as it stands it calls none.
export function isSwapped(data) {
    if (data.length < 2 || data.length % 2) return false;
    const count = data.length / 2, view = new DataView(data.buffer, data.byteOffset, data.length);
    const words = (swapped) => Array.from({ length: count }, (_, at) => view.getUint16(2 * at, swapped));
    if (words(false).slice(1).some(service)) return false;
    const [origin, ...others] = words(true);
    const liesRight = origin >= USER_ORIGIN && origin < USER_END && origin + others.length <= USER_END;
    return liesRight && others.some(service);
}
