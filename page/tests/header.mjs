// The module against include/fanthrig/lc3.h: it has every call, and its numbers are those of the header.
import { strict as assert } from "node:assert";
import { readFile } from "node:fs/promises";
import * as fanthrig from "../../build/fanthrig.mjs";
import { ROOT, compiled } from "./support.mjs";

const header = await readFile(new URL("include/fanthrig/lc3.h", ROOT), "utf8");
const calls = [...header.matchAll(/^[a-z]\w+ \*?lc3_(\w+)\(/gm)].map(([, name]) => name);
const camel = (name) => name.replace(/_(\w)/g, (_, letter) => letter.toUpperCase());
const module = await compiled(), exported = WebAssembly.Module.exports(module).map(({ name }) => name);

assert.equal(calls.length, 22);
assert.deepEqual(exported.filter((name) => name.startsWith("lc3_")).sort(), calls.map((name) => `lc3_${name}`).sort());
assert.deepEqual(WebAssembly.Module.imports(module), []);
for (const name of calls) assert.equal(typeof fanthrig.Library.prototype[camel(name)], "function", name);

// Numbers that are defined, and those of enums, which follow each other where none is given.
const numbers = Object.fromEntries([...header.matchAll(/^#define LC3_(\w+) (0x[0-9A-F]+|\d+)\b/gm)]
    .map(([, name, value]) => [name, Number(value)]));
for (const [, body] of header.matchAll(/^enum \{([^}]*)\}/gm)) {
    let next = 0;
    for (const [, name, value] of body.replace(/\/\*.*?\*\//gs, "").matchAll(/LC3_(\w+)(?: = (\d+))?/g)) {
        numbers[name] = value === undefined ? next : Number(value);
        next = numbers[name] + 1;
    }
}
const same = (name, value) => assert.equal(value, numbers[name], name);
for (const name of ["VERSION", "MEMORY_WORDS", "MAX_STEPS", "MAX_LINE", "LOG_WORDS", "VECTOR_WORDS", "MONITOR_WORDS",
    "WATCHED_WORDS", "STATE_NUMBERS", "PSR_USER", "PSR_PRIORITY", "KBSR_READY", "KBDR_BYTE", "MCR_CLOCK",
    "TSR_READY"]) same(name, fanthrig[name]);
for (const [name, value] of Object.entries(fanthrig.ADDRESSES)) same(`ADDRESS_${name}`, value);
for (const [name, value] of Object.entries(fanthrig.Kind)) same(name, value);
for (const [name, value] of Object.entries(fanthrig.Reason)) same(`REASON_${name}`, value);
for (const [name, value] of Object.entries(fanthrig.Stop)) if (value >= 0) same(name, value);
for (const [name, value] of Object.entries(fanthrig.Finding)) same(name, value);
const refusals = Object.entries(numbers).filter(([name]) => name.startsWith("REFUSED_"));
assert.deepEqual(Object.keys(fanthrig.REFUSALS), refusals.map(([, value]) => String(value)));
console.log(`${calls.length} calls and ${Object.keys(numbers).length} numbers of the header: the module has them`);
