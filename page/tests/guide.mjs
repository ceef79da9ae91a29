// The guide's example for hosts in JavaScript does what is said beside it.
import { strict as assert } from "node:assert";
import { readFile } from "node:fs/promises";
import * as fanthrig from "../../build/fanthrig.mjs";
import { ROOT } from "./support.mjs";

const text = await readFile(new URL("docs/GUIDE.md", ROOT), "utf8");
const [, code] = /```js\n(.*?)```/s.exec(text), [, names] = /^import \{(.*?)\} from/m.exec(code);
const body = code.replace(/^import .*\n/m, ""), [, expected] = /console\.log\(.*\); \/\/ (.*)/.exec(body);
const bytes = await readFile(new URL("build/fanthrig.wasm", ROOT));
const file = new Uint8Array(await readFile(new URL("examples/hello.obj", ROOT)));
const said = [], console_ = { log: (line) => said.push(line) };
const Run = Object.getPrototypeOf(async () => null).constructor;
const run = new Run("fanthrig", "bytes", "file", "console", `const {${names}} = fanthrig;\n${body}`);
await run(fanthrig, bytes, file, console_);
assert.deepEqual(said, [expected]);
console.log("the guide's example in JavaScript does what it says");
