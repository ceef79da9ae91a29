// What the tests under Node share.
import { execFileSync } from "node:child_process";
import { createReadStream } from "node:fs";
import { readFile } from "node:fs/promises";
import { createServer } from "node:http";
import { resolve } from "node:path";
import { createInterface } from "node:readline";
import { fileURLToPath, pathToFileURL } from "node:url";

export const ROOT = new URL("../../", import.meta.url);

export async function compiled(path = new URL("build/fanthrig.wasm", ROOT)) {
    return WebAssembly.compile(await readFile(path));
}

// The lines of a file, one by one.
export function linesOf(file) { return createInterface({ input: createReadStream(file), crlfDelay: Infinity }); }

// The address of a page on the disk, or of a server that has this page and nothing else, with the server. Under
// /sandboxed.html it is the same page, to which the browser lends no storage.
export async function served(way, page) {
    if (way === "file") return [pathToFileURL(resolve(page)).href, null];
    const text = await readFile(page), server = createServer((request, response) => {
        const [path] = request.url.split("?"), type = "text/html; charset=utf-8";
        const found = ["/lc3.html", "/sandboxed.html"].includes(path);
        const more = path === "/sandboxed.html" ? { "Content-Security-Policy": "sandbox allow-scripts" } : {};
        response.writeHead(found ? 200 : 404, { "Content-Type": type, ...more }).end(found ? text : "");
    });
    await new Promise((done) => { server.listen(0, "127.0.0.1", done); });
    server.unref();
    return [`http://127.0.0.1:${server.address().port}/lc3.html`, server];
}

// What the command says, however it ends.
export function lc3(...words) {
    const env = { ...process.env, PYTHONPATH: "python" };
    const options = { cwd: fileURLToPath(ROOT), env, stdio: ["ignore", "pipe", "pipe"] };
    return execFileSync("sh", ["-c", 'python3 -m fanthrig "$@" 2>&1 || true', "sh", ...words], options).toString();
}

// Fills the place of the answers, so that what a call leaves out there is not what the call before it answered.
const ANSWER_BYTES = 96;
export function spoilAnswer(library) { library.bytes(library.answer, ANSWER_BYTES).fill(0xa5); }

export const bytesOf = (view) => new Uint8Array(view.buffer, view.byteOffset, view.byteLength);
export const same = (one, other) => Buffer.compare(one, other) === 0;
export const seconds = (begun) => `${((performance.now() - begun) / 1000).toFixed(1)} s`;
