// The figures of the page, on a host that does nothing else:     node figures.mjs PAGE.html LIBRARY.wasm
import { execFileSync } from "node:child_process";
import { readFile, stat } from "node:fs/promises";
import { Desk } from "./desk.mjs";

const [page, library] = process.argv.slice(2), LOADS = 9, STEPS = 200;
const middle = (numbers) => numbers.sort((one, other) => one - other)[numbers.length >> 1];
const desk = await Desk.start("file", page, "/nowhere"), { browser } = desk;

async function sizes() {
    for (const file of [library, page]) console.log(`${file}: ${(await stat(file)).size.toLocaleString("en")} bytes`);
}

// Steps a second of the calls, in the browser's engine and in the native library.
async function calls() {
    await desk.open("");
    const script = await readFile(new URL("engine.js", import.meta.url), "utf8");
    const here = await browser.run(`${script}; return rates()`);
    const native = JSON.parse(execFileSync("python3", [new URL("rates.py", import.meta.url).pathname]));
    console.log("million steps a second, native / Chromium:");
    for (const [name, rate] of here) console.log(`    ${name} ${native[name].toFixed(0)} / ${rate.toFixed(0)}`);
}

async function ready() {
    const times = [];
    for (let turn = 0; turn < LOADS; turn++) {
        await desk.open("hello");
        times.push(Number(await browser.run("return document.documentElement.dataset.ready")));
    }
    console.log(`ready ${middle(times)} ms after the page was asked for (the middle of ${LOADS}; least ${times[0]})`);
}

// A step with all drawn, layout too; and a run with all drawn, after the steps in which reads are watched.
async function onThePage() {
    await desk.open("sieve");
    const times = await browser.run("const step = () => { const begun = performance.now();"
        + "document.getElementById('step').click(); document.body.offsetHeight; return performance.now() - begun; };"
        + "return Array.from({ length: arguments[0] }, step)", STEPS);
    console.log(`a step with all drawn: ${middle(times).toFixed(1)} ms (the middle of ${STEPS})`);
    await desk.load("x3000\nADD R0, R0, #1\nADD R1, R1, R0\nBRnzp #-3\n");
    await browser.click("#run");
    await browser.wait("lc3.sitting.clock > 3e6");
    const rate = await browser.ask("POST", "/execute/async", { args: [], script: "const [done] = arguments,"
        + "begun = performance.now(), from = lc3.sitting.clock; setTimeout(() => done((lc3.sitting.clock - from)"
        + "/ (performance.now() - begun) / 1000), 3000)" });
    console.log(`a run with all drawn: ${rate.toFixed(0)} million steps a second`);
    await browser.click("#clear-program");
}

try {
    for (const measure of [sizes, calls, ready, onThePage]) await measure();
} finally {
    await browser.end();
}
