// The page in a real browser, with hands: it opens the page, types, clicks, drops files, and waits by condition alone,
// so that a host that is busy makes a test slow and never fail.
import { readFile, readdir, writeFile } from "node:fs/promises";
import { join } from "node:path";
import { Browser, PATIENCE, pause } from "./driver.mjs";
import { seconds, served } from "./support.mjs";

const WRITE = "const at = (id) => document.getElementById(id), write = (text) => { at('tab-program').click();"
    + "at('source').value = text; at('source').dispatchEvent(new Event('input')); }";

export class Desk {
    // `way` is file or http; `downloads` is a folder of its own that the browser saves files in.
    static async start(way, page, downloads) {
        const desk = new Desk();
        [desk.url, desk.server] = await served(way, page);
        Object.assign(desk, { way, downloads, browser: await Browser.start({ downloads }) });
        return desk;
    }

    // Opens the page anew. The address has a number, for one that differs behind # alone would not be loaded again.
    async open(name, url = this.url) {
        this.opened = (this.opened ?? 0) + 1;
        await this.browser.go(`${url}?${this.opened}${name && `#${name}`}`);
        await this.ready();
    }

    ready() { return this.browser.wait("document.documentElement.dataset.ready"); }
    status() { return this.browser.text("#status"); }
    display() { return this.browser.text("#display"); }
    sitting(what) { return this.browser.run(`return lc3.sitting.${what}`); }

    until(text) {
        return this.browser.wait(`document.getElementById('status').textContent.includes(${JSON.stringify(text)})`);
    }

    change(id, value) {
        return this.browser.run("const e = document.getElementById(arguments[0]);"
            + "if (e.type === 'checkbox') e.checked = arguments[1]; else e.value = arguments[1];"
            + "e.dispatchEvent(new Event('input')); e.dispatchEvent(new Event('change'))", id, value);
    }

    drop(name, bytes) {
        return this.browser.run("const t = new DataTransfer();"
            + "t.items.add(new File([new Uint8Array(arguments[1])], arguments[0]));"
            + "dispatchEvent(Object.assign(new Event('drop'), { dataTransfer: t }))", name, [...bytes]);
    }

    // Object files of words, on the disk: their names, as a file picker is handed them.
    async files(...all) {
        const names = all.map((_, at) => join(this.downloads, `${at}.obj`));
        for (const [at, words] of all.entries())
            await writeFile(names[at], Buffer.from(words.flatMap((word) => [word >> 8, word & 0xff])));
        return names.join("\n");
    }

    // Writes a text into the page, and loads it.

    write(text) { return this.browser.run(`${WRITE}; write(arguments[0])`, text); }
    load(text) { return this.browser.run(`${WRITE}; write(arguments[0]); at('load-program').click()`, text); }

    // Loads texts one after the other; what the page tells of the next step of each.
    nextOf(texts) {
        return this.browser.run(`${WRITE}; return arguments[0].map((text) => { write(text); at('load-program').click();`
            + "return at('next').textContent; })", texts);
    }

    // The bytes of a file that the browser saves, once it is whole.
    async saved(name, doing) {
        const before = new Set(await readdir(this.downloads)), until = Date.now() + PATIENCE;
        await doing();
        while (Date.now() < until) {
            const whole = (file) => !before.has(file) && !file.endsWith(".crdownload") && !file.startsWith(".");
            const [found] = (await readdir(this.downloads)).filter(whole);
            if (found) return readFile(join(this.downloads, found));
            await pause(50);
        }
        throw new Error(`${name} was not saved`);
    }

    // Runs tests in their order, those alone whose names have a part where one is told; `last` is done after them.
    async run(tests, only = "", last = null) {
        const begun = performance.now(), chosen = Object.entries(tests).filter(([name]) => name.includes(only));
        let failed = 0;
        try {
            for (const [name, test] of chosen) {
                try {
                    await test();
                    console.log(`ok  ${name}`);
                } catch (error) {
                    failed++;
                    console.log(`NOT ${name}: ${error.stack.split("\n").slice(0, 8).join("\n")}`);
                }
            }
            await last?.();
        } finally {
            await this.browser.end();
            this.server?.close();
        }
        const where = `Chromium ${this.browser.version} over ${this.way}`;
        console.log(`${chosen.length} tests in ${where}, ${failed} failed, ${seconds(begun)}`);
        process.exitCode = failed ? 1 : 0;
    }
}
