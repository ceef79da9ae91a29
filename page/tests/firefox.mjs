// The page in Firefox, by its own protocol (Marionette), a shorter set than in Chromium:     node firefox.mjs PAGE.html
import { strict as assert } from "node:assert";
import { spawn } from "node:child_process";
import { mkdtemp, readFile, rm, writeFile } from "node:fs/promises";
import { connect } from "node:net";
import { tmpdir } from "node:os";
import { join } from "node:path";
import { PATIENCE, pause } from "./driver.mjs";
import { seconds, served } from "./support.mjs";

// A browser that is asked by messages of the form LENGTH:JSON.
class Firefox {
    static async start() {
        const firefox = new Firefox();
        firefox.profile = await mkdtemp(join(tmpdir(), "firefox-"));
        await writeFile(join(firefox.profile, "user.js"), 'user_pref("marionette.port", 0);\n');
        const options = ["--headless", "--marionette", "--profile", firefox.profile, "--width=1440", "--height=1000"];
        const env = { ...process.env, HOME: firefox.profile };
        firefox.process = spawn("firefox-esr", options, { stdio: "ignore", env });
        firefox.waiting = new Map();
        firefox.number = 0;
        firefox.rest = Buffer.alloc(0);
        firefox.socket = await firefox.connected();
        firefox.socket.on("data", (data) => firefox.received(data));
        firefox.session = await firefox.ask("WebDriver:NewSession");
        return firefox;
    }

    // Firefox writes the port that it has chosen to its profile.
    async connected() {
        for (const until = Date.now() + PATIENCE; Date.now() < until;) {
            await pause(50);
            const port = Number(await readFile(join(this.profile, "MarionetteActivePort"), "utf8").catch(() => 0));
            if (!port) continue;
            const socket = connect(port, "127.0.0.1");
            await new Promise((resolve, reject) => { socket.once("connect", resolve).once("error", reject); });
            return socket;
        }
        throw new Error("Firefox does not answer");
    }

    received(data) {
        this.rest = Buffer.concat([this.rest, data]);
        while (true) {
            const colon = this.rest.indexOf(":"), end = colon + 1 + Number(this.rest.subarray(0, Math.max(colon, 0)));
            if (colon < 0 || this.rest.length < end) return;
            const message = JSON.parse(this.rest.subarray(colon + 1, end));
            this.rest = this.rest.subarray(end);
            if (!Array.isArray(message)) continue; // its greeting
            const [, number, error, value] = message, [done, failed] = this.waiting.get(number);
            if (error) failed(new Error(`${error.error}: ${error.message}`));
            else done(value);
        }
    }

    ask(name, parameters = {}) {
        const text = JSON.stringify([0, ++this.number, name, parameters]);
        this.socket.write(`${Buffer.byteLength(text)}:${text}`);
        return new Promise((done, failed) => { this.waiting.set(this.number, [done, failed]); });
    }

    async run(script, ...args) {
        return (await this.ask("WebDriver:ExecuteScript", { script, args, newSandbox: false, sandbox: null })).value;
    }

    async element(css) {
        return Object.values((await this.ask("WebDriver:FindElement", { using: "css selector", value: css })).value)[0];
    }

    async click(css) { return this.ask("WebDriver:ElementClick", { id: await this.element(css) }); }
    async type(css, text) { return this.ask("WebDriver:ElementSendKeys", { id: await this.element(css), text }); }
    text(css) { return this.run("return document.querySelector(arguments[0]).textContent", css); }

    async wait(script) {
        for (const until = Date.now() + PATIENCE; !(await this.run(`return ${script}`));)
            if (Date.now() > until) throw new Error(`waited in vain for ${script}: ${await this.text("#status")}`);
    }

    until(text) {
        return this.wait(`document.getElementById('status').textContent.includes(${JSON.stringify(text)})`);
    }

    async open(url) {
        await this.ask("WebDriver:Navigate", { url: "about:blank" });
        await this.ask("WebDriver:Navigate", { url });
        await this.wait("document.documentElement.dataset.ready");
    }

    async end() {
        const ended = new Promise((resolve) => { this.process.once("exit", resolve); });
        await this.ask("Marionette:Quit", { flags: ["eForceQuit"] }).catch(() => this.process.kill());
        this.socket.destroy();
        await ended;
        await rm(this.profile, { recursive: true, force: true });
    }
}

const begun = performance.now(), firefox = await Firefox.start(), [url] = await served("file", process.argv[2]);
const TESTS = {
    async "examples end as the command's do"() {
        for (const [name, ending] of [["hello", "halted by HALT; 317 steps; PC x3002: TRAP x25"],
            ["tasks", "halted by HALT; 916 steps; PC x3008: TRAP x25"],
            ["answers", "stopped by the access exception; 339 steps; PC x3002: LDI R0, #2"]]) {
            await firefox.open(`${url}#${name}`);
            await firefox.click("#run");
            await firefox.until(ending);
        }
    },
    async "keys and breakpoints"() {
        await firefox.open(`${url}#echo`);
        await firefox.click("#line-12290 .gutter");
        await firefox.type("#keys", "Hi.");
        while (!(await firefox.run("return lc3.sitting.halted"))) {
            await firefox.click("#run");
            await firefox.wait("!lc3.running");
        }
        await firefox.until("halted by HALT");
        assert.equal(await firefox.text("#display"), "Hi.\nHalted\n");
    },
    async "a program that is written, its fields, and what the next step does"() {
        await firefox.open(url);
        await firefox.click("#tab-program");
        await firefox.run("const s = document.getElementById('source'); s.value = 'x3000\\nADD R2, R3, #7\\nHALT\\n';"
            + "s.dispatchEvent(new Event('input'))");
        await firefox.click("#load-program");
        assert.match(await firefox.text("#next"), /ADD adds R3 \(x0000\) and 7: x0007 goes into R2/);
        await firefox.click("#bit-0");
        assert.match(await firefox.text("#next"), /and 6: x0006 goes into R2/);
        await firefox.click("#run");
        await firefox.until("halted by HALT");
        assert.equal(await firefox.run("return lc3.sitting.get('R2')"), 6);
        await firefox.click("#clear-program");
    },
};
let failed = 0;
try {
    for (const [name, test] of Object.entries(TESTS)) {
        try {
            await test();
            console.log(`ok  ${name}`);
        } catch (error) {
            failed++;
            console.log(`NOT ${name}: ${error.stack.split("\n").slice(0, 6).join("\n")}`);
        }
    }
} finally {
    await firefox.end();
}
const { browserVersion } = firefox.session.capabilities;
console.log(`${Object.keys(TESTS).length} tests in Firefox ${browserVersion}, ${failed} failed, ${seconds(begun)}`);
process.exitCode = failed ? 1 : 0;
