// A browser for tests: Debian's chromium by chromedriver, spoken to by fetch alone.
import { spawn } from "node:child_process";
import { writeFile } from "node:fs/promises";

// How long a test waits for the page, in milliseconds: a host that does other work as well is slow.
export const PATIENCE = 120_000;

export const pause = (ms) => new Promise((resolve) => { setTimeout(resolve, ms); }); // between two looks at a file

export class Browser {
    // Starts a browser of its own; `downloads` is the folder that files are saved in.
    static async start({ width = 1440, height = 1000, downloads = "/nowhere" } = {}) {
        const browser = new Browser();
        browser.process = spawn("chromedriver", ["--port=0"], { stdio: ["ignore", "pipe", "ignore"] });
        try {
            browser.base = `http://127.0.0.1:${await browser.port()}`;
            await browser.begin(`--window-size=${width},${height}`, downloads);
        } catch (error) {
            browser.process.kill();
            throw error;
        }
        return browser;
    }

    // The port that chromedriver has chosen.
    port() {
        return new Promise((resolve, reject) => {
            this.process.on("error", reject);
            this.process.on("exit", () => reject(new Error("chromedriver does not start")));
            this.process.stdout.on("data", (text) => {
                const found = /successfully on port (\d+)/.exec(text);
                if (found) resolve(found[1]);
            });
        });
    }

    async begin(size, downloads) {
        const args = ["--headless=new", "--no-sandbox", "--disable-gpu", "--disable-dev-shm-usage", size];
        const prefs = { "download.default_directory": downloads, "download.prompt_for_download": false };
        const options = { args, binary: "/usr/bin/chromium", prefs };
        const logs = { browser: "ALL", performance: "ALL" }, timeouts = { script: 5 * PATIENCE, pageLoad: PATIENCE };
        const wanted = { browserName: "chrome", timeouts, "goog:chromeOptions": options, "goog:loggingPrefs": logs };
        const asked = { capabilities: { alwaysMatch: wanted } };
        // On a busy host a browser may take longer to start than chromedriver waits for it.
        const session = await this.ask("POST", "/session", asked).catch(() => this.ask("POST", "/session", asked));
        this.base += `/session/${session.sessionId}`;
        this.version = session.capabilities.browserVersion;
    }

    async ask(method, path, body) {
        const answer = await fetch(this.base + path, { method, body: body && JSON.stringify(body) });
        const { value } = await answer.json();
        if (value?.error) throw new Error(`${path}: ${value.error}: ${value.message}`);
        return value;
    }

    go(url) { return this.ask("POST", "/url", { url }); }
    run(script, ...args) { return this.ask("POST", "/execute/sync", { script, args }); }
    cdp(cmd, params = {}) { return this.ask("POST", "/goog/cdp/execute", { cmd, params }); }
    log(type = "browser") { return this.ask("POST", "/se/log", { type }); }
    text(css) { return this.run("return document.querySelector(arguments[0]).textContent", css); }
    value(css) { return this.run("return document.querySelector(arguments[0]).value", css); }

    // Waits until something holds. The page itself looks for it, so that a test goes on at once and asks but once.
    async wait(condition, ms = PATIENCE) {
        const script = `const [until, done] = [performance.now() + arguments[0], arguments[1]], look = () => {
            if (${condition}) done(true); else if (performance.now() > until) done(false); else setTimeout(look, 5); };
            look()`;
        if (await this.ask("POST", "/execute/async", { script, args: [ms] })) return;
        throw new Error(`waited in vain for ${condition}: ${await this.text("#status")}`);
    }

    async find(css) {
        return Object.values(await this.ask("POST", "/element", { using: "css selector", value: css }))[0];
    }

    async click(css) { return this.ask("POST", `/element/${await this.find(css)}/click`, {}); }
    async type(css, text) { return this.ask("POST", `/element/${await this.find(css)}/value`, { text }); }

    async keys(...keys) {
        const actions = keys.flatMap((value) => [{ type: "keyDown", value }, { type: "keyUp", value }]);
        await this.ask("POST", "/actions", { actions: [{ type: "key", id: "keyboard", actions }] });
    }

    // Opens a tab and goes there, or goes to one that is open; answers the one that it came from.
    async tab(to = null) {
        const from = await this.ask("GET", "/window");
        const handle = to ?? (await this.ask("POST", "/window/new", { type: "tab" })).handle;
        await this.ask("POST", "/window", { handle });
        return from;
    }

    closeTab() { return this.ask("DELETE", "/window"); }

    // What the system would ask of all pages, such as { "forced-colors": "active" }.
    media(wanted) {
        const features = Object.entries(wanted).map(([name, value]) => ({ name, value }));
        return this.cdp("Emulation.setEmulatedMedia", { features });
    }

    async shot(file) { await writeFile(file, Buffer.from(await this.ask("GET", "/screenshot"), "base64")); }

    // Light or dark, as the system's setting would have it.
    scheme(value) { return this.media({ "prefers-color-scheme": value }); }

    size(width, height, mobile = false) {
        return this.cdp("Emulation.setDeviceMetricsOverride", { width, height, deviceScaleFactor: 1, mobile });
    }

    async end() {
        try {
            await this.ask("DELETE", "");
        } finally {
            this.process.kill();
        }
    }
}
