// The page in the hands of someone who wants to break it:     node hostile.mjs PAGE.html DOWNLOADS [NAME]
import { strict as assert } from "node:assert";
import { mkdir, readFile, truncate, writeFile } from "node:fs/promises";
import { join, resolve } from "node:path";
import { Desk } from "./desk.mjs";
import { lc3 } from "./support.mjs";

const [page, folder, only = ""] = process.argv.slice(2), downloads = resolve(folder);
const { equal, ok, match, deepEqual } = assert;
const desk = await Desk.start("http", page, downloads), { browser: b } = desk;
const [ENTER, ESCAPE, TAB, SPACE] = ["\uE007", "\uE00C", "\uE004", " "];
const KEPT = "fanthrig.lc3.program";
const complaints = async () => (await b.log()).map((entry) => entry.message);
const paste = (text) => b.run("document.getElementById('keys').dispatchEvent(new InputEvent('beforeinput',"
    + "{ inputType: 'insertFromPaste', data: arguments[0], bubbles: true, cancelable: true }))", text);

// A file of zeros, on the disk.
async function zeros(name, length) {
    const path = join(downloads, name);
    await writeFile(path, "");
    await truncate(path, length);
    return path;
}

// Drops what is on the disk, as a file manager does.
async function dropped(path) {
    const data = { items: [], files: [path], dragOperationsMask: 1 };
    for (const type of ["dragEnter", "dragOver", "drop"])
        await b.cdp("Input.dispatchDragEvent", { type, x: 300, y: 300, data });
}

// A sitting of the command, as a recording.
function recorded(name, ...words) {
    const path = join(downloads, name);
    lc3("run", "--save-sitting", path, ...words);
    return path;
}

// Rows of a program, each of them wrong.
const WRONG = [
    "ADD", "ADD R0", "ADD R9, R0, #1", "ADD R0, R0, #99", "ADD R0, R0, 5", "ADD R0 R0 #1", "NOT R0, #1", "LD R0, LABEL",
    "LDR R0, R1, #32", "LEA R0, #256", "BRpn #1", "BRnzp #-257", "JSR #1024", "JSRR #1", "TRAP x100", "TRAP #-1",
    "RET R7", ".ORIG x3000", ".END", ".STRINGZ \"x\"", ".FILL", ".FILL x1FFFF", ".FILL #-32769", "x12345", "x1G00",
    "1010", "10101010101010101", "1010101010101012", "é", "\u0000", "<script>alert(1)</script>", "x4000  x0000  NOP",
    "x3000  x1021  ADD R0, R0, #2", "constructor", "__proto__", "#1", "'A'", "0x", "A".repeat(5000),
];

// Texts that are no recordings. Those of the second list are one of the command's with a part replaced.
const NO_RECORDINGS = [
    "", "{", "[]", "{}", "null", "toString", '"text"', "1e999", "[".repeat(1000), "{\"format\": constructor}",
    '{"__proto__": {"format": "lc3 sitting"}}', '{"format": "lc3 sitting", "version": 3}', "\u0000\uffff",
    '{"format": "lc3 sitting", "version": 99999999999999999999}', '{"format": 1, "format": 2}',
    '{"format": "lc3 sitting", "version": 2, "digest": "0"}', "x".repeat(100_000),
];
const REPLACED = [
    ['"edition": 3', '"edition": 4'], ['"edition": 3', '"edition": "3"'], ['"keys": [', '"keys": [[0, 256], '],
    ['"keys": [', '"keys": [[-1, 65], '], ['"keys": [', '"keys": [[18446744073709551615, 65], '],
    ['"alterations": []', '"alterations": [{"clock": 0, "register": "toString", "value": 1}]'],
    ['"alterations": []', '"alterations": [{"clock": 0, "address": 65535, "words": "00000000"}]'],
    ['"memory": "', '"memory": "AAAA'], ['"regs": [', '"regs": [0, '], ['"psr": ', '"psr": 1'],
    ['"clock": 0', '"clock": 281474976710657'], ['"programs": [', '"programs": [{}, '], ['"steps": ', '"steps": 1'],
];

const TESTS = {
    async "an address may name anything, and names an example or nothing"() {
        for (const name of ["constructor", "toString", "__proto__", "%00", "<script>", "hello%20", "Hello"]) {
            await desk.open(name);
            match(await desk.status(), /^Open an object file/);
        }
        await b.run("location.hash = 'echo'");
        await desk.until("echo.obj: 10 words from x3000 on");
    },
    async "odd files are refused with a reason, and all stays as it was"() {
        await desk.open("hello");
        for (const [name, bytes, reason] of [["empty.obj", [], /refused \(17\)/], ["one.obj", [48], /refused \(17\)/],
            ["ends.obj", [0xff, 0xff, 0, 0, 0, 0], /refused \(18\)/], ["nul.obj", Array(256).fill(0), /refused \(21\)/],
            ["all.obj", Array.from({ length: 256 }, (_, at) => at), /refused \(21\)/]]) {
            await desk.drop(name, bytes);
            await desk.until(`${name}: refused`);
            match(await desk.status(), reason);
        }
        await b.type("#files", await zeros("long.obj", (1 << 22) + 1));
        await desk.until("long.obj: refused: it is longer than 4 MiB");
        await b.type("#files", await zeros("long.json", (1 << 26) + 1));
        await desk.until("long.json: refused: it is longer than 64 MiB");
        await b.type("#files", await zeros("zeros.obj", 1 << 22));
        await desk.until("zeros.obj: refused (18)");
        await mkdir(join(downloads, "folder.obj"), { recursive: true });
        await dropped(join(downloads, "folder.obj"));
        await desk.until("folder.obj: it cannot be read: a folder is not opened, but the files in it");
        ok(await b.run("return document.getElementById('drop').hidden"));
        equal(await desk.sitting("programs[0].name"), "hello.obj");
        await b.click("#run");
        await desk.until("halted by HALT; 317 steps");
    },
    async "of two files that are opened at once the last one is there"() {
        await desk.open("");
        await b.run("const late = { name: 'late.obj', size: 4, arrayBuffer: () => new Promise((done) => {"
            + "setTimeout(() => done(new Uint8Array([0x50, 0, 0xf0, 0x25]).buffer), 300); }) };"
            + "dispatchEvent(Object.assign(new Event('drop'), { dataTransfer: { files: [late] } }))");
        await desk.drop("last.obj", [0x40, 0, 0xf0, 0x25]);
        await desk.until("last.obj: 1 word from x4000 on");
        await b.run("globalThis.later = false; setTimeout(() => { globalThis.later = true; }, 400)");
        await b.wait("globalThis.later");
        match(await desk.status(), /^last\.obj/);
    },
    async "a text with every error has each marked, and none becomes a word"() {
        await desk.open("");
        await desk.write(["x3000", ...WRONG].join("\n"));
        const rows = await b.run("return [...document.querySelectorAll('#forms tr')].map((row) => row.className)");
        deepEqual(rows.slice(1, WRONG.length + 1).map((name, at) => name || WRONG[at]), WRONG.map(() => "wrong"));
        equal(await b.run("return document.querySelectorAll('#source-marks mark').length"), WRONG.length);
        for (const button of ["#load-program", "#save-object", "#save-text"]) {
            await b.click(button);
            match(await desk.status(), /^Row 2 of the program: ADD takes 3 operands/);
        }
        for (const [text, told] of [["", /The program is empty/], ["\n;\n", /The program is empty/],
            ["ADD R0, R0, #1", /the origin comes first/], ["xFFFF\nx0000\nx0000", /Row 3.*lies beyond xFFFF/]]) {
            await desk.load(text);
            match(await desk.status(), told);
        }
        await b.click("#clear-program");
    },
    async "a long program is drawn where it is in view, and comes from memory again"() {
        await desk.open("");
        await b.click("#tab-program");
        await b.run("const s = document.getElementById('source');"
            + "s.value = 'x3000\\n' + 'ADD R0, R0, #1 ; one more\\n'.repeat(20000) + 'HALT';"
            + "s.dispatchEvent(new Event('input'))");
        const drawn = () => b.run("return [...document.querySelectorAll('#forms tr:not([aria-hidden])')].map((row) =>"
            + "row.cells[0].textContent)");
        ok((await drawn()).length < 200);
        await b.run("const v = document.getElementById('source-view'); v.scrollTop = v.scrollHeight");
        await b.wait("document.getElementById('forms').lastElementChild.textContent.startsWith('x7E20')");
        ok((await drawn()).length < 200);
        const level = await b.run("const at = (e) => e.getBoundingClientRect().bottom;"
            + "return at(document.getElementById('forms')) - at(document.getElementById('source'))");
        ok(Math.abs(level) < 4, `the last rows are ${level} pixels apart`);
        await b.click("#load-program");
        await b.click("#run");
        await desk.until("halted by HALT; 20086 steps; PC x7E20: TRAP x25");
        await b.click("#take-program");
        await desk.until("The 20001 words of program.obj are taken from memory as text");
        equal(await b.run("return document.getElementById('source').value.split('\\n').length"), 20003);
        await b.click("#clear-program");
    },
    async "more keys than a call takes are typed, and read in their order"() {
        await desk.open("echo");
        await b.run("globalThis.many = 'ab'.repeat(70000)");
        await paste(await b.run("return globalThis.many.slice(0, 10)"));
        await b.run("lc3.sitting.type([...new TextEncoder().encode(globalThis.many)])");
        await paste(".");
        match(await b.text("#waiting-keys"), /^140011 keys wait to be read: abababababab/);
        await b.click("#run");
        await desk.until("halted by HALT");
        ok(/^b?(ab)+\.\nHalted\n$/.test(await desk.display()));
        equal(await desk.sitting("machine.shown"), 140_011 + 8);
        await b.click("#back");
        await b.click("#reset");
        equal(await b.text("#waiting-keys"), "");
    },
    async "what a program shows is text and nothing else"() {
        await desk.open("echo");
        const scripts = "return document.querySelectorAll('script, img').length", before = await b.run(scripts);
        const html = "<script>alert(1)</script><img src=x onerror=alert(1)>&lt;";
        await paste(`${html}\u001b[31m\u0007\u009b2J\u202eé€😀\u0000.`);
        await b.click("#run");
        await desk.until("halted by HALT");
        equal(await desk.display(), `${html}␛[31m␇\ufffd2J\ufffdé€😀␀.\nHalted\n`);
        equal(await b.run("return document.getElementById('display').children.length"), 1); // the cursor
        const name = "<img src=x onerror=alert(1)>.obj";
        await desk.drop(name, [0x40, 0, 0xf0, 0x25]);
        await desk.until(`${name}: 1 word from x4000 on`);
        equal(await b.run(scripts), before);
        await desk.drop("halves.obj", [0x40, 0, 0xe0, 2, 0xf0, 0x22, 0xf0, 0x25, 0, 0xc3, 0, 0x28, 0, 0xff, 0, 0]);
        await desk.until("halves.obj");
        await b.click("#run");
        await desk.until("halted by HALT");
        match(await desk.display(), /^\ufffd\(\ufffd/); // bytes that are no UTF-8
    },
    async "a program that writes without end is stopped before memory is full"() {
        await desk.open("");
        await desk.change("mode", "supervisor");
        await desk.load("x3000\nLD R0, #2\nSTI R0, #2\nBRnzp #-2\n.FILL x41\n.FILL xFE06\n");
        equal(await desk.sitting("machine.limit"), 1 << 26);
        await b.run("lc3.sitting.machine.limit = 100000");
        await b.click("#run");
        await desk.until("the output is full; ");
        equal(await desk.sitting("machine.shown"), 100_000);
        equal((await desk.display()).length, 20_000);
        await b.click("#step");
        await desk.until("the output is full; ");
        await desk.change("mode", "user");
        await b.click("#clear-program");
    },
    async "a browser that keeps nothing is told of, and all else goes"() {
        await desk.open("", desk.url.replace("lc3.html", "sandboxed.html"));
        await desk.load("x3000\nHALT\n");
        match(await b.text("#source-kept"), /^This browser does not keep the text/);
        await b.click("#run");
        await desk.until("halted by HALT; 86 steps");
        await desk.open("");
        await desk.write("x3000\nHALT ; first\n");
        match(await b.text("#source-kept"), /^The text is kept/);
        await b.run("let text = 'x'.repeat(1 << 20); for (let n = 0; text; n++) try {"
            + "localStorage.setItem(`full${n}`, text) } catch { text = text.slice(text.length / 2 + 1) }");
        await desk.write(`x3000\nHALT ; ${"second ".repeat(100)}\n`);
        match(await b.text("#source-kept"), /^This browser does not keep the text/);
        await b.run("localStorage.clear()");
        await desk.write("x3000\nHALT ; third\n");
        match(await b.text("#source-kept"), /^The text is kept/);
        await b.click("#clear-program");
    },
    async "two tabs do not lose each other's program, and one that is opened has the last"() {
        await desk.open("");
        await desk.write("x3000\nHALT ; of the first\n");
        const first = await b.tab();
        await desk.open("");
        match(await b.value("#source"), /of the first/);
        await desk.write("x3000\nHALT ; of the second\n");
        const second = await b.tab(first);
        await b.ask("POST", "/refresh", {});
        await desk.ready();
        match(await b.value("#source"), /of the first/);
        await b.tab(second);
        await b.click("#clear-program");
        equal(await b.run("return localStorage.getItem(arguments[0])", KEPT), null);
        await b.closeTab();
        await b.ask("POST", "/window", { handle: first });
        await b.click("#tab-program");
        await b.click("#clear-program");
    },
    async "a page that is loaded anew in the middle of a run begins again, with the text"() {
        await desk.open("");
        await desk.load("x3000\nADD R0, R0, #1\nBRnzp #-2\n");
        await desk.change("speed", 5);
        await b.click("#run");
        await b.wait("lc3.sitting.clock > 2");
        await b.ask("POST", "/refresh", {});
        await desk.ready();
        match(await b.value("#source"), /^x3000\nADD R0, R0, #1/);
        equal(await b.value("#rate"), (await b.value("#speed")) === "24" ? "full" : "10 a second");
        await desk.change("speed", 24);
        await b.click("#tab-program");
        await b.click("#load-program");
        await b.click("#run");
        await b.wait("lc3.sitting.clock > 1e6");
        await b.go("about:blank");
        await desk.open("");
        await b.click("#tab-program");
        await b.click("#clear-program");
    },
    async "what is no recording is refused with a reason"() {
        await desk.open("hello");
        const text = await readFile(recorded("whole.json", "--keys", "Hi.", "examples/echo.obj"), "utf8");
        const replaced = REPLACED.map(([old, now]) => text.replace(old, now));
        ok(replaced.every((one) => one !== text));
        for (const [at, one] of [...NO_RECORDINGS, ...replaced, text.slice(0, -100), `${text}{`].entries()) {
            await desk.drop(`${at}.json`, Buffer.from(one));
            await desk.until(`${at}.json: no recording of a sitting: `);
        }
        equal(await desk.sitting("programs[0].name"), "hello.obj");
        const older = text.replace('"version": 2', '"version": 1').replace(/,\s*"digest".*?"$/m, "");
        await desk.drop("older.json", Buffer.from(older));
        await desk.until("older.json is replayed, and comes to its end: halted by HALT");
    },
    async "a recording of the second edition has its rules, and the next program those that are chosen"() {
        const program = join(downloads, "second.txt");
        await writeFile(program, "x3000\nxE000\nx0201\nx0FFF\nx0FFF\n");
        await desk.open("");
        await b.type("#files", recorded("second.json", "--edition", "2", "--no-monitor", "--steps", "50", program));
        await desk.until("second.json is replayed, and comes to its end");
        deepEqual([await b.value("#edition"), await desk.sitting("edition")], ["2", 2]);
        ok(await b.run("return document.getElementById('monitor').disabled"));
        await b.click("#reset");
        await desk.until("stands at its start");
        await desk.change("edition", "3");
        equal(await desk.sitting("edition"), 3);
        ok(!(await b.run("return document.getElementById('monitor').disabled")));
    },
    async "a long recording is replayed while the page can be used, and let be for something else"() {
        const program = join(downloads, "round.txt");
        await writeFile(program, "x3000\nx1021\nx0FFE\n");
        const path = recorded("round.json", "--steps", "100000000", program);
        await desk.open("");
        await b.type("#files", path);
        await desk.until(" %.");
        await b.run("location.hash = 'hello'");
        await desk.until("hello.obj: 18 words");
        await b.click("#run");
        await desk.until("halted by HALT; 317 steps");
        await b.type("#files", path);
        await desk.until("round.json is replayed, and comes to its end: all steps asked for were made; 100000000");
    },
    async "timer and keyboard interrupt together, and each step is as it was told"() {
        await desk.open("");
        await desk.change("mode", "supervisor");
        // The timer interrupts every 7 steps, and the keyboard for each key; each has a routine that reads a register.
        await desk.load(["x3000", "LD R6, #15", "LEA R0, #10", "STI R0, #14", "LEA R0, #10", "STI R0, #13",
            "LD R1, #13", "STI R1, #13", "STI R1, #13", "LD R1, #13", "STI R1, #13", "ADD R2, R2, #1", "BRnzp #-2",
            "LDI R3, #8", "RTI", "LDI R4, #9", "RTI", "x3000", "x0181", "x0180", "x4000", "xFE00", "xFE08", "x0007",
            "xFE0A", "xFE02"].join("\n"));
        const steps = await b.run("return Array.from({ length: 90 }, (_, made) => {"
            + "if (made % 20 === 19) document.getElementById('keys').dispatchEvent(new InputEvent('beforeinput',"
            + "    { inputType: 'insertText', data: 'ab', bubbles: true, cancelable: true }));"
            + "const told = document.getElementById('next').textContent;"
            + "document.getElementById('step').click();"
            + "return [told, document.querySelector('#log tr').cells[3].textContent]; })");
        for (const [told, reason] of steps) {
            const entered = /The (timer|keyboard) interrupts/.exec(told)?.[1];
            equal(reason, entered ? `${entered} interrupt` : "instruction", told);
        }
        const reasons = new Set(steps.map(([, reason]) => reason));
        deepEqual([...reasons].sort(), ["instruction", "keyboard interrupt", "timer interrupt"]);
        await desk.change("mode", "user");
        await b.click("#clear-program");
    },
    async "at 400 % nothing is cut off, and all can be used"() {
        await b.size(320, 256);
        await desk.open("hello");
        const widths = "return [document.documentElement.scrollWidth, innerWidth]", [wide, seen] = await b.run(widths);
        ok(wide <= seen, `${wide} of ${seen}`);
        await b.click("#run");
        await desk.until("halted by HALT");
        await b.click("#settings summary");
        const right = await b.run("return document.querySelector('#settings .panel').getBoundingClientRect().right");
        ok(right <= seen, `the menu reaches to ${right}`);
        await b.click("#tab-program");
        ok((await b.run(widths))[0] <= seen);
        await b.cdp("Emulation.clearDeviceMetricsOverride");
    },
    async "the keyboard reaches every control, leaves it, and shows where it is"() {
        await desk.open("hello");
        const all = new Set(await b.run("return [...document.querySelectorAll('button, input, select, summary, pre,"
            + " [role=grid]')].filter((e) => e.checkVisibility() && !e.disabled && e.tabIndex === 0 && !e.hidden"
            + " && !e.closest('details:not([open])')).map((e) => e.id || e.tagName)"));
        const met = [];
        for (let turn = 0; turn < 80 && met.at(-1) !== "BODY"; turn++) {
            await b.keys(TAB);
            const [name, outline] = await b.run("const e = document.activeElement, s = getComputedStyle(e);"
                + "return [e.id || e.tagName, s.outlineStyle === 'none' ? 0 : Number.parseFloat(s.outlineWidth)]");
            if (name !== "BODY") ok(outline >= 2, `${name} does not show that it has the focus`);
            met.push(name);
        }
        deepEqual([...all].filter((name) => !met.includes(name)), []);
        await b.run("document.querySelector('#settings summary').focus()");
        await b.keys(ENTER, TAB, TAB, ESCAPE);
        deepEqual(await b.run("return [document.getElementById('settings').open, document.activeElement.tagName]"),
            [false, "SUMMARY"]);
        await b.run("document.getElementById('run').focus()");
        await b.keys(SPACE);
        await desk.until("halted by HALT");
    },
    async "nothing moves by itself, and forced colours still tell all"() {
        await b.media({ "prefers-reduced-motion": "reduce", "forced-colors": "active" });
        await desk.open("sieve");
        await b.click("#line-12294 .gutter");
        await b.click("#step");
        await desk.write("x3000\nADD R0, R0, #77\n");
        equal(await b.run("return document.getAnimations().length"), 0);
        const style = (css, name) => b.run("const e = document.querySelector(arguments[0]);"
            + "return getComputedStyle(e)[arguments[1]]", css, name);
        const differ = async (one, other, name) => ok((await style(one, name)) !== (await style(other, name)), one);
        await differ("#line-12294 .gutter i", "#line-12295 .gutter i", "backgroundColor");
        await differ("#line-12289", "#line-12290", "backgroundColor");
        await differ("#line-12289 .gutter b", "#line-12290 .gutter b", "borderLeftColor");
        await differ("#tab-program", "#tab-steps", "boxShadow");
        await differ("#run", "#step", "backgroundColor");
        await differ("#r-PC", "#r-R0", "textDecorationLine");
        match(await style("#source-marks mark", "boxShadow"), /inset/);
        equal(await style("#source-marks", "color"), "rgba(0, 0, 0, 0)");
        await b.click("#line-12289 .line");
        for (const bit of ["#bit-5", "#bit-4"]) await b.click(bit); // a wrong bit
        await differ("#bit-4", "#bit-3", "backgroundColor");
        const worst = await b.run(await readFile(new URL("contrast.js", import.meta.url), "utf8"));
        ok(worst.ratio >= 4.5, JSON.stringify(worst));
        await b.media({});
        await b.click("#clear-program");
    },
    async "nothing was complained of"() { deepEqual(await complaints(), []); },
};

await desk.run(TESTS, only);
