// The page in a real browser, every feature:     node page.mjs file|http PAGE.html DOWNLOADS [--runs RUNS.txt] [NAME]
//
// The page is opened from the disk, or from a server of this process. DOWNLOADS is a folder of its own that the browser
// saves files in. Runs of the reference are made in the browser's own engine where RUNS.txt has them. NAME, a part of a
// test's name, has that test run alone.
import { strict as assert } from "node:assert";
import { readFile, writeFile } from "node:fs/promises";
import { join, resolve } from "node:path";
import { fileURLToPath } from "node:url";
import { parseArgs } from "node:util";
import { Desk } from "./desk.mjs";
import { ROOT, lc3, linesOf } from "./support.mjs";

const { values: options, positionals } = parseArgs({ options: { runs: { type: "string" } }, allowPositionals: true });
const [way, page, folder, only = ""] = positionals, downloads = resolve(folder);
const { equal, ok, match, deepEqual } = assert;
const desk = await Desk.start(way, page, downloads), { browser: b, url } = desk;
const bound = (name) => (...args) => desk[name](...args);
const [open, status, display, sitting, until] = ["open", "status", "display", "sitting", "until"].map(bound);
const [change, drop, files, write, load, saved] = ["change", "drop", "files", "write", "load", "saved"].map(bound);
const example = (name) => fileURLToPath(new URL(`examples/${name}`, ROOT));
const ENGINE = "the browser's own engine makes runs of the reference", RUNS = 2000, AT_ONCE = 250;
const [DOWN, ENTER, HOME, ESCAPE, LEFT] = ["\uE015", "\uE007", "\uE011", "\uE00C", "\uE012"];

const ENDS = {
    hello: ["Hello, world!\nHalted\n", "halted by HALT; 317 steps; PC x3002: TRAP x25"],
    sieve: ["2 3 5 7 11 13 17 19 23 29 31 37 41 43 47 53 59 61 67 71 73 79 83 89 97 \nHalted\n",
        "halted by HALT; 3117 steps; PC x3015: TRAP x25"],
    tasks: ["ABCDEFGHI01234567JKLMNOPQ89012345RSTUVWXYZ678901234\nHalted\n",
        "halted by HALT; 916 steps; PC x3008: TRAP x25"],
    answers: ["The first answer is:\n", "stopped by the access exception; 339 steps; PC x3002: LDI R0, #2"],
};

// Tells which parts of a section do not lie inside of it, with the pixels by which they do not.
const OUTSIDE = `(name, parts) => { const section = document.querySelector(name), box = section.getBoundingClientRect();
    const by = (at) => Math.max(at.right - box.right, at.bottom - box.bottom, box.left - at.left, box.top - at.top);
    const found = [...section.querySelectorAll(parts)].filter((part) => part.checkVisibility());
    return found.map((part) => [part.id || part.textContent, by(part.getBoundingClientRect())])
        .filter(([, pixels]) => pixels > 0); }`;

// Programs, and what is told of the first step of each.
const NEXT = [
    ["LD R2, #1", /LD loads the word at x3002, x0000, into R2\. The codes become Z\./],
    ["LDI R2, #0\n.FILL x4000",
        /LDI takes the address x4000 from x3001 and loads the word at x4000, x0000, into R2/],
    ["ST R6, #1", /ST stores R6 \(xFDFF\) at x3002, in the place of x0000\./],
    ["ADD R1, R6, #-1", /ADD adds R6 \(xFDFF\) and minus 1: xFDFE goes into R1\. The codes become N\./],
    ["BRn #3", /BR: N is not set, so the next instruction follows, at x3001\./],
    ["BRnz #3", /BR: Z is set, so PC becomes x3004\./],
    ["PUTS",
        /TRAP x22 \(PUTS\)\. PC and PSR are pushed on the supervisor stack, at x2FFE and x2FFF; PC becomes x02/],
    ["RTI", /The privilege exception: RTI in User mode\..*the word at x0100; Supervisor mode/],
    [".FILL xD000", /The illegal opcode exception: opcode 1101 is reserved/],
    ["LDI R0, #0\n.FILL xFE00",
        /The access exception: KBSR \(xFE00\) is privileged, and the machine is in User mode/],
    ["LEA R0, #5", /LEA puts the address x3006 into R0\. The codes stay\./],
    ["JSR #5", /R7 becomes x3001, the address of the next instruction, and PC x3006/],
];

const TESTS = {
    async "every example ends as the command's does, in its words"() {
        for (const [name, [shown, ending]] of Object.entries(ENDS)) {
            await open(name);
            await b.click("#run");
            await until("steps; PC");
            deepEqual([await display(), await status()], [shown, ending]);
        }
    },
    async "keys reach the machine, and a machine that waits says so"() {
        await open("echo");
        await b.click("#run");
        await until("waits for a key");
        await b.type("#keys", "To be");
        await b.wait("document.getElementById('display').textContent === 'To be'");
        await until("waits for a key");
        await b.click("#display");
        await b.keys(",", ENTER, " ", "n", "o", ".");
        await until("halted by HALT");
        equal(await display(), "To be,\n no.\nHalted\n");
        equal(await b.value("#keys"), "");
        await b.click("#clear");
        equal(await display(), "");
    },
    async "a pasted text is typed key by key"() {
        await open("echo");
        await b.run("document.getElementById('keys').dispatchEvent(new InputEvent('beforeinput',"
            + "{ inputType: 'insertFromPaste', data: 'a line\\nand more.', bubbles: true, cancelable: true }))");
        match(await b.text("#waiting-keys"), /16 keys wait/);
        await b.click("#run");
        await until("halted by HALT");
        equal(await display(), "a line\nand more.\nHalted\n");
    },
    async "files are opened, several at once, and refused with a reason"() {
        await open("");
        await b.type("#files", `${example("answers.obj")}\n${example("examiner.obj")}`);
        await until("answers.obj: 28 words from x3000 on, beside examiner.obj");
        await drop("half.obj", [0x30]);
        await until("half.obj: refused (17): the file has an odd number of bytes");
        await drop("zip.obj", Buffer.from("PK\x03\x04 PK\x01\x02"));
        await until("zip.obj: refused: it is a ZIP archive");
        await drop("text.obj", Buffer.from("x3000\nxF025 ; HALT\n")); // a text is opened to be written on
        await b.wait("document.getElementById('source').value.startsWith('x3000')");
        await drop("swapped.obj", [0x00, 0x30, 0x25, 0xf0]);
        await until("the low byte of each of its words comes first");
        await drop("low.obj", [0x02, 0xa5, 0x12, 0x34]);
        await until("low.obj: refused (21)");
        equal(await sitting("programs.length"), 2);
        await drop("halt.obj", [0x40, 0, 0xf0, 0x25]);
        await b.wait("document.title.startsWith('halt.obj')");
        equal(await b.value("#r-PC"), "x4000");
        await b.click("#run");
        await until("halted by HALT; 86 steps; PC x4000: TRAP x25");
    },
    async "steps, over, out and back"() {
        await open("hello");
        await b.click("#step");
        deepEqual([await b.value("#r-PC"), await b.value("#r-R0")], ["x3001", "x3003"]);
        await b.click("#over");
        await b.wait("lc3.sitting.pc === 0x3002 && !lc3.running");
        equal(await display(), "Hello, world!\n");
        await b.click("#back");
        match(await b.value("#r-PC"), /^x02/);
        await b.click("#reset");
        for (let n = 0; n < 3; n++) await b.click("#step");
        match(await b.value("#r-PC"), /^x02/);
        await b.click("#out");
        await b.wait("lc3.sitting.pc === 0x3002 && !lc3.running");
        const clock = await sitting("clock"), log = await b.text("#log");
        for (let n = 0; n < 3; n++) await b.click("#back");
        for (let n = 0; n < 3; n++) await b.click("#step");
        deepEqual([await sitting("clock"), await b.value("#r-PC"), await b.text("#log")], [clock, "x3002", log]);
    },
    async "breakpoints by click and by key"() {
        await open("sieve");
        await b.click("#line-12294 .gutter");
        await b.click("#run");
        await until("the next instruction is at a breakpoint; 6 steps; PC x3006: ADD R3, R5, R1");
        await b.click("#run");
        await b.wait("lc3.sitting.clock > 6 && !lc3.running");
        equal(await b.value("#r-PC"), "x3006");
        await b.run("document.getElementById('listing').focus()");
        await b.keys(HOME, "b");
        equal(await sitting("breakpoints.size"), 0);
        await b.keys("r");
        await until("halted by HALT");
    },
    async "the keyboard alone does it all"() {
        await open("hello");
        await b.run("document.getElementById('listing').focus()");
        await b.keys("s", "o");
        await b.wait("lc3.sitting.pc === 0x3002 && !lc3.running");
        await b.keys("z", "z", DOWN, DOWN, "b", "b", HOME, DOWN, ENTER);
        equal(await b.run("return document.activeElement.tagName"), "INPUT");
        await b.keys(ESCAPE);
        equal(await b.run("return document.activeElement.id"), "listing");
    },
    async "words are edited as numbers and as lines, and what is wrong is told"() {
        await open("hello");
        await b.run("document.getElementById('listing').focus()");
        await b.keys(HOME, ENTER, ..."ADD R1, R1, #7", ENTER);
        await until("x3000 holds x1267: ADD R1, R1, #7");
        await b.keys(ENTER, ..."ADD R1, R1, #99", ENTER);
        await until("operand 3 of ADD: #99 is out of range");
        await b.keys(ESCAPE, ENTER, ..."nonsense", ENTER);
        await until("is no mnemonic");
        await b.keys(ESCAPE);
        await b.click("#step");
        equal(await b.value("#r-R1"), "x0007");
    },
    async "memory tells what lines mean, and goes where it is asked to"() {
        await open("hello");
        const row = (address) => b.run("return [...document.getElementById(`line-${arguments[0]}`).children].slice(1)"
            + ".map((cell) => cell.textContent)", address);
        deepEqual(await row(0x3000), ["x3000", "xE002", "LEA R0, #2", "→ x3003"]);
        deepEqual(await row(0x3001), ["x3001", "xF022", "TRAP x22", "PUTS"]);
        deepEqual(await row(0x3003), ["x3003", "x0048", ".FILL x0048", "#72 'H'"]);
        await change("goto", "xFE00");
        await b.wait("document.getElementById('line-65024')");
        deepEqual(await b.run("return [lc3.chosen, document.getElementById('follow').checked]"), [0xfe00, false]);
        await change("goto", "r6");
        equal(await b.run("return lc3.chosen"), 0xfdff);
        await change("goto", "mcr"); // its address, where a program reaches it
        deepEqual(await row(0xfffe), ["xFFFE", "x0000", ".FILL x0000", "MCR"]);
        await b.run("document.getElementById('listing').focus()");
        await b.keys(ENTER, ..."x1234", ENTER);
        await until("xFFFE is MCR, a register: no program reaches a word of memory there.");
        await b.keys(ESCAPE);
        await b.click("#bit-0");
        deepEqual(await sitting("words[0xFFFE]"), 0);
        await change("goto", "nowhere");
        match(await status(), /“nowhere” is no address/);
        await b.click("#topc");
        equal(await b.run("return lc3.chosen"), 0x3000);
        await b.run("document.getElementById('listing').focus()");
        await b.keys(DOWN, DOWN, "p");
        equal(await b.value("#r-PC"), "x3002");
        await b.click("#run");
        await until("halted by HALT");
        equal(await display(), "Halted\n");
    },
    async "files lie anywhere and without the monitor where that is chosen, and a program is saved from memory"() {
        await open("");
        await change("anywhere", true);
        await drop("low.obj", [0x02, 0xa5, 0xf0, 0x25, 0x12, 0x34]);
        await until("low.obj: 2 words from x02A5 on");
        equal(await sitting("words[0x25] !== 0"), true);
        await change("monitor", false);
        equal(await sitting("words[0x25] !== 0"), false);
        await b.click("#settings summary");
        const file = await saved("low.obj", () => b.click("#save-program"));
        equal(file.toString("hex"), "02a5f0251234");
        await open("");
        await b.click("#settings summary");
        await b.click("#save-program");
        await until("No program is loaded");
    },
    async "registers are altered, and what is wrong is refused"() {
        await open("hello");
        await change("r-R3", "'A'");
        equal(await b.value("#r-R3"), "x0041");
        await change("r-R3", "what");
        match(await status(), /is no number/);
        await b.click("#step");
        await b.click("#back");
        equal(await b.value("#r-R3"), "x0041"); // it was altered before the step
    },
    async "the fields of a word are drawn, wrong bits are marked, and each bit can be clicked"() {
        await open("");
        await load("x3000\nADD R2, R3, #7\nNOT R1, R2\n");
        const fields = () => b.run("return [...document.querySelectorAll('.fieldbox')].map((box) =>"
            + "['.name', '.bits', '.means'].map((part) => box.querySelector(part).textContent).join(' ').trim())"
            + ".join('; ')");
        equal(await fields(), "opcode 0001 ADD; DR 010 R2; SR1 011 R3; 1; imm5 00111 #7");
        await b.click("#bit-5");
        equal(await fields(), "opcode 0001 ADD; DR 010 R2; SR1 011 R3; 0; 00; SR2 111 R7");
        await b.click("#bit-4");
        equal(await fields(), "opcode 0001 ADD; DR 010 R2; SR1 011 R3; 0; ! 10; SR2 111 R7");
        equal(await b.run("return document.querySelectorAll('.bit.wrong').length"), 1);
        await until("x3000 holds x14D7: .FILL x14D7");
        await b.keys(LEFT, LEFT);
        equal(await b.run("return document.activeElement.id"), "bit-6");
        await b.click("#line-12289 .line");
        equal(await fields(), "opcode 1001 NOT; DR 001 R1; SR 010 R2; fixed 111111");
    },
    async "what the next step will do is told in words"() {
        await open("");
        const told = await desk.nextOf(NEXT.map(([program]) => `x3000\n${program}\n`));
        for (const [at, [, words]] of NEXT.entries()) match(told[at], words);
    },
    async "a program is written in three forms, kept, and saved"() {
        await open("");
        await b.click("#tab-program");
        await b.click("#clear-program");
        await write("x3000 ; origin\nLEA R0, #2 ; a line\n1111 0000 0010 0010\nxF025\n.FILL x48\n\n.FILL #0\n");
        const rows = () => b.run("return [...document.querySelectorAll('#forms tr')].map((row) =>"
            + "[...row.cells].map((cell) => cell.textContent).join('|'))");
        deepEqual((await rows()).slice(0, 4), ["|0011 0000 0000 0000|x3000|the origin",
            "x3000|1110 0000 0000 0010|xE002|LEA R0, #2", "x3001|1111 0000 0010 0010|xF022|TRAP x22",
            "x3002|1111 0000 0010 0101|xF025|TRAP x25"]);
        await open(""); // it is kept
        await b.click("#tab-program");
        match(await b.value("#source"), /^x3000 ; origin\nLEA R0, #2/);
        await b.click("#load-program");
        await b.click("#run");
        await until("halted by HALT");
        equal(await display(), "HHalted\n");
        const file = await saved("program.obj", () => b.click("#save-object"));
        equal(file.toString("hex"), "3000e002f022f02500480000");
        const text = await saved("program.txt", () => b.click("#save-text")), path = join(downloads, "as-text.txt");
        match(text.toString(), /^x3000 ; origin\nx3000  xE002  LEA R0, #2 ; a line\n1111 0000 0010 0010\n/);
        await writeFile(path, text); // the command reads it too
        match(lc3("run", path), /HHalted\nlc3: halted by HALT/);
        await b.click("#take-program");
        match(await b.value("#source"), /^x3000 +; the origin\nLEA R0, #2 +; x3000\n/);
        await b.click("#restore-program"); // what was written is not lost
        match(await b.value("#source"), /^x3000 ; origin\nLEA R0, #2/);
        await b.click("#clear-program");
        await until("“Bring back” undoes it");
        await b.click("#restore-program");
        match(await b.value("#source"), /^x3000 ; origin\nLEA R0, #2/);
        await drop("other.txt", Buffer.from("x4000\nHALT\n"));
        await b.wait("document.getElementById('source').value.startsWith('x4000')");
        await b.click("#restore-program");
        match(await b.value("#source"), /^x3000 ; origin\nLEA R0, #2/);
        await b.click("#clear-program");
        await open("");
        equal(await b.value("#source"), "");
    },
    async "what is wrong in a program is marked at its place"() {
        await open("");
        await write("x3000\nADD R0, R0, #77\n101\nx12\nLOOP\n");
        const marks = "return [...document.querySelectorAll('#source-marks mark')].map((m) => m.textContent).join('|')";
        equal(await b.run(marks), "#77|101|x12|LOOP");
        match(await b.text("#source-errors"),
            /^Row 2: operand 3 of ADD: #77 is out of range; SR2 or imm5 from -16 to 15 expected\. 3 more rows are/);
        await b.click("#load-program");
        match(await status(), /Row 2 of the program/);
        await write("ADD R0, R0, #1\n");
        match(await b.text("#source-errors"), /the origin comes first/);
        await b.click("#clear-program");
    },
    async "words that are read though nobody wrote them are marked"() {
        await open("");
        await load("x3000\nLD R0, #3\nST R0, #3\nLD R1, #2\nHALT\n");
        await b.click("#run");
        await until("halted by HALT");
        const marked = "return [...document.querySelectorAll('.row .unwritten')].map((m) => m.closest('.row').id)";
        deepEqual(await b.run(marked), ["line-12292"]);
        await b.click("#reset");
        equal(await b.run("return document.querySelectorAll('.row .unwritten').length"), 0);
    },
    async "second edition and Supervisor mode"() {
        await open("");
        await change("edition", "2");
        await load("x3000\nLEA R0, #0\nTRAP x30\n");
        match(await b.text("#next"), /LEA puts the address x3001 into R0\. The codes become P\./);
        await b.click("#step");
        match(await b.text("#next"), /R7 becomes x3002/);
        // A monitor of the class's own, whose HALT clears MCR. It stays when a program is loaded.
        const monitor = [0x0025, ...Array(0x0f).fill(0), 0x5020, 0xb001, 0x0fff, 0xfffe];
        monitor[1] = 0x0034;
        await drop("monitor.obj", monitor.flatMap((word) => [word >> 8, word & 0xff]));
        await until("monitor.obj: refused (21)");
        await b.type("#files", await files(monitor, [0x3000, 0xf025]));
        await until("1.obj: 1 word from x3000 on, beside 0.obj");
        await load("x3000\nLEA R0, #0\nHALT\n");
        await b.click("#run");
        await until("halted by HALT; 4 steps; PC x3001: TRAP x25");
        await open("");
        await change("mode", "supervisor");
        await load("x3000\nSTI R0, #1\nHALT\n.FILL xFFFE\n");
        await b.click("#run");
        await until("halted by a store to MCR; 1 step; PC x3000: STI R0, #1");
        match(await b.text("#state"), /Supervisor, priority 0/);
    },
    async "interrupts of timer and keyboard are seen"() {
        await open("tasks");
        await b.click("#run");
        await until("halted by HALT");
        ok((await sitting("lastSteps(916)")).some(({ reason }) => reason === 6));
        await open("");
        await change("mode", "supervisor");
        // Enables the keyboard's interrupts, and goes round.
        await load("x3000\nLD R0, #2\nSTI R0, #2\nBRnzp #-1\n.FILL x4000\n.FILL xFE00\n");
        await b.click("#step");
        await b.click("#step");
        match(await b.text("#state"), /no key, interrupts/);
        await b.type("#keys", "a");
        match(await b.text("#next"), new RegExp("The key 'a' arrives\\. The keyboard interrupts: a key is ready, "
            + "interrupts are enabled, and the priority 0 is below 4"));
        await b.click("#step");
        match(await b.text("#log tr.special"), /keyboard interrupt/);
        match(await b.text("#state"), /a key is ready, interrupts/);
        await change("mode", "user");
    },
    async "recordings go from the page to the command and back"() {
        await open("echo");
        await b.type("#keys", "Ada.");
        await b.click("#run");
        await until("halted by HALT");
        const ending = await status(), file = join(downloads, "from-the-page.json");
        await writeFile(file, await saved("echo.json", async () => {
            await b.click("#settings summary");
            await b.click("#save-recording");
        }));
        match(lc3("run", "--replay", file), new RegExp(`lc3: ${ending}`));
        const other = join(downloads, "from-the-command.json");
        lc3("run", "--keys", "Bob.", "--save-sitting", other, example("echo.obj"));
        await b.type("#files", other);
        await until("from-the-command.json is replayed, and comes to its end: halted by HALT");
        equal(await display(), "Bob.\nHalted\n");
        await b.click("#back");
        equal(await sitting("halted"), false);
        await b.click("#reset"); // to its start, from where it goes the same way again
        await until("from-the-command.json stands at its start");
        equal(await sitting("clock"), 0);
        await b.click("#run");
        await until("halted by HALT");
        equal(await display(), "Bob.\nHalted\n");
        const text = (await readFile(other, "utf8")).replace('"steps": ', '"steps": 1');
        await drop("altered.json", Buffer.from(text));
        await until("altered.json: no recording of a sitting: its digest is that of other data");
    },
    async "a slow run is slow, and can be stopped"() {
        await open("sieve");
        await change("speed", 5); // 10 a second
        match(await b.value("#rate"), /^10 a second/);
        await b.run("globalThis.drawn = 0; new MutationObserver(() => { globalThis.drawn++; })"
            + ".observe(document.getElementById('log'), { childList: true })");
        const begun = Date.now();
        await b.click("#run");
        await b.wait("lc3.sitting.clock >= 8");
        await b.click("#run");
        const [drawn, steps] = await b.run("return [globalThis.drawn, lc3.sitting.clock]");
        ok(drawn <= steps + 1, `${drawn} times drawn for ${steps} steps and the stop`); // and not in every frame
        // On a host that is busy the clicks take their time too.
        const made = await sitting("clock"), most = 10 * ((Date.now() - begun) / 1000) + 5;
        ok(made <= most, `${made} steps, and ${most} at most`);
        match(await status(), /^stopped by you; \d+ steps; PC/);
        await change("speed", 24);
        await b.click("#run");
        await until("halted by HALT");
    },
    async "a run without end leaves the page usable, and is fast"() {
        await open("");
        await load("x3000\nADD R0, R0, #1\nADD R1, R1, R0\nBRnzp #-3\n");
        await b.click("#run");
        await b.wait("lc3.sitting.clock > 3e6");
        const begun = Date.now(), from = await sitting("clock");
        await b.wait(`lc3.sitting.clock > ${from + 5e7}`);
        const made = (await sitting("clock")) - from, rate = made / (Date.now() - begun) / 1000;
        await b.click("#run");
        match(await status(), /^stopped by you/);
        console.log(`    ${rate.toFixed(0)} million steps a second on the page`);
        await b.click("#line-12289 .gutter");
        await b.click("#run");
        await until("breakpoint");
        for (let n = 0; n < 3; n++) await b.click("#back");
        const took = await b.run("const begun = performance.now();"
            + "for (let n = 0; n < 20; n++) { document.getElementById('step').click(); document.body.offsetHeight; }"
            + "return (performance.now() - begun) / 20");
        console.log(`    ${took.toFixed(1)} ms for a step with all drawn`);
    },
    async "a loop that no key can end is told"() {
        await open("");
        await load("x3000\nBRnzp #-1\n");
        await b.click("#run");
        await until("the program goes round in a loop that not even a key can end");
    },
    async "the log tells reasons"() {
        await open("answers");
        await b.click("#run");
        await until("access exception");
        const rows = await b.run("return [...document.querySelectorAll('#log tr')].map((row) =>"
            + "[...row.cells].map((cell) => cell.textContent))");
        deepEqual(rows[2].slice(0, 4), ["336", "x3002", "LDI R0, #2", "access exception"]);
        match(rows[2][4], /^R6 xFDFF → x2FFE, PC x3002 → x027C/);
        equal(rows.length, 100);
    },
    async "every control has a name in the accessibility tree"() {
        await open("hello");
        for (const shown of ["#tab-program", "#settings summary"]) await b.click(shown);
        const { nodes } = await b.cdp("Accessibility.getFullAXTree");
        const focusable = (node) => node.properties?.some(({ name, value }) => name === "focusable" && value.value);
        const controls = nodes.filter((node) => !node.ignored && focusable(node) && node.role.value !== "RootWebArea");
        ok(controls.length > 50, `${controls.length} controls`);
        deepEqual(controls.filter((node) => !node.name?.value).map((node) => `${node.role.value} ${node.nodeId}`), []);
    },
    async "text has a contrast of at least 4.5 to 1, in light and in dark"() {
        for (const scheme of ["light", "dark"]) {
            await b.scheme(scheme);
            await open("answers");
            await b.click("#run");
            await until("access exception");
            await write("x3000\nADD R0, R0, #77\n");
            await b.click("#settings summary");
            const worst = await b.run(await readFile(new URL("contrast.js", import.meta.url), "utf8"));
            ok(worst.texts > 100 && worst.ratio >= 4.5, `${scheme}: ${JSON.stringify(worst)}`);
            console.log(`    ${scheme}: at least ${worst.ratio.toFixed(2)} to 1, in ${worst.texts} texts`);
        }
        await b.scheme("light");
        await b.run("localStorage.clear()");
    },
    async "it fits a phone"() {
        await b.size(390, 844, true);
        await open("hello");
        await change("r-R7", "x8000"); // #-32768, the widest number
        ok((await b.run("return document.documentElement.scrollWidth")) <= 390);
        deepEqual(await b.run(`return (${OUTSIDE})('.machine', '.register output, dd, code')`), []);
        await b.click("#run");
        await until("halted by HALT");
        await b.cdp("Emulation.clearDeviceMetricsOverride");
    },
    async "on a low screen nothing is cut off that is needed"() {
        await b.size(1366, 640);
        await open("echo");
        await b.type("#keys", "To be");
        deepEqual(await b.run(`return (${OUTSIDE})('.console', '#keys, #waiting-keys')`), []);
        await write("x3000\nADD R0, R0, #77\n");
        deepEqual(await b.run(`return (${OUTSIDE})('.log', '#source-view, #source-errors, #source-help')`), []);
        await b.click("#clear-program");
        await b.cdp("Emulation.clearDeviceMetricsOverride");
    },
    async [ENGINE]() {
        await open("");
        const script = await readFile(new URL("engine.js", import.meta.url), "utf8"), lines = [];
        for await (const line of linesOf(options.runs)) if (lines.push(line) === RUNS) break;
        let calls = 0;
        for (let at = 0; at < RUNS; at += AT_ONCE)
            calls += await b.run(`${script}; return compare(arguments[0])`, lines.slice(at, at + AT_ONCE));
        ok(calls > RUNS);
        console.log(`    ${RUNS} runs of the reference in Chromium ${b.version} itself, ${calls} calls: all equal`);
    },
    async "nothing was asked for from anywhere, and nothing was complained of"() {
        await open("");
        const requests = (await b.log("performance")).map((entry) => JSON.parse(entry.message).message)
            .filter(({ method }) => method === "Network.requestWillBeSent").map(({ params }) => params.request.url);
        const elsewhere = requests.filter((one) => !one.startsWith(url) && !/^(data|blob|about|chrome):/.test(one));
        ok(requests.some((one) => one.startsWith(url)));
        deepEqual(elsewhere, []);
        deepEqual((await b.log()).map((entry) => entry.message), []);
        const policy = await b.run("return document.querySelector('meta[http-equiv]').content");
        match(policy, /^default-src 'none'; script-src 'sha256-/);
        match(await b.text("footer"), /nothing of an examiner belongs in it/);
    },
};

if (!options.runs) delete TESTS[ENGINE];
await desk.run(TESTS, only, async () => {
    await open("hello");
    const ready = await b.run("return document.documentElement.dataset.ready");
    console.log(`    ready ${ready} ms after the page was asked for`);
});
