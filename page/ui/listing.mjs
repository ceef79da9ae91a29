// Memory: those of the 65,536 lines that are in view, with breakpoints, PC, and editing.
import { ADDRESSES, PLACES, Refused, hex, signed } from "../lib/constants.mjs";
import { TRAPS, wordOf } from "../lib/words.mjs";
import { $, make, printable, tell } from "./dom.mjs";
import { numberIn } from "./registers.mjs";
import { back, out, over, runOrStop, step } from "./running.mjs";
import { WATCHED, drawAll, keepSeen, onDraw, seat } from "./seat.mjs";

const ROW = 26, AROUND = 12; // the height of a row, and the rows above and below those in view
const RELATIVE = /^(BR\w*|LD|LDI|ST|STI|LEA|JSR)$/;
const SERVICES = Object.fromEntries(Object.entries(TRAPS).map(([name, vector]) => [vector, name]));
// The registers that programs reach at an address. The words of memory there are nobody's.
const REGISTERS = Object.fromEntries(Object.entries(ADDRESSES).map(([name, address]) => [address, name]));

// What a line's number means: the address that it names, the service of a trap, the character or number of data.
function meaning(address, word, line) {
    if (address in REGISTERS) return REGISTERS[address];
    if (line.startsWith(".FILL")) return word ? `#${signed(word)} ${printable(word)}` : "";
    const mnemonic = line.split(" ")[0];
    if (mnemonic === "TRAP") return SERVICES[word & 0xff] ?? "";
    return RELATIVE.test(mnemonic) ? `→ ${hex((address + 1 + seat.sitting.library.read(word).value) & 0xffff)}` : "";
}

function emptyRow() {
    const cell = (className) => make("span", { className, role: "gridcell" });
    const cells = ["gutter", "address", "word", "line", "target"].map(cell);
    cells[0].append(make("i"), make("b"));
    return make("div", { className: "row", role: "row" }, ...cells);
}

// How a row looks now: where none of this has changed it is not drawn again.
function stateOf(address, word) {
    const { sitting, seen, running, chosen } = seat;
    return {
        address, word, set: sitting.breakpoints.has(address), here: address === sitting.pc, chosen: address === chosen,
        changed: Boolean(seen) && !running && seen.words[address] !== word,
        unwritten: sitting.watch.readBefore(address),
    };
}

function drawRow(row, state, line) {
    const { address, word, set, here, chosen, changed, unwritten } = state, mark = Object.values(state).join(" ");
    if (row.dataset.mark === mark) return;
    Object.assign(row.dataset, { mark, address });
    row.id = `line-${address}`;
    row.setAttribute("aria-rowindex", address + 1);
    row.setAttribute("aria-selected", chosen);
    row.classList.toggle("here", here);
    row.classList.toggle("chosen", chosen);
    const [gutter, place, number, text, target] = row.children;
    gutter.classList.toggle("set", set);
    const marks = [set && "breakpoint", here && "PC is here"].filter(Boolean).join(", ");
    gutter.setAttribute("aria-label", marks || "no breakpoint");
    place.textContent = hex(address);
    number.replaceChildren(make("span", { className: changed ? "changed" : "" }, hex(word)));
    if (unwritten) {
        const title = "was read, and nobody had written it";
        number.append(make("b", { className: "unwritten", title, role: "img", "aria-label": title }, "?"));
    }
    text.textContent = line;
    target.textContent = meaning(address, word, line);
}

function drawListing() {
    if (seat.editing !== null) return;
    const box = $("listing"), rows = $("rows"), { words } = seat.sitting;
    const first = Math.max(0, Math.floor(box.scrollTop / ROW) - AROUND);
    const count = Math.min(65536 - first, Math.ceil(box.clientHeight / ROW) + 2 * AROUND);
    const lines = seat.sitting.lines(first, count);
    while (rows.children.length < count) rows.append(emptyRow());
    while (rows.children.length > count) rows.lastChild.remove();
    rows.style.transform = `translateY(${first * ROW}px)`;
    for (let at = 0; at < count; at++) drawRow(rows.children[at], stateOf(first + at, words[first + at]), lines[at]);
    box.setAttribute("aria-activedescendant", `line-${seat.chosen}`);
}

function reveal(address, middle = false) {
    const box = $("listing"), top = address * ROW;
    if (top < box.scrollTop || top + ROW > box.scrollTop + box.clientHeight || middle)
        box.scrollTop = top - Math.floor(box.clientHeight / 3 / ROW) * ROW;
}

onDraw((all) => {
    if ($("follow").checked) {
        const at = seat.lookAt ?? seat.sitting.pc;
        if (all) seat.chosen = at;
        reveal(at);
    }
    const { sitting } = seat, over = sitting.marks.length && sitting.clock - sitting.marks[0].clock > WATCHED;
    $("watched").textContent = over ? `, in the first ${WATCHED.toLocaleString("en")} steps` : "";
    drawListing();
});

// Chooses a line.
export function choose(address) {
    seat.chosen = address;
    drawAll(false);
}

function goTo(address) {
    seat.chosen = address;
    reveal(address, true);
    drawAll(false);
}

function toggleBreakpoint(address) {
    const { breakpoints } = seat.sitting, had = breakpoints.delete(address);
    if (!had) breakpoints.add(address);
    tell(`${had ? "No breakpoint any more at" : "Breakpoint set at"} ${hex(address)}.`);
    drawListing();
}

// Editing.

// Sets a word to a number or to a line, or says what is wrong.
function edited(address, text) {
    const number = numberIn(text), { sitting } = seat;
    try {
        const word = number === null ? wordOf(sitting.library, text) : number & 0xffff;
        return setWord(address, word);
    } catch (error) {
        tell(error instanceof Refused ? `${text.trim()}: ${error.message}` : error.message, "wrong");
        return false;
    }
}

// Replaces a word from outside, unless a register takes its place; whether it did.
export function setWord(address, word) {
    if (address in REGISTERS) {
        const what = `${REGISTERS[address]}, a register: no program reaches a word of memory there.`;
        tell(`${hex(address)} is ${what}`, "wrong");
        return false;
    }
    keepSeen();
    seat.sitting.setWord(address, word);
    tell(`${hex(address)} holds ${hex(word)}: ${seat.sitting.line(word)}`);
    return true;
}

function edit(address) {
    const row = $(`line-${address}`);
    if (seat.running || seat.editing !== null || !row) return;
    const cell = row.querySelector(".line"), label = `The word at ${hex(address)}: a number or a line`;
    const input = make("input", { value: cell.textContent, "aria-label": label, spellcheck: false });
    cell.replaceChildren(input);
    seat.editing = address;
    input.focus();
    input.select();
    const done = (take) => {
        if (seat.editing !== address) return;
        if (take && input.value.trim() && !edited(address, input.value))
            return input.setAttribute("aria-invalid", "true");
        seat.editing = null;
        row.dataset.mark = "";
        drawAll(false);
        $("listing").focus({ preventScroll: true });
    };
    input.addEventListener("keydown", (event) => {
        event.stopPropagation();
        if (event.key === "Enter") done(true);
        if (event.key === "Escape") done(false);
    });
    input.addEventListener("blur", () => done(false));
}

// Keys and clicks.

function move(by) {
    const box = $("listing"), address = Math.min(65535, Math.max(0, seat.chosen + by)), top = address * ROW;
    if (top < box.scrollTop) box.scrollTop = top;
    if (top + ROW > box.scrollTop + box.clientHeight) box.scrollTop = top + ROW - box.clientHeight;
    choose(address);
}

function setPc() {
    if (seat.running) return;
    keepSeen();
    seat.sitting.set("PC", seat.chosen);
    drawAll();
}

const DOINGS = {
    b: () => toggleBreakpoint(seat.chosen), " ": () => toggleBreakpoint(seat.chosen), Enter: () => edit(seat.chosen),
    r: runOrStop, s: step, o: over, u: out, z: back, p: setPc, Home: () => goTo(seat.sitting.pc),
};

function pressed(event) {
    if (seat.editing !== null || event.ctrlKey || event.metaKey || event.altKey) return;
    const page = Math.max(1, Math.floor($("listing").clientHeight / ROW) - 1);
    const moves = { ArrowUp: -1, ArrowDown: 1, PageUp: -page, PageDown: page };
    const name = event.key.length === 1 ? event.key.toLowerCase() : event.key;
    if (name in moves) move(moves[name]);
    else if (name in DOINGS) DOINGS[name]();
    else return;
    event.preventDefault();
}

function clicked(event) {
    const row = event.target.closest(".row");
    if (!row || seat.editing !== null) return;
    choose(Number(row.dataset.address));
    if (event.target.closest(".gutter")) toggleBreakpoint(seat.chosen);
}

function asked(event) {
    const text = event.target.value.trim();
    const name = Object.keys({ ...PLACES, ...ADDRESSES }).find((one) => one.toUpperCase() === text.toUpperCase());
    const value = name ? ADDRESSES[name] ?? seat.sitting.get(name)
        : numberIn(/^[0-9a-f]{4}$/i.test(text) ? `x${text}` : text);
    if (value === null) return tell(`“${text}” is no address: write it as x3000, or name a register.`, "wrong");
    $("follow").checked = false;
    goTo(value & 0xffff);
}

export function listenListing() {
    const box = $("listing");
    box.addEventListener("scroll", drawListing);
    new ResizeObserver(drawListing).observe(box);
    box.addEventListener("click", clicked);
    box.addEventListener("dblclick", (event) => {
        const row = event.target.closest(".row");
        if (row && !event.target.closest(".gutter")) edit(Number(row.dataset.address));
    });
    box.addEventListener("keydown", pressed);
    $("goto").addEventListener("change", asked);
    $("topc").addEventListener("click", () => goTo(seat.sitting.pc));
    $("follow").addEventListener("change", () => drawAll());
}
