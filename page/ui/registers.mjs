// Registers, devices and the PSR in words.
import { PLACES, hex, signed } from "../lib/constants.mjs";
import { numberOf } from "../lib/words.mjs";
import { $, make, printable, setText, steps, tell } from "./dom.mjs";
import { drawAll, keepSeen, onDraw, seat } from "./seat.mjs";

const NAMES = ["R0", "R1", "R2", "R3", "R4", "R5", "R6", "R7", "PC"];

// A number as x3000, #-5 or 'A'; or null.
export function numberIn(text) {
    const plain = text.trim(), letter = /^'(.)'$/u.exec(plain);
    const value = letter ? letter[1].codePointAt(0) : numberOf(plain);
    return value === null || value < -32768 || value > 65535 ? null : value;
}

function rowOf(name) {
    const input = make("input", { id: `r-${name}`, type: "text", spellcheck: false, autocomplete: "off" });
    input.addEventListener("change", () => alter(name, input));
    input.addEventListener("focus", () => input.select());
    input.addEventListener("keydown", (event) => {
        if (event.key !== "Escape") return;
        input.value = hex(seat.sitting.get(name));
        input.blur();
    });
    const label = make("label", { htmlFor: input.id }, name);
    return make("div", { className: "register" }, label, input, make("output"), make("output"));
}

function alter(name, input) {
    const value = numberIn(input.value);
    input.removeAttribute("aria-invalid");
    try {
        if (value === null) throw new Error(`“${input.value}” is no number: write it as x3000, #-5 or 'A'.`);
        keepSeen();
        seat.sitting.set(name, value);
        tell(`${name} is ${hex(seat.sitting.get(name))}.`);
    } catch (error) {
        tell(error.message, "wrong");
        input.setAttribute("aria-invalid", "true");
    }
    input.value = hex(seat.sitting.get(name));
    drawAll();
}

// Whether a register is another than at the stop before.
const changed = (name) => Boolean(seat.seen) && !seat.running && name in PLACES
    && seat.seen.record[PLACES[name]] !== seat.sitting.get(name);

onDraw(() => {
    const box = $("registers");
    if (!box.children.length) box.append(...NAMES.map(rowOf));
    for (const row of box.children) {
        const name = row.firstChild.textContent, word = seat.sitting.get(name), input = row.querySelector("input");
        if (document.activeElement !== input) input.value = hex(word);
        input.disabled = Boolean(seat.running);
        const [decimal, character] = row.querySelectorAll("output");
        decimal.value = name === "PC" ? "" : `#${signed(word)}`;
        character.value = name === "PC" || word === 32 || word === 10 ? "" : printable(word);
        row.classList.toggle("changed", changed(name));
    }
});

// The other registers: name, what it says, and its word.
function told() {
    const get = (name) => seat.sitting.get(name), psr = get("PSR"), kbsr = get("KBSR"), tsr = get("TSR");
    const codes = ["N", "Z", "P"].filter((_, at) => psr & (4 >> at)).join(" ") || "no code";
    const key = get("KBDR"), busy = get("busy"), tir = get("TIR"), on = (word) => (word & 0x4000 ? ", interrupts" : "");
    const mode = psr & 0x8000 ? "User" : "Supervisor";
    return [
        ["PSR", `${mode}, priority ${(psr >> 8) & 7}, ${codes}`, psr],
        ["KBSR", `${kbsr & 0x8000 ? "a key is ready" : "no key"}${on(kbsr)}`, kbsr],
        ["KBDR", key ? printable(key) || `#${key}` : "", key],
        ["DSR", busy ? `busy for ${steps(busy)}` : "ready", busy ? 0 : 0x8000],
        ["TIR", tir ? `every ${steps(tir)}, in ${get("timer_count")}` : "timer off", tir],
        ["TSR", tir || tsr ? `${tsr & 0x8000 ? "time has passed" : "not yet"}${on(tsr)}` : "", tsr],
        ["MCR", get("MCR") & 0x8000 ? "on" : "halted", get("MCR")],
        ["Saved_SSP", "", get("Saved_SSP")],
        ["Saved_USP", "", get("Saved_USP")],
        ["Steps", seat.sitting.clock.toLocaleString("en"), null],
    ];
}

onDraw(() => {
    const list = $("state"), parts = told();
    if (!list.children.length)
        for (const [name] of parts) list.append(make("dt", {}, name), make("dd", {}, make("span"), make("code")));
    parts.forEach(([name, text, word], at) => {
        const dd = list.children[2 * at + 1];
        setText(dd.firstChild, text);
        setText(dd.lastChild, word === null ? "" : hex(word));
        dd.classList.toggle("changed", changed(name));
    });
});
