// Display and keyboard.
import { $, setText, tell } from "./dom.mjs";
import { wake } from "./running.mjs";
import { drawAll, onDraw, seat } from "./seat.mjs";

const LONGEST = 20000; // bytes of the display that are drawn
let drawn = null, clearedAt = 0;

// What stands for a character of control, so that no program steers what is shown of it: a picture, or the sign for
// what is none.
function picture(letter) {
    const code = letter.codePointAt(0);
    if (code === 13) return "";
    return code < 32 ? String.fromCodePoint(0x2400 + code) : code === 127 ? "\u2421" : "\ufffd";
}

// Bytes as a terminal shows them, in UTF-8. The first of them may be the rest of a character.
function shownOf(bytes) {
    const rest = bytes.length < LONGEST ? 0 : bytes.findIndex((byte) => (byte & 0xc0) !== 0x80);
    return new TextDecoder("utf-8", { ignoreBOM: true }).decode(bytes.subarray(Math.max(rest, 0)))
        .replace(/[^\P{C}\t\n]/gu, picture);
}

onDraw(() => {
    const { machine } = seat.sitting;
    if (drawn?.machine !== machine) clearedAt = 0;
    else if (drawn.shown === machine.shown) return pending();
    clearedAt = Math.min(clearedAt, machine.shown);
    drawn = { machine, shown: machine.shown };
    const bytes = machine.displayed(Math.max(clearedAt, machine.shown - LONGEST)), box = $("display");
    const cursor = document.createElement("span");
    cursor.className = "cursor";
    box.replaceChildren(shownOf(bytes), cursor);
    box.scrollTop = box.scrollHeight;
    pending();
});

// The keys that wait to be read.
function pending() {
    const { typed } = seat.sitting, count = typed.length;
    const next = String.fromCharCode(...typed.slice(0, 20)).replace(/\n/g, "↵");
    const wait = count === 1 ? "1 key waits" : `${count} keys wait`;
    setText($("waiting-keys"), count ? `${wait} to be read: ${next}${count > 20 ? "…" : ""}` : "");
}

// Types a text: its keys are its bytes in UTF-8, as a terminal sends them.
export function press(text) {
    seat.sitting.type([...new TextEncoder().encode(text.replace(/\r\n?/g, "\n"))]);
    if (!seat.running) drawAll(false);
    pending();
    wake();
}

function clear() {
    clearedAt = seat.sitting.machine.shown;
    drawn = { machine: seat.sitting.machine, shown: clearedAt };
    $("display").replaceChildren();
    tell("The display is cleared.");
}

function taken(event) {
    if (event.isComposing) return;
    event.preventDefault();
    const text = event.data ?? event.dataTransfer?.getData("text/plain");
    if (event.inputType === "insertLineBreak") press("\n");
    else if (event.inputType.startsWith("deleteContentBackward")) press("\b");
    else if (text) press(text);
}

export function listenConsole() {
    const keys = $("keys"), special = { Enter: "\n", Backspace: "\b", Escape: "\x1b" };
    $("clear").addEventListener("click", clear);
    $("display").addEventListener("click", () => { if (!String(getSelection())) keys.focus(); });
    $("display").addEventListener("keydown", (event) => {
        if (event.ctrlKey || event.metaKey || event.altKey || event.key.length !== 1) return;
        event.preventDefault();
        keys.focus();
        press(event.key);
    });
    keys.addEventListener("beforeinput", taken);
    keys.addEventListener("compositionend", () => {
        press(keys.value);
        keys.value = "";
    });
    // An empty field has no input to make of these.
    keys.addEventListener("keydown", (event) => {
        if (event.isComposing || !(event.key in special)) return;
        event.preventDefault();
        press(special[event.key]);
    });
}
