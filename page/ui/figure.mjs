// The fields of the chosen word as Figure A.2 draws them, each bit a button; and the next step in words.
import { hex } from "../lib/constants.mjs";
import { fieldsOf } from "../lib/fields.mjs";
import { nextInWords } from "../lib/telling.mjs";
import { $, make, setText } from "./dom.mjs";
import { setWord } from "./listing.mjs";
import { drawAll, onDraw, seat } from "./seat.mjs";

let drawn = "";

function flip(bit) {
    const address = seat.chosen, follow = $("follow"), followed = follow.checked;
    setWord(address, seat.sitting.words[address] ^ (1 << bit));
    follow.checked = false; // the word that is looked at stays in view
    drawAll(false);
    follow.checked = followed;
    $(`bit-${bit}`)?.focus();
}

function bitOf({ name, kind, wrong, bits, high }, bit, value) {
    const isWrong = Boolean((wrong >> (bit - (high - bits + 1))) & 1), field = name || "fixed";
    return make("button", {
        type: "button", id: `bit-${bit}`, tabIndex: bit === 15 ? 0 : -1,
        className: `bit of-${kind}${isWrong ? " wrong" : ""}`,
        title: isWrong ? `bit ${bit}: the format has ${1 - value} here` : `bit ${bit}`,
        "aria-label": `bit ${bit}, ${field}${isWrong ? ", wrong" : ""}: ${value}`,
    }, String(value));
}

// What is written below a field. One or two bits that the format fixes have no room for more than a mark.
function nameOf({ name, bits, wrong }) {
    if (name || (bits < 3 && !wrong)) return name;
    return bits < 3 ? "!" : wrong ? "wrong" : "fixed";
}

function fieldBox(field, word) {
    const bits = Array.from({ length: field.bits }, (_, at) => field.high - at);
    const buttons = bits.map((bit) => bitOf(field, bit, (word >> bit) & 1));
    const last = field.high - field.bits + 1, range = field.bits > 1 ? `${field.high}:${last}` : String(last);
    const box = make("div", { className: "fieldbox" }, make("small", {}, `[${range}]`),
        make("div", { className: "bits" }, ...buttons), make("span", { className: "name" }, nameOf(field)),
        make("span", { className: "means" }, field.text));
    box.style.setProperty("--bits", field.bits);
    return box;
}

onDraw(() => {
    const { sitting, chosen } = seat, word = sitting.words[chosen], mark = `${chosen} ${word} ${Boolean(seat.running)}`;
    if (mark === drawn) return;
    drawn = mark;
    const boxes = fieldsOf(sitting.library, word).map((field) => fieldBox(field, word));
    const title = make("code", {}, `${hex(chosen)}  ${hex(word)}  ${sitting.line(word)}`);
    const figure = make("div", { className: "figure" }, ...boxes);
    $("fields").replaceChildren(make("p", { className: "word-title" }, title), figure);
    for (const button of $("fields").querySelectorAll("button")) button.disabled = Boolean(seat.running);
});

onDraw(() => {
    const runs = seat.running && !seat.waiting;
    setText($("next"), runs ? "Running." : `Next: ${nextInWords(seat.sitting)}`);
});

// The arrow keys go from bit to bit.
function moved(event) {
    const bit = Number(/^bit-(\d+)$/.exec(event.target.id)?.[1] ?? NaN);
    const to = { ArrowLeft: bit + 1, ArrowRight: bit - 1, Home: 15, End: 0 }[event.key];
    if (to === undefined || !$(`bit-${to}`)) return;
    event.preventDefault();
    $(`bit-${to}`).focus();
}

export function listenFigure() {
    $("fields").addEventListener("click", (event) => {
        const bit = /^bit-(\d+)$/.exec(event.target.id);
        if (bit) flip(Number(bit[1]));
    });
    $("fields").addEventListener("keydown", moved);
}
