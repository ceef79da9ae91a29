// The last steps with their reasons and all that they changed, the newest first.
import { REASON_TEXTS, hex } from "../lib/constants.mjs";
import { $, make, printable } from "./dom.mjs";
import { onDraw, seat } from "./seat.mjs";

const MOST = 100;
let told = [], of = null; // the steps that are drawn, and the sitting that made them

function changesOf({ changes, keys, shown }) {
    const did = changes.map(({ name, before, after }) => `${name} ${hex(before)} → ${hex(after)}`);
    for (const key of keys) did.push(`key ${printable(key) || hex(key)}`);
    for (const byte of shown) did.push(`shows ${printable(byte) || hex(byte)}`);
    return did.flatMap((text, at) => [make("span", {}, at < did.length - 1 ? `${text},` : text), " "]);
}

function rowOf(step) {
    const { clock, pc, word, reason } = step, line = word === null ? "" : seat.sitting.line(word);
    const className = reason >= 2 && reason <= 4 ? "wrong" : reason ? "special" : "";
    const cells = [String(clock), hex(pc), line, REASON_TEXTS[reason]].map((text) => make("td", {}, text));
    return make("tr", { className }, ...cells, make("td", {}, ...changesOf(step)));
}

// Of the steps that are told already only those that follow them are made again.
function refresh() {
    const { sitting } = seat;
    told = of === sitting ? told.filter((step) => step.clock < sitting.clock) : [];
    of = sitting;
    const fresh = told.length ? sitting.clock - told.at(-1).clock - 1 : Infinity;
    told = fresh < MOST ? [...told, ...sitting.lastTraced(fresh)].slice(-MOST) : sitting.lastTraced(MOST);
}

export function listenLog() {
    onDraw((all) => {
        if (!all) return;
        refresh();
        $("log").replaceChildren(...[...told].reverse().map(rowOf));
    });
}
