// A program written in the page, word by word, with its three forms side by side.
import { hex } from "../lib/constants.mjs";
import { binary, objectFile, portable, sourceOf, textOf } from "../lib/source.mjs";
import { $, download, make, setText, tell } from "./dom.mjs";
import { load } from "./files.mjs";
import { keep, kept } from "./kept.mjs";
import { isBeside, seat } from "./seat.mjs";

const NAME = "program.obj";
const ROW = 20, AROUND = 20; // the height of a row, and the rows above and below those in view
let read = null; // the text, its lines and the program of it, as it was read last
let replaced = ""; // the text that another took the place of, and that can be brought back

// The text as it stands, read once.
function parsed() {
    const text = $("source").value;
    if (read?.text !== text) read = { text, lines: text.split("\n"), ...sourceOf(seat.sitting.library, text) };
    return read;
}

function formRow({ address, word, isOrigin, error }) {
    const { problem } = error ?? {}, whole = (text) => make("td", { colSpan: 4, title: problem ?? "" }, text);
    if (error) return make("tr", { className: "wrong" }, whole(problem));
    if (word === null) return make("tr", {}, whole("\u00a0"));
    const line = isOrigin ? "the origin" : seat.sitting.line(word), place = isOrigin ? "" : hex(address);
    return make("tr", {}, ...[place, binary(word), hex(word), line].map((text) => make("td", {}, text)));
}

// The text once more, behind the field, with what is wrong marked at its place.
function marked(line, { error }) {
    if (!error) return [`${line}\n`];
    const { from, to } = error;
    return [line.slice(0, from), make("mark", {}, line.slice(from, to) || " "), `${line.slice(to)}\n`];
}

// A row of the table as high as some that are out of view.
function gap(rows) {
    const row = make("tr", { "aria-hidden": "true" }, make("td", { colSpan: 4 }));
    row.firstChild.style.height = `${rows * ROW}px`;
    return row;
}

// Draws the rows that are in view: a program may have thousands.
function drawRows() {
    const { lines, rows } = parsed(), box = $("source-view");
    const first = Math.min(Math.max(0, Math.floor(box.scrollTop / ROW) - AROUND), rows.length);
    const end = Math.min(rows.length, first + Math.ceil(box.clientHeight / ROW) + 2 * AROUND);
    const drawn = rows.slice(first, end), above = first ? [gap(first)] : [];
    const below = end < rows.length ? [gap(rows.length - end)] : [];
    $("forms").replaceChildren(...above, ...drawn.map(formRow), ...below);
    $("source-marks").style.paddingTop = `${first * ROW}px`;
    $("source-marks").replaceChildren(...drawn.flatMap((row, at) => marked(lines[first + at], row)));
}

function drawEditor() {
    const { lines, rows, errors } = parsed(), first = rows.findIndex((row) => row.error);
    $("source").rows = Math.max(lines.length, 12);
    $("source").cols = lines.reduce((most, line) => Math.max(most, line.length + 1), 20);
    $("source").setAttribute("aria-invalid", errors ? "true" : "false");
    const more = errors > 1 ? ` ${errors - 1} more ${errors === 2 ? "row is" : "rows are"} wrong.` : "";
    setText($("source-errors"), errors ? `Row ${first + 1}: ${rows[first].error.problem}.${more}` : "");
    $("source-errors").classList.toggle("wrong", errors > 0);
    drawRows();
}

function keepText() {
    const isKept = keep($("source").value);
    setText($("source-kept"), isKept ? "The text is kept in this browser until it is cleared."
        : "This browser does not keep the text: save it before the page is closed.");
    $("source-kept").classList.toggle("wrong", !isKept);
}

// The program of the text, or null where it is wrong, which is said.
function program() {
    const source = parsed();
    if (!source.errors && source.origin !== null) return source;
    const row = source.rows.findIndex(({ error }) => error);
    tell(row < 0 ? "The program is empty: write its origin first, as x3000."
        : `Row ${row + 1} of the program: ${source.rows[row].error.problem}`, "wrong");
    return null;
}

// Loads the program in the place of another; what is there for it to use, such as a monitor, stays.
function loadProgram() {
    const source = program();
    if (source) load([...seat.files.filter(isBeside), { name: NAME, bytes: objectFile(source) }]);
}

function takeProgram() {
    const last = seat.sitting.programs.at(-1);
    if (!last) return tell("No program is loaded.", "wrong");
    setSource(textOf(last.origin, seat.sitting.lines(last.origin, last.words)));
    tell(`The ${last.words} words of ${last.name} are taken from memory as text.`);
}

// Puts a text into the field, and keeps it. The one that was there can be brought back.
export function setSource(text) {
    const old = $("source").value;
    if (old.trim() && old !== text) replaced = old;
    $("restore-program").hidden = !replaced || replaced === text;
    $("source").value = text;
    keepText();
    show("program");
    drawEditor();
}

function clearSource() {
    setSource("");
    tell(replaced ? "The text is cleared. “Bring back” undoes it." : "There is no text.");
}

function restoreSource() {
    setSource(replaced);
    $("source").focus(); // the button may be gone
    tell("The text is brought back.");
}

function save(asText) {
    const source = program();
    if (!source) return;
    if (asText) download("program.txt", portable($("source").value, source), "text/plain");
    else download(NAME, objectFile(source));
    tell(`The program of ${source.words.length} words is saved.`);
}

// The two tabs.
export function show(name) {
    for (const tab of ["steps", "program"]) {
        $(tab).hidden = tab !== name;
        $(`tab-${tab}`).setAttribute("aria-selected", tab === name);
        $(`tab-${tab}`).tabIndex = tab === name ? 0 : -1;
    }
}

function listenTabs() {
    for (const [tab, other] of [["steps", "program"], ["program", "steps"]]) {
        $(`tab-${tab}`).addEventListener("click", () => show(tab));
        $(`tab-${tab}`).addEventListener("keydown", (event) => {
            if (event.key !== "ArrowLeft" && event.key !== "ArrowRight") return;
            show(other);
            $(`tab-${other}`).focus();
        });
    }
}

export function listenEditor() {
    $("source").addEventListener("input", () => {
        keepText();
        drawEditor();
    });
    $("source-view").addEventListener("scroll", drawRows);
    new ResizeObserver(drawRows).observe($("source-view"));
    $("load-program").addEventListener("click", loadProgram);
    $("take-program").addEventListener("click", takeProgram);
    $("save-object").addEventListener("click", () => save(false));
    $("save-text").addEventListener("click", () => save(true));
    $("clear-program").addEventListener("click", clearSource);
    $("restore-program").addEventListener("click", restoreSource);
    listenTabs();
    $("source").value = kept();
    drawEditor();
}
