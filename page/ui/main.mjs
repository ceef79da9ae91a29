// The page: what a student sees of a sitting, and the sitting's buttons.
import { VERSION } from "../lib/constants.mjs";
import { $, tell } from "./dom.mjs";
import {
    EXAMPLES, bytesOf, openExample, openFiles, reset, restart, saveProgram, saveRecording, settings,
} from "./files.mjs";
import { listenConsole } from "./console.mjs";
import { listenEditor, setSource } from "./editor.mjs";
import { listenFigure } from "./figure.mjs";
import { listenListing } from "./listing.mjs";
import { listenLog } from "./log.mjs";
import { back, out, over, rate, runOrStop, step } from "./running.mjs";
import { seat, seated } from "./seat.mjs";

const open = (files) => openFiles([...files], setSource);

function drawRate() {
    const speed = rate(), full = speed === Infinity;
    $("rate").value = full ? "full" : `${speed.toLocaleString("en")} a second`;
    $("speed").setAttribute("aria-valuetext", full ? "full speed" : `${speed} steps a second`);
}

// Closes the menu; who was in it stands at its button again.
function closeMenu() {
    const menu = $("settings"), inside = menu.open && menu.contains(document.activeElement);
    menu.open = false;
    if (inside) menu.firstElementChild.focus();
}

function listenButtons() {
    const saves = { "save-recording": saveRecording, "save-program": saveProgram };
    const clicks = { run: runOrStop, step, over, out, back, reset: restart, ...saves };
    for (const [id, doing] of Object.entries(clicks)) $(id).addEventListener("click", doing);
    for (const id of ["mode", "edition", "monitor", "anywhere"]) $(id).addEventListener("change", reset);
    $("open").addEventListener("click", () => $("files").click());
    $("files").addEventListener("change", (event) => open(event.target.files).then(() => { event.target.value = ""; }));
    $("examples").addEventListener("change", (event) => event.target.value && openExample(event.target.value));
    $("speed").addEventListener("input", drawRate);
    // A menu is closed by Escape and by a click beside it.
    addEventListener("keydown", (event) => { if (event.key === "Escape") closeMenu(); });
    addEventListener("click", (event) => { if (!$("settings").contains(event.target)) $("settings").open = false; });
}

function listenDrop() {
    const show = (yes) => { $("drop").hidden = !yes; };
    let over = 0;
    addEventListener("dragenter", (event) => {
        event.preventDefault();
        over++;
        show(true);
    });
    addEventListener("dragover", (event) => event.preventDefault());
    addEventListener("dragleave", () => show(--over > 0));
    addEventListener("drop", (event) => {
        event.preventDefault();
        show(over = 0);
        open(event.dataTransfer.files);
    });
}

// An example may be named in the page's address, as lc3.html#echo.
async function openNamed() {
    const name = location.hash.slice(1);
    if (!Object.hasOwn(EXAMPLES, name)) return false;
    await openExample(name);
    return true;
}

async function begin() {
    const bytes = await bytesOf("library", "../build/fanthrig.wasm");
    seat.module = await WebAssembly.compile(bytes);
    seat.sitting = seated([], settings());
    $("version").textContent = VERSION;
    const size = Math.ceil(bytes.length / 1024);
    $("size").textContent = `The library has ${size} KiB and reaches nothing but its own memory.`;
    for (const [name, { title }] of Object.entries(EXAMPLES)) $("examples").append(new Option(title, name));
    listenButtons();
    drawRate(); // a browser keeps the slider's place when the page is loaded anew
    listenDrop();
    listenConsole();
    listenListing();
    listenLog();
    listenFigure();
    listenEditor();
    addEventListener("hashchange", openNamed);
    if (!(await openNamed())) reset();
    globalThis.lc3 = seat; // for whoever opens the browser's console
    document.documentElement.dataset.ready = String(Math.round(performance.now()));
}

begin().catch((error) => {
    tell(`The page cannot start: ${error.message}`, "wrong");
    throw error;
});
