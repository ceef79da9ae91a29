// What the browser keeps of the program that is written: for all pages until it is cleared, and for this tab, so that
// what is written in another does not take its place. A browser may keep nothing, by its settings or for want of room.

const NAME = "fanthrig.lc3.program";

function tried(make) {
    try {
        return make();
    } catch {
        return null;
    }
}

export const kept = () =>
    tried(() => sessionStorage.getItem(NAME)) ?? tried(() => localStorage.getItem(NAME)) ?? "";

// Keeps a text; whether it will be there when the browser is opened again.
export function keep(text) {
    tried(() => sessionStorage.setItem(NAME, text));
    return tried(() => {
        if (text) localStorage.setItem(NAME, text);
        else localStorage.removeItem(NAME);
        return true;
    }) ?? false;
}
