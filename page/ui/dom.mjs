// The document: elements by their names, made and filled.

export const $ = (id) => document.getElementById(id);

// An element with properties and attributes, and what stands in it.
export function make(tag, properties = {}, ...inside) {
    const element = document.createElement(tag);
    for (const [name, value] of Object.entries(properties)) {
        if (name in element) element[name] = value;
        else element.setAttribute(name, value);
    }
    element.append(...inside);
    return element;
}

// Sets a text where it is another, so that nothing is read out twice.
export function setText(element, text) { if (element.textContent !== text) element.textContent = text; }

// Says what has happened. `kind` is "wrong" or "waits", or empty.
export function tell(text, kind = "") {
    setText($("status"), text);
    $("status").className = kind;
}

// Has the browser save a file.
export function download(name, data, type = "application/octet-stream") {
    const url = URL.createObjectURL(new Blob([data], { type })), link = make("a", { href: url, download: name });
    link.click();
    setTimeout(() => URL.revokeObjectURL(url), 10000);
}

export const printable = (word) => {
    if (word > 32 && word < 127) return `'${String.fromCharCode(word)}'`;
    return { 32: "space", 10: "line feed" }[word] ?? "";
};
export const steps = (count) => (count === 1 ? "1 step" : `${count.toLocaleString("en")} steps`);
