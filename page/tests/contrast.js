// Answers the least contrast of the texts on the page, as WCAG 2.1 reckons it. A body of a function: the browser runs
// it.
const channels = (text) => (text.match(/[\d.]+/g) ?? [0, 0, 0, 0]).map(Number);
const linear = (byte) => (byte <= 10.31475 ? byte / 3294.6 : ((byte / 255 + 0.055) / 1.055) ** 2.4);
const luminance = ([r, g, b]) => 0.2126 * linear(r) + 0.7152 * linear(g) + 0.0722 * linear(b);
const over = ([r, g, b, a = 1], under) => [r, g, b].map((byte, at) => byte * a + under[at] * (1 - a));
const ground = (element) => {
    if (!element) return [255, 255, 255];
    const color = channels(getComputedStyle(element).backgroundColor);
    const under = ground(element.parentElement);
    return color.length < 4 || color[3] > 0 ? over(color, under) : under;
};
const texts = [...document.querySelectorAll("body *")].filter((element) => {
    const own = [...element.childNodes].some((node) => node.nodeType === 3 && node.data.trim());
    const hidden = element.closest("#source-marks, script, style, :disabled") || !element.checkVisibility();
    return (own || /^(INPUT|TEXTAREA)$/.test(element.tagName)) && !hidden;
});
const ratios = texts.map((element) => {
    const back = ground(element.tagName === "TEXTAREA" ? element.previousElementSibling : element);
    const [one, other] = [luminance(over(channels(getComputedStyle(element).color), back)), luminance(back)];
    const ratio = (Math.max(one, other) + 0.05) / (Math.min(one, other) + 0.05);
    return { ratio, of: `${element.tagName} ${element.className} ${element.textContent.slice(0, 30)}` };
});
return { ...ratios.reduce((least, one) => (one.ratio < least.ratio ? one : least)), texts: texts.length };
