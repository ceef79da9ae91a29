// Pictures of the page, for people to look at:     node shots.mjs PAGE.html FOLDER
import { join } from "node:path";
import { Browser, pause } from "./driver.mjs";
import { served } from "./support.mjs";

const [page, folder] = process.argv.slice(2), [url] = await served("file", page);
const PROGRAM = "x3000            ; a greeting\nLEA R0, #2\n1111 0000 0010 0010 ; PUTS\nxF025            ; HALT\n"
    + ".FILL x48\n.FILL x69\n.FILL #0\nADD R0, R0, #77\n";
const browser = await Browser.start();
try {
    for (const [name, width, height, scheme, phone] of [["wide", 1440, 1000, "light"], ["dark", 1440, 1000, "dark"],
        ["tablet", 900, 1400, "light"], ["phone", 390, 2600, "light", true], ["phone-dark", 390, 2600, "dark", true]]) {
        await browser.size(width, height, Boolean(phone));
        await browser.scheme(scheme);
        await browser.go("about:blank");
        await browser.go(`${url}#sieve`);
        await browser.wait("document.documentElement.dataset.ready");
        await browser.run("lc3.sitting.breakpoints.add(0x3009)");
        for (let n = 0; n < 6; n++) {
            await browser.click("#run");
            await browser.wait("!lc3.running");
        }
        for (let n = 0; n < 2; n++) await browser.click("#step");
        await pause(200);
        await browser.shot(join(folder, `${name}.png`));
        await browser.run("const s = document.getElementById('source'); s.value = arguments[0];"
            + "s.dispatchEvent(new Event('input')); document.getElementById('tab-program').click()", PROGRAM);
        await pause(100);
        await browser.shot(join(folder, `${name}-program.png`));
    }
} finally {
    await browser.end();
}
