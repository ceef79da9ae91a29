// What one step did: by which rule it was made, and which registers and words it changed.
import { PLACES, Reason, REGISTERS, hex } from "./constants.mjs";

// The opcodes of ST, STR and STI.
export const STORES = [3, 7, 11];

// A step of a log. A log has 0 for no word: at an interrupt, and where the fetch itself raised the access exception, at
// which 0 is never a word fetched, for x0000 as an instruction accesses nothing.
export function loggedStep(pc, word, reason) {
    const none = reason >= Reason.KEYBOARD || (reason === Reason.ACCESS && word === 0);
    return { pc, word: none ? null : word, reason };
}

// What is not as it was: registers in their order, PC only where it is not simply the next address, then words by
// address. `old` are the words that the step stored to, by their addresses.
export function changesOf(was, now, old, words) {
    const found = [];
    for (const name of REGISTERS) {
        const at = PLACES[name], next = name === "PC" && now[at] === ((was[at] + 1) & 0xffff);
        if (was[at] !== now[at] && !next) found.push({ name, before: was[at], after: now[at] });
    }
    for (const [address, before] of [...old].sort(([one], [other]) => one - other))
        if (before !== words[address]) found.push({ name: hex(address), before, after: words[address] });
    return found;
}

// Words by their addresses.
export function wordsAt(words, addresses) {
    return new Map(addresses.map((address) => [address, words[address]]));
}
