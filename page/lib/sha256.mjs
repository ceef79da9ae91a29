// SHA-256 (FIPS 180-4). The browser's own is not there on a page that came by http.

const primes = [];
for (let number = 2; primes.length < 64; number++)
    if (primes.every((prime) => number % prime)) primes.push(number);
const fraction = (root) => Math.floor((root - Math.floor(root)) * 2 ** 32);
const FIRST = primes.slice(0, 8).map((prime) => fraction(Math.sqrt(prime)));
const ROUNDS = Uint32Array.from(primes, (prime) => fraction(Math.cbrt(prime)));
const rotated = (word, by) => (word >>> by) | (word << (32 - by));

// The bytes with their end: a bit, zeros, and the number of bits.
function padded(data) {
    const blocks = new Uint8Array((Math.floor((data.length + 8) / 64) + 1) * 64);
    blocks.set(data);
    blocks[data.length] = 0x80;
    new DataView(blocks.buffer).setBigUint64(blocks.length - 8, BigInt(data.length) * 8n);
    return blocks;
}

function schedule(view, at) {
    const words = new Uint32Array(64);
    for (let i = 0; i < 16; i++) words[i] = view.getUint32(at + 4 * i);
    for (let i = 16; i < 64; i++) {
        const one = words[i - 15], other = words[i - 2];
        const low = rotated(one, 7) ^ rotated(one, 18) ^ (one >>> 3);
        words[i] = words[i - 16] + low + words[i - 7] + (rotated(other, 17) ^ rotated(other, 19) ^ (other >>> 10));
    }
    return words;
}

function compress(state, words) {
    let [a, b, c, d, e, f, g, h] = state;
    for (let i = 0; i < 64; i++) {
        const choice = (e & f) ^ (~e & g), majority = (a & b) ^ (a & c) ^ (b & c);
        const first = (h + (rotated(e, 6) ^ rotated(e, 11) ^ rotated(e, 25)) + choice + ROUNDS[i] + words[i]) | 0;
        const second = ((rotated(a, 2) ^ rotated(a, 13) ^ rotated(a, 22)) + majority) | 0;
        [h, g, f, e, d, c, b, a] = [g, f, e, (d + first) | 0, c, b, a, (first + second) | 0];
    }
    [a, b, c, d, e, f, g, h].forEach((word, at) => { state[at] += word; });
}

// The digest of bytes in hexadecimal digits.
export function sha256(data) {
    const blocks = padded(data), view = new DataView(blocks.buffer), state = Uint32Array.from(FIRST);
    for (let at = 0; at < blocks.length; at += 64) compress(state, schedule(view, at));
    return Array.from(state, (word) => word.toString(16).padStart(8, "0")).join("");
}
