// SHA-256 of bytes, in hexadecimal (FIPS 180-4). The page has its own: a browser offers one to pages from some places
// alone.

const isPrime = (n) => {
    for (let by = 2; by * by <= n; by++) {
        if (n % by === 0) {
            return false;
        }
    }
    return true;
};

const PRIMES = Array.from({ length: 312 }, (_, n) => n).filter((n) => n > 1 && isPrime(n));

// The first 32 bits behind the point.
const fraction = (root) => ((root - Math.floor(root)) * 2 ** 32) | 0;
const ROUNDS = PRIMES.slice(0, 64).map((prime) => fraction(Math.cbrt(prime)));
const START = PRIMES.slice(0, 8).map((prime) => fraction(Math.sqrt(prime)));

const turned = (word, by) => (word >>> by) | (word << (32 - by));

// The bytes, a 1, zeros, and the length in bits.
const padded = (bytes) => {
    const all = new Uint8Array(Math.ceil((bytes.length + 9) / 64) * 64);
    all.set(bytes);
    all[bytes.length] = 0x80;
    new DataView(all.buffer).setBigUint64(all.length - 8, BigInt(bytes.length) * 8n);
    return new DataView(all.buffer);
};

const schedule = (view, from) => {
    const words = new Int32Array(64);
    for (let i = 0; i < 16; i++) {
        words[i] = view.getInt32(from + 4 * i);
    }
    for (let i = 16; i < 64; i++) {
        const [a, b] = [words[i - 15], words[i - 2]];
        const low = turned(a, 7) ^ turned(a, 18) ^ (a >>> 3);
        const high = turned(b, 17) ^ turned(b, 19) ^ (b >>> 10);
        words[i] = words[i - 16] + low + words[i - 7] + high;
    }
    return words;
};

const compressed = (state, words) => {
    let [a, b, c, d, e, f, g, h] = state;
    for (let i = 0; i < 64; i++) {
        const chosen = (e & f) ^ (~e & g);
        const most = (a & b) ^ (a & c) ^ (b & c);
        const first = (h + (turned(e, 6) ^ turned(e, 11) ^ turned(e, 25)) + chosen + ROUNDS[i] + words[i]) | 0;
        const second = ((turned(a, 2) ^ turned(a, 13) ^ turned(a, 22)) + most) | 0;
        [a, b, c, d, e, f, g, h] = [(first + second) | 0, a, b, c, (d + first) | 0, e, f, g];
    }
    return [a, b, c, d, e, f, g, h].map((word, i) => (word + state[i]) | 0);
};

export const sha256 = (bytes) => {
    const view = padded(bytes);
    let state = START;
    for (let from = 0; from < view.byteLength; from += 64) {
        state = compressed(state, schedule(view, from));
    }
    return state.map((word) => (word >>> 0).toString(16).padStart(8, '0')).join('');
};
