// A WAV file of whole numbers: its rate, its channels, and the samples of one.

const KINDS = ['RIFF', 'RIFX', 'RF64', 'BW64'];
// Programs that write to a pipe do not know the size, and put 0 or nearly the most there.
const UNKNOWN = 0x7fff0000;

const letters = (bytes, at) => String.fromCharCode(...bytes.subarray(at, at + 4));

// Whether a file with these bytes may be a WAV file, of any kind.
export const isWav = (bytes) => KINDS.includes(letters(bytes, 0)) && letters(bytes, 8) === 'WAVE';

// The chunks before the samples, by name: where they begin, and how long they are.
const chunks = (bytes) => {
    const view = new DataView(bytes.buffer, bytes.byteOffset, bytes.byteLength);
    const found = {};
    for (let at = 12; !found.data; ) {
        if (at + 8 > bytes.length) {
            throw new Error('a WAV file that ends within its head');
        }
        const [name, size] = [letters(bytes, at), view.getUint32(at + 4, true)];
        found[name.trim()] = { from: at + 8, size };
        // Chunks begin at even places.
        at += 8 + size + (size % 2);
    }
    return found;
};

const format = (bytes, { from, size }) => {
    if (size < 16) {
        throw new Error('a broken head: its format is too short');
    }
    const view = new DataView(bytes.buffer, bytes.byteOffset + from, Math.min(size, bytes.length - from));
    const two = (at) => view.getUint16(at, true);
    // An extended format has its coding at the end.
    const coding = two(0) === 0xfffe ? two(24) : two(0);
    return { coding, channels: two(2), rate: view.getUint32(4, true), frame: two(12), bits: two(14) };
};

const check = ({ coding, channels, frame, bits }) => {
    if (coding !== 1 || ![16, 24, 32].includes(bits)) {
        const kind = coding === 1 ? '' : coding === 3 ? ' as floats' : ' in a coding of its own';
        throw new Error(`samples of ${bits} bits${kind}; whole numbers of 16, 24 or 32 bits are read`);
    }
    if (channels === 0 || frame !== channels * (bits / 8)) {
        throw new Error(`a broken head: ${channels} channels of ${bits / 8} bytes in ${frame}`);
    }
};

const numberAt = (view, at, bits) => {
    if (bits === 24) {
        return (view.getUint16(at, true) | (view.getInt8(at + 2) << 16)) | 0;
    }
    return bits === 16 ? view.getInt16(at, true) : view.getInt32(at, true);
};

// Frames may end only where the head says.
const framesOf = (bytes, { from, size }, frame) => {
    const left = bytes.length - from;
    const known = size > 0 && size < UNKNOWN;
    if (known && left < size) {
        throw new Error(`ends at byte ${bytes.length}, ${size - left} bytes before its head says`);
    }
    const length = known ? size : left;
    if (length % frame !== 0) {
        throw new Error(`ends within a sample, at byte ${from + length}`);
    }
    return length / frame;
};

// The samples of a channel, counted from 1.
export const wavSamples = (bytes, channel) => {
    if (letters(bytes, 0) !== 'RIFF') {
        throw new Error(`not a WAV file of the kind RIFF; it begins with ${letters(bytes, 0)}`);
    }
    const found = chunks(bytes);
    if (!found.fmt) {
        throw new Error('no format before its data');
    }
    const head = format(bytes, found.fmt);
    check(head);
    if (channel > head.channels) {
        throw new Error(`no channel ${channel}; there are ${head.channels}`);
    }
    const count = framesOf(bytes, found.data, head.frame);
    const view = new DataView(bytes.buffer, bytes.byteOffset + found.data.from);
    const at = (k) => k * head.frame + (channel - 1) * (head.bits / 8);
    const samples = Int32Array.from({ length: count }, (_, k) => numberAt(view, at(k), head.bits));
    return { samples, rate: head.rate > 0 ? head.rate : null, channels: head.channels };
};
