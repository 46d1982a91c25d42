// Recordings: a file's samples by its format, and the one that the page makes itself.
import { columns, csvSamples } from './csv.js';
import { Fault, atLine } from './fault.js';
import { sample } from './number.js';
import { isWav, wavSamples } from './wav.js';

const decoded = (file, bytes) => {
    if ((bytes[0] === 0xff && bytes[1] === 0xfe) || (bytes[0] === 0xfe && bytes[1] === 0xff)) {
        throw new Fault(`${file}: is text in UTF-16; it must be saved as UTF-8`);
    }
    return new TextDecoder().decode(bytes);
};

// The format that a file has by its first bytes, its name and its first row.
export const formatOf = (file, bytes) => {
    if (isWav(bytes)) {
        return 'wav';
    }
    const ending = file.toLowerCase().replace(/.*\./, '');
    if (['raw', 'raw16', 'csv'].includes(ending)) {
        return ending;
    }
    const head = new TextDecoder().decode(bytes.subarray(0, 4096)).replace(/#.*/g, '').trim();
    return /[,;\t]/.test(head.split('\n')[0]) ? 'csv' : 'text';
};

// One whole number a line, and comments.
const textSamples = (file, text) => {
    const all = [];
    text.split('\n').forEach((line, at) => {
        const word = line.replace(/#.*/, '').trim();
        if (word !== '') {
            try {
                all.push(sample(word));
            } catch (why) {
                throw atLine(file, at + 1, why.message);
            }
        }
    });
    return all;
};

const rawSamples = (file, bytes, width) => {
    if (bytes.length % width !== 0) {
        throw new Fault(`${file}: ends within a sample, at byte ${bytes.length}`);
    }
    const view = new DataView(bytes.buffer, bytes.byteOffset, bytes.byteLength);
    const at = (k) => (width === 2 ? view.getInt16(2 * k, true) : view.getInt32(4 * k, true));
    return Int32Array.from({ length: bytes.length / width }, (_, k) => at(k));
};

// What a file is as a recording: names of columns or channels to choose from, and the samples of the chosen one.
export const recordingOf = ({ file, bytes, format, choice }) => {
    if (format === 'wav') {
        try {
            const { samples, rate, channels } = wavSamples(bytes, (choice ?? 0) + 1);
            const choices = Array.from({ length: channels }, (_, at) => `channel ${at + 1}`);
            return { samples, rate, choices, choice: choice ?? 0 };
        } catch (why) {
            throw new Fault(`${file}: ${why.message}`);
        }
    }
    if (format === 'raw' || format === 'raw16') {
        return { samples: rawSamples(file, bytes, format === 'raw' ? 4 : 2), rate: null, choices: [], choice: 0 };
    }
    const text = decoded(file, bytes);
    if (format === 'text') {
        return { samples: Int32Array.from(textSamples(file, text)), rate: null, choices: [], choice: 0 };
    }
    const { names, first } = columns(text);
    const column = choice ?? first;
    return { samples: Int32Array.from(csvSamples(file, text, column)), rate: null, choices: names, choice: column };
};

// The demo's recording (examples/demo): twelve hours of a tail channel at 8 samples a second.
const RATE = 8;
const SAMPLES = 12 * 3600 * RATE;
const OFFSET = 3000;

// From -height up to height and back in each period.
const triangle = (at, period, height) => {
    const along = Math.floor((4 * height * (at % period)) / period);
    return along < 2 * height ? along - height : 3 * height - along;
};

export const tailChannel = () => {
    const level = (at) => triangle(at, SAMPLES, 3000) + triangle(at, 56, 900) + triangle(at, 11, 250);
    const samples = Int32Array.from({ length: SAMPLES }, (_, at) => OFFSET + 8000 + level(at));
    return { samples, rate: RATE, choices: [], choice: 0 };
};
