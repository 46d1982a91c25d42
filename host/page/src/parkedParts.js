// The entries of a parked line, and the numbers in them by their places.
import { STAGE_TAPS } from './line.js';
import { floatText } from './number.js';

// What the entries are, in their order. The last is there where neighbours thin, and entry 1 is empty then.
export const NAMES = [
    'settings', 'CIC', 'FIR taps', 'FIR delay', 'half-band delays', 'prototype', 'resampler', 'neighbours',
];

// Whether neighbours thin: the number of entries alone says it.
export const isOfNeighbours = (parts) => parts.length === NAMES.length;

// N for each halving of r, rounded down, that leaves at least 1.
export const neighboursOf = ({ stages, r }) => stages * Math.floor(Math.log2(Math.max(1, r)));

export class Part {
    constructor(bytes, { offset, size }) {
        this.at = offset;
        this.size = size;
        this.view = new DataView(bytes.buffer, bytes.byteOffset + offset, size);
    }

    short = (at) => this.view.getUint16(at, true);
    signed = (at) => this.view.getInt16(at, true);
    word = (at) => this.view.getUint32(at, true);
    integer = (at) => this.view.getInt32(at, true);
    number = (at) => this.view.getFloat32(at, true);
    float = (at) => floatText(this.number(at));
}

// Where the half-band stages of a depth stand in their entry, each with its taps. A depth over 5 counts as 5.
export const stagesOf = (depth) => {
    let at = 0;
    return STAGE_TAPS.slice(0, depth).map((taps) => {
        const stage = { at, taps };
        at += 6 + 16 * taps;
        return stage;
    });
};

// The numbers of the settings entry.
export const settingsOf = (part) => {
    const [stages, r, taps, factor, depth, phases, phaseTaps, straight] = [0, 2, 4, 6, 8, 10, 12, 14].map(part.short);
    return { stages, r, taps, factor, depth, phases, phaseTaps, straight, step: part.number(16) };
};
