// A parked line shown entry by entry, each field with its place, and what is wrong with one that is refused.
// docs/parking.md has the layout.
import { Fault } from './fault.js';
import { checkParked } from './line.js';
import { NAMES, Part, isOfNeighbours, neighboursOf, settingsOf, stagesOf } from './parkedParts.js';
import { wrongField, wrongLength } from './parkedFault.js';
import { entriesOf, pairs, sheetCount } from './sheet.js';

// So many numbers of a list stand in a row.
const ROW = 8;

const SETTINGS = [
    'CIC stages', 'CIC factor r', 'FIR taps', 'FIR factor', 'half-band depth', 'phases', 'taps of a phase',
];

// Throws what the tool tells where a sheet is none of a parked line.
const checked = (module, file, bytes, parts) => {
    try {
        checkParked(module, bytes);
    } catch (refused) {
        const why = () => (refused.number === 15 ? wrongField(module, parts) : wrongLength(parts));
        throw refused.number ? new Fault(`${file}: refusal ${refused.number}, ${refused.refusal}: ${why()}`) : refused;
    }
};

// Rows of a list: place, name, numbers.
const listRows = (part, from, width, count, name, number) => {
    const rows = [];
    for (let first = 0; first < count; first += ROW) {
        const last = Math.min(first + ROW, count) - 1;
        const numbers = [];
        for (let at = first; at <= last; at++) {
            numbers.push(number(from + width * at));
        }
        const named = first === last ? `${name} ${first}` : `${name} ${first} to ${last}`;
        rows.push([part.at + from + width * first, named, numbers.join(' ')]);
    }
    return rows;
};

const settingsRows = (part) => {
    const rows = SETTINGS.map((name, at) => [part.at + 2 * at, name, String(part.short(2 * at))]);
    rows.push([part.at + 14, 'phase', part.short(14) === 0 ? '0, wrapped' : '1, straight']);
    rows.push([part.at + 16, 'step', part.float(16)], [part.at + 20, 'cut values', String(part.word(20))]);
    return rows;
};

const halfBandRows = (part, depth) =>
    stagesOf(depth).flatMap(({ at, taps }, stage) => [
        [part.at + at, `stage ${stage} values held`, String(part.short(at))],
        [part.at + at + 2, `stage ${stage} value held`, part.float(at + 2)],
        ...listRows(part, at + 6, 4, 4 * taps, `stage ${stage} delay`, part.float),
    ]);

// The rows of every entry, by the numbers of the settings entry.
const rowsOf = (parts) => {
    const [stages, , taps, , depth, phases, each] = [0, 2, 4, 6, 8, 10, 12].map(parts[0].short);
    const [settings, cic, firTaps, firDelay, halfBand, prototype, resampler, neighbours] = parts;
    const integrators = () => [
        [cic.at, 'sample counter', String(cic.short(0))],
        ...listRows(cic, 2, 4, stages, 'integrator', cic.integer),
        ...listRows(cic, 2 + 4 * stages, 4, stages, 'comb', cic.integer),
    ];
    const sums = () => [
        [neighbours.at, 'place', String(neighbours.short(0))],
        ...listRows(neighbours, 2, 4, neighboursOf(settingsOf(settings)), 'neighbour', neighbours.integer),
    ];
    return [
        settingsRows(settings),
        isOfNeighbours(parts) ? [] : integrators(),
        listRows(firTaps, 0, 2, taps, 'tap', firTaps.signed),
        [
            [firDelay.at, 'wait', String(firDelay.short(0))],
            ...listRows(firDelay, 2, 2, taps, 'delay', firDelay.signed),
        ],
        halfBandRows(halfBand, depth),
        listRows(prototype, 0, 4, phases * each, 'tap', prototype.float),
        [[resampler.at, 'mu', resampler.float(0)], ...listRows(resampler, 4, 4, each, 'delay', resampler.float)],
        ...(isOfNeighbours(parts) ? [sums()] : []),
    ];
};

// Every entry of a parked line: its name, its bytes and its fields. Nothing where a sheet has another number of
// entries.
export const parkedShown = (module, file, bytes) => {
    sheetCount(module, file, bytes);
    const parts = pairs(bytes).map((pair) => new Part(bytes, pair));
    if (parts.length !== NAMES.length && parts.length !== NAMES.length - 1) {
        return null;
    }
    checked(module, file, bytes, parts);
    const rows = rowsOf(parts);
    const entries = parts.map((part, k) => ({ head: `entry ${k}, ${NAMES[k]}: ${part.size} bytes`, rows: rows[k] }));
    return { head: `a parked line: ${entriesOf(parts.length)} in ${bytes.length} bytes`, entries };
};
