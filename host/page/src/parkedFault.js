// Why a parked line is refused, in the fields that stand in it and those that are allowed.
import { run } from './line.js';
import { floatText } from './number.js';
import { NAMES, isOfNeighbours, neighboursOf, settingsOf, stagesOf } from './parkedParts.js';
import { entriesOf } from './sheet.js';

// The one NaN that parking writes.
const NAN = 0x7fc00000;

// How long the numbers of the settings entry make each entry.
const lengthsOf = (settings, ofNeighbours) => {
    const { stages, taps, depth, phases, phaseTaps } = settings;
    const halfBand = stagesOf(depth).reduce((sum, stage) => sum + 6 + 16 * stage.taps, 0);
    const behind = [2 * taps, 2 + 2 * taps, halfBand, 4 * phases * phaseTaps, 4 + 4 * phaseTaps];
    return ofNeighbours ? [24, 0, ...behind, 2 + 4 * neighboursOf(settings)] : [24, 2 + 8 * stages, ...behind];
};

// Why the entries are none of a parked line: their number, or the first that is not as long as the settings make it.
export const wrongLength = (parts) => {
    const most = NAMES.length;
    if (parts.length !== most && parts.length !== most - 1) {
        return `${entriesOf(parts.length)}, a parked line has ${most - 1}, or ${most} where neighbours thin`;
    }
    const told = (k, wanted) => `entry ${k}, ${NAMES[k]}, has ${parts[k].size} bytes, not ${wanted}`;
    if (parts[0].size !== 24) {
        return told(0, 24);
    }
    const lengths = lengthsOf(settingsOf(parts[0]), isOfNeighbours(parts));
    const k = parts.findIndex((part, at) => part.size !== lengths[at]);
    return `${told(k, lengths[k])} as its settings make it`;
};

// A setting that an opening refuses.
const wrongSetting = (module, parts) => {
    const { taps, phaseTaps, ...own } = settingsOf(parts[0]);
    const whole = ['stages', 'r', 'factor', 'depth', 'phases'].map((name) => [name, BigInt(own[name])]);
    const settings = { ...own, ...Object.fromEntries(whole), phase_taps: BigInt(phaseTaps) };
    settings.thinning = isOfNeighbours(parts) ? 1 : 0;
    const file = {
        entries: { file: null, lines: 0, named: {} },
        order: 'laid',
        settings,
        taps: Array.from({ length: taps }, (_, t) => parts[2].signed(2 * t)),
        prototype: Array.from({ length: own.phases * phaseTaps }, (_, at) => parts[5].number(4 * at)),
    };
    try {
        run(module, file, new Int32Array(0));
        return null;
    } catch (fault) {
        return fault.message.replace(/^no /, '');
    }
};

// A number that is out of its range in a line.
const wrongNumber = (parts) => {
    const { r, taps, factor, depth, phases, straight, step } = settingsOf(parts[0]);
    const place = parts[isOfNeighbours(parts) ? 7 : 1];
    const [counter, wait, mu] = [place.short(0), parts[3].short(0), parts[6].number(0)];
    const most = Math.max(taps, factor);
    const last = Math.fround(1 + step);
    const held = stagesOf(depth).map(({ at }) => parts[4].short(at));
    const stage = held.findIndex((count) => count > 1);
    const found = [
        [counter >= r, `sample counter ${counter} is not below r = ${r}`],
        [taps > 0 && (wait < 1 || wait > most), `FIR wait ${wait} is not 1 to ${most}`],
        [stage >= 0, `half-band stage ${stage} holds ${held[stage]} values, at most 1`],
        [phases > 0 && !(mu >= 0 && mu <= last), `mu ${floatText(mu)} is not 0 to ${floatText(last)}`],
        [straight > 1, `phase ${straight} is not 0 for wrapped or 1 for straight`],
    ];
    return found.find(([is]) => is)?.[1] ?? null;
};

// A number of a part that is off.
const leftOver = (parts) => {
    const { taps, factor, phases, phaseTaps, straight } = settingsOf(parts[0]);
    const fir = taps === 0 ? [['factor', factor], ['wait', parts[3].short(0)]] : [];
    const resampler = [['taps', phaseTaps], ['phase', straight], ['step', parts[0].word(16)], ['mu', parts[6].word(0)]];
    const set = (part, fields) => {
        const found = fields.find(([, number]) => number > 0);
        return found ? `the ${part} is off, and its ${found[0]} is not 0` : null;
    };
    return set('FIR', fir) ?? set('resampler', phases === 0 ? resampler : []);
};

// Every float: its entry, and its place there.
const floatPlaces = (parts) => {
    const numbers = (k, from, count) => Array.from({ length: count }, (_, at) => [k, from + 4 * at]);
    const stages = stagesOf(settingsOf(parts[0]).depth);
    const delays = stages.flatMap(({ at, taps }) => [[4, at + 2], ...numbers(4, at + 6, 4 * taps)]);
    return [[0, 16], ...delays, ...[5, 6].flatMap((k) => numbers(k, 0, parts[k].size / 4))];
};

// A float that is a NaN with other bits than parking writes.
const wrongFloat = (parts) => {
    const isStrange = ([k, at]) => Number.isNaN(parts[k].number(at)) && parts[k].word(at) !== NAN;
    const found = floatPlaces(parts).find(isStrange);
    if (!found) {
        return null;
    }
    const [k, at] = found;
    const bits = parts[k].word(at).toString(16).padStart(8, '0');
    return `the float at byte ${parts[k].at + at}, ${NAMES[k]}, is ${bits}; a NaN is ${NAN.toString(16)}`;
};

// Which field of a line with entries of the right lengths is refused.
export const wrongField = (module, parts) =>
    wrongSetting(module, parts) ??
    wrongNumber(parts) ??
    leftOver(parts) ??
    wrongFloat(parts) ??
    'its fields are none of a parked line';
