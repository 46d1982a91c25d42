// The gauge line over the module: opened, fed, parked, taken up and planned. A line lives in the module's memory for
// one piece of work; what comes of it is copied out.
import { LIMITS } from './declarations.js';
import { limit, settingOf } from './reason.js';
import { settingFault } from './settings.js';

const SPAN = 4096;
// A recording is fed in about so many pieces, so that it is known in which a value was cut. How it is cut changes no
// level.
const PIECES = 1024;
const LONGEST_PIECE = 65536;

// What an opening or a plan is lent: each setting by its name. One that the page has no field for is 0, as in a
// settings file that doesn't name it.
const lentSettings = (module, called, { settings, taps, prototype }) => {
    const lists = { taps: module.lend('i16', taps), prototype: module.lend('f32', prototype) };
    const wanted = module.parameters(called).filter((one) => !one.writable);
    const value = (name) => lists[name] ?? settings[name] ?? 0;
    return Object.fromEntries(wanted.map(({ name }) => [name, value(name.replace(/^wanted_/, ''))]));
};

// The refusal as the tool tells it: at its setting, with the limit that is passed.
const told = (refused, file) => {
    if (!refused.number) {
        return refused;
    }
    const why = limit(refused.refusal, file);
    const name = settingOf(refused.refusal, file);
    return settingFault(file.entries, name, `refusal ${refused.number}, ${refused.refusal}: ${why}`);
};

// Opens a line; a refusal is told at the setting that it is about.
const opened = (module, file) => {
    const state = module.state('line');
    try {
        module.call('line_open', { ...lentSettings(module, 'line_open', file), ...state });
    } catch (refused) {
        throw told(refused, file);
    }
    return state;
};

const takenUp = (module, bytes) => {
    const state = module.state('line');
    module.call('line_take_up', { bytes: module.lend('u8', bytes), ...state });
    return state;
};

// The line as a sheet.
const parked = (module, state) => {
    const [bytes, written] = [module.room('u64', 1), module.room('u64', 1)];
    module.call('line_parked_len', { ...state, bytes });
    const span = module.room('u8', bytes.value);
    module.call('line_park', { ...state, span, written });
    return span.copied(written.value);
};

// Feeds a piece until all of it is taken and every level that it makes due is written. A place that stays unwritten
// says so.
const feedPiece = (module, lent, piece, levels) => {
    let rest = piece;
    for (;;) {
        const samples = { ...lent.samples, length: rest.length };
        lent.samples.numbers.set(rest);
        module.call('line_feed', { ...lent, samples });
        levels.push(lent.out.copied(lent.written.value));
        if (lent.written.value < SPAN) {
            return;
        }
        rest = rest.subarray(lent.taken.value);
    }
};

const joined = (pieces) => {
    const all = new Float32Array(pieces.reduce((sum, piece) => sum + piece.length, 0));
    let at = 0;
    for (const piece of pieces) {
        all.set(piece, at);
        at += piece.length;
    }
    return all;
};

// Levels of all samples, the count of cut values, the pieces in which one was cut, and the line parked behind it all.
const fed = (module, state, samples) => {
    const length = Math.min(LONGEST_PIECE, Math.max(1, Math.ceil(samples.length / PIECES)));
    const lent = {
        ...state,
        samples: module.room('i32', length),
        out: module.room('f32', SPAN),
        taken: module.room('u64', 1),
        written: module.room('u64', 1),
    };
    const [levels, cutPieces] = [[], []];
    const cutsBefore = state.cuts.value;
    for (let from = 0; from < samples.length; from += length) {
        const before = state.cuts.value;
        feedPiece(module, lent, samples.subarray(from, from + length), levels);
        if (state.cuts.value > before) {
            cutPieces.push([from, Math.min(from + length, samples.length)]);
        }
    }
    const cuts = state.cuts.value;
    return { levels: joined(levels), cuts, cutsBefore, cutPieces, parked: parked(module, state) };
};

// A recording through a freshly opened line.
export const run = (module, file, samples) => module.within(() => fed(module, opened(module, file), samples));

// Throws where a sheet is none of a parked line.
export const checkParked = (module, bytes) => {
    module.within(() => takenUp(module, bytes));
};

// What each call of a feeding plan would take and write.
export const planned = (module, file, pieces, spans) =>
    module.within(() => {
        const lent = {
            ...lentSettings(module, 'plan', file),
            pieces: module.lend('u64', pieces),
            spans: module.lend('u64', spans),
            taken: module.room('u64', pieces.length),
            written: module.room('u64', pieces.length),
        };
        module.call('plan', lent);
        return { taken: Array.from(lent.taken.numbers, Number), written: Array.from(lent.written.numbers, Number) };
    });

// Gain, gain bits and exact range of the CIC decimator that a line has.
export const decimator = (module, { settings }) =>
    module.within(() => {
        const state = module.state('cic_decimator');
        const one = (number) => module.room(number, 1);
        module.call('cic_decimator_new', { ...state, wanted_stages: settings.stages, wanted_r: settings.r });
        const told = { gain: one('u64'), bits: one('u32'), least: one('i32'), greatest: one('i32') };
        for (const name of ['gain', 'gain_bits', 'exact_range']) {
            module.call(`cic_decimator_${name}`, { ...state, ...told });
        }
        return Object.fromEntries(Object.entries(told).map(([name, lent]) => [name, lent.value]));
    });

// Taps of the half-band stages, one side of each filter, in the order in which a decimating cascade runs them; the
// table has them the other way round.
export const STAGE_TAPS = [3, 4, 5, 10, 23];

// The taps of each stage of a depth.
export const halfBandStages = (module, depth) =>
    module.within(() => {
        const table = module.room('f32', LIMITS.HBF_TABLE);
        module.call('hbf_tap_table', { taps: table });
        let end = table.length;
        return STAGE_TAPS.slice(0, depth).map((taps) => {
            end -= taps;
            return Array.from(table.numbers.subarray(end, end + taps));
        });
    });
