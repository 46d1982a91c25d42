// How even the levels of a ramp are: a ramp goes through the resampler alone, and every rise from level to level is
// compared with an even one.
import { laid } from './prototype.js';

// So many levels are looked at: enough for a step that is no simple fraction to read near every phase.
const LEVELS = 20000;
// Rises that are off by less than this part of an even one pass for even.
const EVEN = 0.05;

// Values through a resampler in the module; what it writes is copied out.
const processed = (module, state, values) =>
    module.within(() => {
        const due = Math.ceil((values.length + 2) / Math.min(1, state.step.numbers[0])) + 2;
        const lent = {
            ...state,
            src: module.lend('f32', values),
            dst: module.room('f32', due),
            taken: module.room('u64', 1),
            written: module.room('u64', 1),
        };
        module.call('polyphase_resamp_process_block', lent);
        return lent.dst.copied(lent.written.value);
    });

const resampler = (module, { settings }, prototype) => {
    const state = module.state('polyphase_resamp');
    const name = settings.phase === 'straight' ? 'from_taps_straight' : 'from_taps';
    module.call(`polyphase_resamp_${name}`, {
        ...state,
        wanted_phases: settings.phases,
        wanted_taps: settings.phase_taps,
        wanted_prototype: module.lend('f32', prototype),
        wanted_step: settings.step,
    });
    return state;
};

// The levels of each ramp. One after another keeps the values small, so that rounding does not show; levels that still
// weigh the ramp before are left out.
const rampLevels = (module, file, prototype) =>
    module.within(() => {
        const state = resampler(module, file, prototype);
        const taps = Number(file.settings.phase_taps);
        const length = 8 * Math.ceil(file.settings.step) + 2 * taps;
        const ramp = Float32Array.from({ length }, (_, along) => along - Math.floor(length / 2));
        const all = [];
        for (let count = 0; count < LEVELS; count += all[all.length - 1].length) {
            processed(module, state, ramp.subarray(0, taps - 1));
            all.push(processed(module, state, ramp.subarray(taps - 1)));
        }
        return all;
    });

// By how much rises are off, in parts of an even one; nothing where the gain is 0 or levels are past f32.
const unevenness = (module, file, prototype) => {
    const gain = prototype.reduce((sum, tap) => sum + tap, 0) / Number(file.settings.phases);
    const even = file.settings.step * gain;
    let [worst, sum, count] = [0, 0, 0];
    for (const levels of rampLevels(module, file, prototype)) {
        for (let at = 1; at < levels.length; at++) {
            const off = Math.abs((levels[at] - levels[at - 1]) / even - 1);
            worst = Math.max(worst, off);
            sum += off;
            count += 1;
        }
    }
    const mean = sum / count;
    return Number.isFinite(mean) ? { worst, mean } : null;
};

const percent = (part) => (100 * part).toFixed(1);

const STRAIGHT = {
    whole: `straight phase reads a prototype in its natural order, one place of each row at a whole step. \
One that is laid for wrapped phase has other taps there, or none.`,
    other: `straight phase reads each row forwards while time goes backwards, so only whole steps are even. \
Wrapped phase with a laid prototype is for the others.`,
};
const WRAPPED = {
    whole: `a level that falls on a value is drawn on from phases 0 and 1, \
as if the prototype were straight from value to value.`,
    other: `past the last phase the reading wraps to phase 0, which belongs one value later. \
A step of whole 1 / phases reads nothing between phases.`,
};

// What makes levels uneven.
const matter = (module, file, off) => {
    const { step, phase, phases, phase_taps: taps } = file.settings;
    if (phase === 'straight') {
        return Number.isInteger(step) ? STRAIGHT.whole : STRAIGHT.other;
    }
    const natural = unevenness(module, file, laid(file.prototype, Number(phases), Number(taps)));
    if (natural && natural.mean < off.mean / 2) {
        const laidAs = 'taken as `natural` and laid, h[(t + 1) * phases - p] at t * phases + p, this prototype';
        return `${laidAs} would be off by ${percent(natural.worst)} %, by ${percent(natural.mean)} % on average.`;
    }
    return Number.isInteger(step * Number(phases)) ? WRAPPED.whole : WRAPPED.other;
};

// What is told of a ramp through the line's resampler, and whether it is even.
export const rampTold = (module, file) => {
    const off = unevenness(module, file, file.prototype);
    if (off === null) {
        return { said: "Ramp: the resampler's gain is 0 or past f32, so levels don't follow it.", warning: null };
    }
    const said = `off by at most ${percent(off.worst)} % of an even one, by ${percent(off.mean)} % on average`;
    return {
        said: `Ramp: the resampler's rises are ${said}.`,
        warning: off.worst > EVEN ? matter(module, file, off) : null,
    };
};

// One ramp for the eye: values, and levels at the moments that they are due.
export const rampShown = (module, file, values) => {
    const levels = module.within(() => {
        const state = resampler(module, file, file.prototype);
        return processed(module, state, Float32Array.from({ length: values }, (_, at) => at));
    });
    return Array.from(levels, (level, k) => [k * file.settings.step, level]);
};
