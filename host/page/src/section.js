// The sections of a line as filters: how many values each hands on, how late, and at which gain. Times are in samples.
import { decimator, halfBandStages } from './line.js';

// The sum of weights, and the age at their centre.
const gainAndDelay = (weights) => {
    let [gain, moment] = [0, 0];
    for (const [age, weight] of weights) {
        gain += weight;
        moment += age * weight;
    }
    return { gain, delay: moment / gain };
};

// N moving sums of r samples, each (r - 1) / 2 late.
const cic = (module, file) => {
    const [stages, r] = [Number(file.settings.stages), Number(file.settings.r)];
    const { gain, bits } = decimator(module, file);
    const reach = stages * (r - 1);
    const name = file.settings.thinning === 1 ? 'sums of neighbours' : 'CIC decimator';
    return { name, perValue: r, delay: reach / 2, reach, gain: gain / 2 ** bits };
};

// Tap t weighs the value that is T - 1 - t old.
const fir = (file, rate) => {
    const oldest = file.taps.length - 1;
    const { gain, delay } = gainAndDelay(file.taps.map((tap, t) => [oldest - t, tap / 32768]));
    const perValue = rate * Number(file.settings.factor);
    return { name: 'FIR', perValue, delay: rate * delay, reach: rate * oldest, gain };
};

// A stage of M taps has its middle 2M values back and its oldest 4M - 1.
const halfBand = (module, file, from) => {
    const section = { name: 'half-band cascade', perValue: from, delay: 0, reach: 0, gain: 1 };
    for (const taps of halfBandStages(module, Number(file.settings.depth))) {
        section.delay += section.perValue * 2 * taps.length;
        section.reach += section.perValue * (4 * taps.length - 1);
        section.gain *= 0.5 + taps.reduce((sum, tap) => sum + tap, 0);
        section.perValue *= 2;
    }
    return section;
};

// Phase p is due 1 - p / P behind the newest value, so tap t of it weighs a value t + 1 - p / P old. Straight phase
// reads places 1 to P of a row, of which the last is the next row's first.
const resampler = (file, rate) => {
    const phases = Number(file.settings.phases);
    const weights = Array.from(file.prototype, (tap, at) => {
        if (file.settings.phase === 'straight' && at === 0) {
            return [0, 0];
        }
        const wrapped = file.settings.phase === 'wrapped';
        const place = wrapped ? at : at - 1;
        const [t, p] = [Math.floor(place / phases), (place % phases) + (wrapped ? 0 : 1)];
        return [t + 1 - p / phases, tap / phases];
    });
    const { gain, delay } = gainAndDelay(weights);
    const reach = rate * (Number(file.settings.phase_taps) - 1);
    return { name: 'resampler', perValue: rate * file.settings.step, delay: rate * delay, reach, gain };
};

// The sections that are on, in their order, the first always the CIC decimator.
export const sections = (module, file) => {
    const all = [cic(module, file)];
    const rate = () => all[all.length - 1].perValue;
    if (file.taps.length > 0) {
        all.push(fir(file, rate()));
    }
    if (file.settings.depth > 0n) {
        all.push(halfBand(module, file, rate()));
    }
    if (file.settings.phases > 0n) {
        all.push(resampler(file, rate()));
    }
    return all;
};

// All sections as one filter.
export const whole = (all) => ({
    name: 'whole line',
    perValue: all[all.length - 1].perValue,
    delay: all.reduce((sum, one) => sum + one.delay, 0),
    reach: all.reduce((sum, one) => sum + one.reach, 0),
    gain: all.reduce((product, one) => product * one.gain, 1),
});

// The samples up to and with the one that makes the first level.
export const firstLevel = ({ settings, taps }) => {
    const halved = 2 ** Number(settings.depth);
    const values = taps.length === 0 ? halved : (halved - 1) * Number(settings.factor) + taps.length;
    return values * Number(settings.r);
};

// The moments that levels tell of, in samples: the first, and from one to the next.
export const moments = (module, file) => {
    const { delay, perValue } = whole(sections(module, file));
    return { first: firstLevel(file) - 1 - (Number.isFinite(delay) ? delay : 0), every: perValue };
};
