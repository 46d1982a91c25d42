// The magnitude of a line over frequency: CIC droop, FIR, half-band cascade and resampler, and what its thinning folds
// down. Worked out from the settings; a tone through the line shows whether it is so.
import { decimator, halfBandStages } from './line.js';

const TURN = 2 * Math.PI;
// The images of a value's tone that a resampler can leave.
const IMAGES = [0, -1, 1, -2, 2, -3, 3];
// Bands that thinning folds down, from the lowest on, that are looked at.
const MOST_BANDS = 256;
const PLACES = 200;
// Images that are looked at, in values' rates, and the places of a table for one.
const REACH = 3;
const FINE = 512;

// |sum of taps[t] × e^(j turns t)|, by Horner's rule.
const magnitude = (taps, turns) => {
    const [cos, sin] = [Math.cos(TURN * turns), Math.sin(TURN * turns)];
    let [re, im] = [0, 0];
    for (let t = taps.length - 1; t >= 0; t--) {
        [re, im] = [re * cos - im * sin + taps[t], re * sin + im * cos];
    }
    return Math.hypot(re, im);
};

// N moving means of r samples, at so many turns a sample.
const cic = (stages, r, gain) => (turns) => {
    const below = r * Math.sin(Math.PI * turns);
    const mean = Math.abs(below) < 1e-12 ? 1 : Math.abs(Math.sin(Math.PI * turns * r) / below);
    return gain * mean ** stages;
};

// A half-band stage: half of its middle value, and its taps on both sides at odd distances, the last tap nearest. The
// cosine of each distance follows from the two before.
const stage = (taps) => (turns) => {
    const double = 2 * Math.cos(2 * TURN * turns);
    let [before, cosine] = [Math.cos(TURN * turns), Math.cos(TURN * turns)];
    let sides = 0;
    for (let t = taps.length - 1; t >= 0; t--) {
        sides += taps[t] * cosine;
        [before, cosine] = [cosine, double * cosine - before];
    }
    return Math.abs(0.5 + sides);
};

// The parts of the way after a value at which outputs fall: those of a step of whole phases, else a fine grid.
const visited = (phases, step) => {
    const places = step * phases;
    const divisor = (a, b) => (b === 0 ? a : divisor(b, a % b));
    if (Number.isInteger(places)) {
        const by = divisor(phases, places);
        return Array.from({ length: phases / by }, (_, k) => (k * by) / phases);
    }
    return Array.from({ length: 4 * phases }, (_, k) => (k + 0.5) / (4 * phases));
};

// The weight of the value t back at a place mu behind the newest one, as the resampler reads its prototype.
const weight = ({ settings, prototype }, mu, t) => {
    const phases = Number(settings.phases);
    const q = (1 - mu) * phases;
    const straight = settings.phase === 'straight';
    const p0 = straight ? Math.floor(q) : Math.floor(q) % phases;
    const at = (p) => prototype[t * phases + (straight ? p : p % phases)] ?? 0;
    return at(p0) * (1 - (q - p0)) + at(p0 + 1) * (q - p0);
};

// What a tone of so many turns a value comes to at an image, on average over the places that outputs fall on.
const resampler = (file) => {
    const taps = Number(file.settings.phase_taps);
    const places = visited(Number(file.settings.phases), file.settings.step);
    const weights = places.flatMap((mu) =>
        Array.from({ length: taps }, (_, t) => [t + mu, weight(file, mu, t) / places.length, mu]),
    );
    return (turns, image) => {
        let [re, im] = [0, 0];
        for (const [age, share, mu] of weights) {
            const angle = TURN * (turns * age + image * mu);
            re += share * Math.cos(angle);
            im -= share * Math.sin(angle);
        }
        return Math.hypot(re, im);
    };
};

const constant = () => 1;

// The sections of a line, each as what a tone of so many turns a sample is multiplied by.
export const response = (module, file) => {
    const { settings, taps } = file;
    const [stages, r, depth] = [settings.stages, settings.r, settings.depth].map(Number);
    const { gain, bits } = decimator(module, file);
    const first = cic(stages, r, gain / 2 ** bits);
    const fir = taps.length === 0 ? constant : (turns) => magnitude(taps, turns * r) / 32768;
    let rate = r * (taps.length === 0 ? 1 : Number(settings.factor));
    const halving = halfBandStages(module, depth).map((one) => {
        const [own, at] = [stage(one), rate];
        rate *= 2;
        return (turns) => own(turns * at);
    });
    const halfBand = (turns) => halving.reduce((all, one) => all * one(turns), 1);
    const on = settings.phases > 0n;
    const images = on ? resampler(file) : (turns, image) => (image === 0 ? 1 : 0);
    return {
        rate,
        resamples: on,
        perLevel: rate * (on ? settings.step : 1),
        cic: first,
        fir,
        halfBand,
        resampler: (turns) => images(turns * rate, 0),
        images,
        front: (turns) => first(turns) * fir(turns) * halfBand(turns),
    };
};

// What a tone comes to at its own place in the levels.
export const whole = (one) => (turns) => one.front(turns) * one.resampler(turns);

// Where a number of turns a level shows, 0 to 1/2.
export const folded = (turns) => Math.abs(turns - Math.round(turns));

// The strongest of what a tone comes to in the levels, over the images of its value, and where it shows there.
export const strongest = (one, turns) => {
    const front = one.front(turns);
    const near = Math.round(turns * one.rate);
    const all = IMAGES.map((image) => ({
        gain: front * one.images(turns * one.rate, image - near),
        turns: folded((turns * one.rate + image - near) * (one.perLevel / one.rate)),
    }));
    return all.reduce((best, each) => (each.gain > best.gain ? each : best));
};

// The strongest wave of those that thinning folds to a place of the values' rate, from so many bands away on.
const foldedFront = (one, place, from) => {
    let worst = from === 0 ? one.front(place / one.rate) : 0;
    for (let band = 1; band <= Math.min(MOST_BANDS, one.rate / 2 + 1); band++) {
        for (const turns of [(band - place) / one.rate, (band + place) / one.rate]) {
            worst = turns <= 0.5 ? Math.max(worst, one.front(turns)) : worst;
        }
    }
    return worst;
};

// Values of a function from 0 on, at so many places a turn; looked up at the nearest.
const tabled = (work, end, fine) => {
    const table = Array.from({ length: end * fine + 1 }, (_, at) => work(at / fine));
    return (turns) => table[Math.round(turns * fine)];
};

// The strongest of the images that a resampler leaves at a place of the levels' rate. At a step with few places between values an image of the wave that belongs there
// may fall on it again: that is the wave itself.
const imaged = (one) => {
    const step = one.perLevel / one.rate;
    const image = tabled((turns) => one.images(turns, 0), REACH, FINE);
    const front = tabled((place) => foldedFront(one, place, 0), 1, FINE / 4);
    return (place) => {
        const other = (turns) => Math.abs(folded(turns) - place / step) > 1e-9;
        let worst = 0;
        for (let band = 1; (band + 0.5) / step <= REACH; band++) {
            for (const turns of [(band - place) / step, (band + place) / step].filter(other)) {
                worst = Math.max(worst, image(turns) * front(folded(turns)));
            }
        }
        return worst;
    };
};

// For places from 0 to half the rate of levels: the wave that belongs there, and the strongest of all that fold to it.
export const aliases = (one) => {
    const images = one.resamples ? imaged(one) : () => 0;
    const places = Array.from({ length: PLACES + 1 }, (_, at) => {
        const turns = at / (2 * PLACES);
        const value = turns * (one.rate / one.perLevel);
        const thinned = one.images(value, 0) * foldedFront(one, value, 1);
        const wanted = whole(one)(turns / one.perLevel);
        return { turns, wanted, alias: Math.max(thinned, images(turns)) };
    });
    return { places, bands: MOST_BANDS, all: one.rate / 2 <= MOST_BANDS };
};

export const decibels = (gain) => 20 * Math.log10(Math.max(gain, 1e-12));
