// The fault that is ruled out, on purpose WRONG: a CIC decimator whose integrators hold at the end of their range where
// they should wrap. It is here to be seen beside the proved line and nowhere else.
import { decimator, run } from './line.js';

const held = (sum) => Math.max(-(2 ** 31), Math.min(2 ** 31 - 1, sum));

// The scaled sums of a decimator that holds.
const holdingSums = (stages, r, bits, samples) => {
    const integrators = new Int32Array(stages);
    const combs = new Int32Array(stages);
    const sums = new Int32Array(Math.floor(samples.length / r));
    let [counter, made] = [0, 0];
    for (const sample of samples) {
        let value = sample;
        for (let stage = 0; stage < stages; stage++) {
            // The fault: a sum modulo 2^32 is right.
            integrators[stage] = held(integrators[stage] + value);
            value = integrators[stage];
        }
        counter += 1;
        if (counter === r) {
            counter = 0;
            sums[made++] = combed(combs, value) >> bits;
        }
    }
    return sums;
};

const combed = (combs, sum) => {
    let value = sum;
    combs.forEach((comb, stage) => {
        combs[stage] = value;
        value = (value - comb) | 0;
    });
    return value;
};

// The levels of a line with this decimator in front. The parts behind it are the proved ones: those of a line whose own
// decimator hands its samples on.
export const holdingLevels = (module, file, samples) => {
    const [stages, r] = [Number(file.settings.stages), Number(file.settings.r)];
    const sums = holdingSums(stages, r, decimator(module, file).bits, samples);
    const behind = { ...file, settings: { ...file.settings, stages: 1n, r: 1n } };
    return run(module, behind, sums).levels;
};

// The sample with which the sum of all so far first leaves 32 bits, counted from 1; 0 where none does.
export const firstRound = (samples) => {
    let sum = 0;
    return samples.findIndex((sample) => {
        sum += sample;
        return sum !== held(sum);
    }) + 1;
};

// In how many levels two lists agree from the first on, and in how many behind those, by bits.
export const agreement = (one, other) => {
    const [a, b] = [one, other].map((list) => new Int32Array(list.buffer, list.byteOffset, list.length));
    const differs = a.findIndex((bits, at) => bits !== b[at]);
    const first = differs < 0 ? a.length : differs;
    const later = a.filter((bits, at) => at >= first && bits === b[at]).length;
    return { first, later };
};
