// A tone through the proved line, measured in its levels: the check of what the response says.
import { run } from './line.js';

// Levels that are measured behind those in which the filters fill.
const MEASURED = 400;
const MOST_SAMPLES = 2_000_000;

// The strength of so many turns a level among levels.
const strength = (levels, turns) => {
    const angle = (k) => 2 * Math.PI * turns * k;
    let [re, im] = [0, 0];
    // A window of Hann keeps other tones away.
    const window = (k) => 1 - Math.cos((2 * Math.PI * (k + 0.5)) / levels.length);
    const mean = levels.reduce((sum, level, k) => sum + window(k) * level, 0) / levels.length;
    levels.forEach((level, k) => {
        re += window(k) * (level - mean) * Math.cos(angle(k));
        im += window(k) * (level - mean) * Math.sin(angle(k));
    });
    const both = turns < 1e-9 || Math.abs(turns - 0.5) < 1e-9 ? 1 : 2;
    return (both * Math.hypot(re, im)) / levels.length;
};

// What a tone of so many turns a sample, of a height that keeps sums exact, comes to at a place in the levels. Nothing
// where it would take too many samples.
export const measured = (module, file, one, turns, height, place) => {
    const filling = 64 * one.perLevel + 128 * one.rate + 64;
    const count = Math.ceil(filling + MEASURED * one.perLevel);
    if (count > MOST_SAMPLES) {
        return null;
    }
    const tone = (at) => Math.round(height * Math.sin(2 * Math.PI * turns * at));
    const samples = Int32Array.from({ length: count }, (_, at) => tone(at));
    const levels = Array.from(run(module, file, samples).levels.slice(-MEASURED));
    return (strength(levels, place) * 32768) / height;
};
