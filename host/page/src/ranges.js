// Which samples a line can take, and when a value is cut to 16 bits.
import { decimator } from './line.js';

// The steady values of 16 bits, on both sides of 0, of which a FIR's sum is not cut; without taps all of them.
const uncutValues = (taps) => {
    const sum = (value) => taps.reduce((all, tap) => all + Math.floor((value * tap) / 32768), 0);
    const inside = (value) => sum(value) >= -32768 && sum(value) <= 32767;
    const last = (sign, most) => {
        let value = 0;
        while (value !== most && inside(value + sign)) {
            value += sign;
        }
        return BigInt(value);
    };
    return inside(0) ? [last(-1, -32768), last(1, 32767)] : [0n, 0n];
};

// The ranges of samples: where every sum is exact, as the proved decimator tells; where a steady sample's sum keeps to
// 32 bits; where it is not cut to 16 either.
export const ranges = (module, file) => {
    const told = decimator(module, file);
    const [gain, bits] = [BigInt(told.gain), BigInt(told.bits)];
    // Division rounds toward 0.
    const steady = [-(2n ** 31n) / gain, (2n ** 31n - 1n) / gain];
    const [low, high] = uncutValues(file.taps);
    const least = (low << bits) / gain;
    const greatest = (((high + 1n) << bits) - 1n) / gain;
    const uncut = [least > steady[0] ? least : steady[0], greatest < steady[1] ? greatest : steady[1]];
    return { bits: told.bits, exact: { least: told.least, greatest: told.greatest }, steady, uncut };
};

// With more gain bits the greatest sum of 32 bits is, scaled, below 16-bit full scale.
const FULL_SCALE_GAIN_BITS = 16;

// Where no sample reaches full scale, that is told.
export const fullScale = ({ bits }, name) => {
    const over = `${bits} gain bits are over ${FULL_SCALE_GAIN_BITS}, so no sample reaches 16-bit full scale`;
    const within = `behind the ${name} levels stay within ${2 ** (FULL_SCALE_GAIN_BITS - bits)} of 0`;
    return bits > FULL_SCALE_GAIN_BITS ? `Warning: ${over}: ${within}.` : '';
};

// From which steady sample on values are cut, of those whose sum keeps to 32 bits.
export const cutFrom = ({ steady, uncut }) => {
    const up = uncut[1] < steady[1] ? [`from ${uncut[1] + 1n} up`] : [];
    const down = uncut[0] > steady[0] ? [`from ${uncut[0] - 1n} down`] : [];
    const from = [...up, ...down];
    return from.length === 0
        ? 'Values are cut of no steady sample whose sum keeps to 32 bits.'
        : `Values are cut of steady samples ${from.join(' and ')}.`;
};
