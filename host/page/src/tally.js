// What a run took and made, and what to beware of, as `gauge run` ends.
import { counted, floatText } from './number.js';

// The least and the greatest of a list.
export const ends = (list) => {
    let [least, greatest] = [Infinity, -Infinity];
    for (const one of list) {
        least = Math.min(least, one);
        greatest = Math.max(greatest, one);
    }
    return { least, greatest };
};

const cutValues = ({ cuts, cutsBefore }) => {
    const cut = cuts - cutsBefore;
    return cuts === 2 ** 32 - 1 ? `${cut} values or more` : counted(cut, 'value');
};

// Levels that are no numbers count for no end, as in the tool.
const levelEnds = (levels) => ends(levels.filter((level) => !Number.isNaN(level)));

export const summary = (samples, made, first) => {
    const took = counted(samples.length, 'sample');
    if (made.levels.length === 0) {
        return `${took}, no levels; the first comes with sample ${first}`;
    }
    const { least, greatest } = levelEnds(made.levels);
    const between = `from ${floatText(least)} to ${floatText(greatest)}`;
    return `${took}, ${counted(made.levels.length, 'level')} ${between}, ${cutValues(made)} cut to 16 bits`;
};

// The shift that brings samples over 16 bits within them.
const shiftHint = ({ least, greatest }) => {
    const fits = (sample, shift) => sample >> shift >= -32768 && sample >> shift <= 32767;
    for (let shift = 0; shift <= 16; shift++) {
        if (fits(least, shift) && fits(greatest, shift)) {
            const said = `; samples are from ${least} to ${greatest}, and Shift ${shift} brings them within`;
            return shift > 0 ? said : '';
        }
    }
    return '';
};

// The samples outside a range, and the first of them with its number, from 1.
const outside = (samples, { least, greatest }) => {
    const found = { count: 0, first: 0, sample: 0 };
    samples.forEach((sample, at) => {
        if (sample < least || sample > greatest) {
            if (found.count === 0) {
                Object.assign(found, { first: at + 1, sample });
            }
            found.count += 1;
        }
    });
    return found;
};

export const warnings = (samples, made, exact) => {
    const all = [];
    if (made.cuts > made.cutsBefore) {
        const hint = shiftHint(ends(samples));
        all.push(`${cutValues(made)} past the ends of 16 bits, held at -32768 and 32767${hint}`);
    }
    const { count, first, sample } = outside(samples, exact);
    if (count > 0) {
        const range = `${exact.least} to ${exact.greatest}`;
        const said = `${counted(count, 'sample')} outside ${range}, the first at ${first}: ${sample}`;
        all.push(`${said}; sums of such samples may leave 32 bits and come round, and then levels are wrong`);
    }
    const odd = made.levels.filter((level) => !Number.isFinite(level)).length;
    if (odd > 0) {
        all.push(`${counted(odd, 'level')} not finite: the prototype's numbers are too large`);
    }
    return all;
};
