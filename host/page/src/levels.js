// Levels as files, as `gauge run` writes them.
import { floatText } from './number.js';

export const levelsText = (levels) => Array.from(levels, (level) => `${floatText(level)}\n`).join('');

// Away from 0 at a half, and no -0.
const rounded = (moment) => (Math.sign(moment) * Math.round(Math.abs(moment) * 1e6)) / 1e6 + 0;

// With the moments that levels tell of, in samples, or in seconds where the rate is known.
export const levelsCsv = (levels, { first, every }, rate) => {
    const unit = rate ?? 1;
    const moment = (k) => rounded(first / unit + k * (every / unit));
    const rows = Array.from(levels, (level, k) => `${moment(k)},${floatText(level)}\n`);
    return `${rate ? 'seconds' : 'sample'},level\n${rows.join('')}`;
};
