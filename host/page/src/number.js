// Numbers as words: as `gauge` prints them, and as it reads them.

// The digits of `1.25e-3` laid without an exponent.
const plain = (scientific) => {
    const [, sign, first, rest = '', exponent] = scientific.match(/^(-?)(\d)(?:\.(\d+))?e([+-]\d+)$/);
    const digits = first + rest;
    const point = Number(exponent) + 1;
    if (point <= 0) {
        return `${sign}0.${'0'.repeat(-point)}${digits}`;
    }
    const whole = digits.slice(0, point).padEnd(point, '0');
    const behind = digits.slice(point);
    return sign + whole + (behind && `.${behind}`);
};

// An f32 with the fewest digits that give the same f32 when read.
export const floatText = (value) => {
    if (!Number.isFinite(value)) {
        return Number.isNaN(value) ? 'NaN' : value < 0 ? '-inf' : 'inf';
    }
    if (value === 0) {
        return Object.is(value, -0) ? '-0' : '0';
    }
    const isSame = (text) => Math.fround(Number(text)) === value;
    for (let digits = 0; ; digits++) {
        // The nearest with so many digits. At a power of two it may lie below, where the reach of an f32 is half as
        // wide, and the next away from 0 still be within.
        const nearest = value.toExponential(digits);
        const unit = Math.sign(value) * 10 ** (Number(nearest.replace(/.*e/, '')) - digits);
        const found = [nearest, (Number(nearest) + unit).toExponential(digits)].find(isSame);
        if (found !== undefined) {
            return plain(found);
        }
    }
};

// "no values", "1 value", "2 values".
export const counted = (count, what) => {
    const number = count === 0 ? 'no' : String(count);
    return `${number} ${what}${count === 1 ? '' : 's'}`;
};

// The front of a text, so that a line stays short.
export const front = (text) => {
    const letters = Array.from(text);
    return letters.length > 32 ? `${letters.slice(0, 32).join('')}...` : text;
};

const STRANGE = [
    [/[\u2212\u2010-\u2015]/, 'a Unicode minus'],
    [/[\u00a0\u202f]/, 'a no-break space'],
    [/[\u2000-\u200b\u3000]/, 'a space of Unicode'],
    [/\ufeff/, 'a byte order mark'],
    [/\ufffd/, 'bytes that are no UTF-8'],
    [/["'\u2018-\u201f]/, 'quotes'],
    [/[[\](){}]/, 'brackets'],
    [/\p{Cc}/u, 'a control character'],
    [/[^\x00-\x7f]/, 'a letter'],
];

// ` (it has ..)` for the first letter of a word that no number has and that is easily missed or mistaken.
export const strange = (word) => {
    for (const letter of word) {
        const found = STRANGE.find(([pattern]) => pattern.test(letter));
        if (found) {
            const code = letter.codePointAt(0).toString(16).toUpperCase().padStart(4, '0');
            return ` (it has ${found[1]}, U+${code})`;
        }
    }
    return '';
};

const DECIMAL = /^([+-]?)(\d*)(?:\.(\d*))?(?:[eE]([+-]?\d+))?$/;

// The sample that a word is: `12`, `12.00` and `1.2e1` are the same. The digits are shifted, never rounded.
export const sample = (word) => {
    if (/^-?\d{1,9}$/.test(word)) {
        return Number(word);
    }
    const [, sign, whole = '', behind = '', exponent = '0'] = word.match(DECIMAL) ?? [];
    const digits = whole + behind;
    const shift = Number(exponent) - behind.length;
    if (sign !== undefined && digits !== '' && Math.abs(shift) < 400) {
        const power = 10n ** BigInt(Math.abs(shift));
        const number = BigInt(sign + digits);
        const value = shift < 0 ? number / power : number * power;
        const exact = shift >= 0 || number % power === 0n;
        if (exact && BigInt.asIntN(32, value) === value) {
            return Number(value);
        }
    }
    throw new Error(`${front(word)} is not a whole number of 32 bits${strange(word)}`);
};

// A number with six digits, or as many as it takes to be whole.
export const short = (value) => {
    if (value === 0 || Math.abs(value) >= 1e6) {
        return value.toFixed(0);
    }
    const before = Math.floor(Math.log10(Math.abs(value))) + 1;
    const text = value.toFixed(Math.min(Math.max(6 - before, 0), 12));
    return text.includes('.') ? text.replace(/\.?0+$/, '') : text;
};
