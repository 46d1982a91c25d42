// The column of a CSV file that is the samples.
import { atLine } from './fault.js';
import { sample } from './number.js';

// Semicolons where a row has any outside quotes, else tabs, else commas.
const between = (row) => {
    const outside = (sign) => row.split('"').some((part, at) => at % 2 === 0 && part.includes(sign));
    return [';', '\t'].find(outside) ?? ',';
};

// The cells of a row, without their quotes and the blanks around them.
const cells = (row, sign) => {
    const all = [''];
    let quoted = false;
    for (const letter of row) {
        if (letter === '"') {
            quoted = !quoted;
        } else if (letter === sign && !quoted) {
            all.push('');
        } else {
            all[all.length - 1] += letter;
        }
    }
    if (quoted) {
        throw new Error('a quote that does not end on its line');
    }
    return all.map((cell) => cell.trim());
};

// A cell that no header has: a row with one is data, even where it is no sample.
const isLikeANumber = (cell) => /^(nan|inf)$/i.test(cell) || /^[\d+\-.\u2010-\u2015\u2212]/.test(cell);

// Where no comma stands between cells, it may be a decimal one. In 16,000 it may as well divide thousands.
const withPoint = (cell) => {
    const [, front = '', back] = cell.match(/^[+-]*([^,]*),(.*)$/) ?? [];
    if (back !== undefined && front.length >= 1 && front.length <= 3 && front[0] !== '0' && back.length === 3) {
        throw new Error(`${cell} may be a decimal or have its thousands divided`);
    }
    return cell.replace(',', '.');
};

const sampleAt = (row, sign, at) => {
    const all = cells(row, sign);
    if (at >= all.length) {
        throw new Error(`no column ${at + 1}; the row has ${all.length}`);
    }
    if (all[at] === '') {
        throw new Error(`column ${at + 1} is empty`);
    }
    return sample(sign === ',' ? all[at] : withPoint(all[at]));
};

// The rows that are not empty, with their numbers.
const rows = (text) =>
    text
        .split('\n')
        .map((row, at) => ({ row: row.replace(/\r$/, ''), line: at + 1 }))
        .filter(({ row }) => row.replace(/#.*/, '').trim() !== '');

// The names of the columns, or their numbers where no row names them; and the first whose sample is a whole number.
export const columns = (text) => {
    const [first, second] = rows(text);
    if (!first) {
        return { names: [], first: 0 };
    }
    const sign = between(first.row);
    const head = cells(first.row, sign);
    const isHeader = !head.some(isLikeANumber);
    const data = isHeader ? second : first;
    const whole = (_, at) => {
        try {
            sampleAt(data.row, sign, at);
            return true;
        } catch {
            return false;
        }
    };
    const names = isHeader ? head : head.map((_, at) => `column ${at + 1}`);
    return { names, first: Math.max(0, data ? head.findIndex(whole) : 0) };
};

// The samples of a column, counted from 0.
export const csvSamples = (file, text, column) => {
    const all = rows(text);
    const sign = all.length > 0 ? between(all[0].row) : ',';
    const isHeader = all.length > 0 && !cells(all[0].row, sign).some(isLikeANumber);
    return all.slice(isHeader ? 1 : 0).map(({ row, line }) => {
        try {
            return sampleAt(row, sign, column);
        } catch (why) {
            throw atLine(file, line, why.message);
        }
    });
};
