// A settings file: lines `name = value`, the numbers that they name, and the same printed again.
import { Fault, atLine, didYouMean } from './fault.js';
import { floatText, front, strange } from './number.js';
import { laid } from './prototype.js';
import { range } from './reason.js';
import { sheetNumbers } from './sheet.js';

export const NAMES = [
    'stages', 'r', 'thinning', 'factor', 'taps', 'depth', 'phases', 'phase_taps', 'phase', 'step', 'prototype',
    'prototype_rows',
];

// The kinds of numbers that stand in lists.
const TAP = {
    kind: 'a whole number of -32768 to 32767',
    number: 'i16',
    read: (word) => (/^[+-]?\d+$/.test(word) ? Number(word) : NaN),
    usable: (value) => value >= -32768 && value <= 32767,
};
const FLOAT = {
    kind: 'a finite number',
    number: 'f32',
    read: (word) => (/^[+-]?(\d+\.?\d*|\.\d+)([eE][+-]?\d+)?$/.test(word) ? Math.fround(Number(word)) : NaN),
    usable: Number.isFinite,
};

// A line without its comment: a `#` between what is no blank and a digit names an entry of a sheet.
const withoutComment = (line) => {
    const at = Array.from(line.matchAll(/#/g), (found) => found.index).find((place) => {
        const named = /\S/.test(line[place - 1] ?? ' ') && /\d/.test(line[place + 1] ?? ' ');
        return !named;
    });
    return line.slice(0, at ?? line.length).trim();
};

// The entries of a text: value and line by name.
export const entries = (file, text) => {
    const all = { file, lines: 0, named: {} };
    const lines = text.replace(/\n$/, '').split('\n');
    all.lines = lines.length;
    lines.forEach((line, at) => {
        const setting = withoutComment(line);
        if (setting !== '') {
            add(all, setting, at + 1);
        }
    });
    return all;
};

const add = (all, setting, line) => {
    const sign = setting.indexOf('=');
    if (sign < 0) {
        throw atLine(all.file, line, `${front(setting)} is not name = value${strange(setting)}`);
    }
    const name = setting.slice(0, sign).trim();
    if (!NAMES.includes(name)) {
        const hint = strange(name) + didYouMean(name, NAMES);
        throw atLine(all.file, line, `no setting ${front(name)}${hint}; they are ${NAMES.join(', ')}`);
    }
    if (all.named[name]) {
        throw atLine(all.file, line, `${name} is set on line ${all.named[name].line} too`);
    }
    all.named[name] = { value: setting.slice(sign + 1).trim(), line };
};

// What is wrong with a setting, told where it stands; one that is missing is told at the end of the file. Settings of
// the page's own have no file.
export const settingFault = (all, name, what) => {
    const entry = all.named[name];
    const said = entry ? `${name} = ${front(entry.value)}: ${what}` : `no ${name}: ${what}`;
    const place = all.file === null ? '' : `${all.file}:${entry ? entry.line : all.lines}: `;
    return new Fault(place + said, name);
};

// A number of a setting, 0 where it is not set, which turns its part off or is refused.
const whole = (all, name) => {
    const text = all.named[name]?.value ?? '0';
    const number = BigInt(/^\+?\d+$/.test(text) ? text : -1);
    if (number >= 0n && number < 2n ** 64n) {
        return number;
    }
    const what = text === '' ? 'no value' : number > 0n ? 'over 2^64' : `not a whole number${strange(text)}`;
    throw settingFault(all, name, `${what}; ${range(name)}`);
};

const step = (all) => {
    const text = all.named.step?.value ?? '0';
    const special = /^[+-]?(nan|inf|infinity)$/i.test(text) ? NaN : FLOAT.read(text);
    if (Number.isNaN(special) && !/^[+-]?(nan|inf|infinity)$/i.test(text)) {
        const what = text === '' ? 'no value' : `not a number${strange(text)}`;
        throw settingFault(all, 'step', `${what}; ${range('step')}`);
    }
    return special;
};

// A setting of two words, the first where it is not set.
const either = (all, name, one, other) => {
    const text = all.named[name]?.value ?? one;
    if (text !== one && text !== other) {
        const hint = didYouMean(text, [one, other]);
        throw settingFault(all, name, `not ${one} or ${other}${strange(text)}${hint}`);
    }
    return text;
};

// The numbers of a line, with blanks or commas between them.
const words = (line, { kind, read, usable }) => {
    const all = line.split(/[ \t,\r\n]+/).filter((word) => word !== '');
    return all.map((word) => {
        const number = read(word);
        if (!usable(number)) {
            throw new Error(`${front(word)} is not ${kind}${strange(word)}`);
        }
        return number;
    });
};

// The numbers of a setting's value: a list, or a file that was given beside the settings, or an entry of a sheet.
const listed = (all, name, value, kind, given) => {
    try {
        if (/^(\.?\d|[+-])/.test(value)) {
            return words(value, kind);
        }
        if (value === '') {
            throw new Error(`no numbers; a line without ${name} has no such entry`);
        }
        return inFile(name, value, kind, given);
    } catch (why) {
        throw settingFault(all, name, why.message);
    }
};

const inFile = (name, value, kind, given) => {
    const [, file, entry] = value.match(/^(.*?)(?:#(\d+))?$/);
    const bytes = given.files.get(file);
    if (!bytes) {
        throw new Error(`${file} is not here; choose it together with the settings file`);
    }
    if (entry !== undefined) {
        return sheetNumbers(given.module, file, bytes, Number(entry), kind);
    }
    const lines = new TextDecoder().decode(bytes).split('\n');
    const numbers = words(lines.map((line) => line.replace(/#.*/, '')).join(' '), kind);
    if (numbers.length === 0) {
        throw new Error(`${file}: no numbers; a line without ${name} does not name it`);
    }
    return numbers;
};

// Tap t of phase p from p × T + t to t × P + p; another length is left for the opening to refuse.
const byTap = (rows, phases, taps) => {
    if (rows.length !== phases * taps) {
        return rows;
    }
    return rows.map((_, at) => rows[(at % phases) * taps + Math.floor(at / phases)]);
};

// The prototype as the resampler reads it, and the order in which it stands.
const prototype = (all, given, { phases, phase_taps: taps, phase: read }) => {
    const { prototype: entry, prototype_rows: rows } = all.named;
    if (entry && rows) {
        throw settingFault(all, 'prototype_rows', `prototype is set on line ${entry.line} too`);
    }
    if (rows) {
        const numbers = listed(all, 'prototype_rows', rows.value, FLOAT, given);
        return { order: 'rows', prototype: byTap(numbers, Number(phases), Number(taps)) };
    }
    if (!entry) {
        return { order: 'laid', prototype: [] };
    }
    const natural = entry.value.match(/^natural(?:\s+(.*)|)$/s);
    const value = natural ? (natural[1] ?? '').trim() : entry.value;
    const numbers = listed(all, 'prototype', value, FLOAT, given);
    if (!natural || read === 'straight') {
        return { order: natural ? 'natural' : 'laid', prototype: numbers };
    }
    return { order: 'natural', prototype: laid(numbers, Number(phases), Number(taps)) };
};

// What a settings file says: settings, taps and prototype, for an opening. Given are the files beside it, by name, and
// the module that reads sheets among them.
export const lineFile = (file, text, given) => {
    const all = entries(file, text);
    const settings = { phase: either(all, 'phase', 'wrapped', 'straight'), step: step(all) };
    settings.thinning = either(all, 'thinning', 'integrators', 'neighbours') === 'neighbours' ? 1 : 0;
    for (const name of ['stages', 'r', 'factor', 'depth', 'phases', 'phase_taps']) {
        settings[name] = whole(all, name);
    }
    settings.straight = settings.phase === 'straight' ? 1 : 0;
    const taps = all.named.taps ? listed(all, 'taps', all.named.taps.value, TAP, given) : [];
    return { entries: all, settings, taps, ...prototype(all, given, settings) };
};

// What is set although the part that would look at it is off.
export const unseen = ({ entries: all, settings, taps }) => {
    const off = taps.length === 0 ? [['factor', 'taps']] : [];
    if (settings.phases === 0n) {
        const names = ['phase_taps', 'phase', 'prototype', 'prototype_rows', 'step'];
        off.push(...names.map((name) => [name, 'phases']));
    }
    const set = off.filter(([name]) => all.named[name]);
    return set.map(([name, without]) => `${name} is not looked at without ${without}`);
};

// Numbers, so many a line.
export const rowsOf = (numbers, row, text = String) => {
    const lines = [];
    for (let at = 0; at < numbers.length; at += row) {
        lines.push(Array.from(numbers.slice(at, at + row), text).join(' '));
    }
    return lines;
};

// The settings file of a line that was opened: what is off is left out. A setting is one line.
export const settingsText = ({ settings, taps, prototype: numbers }, title) => {
    const lines = [`# ${title}`, `stages = ${settings.stages}`, `r = ${settings.r}`];
    if (settings.thinning === 1) {
        lines.push('thinning = neighbours');
    }
    if (taps.length > 0) {
        lines.push(`taps = ${taps.join(' ')}`, `factor = ${settings.factor}`);
    }
    if (settings.depth > 0n) {
        lines.push(`depth = ${settings.depth}`);
    }
    if (settings.phases > 0n) {
        lines.push(`phases = ${settings.phases}`, `phase_taps = ${settings.phase_taps}`);
        lines.push(`prototype = ${Array.from(numbers, floatText).join(' ')}`);
        lines.push(`step = ${floatText(settings.step)}`, `phase = ${settings.phase}`);
    }
    return `${lines.join('\n')}\n`;
};
