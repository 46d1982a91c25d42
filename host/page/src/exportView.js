// What is saved: settings, literals, levels, sheets.
import { levelsCsv, levelsText } from './levels.js';
import { inC, inRust } from './literal.js';
import { settingsText } from './settings.js';
import { written } from './sheet.js';
import { at } from './view.js';

const MOST_SHOWN = 200_000;

const sheetOf = ({ module, file }) => {
    const lists = [Int16Array.from(file.taps), Float32Array.from(file.settings.phases > 0n ? file.prototype : [])];
    return written(module, lists);
};

const KINDS = {
    settings: ['gauge.settings', (app) => settingsText(app.file, `Settings of a gauge line, for gauge ${app.version}`)],
    c: ['gauge_settings.h', (app) => inC(app.file)],
    rust: ['gauge_settings.rs', (app) => inRust(app.file)],
    levels: ['levels.txt', (app) => levelsText(app.made.levels)],
    csv: ['levels.csv', (app) => levelsCsv(app.made.levels, app.moments, app.rate)],
    sheet: ['line.sheet', sheetOf],
    parked: ['line.parked', (app) => app.made.parked],
};

// Bytes as od shows them: the place, then 16 of them.
const dump = (bytes) => {
    const rows = [];
    for (let from = 0; from < bytes.length; from += 16) {
        const part = Array.from(bytes.subarray(from, from + 16), (byte) => byte.toString(16).padStart(2, '0'));
        rows.push(`${String(from).padStart(7, '0')} ${part.join(' ')}`);
    }
    return rows.join('\n');
};

const chosen = (app) => {
    const [name, make] = KINDS[at('kind').value];
    return { name, content: make(app) };
};

export const showExport = (app) => {
    const { name, content } = chosen(app);
    const text = typeof content === 'string' ? content : dump(content);
    at('exported').value = text.slice(0, MOST_SHOWN);
    at('export-said').textContent = text.length > MOST_SHOWN ? `${name}: shown is its front` : name;
};

const save = (app) => {
    const { name, content } = chosen(app);
    const link = document.createElement('a');
    link.href = URL.createObjectURL(new Blob([content]));
    link.download = name;
    link.click();
    URL.revokeObjectURL(link.href);
    at('export-said').textContent = `${name} is saved`;
};

const copy = (app) => {
    const { name, content } = chosen(app);
    at('exported').value = typeof content === 'string' ? content : dump(content);
    at('exported').select();
    const done = document.execCommand('copy');
    at('export-said').textContent = done ? `${name} is copied` : 'mark the text and copy it by hand';
};

export const wireExport = (app) => {
    at('kind').addEventListener('input', () => showExport(app));
    at('save').addEventListener('click', () => save(app));
    at('copy').addEventListener('click', () => copy(app));
};
