// Tap sheets and parked lines, entry by entry.
import { floatText } from './number.js';
import { parkedShown } from './parked.js';
import { rowsOf } from './settings.js';
import { listed } from './sheet.js';
import { at, fill, made } from './view.js';

// A table of numbers, or of words, which stand left.
const table = (heads, rows, kind) => {
    const element = made('table', '', { class: kind });
    const head = made('tr');
    head.append(...heads.map((text) => made('th', text, { scope: 'col' })));
    element.createTHead().append(head);
    fill(element.createTBody(), rows);
    return element;
};

const entry = (head, open) => {
    const details = made('details');
    details.open = open;
    details.append(made('summary', head));
    return details;
};

// The entries of a parked line, each field with its place in the file.
const parkedEntries = ({ entries }) =>
    entries.map(({ head, rows }, k) => {
        const details = entry(head, k < 2);
        const fields = () => table(['byte', 'field', 'value'], rows, 'words');
        details.append(rows.length > 0 ? fields() : made('p', 'The part is off.'));
        return details;
    });

// A button that puts the numbers of an entry into the form.
const use = (app, words, id, text, also = {}) => {
    const button = made('button', words, { type: 'button' });
    button.addEventListener('click', () => {
        at(id).value = text;
        Object.entries(also).forEach(([field, value]) => {
            at(field).value = value;
            at(field).dispatchEvent(new Event('input'));
        });
        app.settingsChanged();
    });
    return button;
};

const sheetEntry = (app, { k, offset, size, taps, prototype }) => {
    const details = entry(`entry ${k}: ${size} bytes at ${offset}`, k === 0);
    if (taps !== null && taps.length > 0) {
        details.append(made('p', `as taps: ${taps.join(' ')}`), use(app, 'Use as taps', 'taps', taps.join(' ')));
    }
    if (prototype !== null && prototype.length > 0) {
        const text = rowsOf(prototype, 8, floatText).join('\n');
        const button = use(app, 'Use as prototype', 'prototype', text, { order: 'laid' });
        details.append(made('p', `as a prototype: ${text}`), button);
    }
    return details;
};

const count = (numbers) => (numbers === null ? '-' : numbers.length);

// A file that is a sheet: a parked line by its fields, any other by its entries.
export const showSheet = (app, name, bytes) => {
    at('sheet-fault').textContent = '';
    at('sheet-entries').replaceChildren();
    at('sheet-said').textContent = '';
    try {
        const parked = parkedShown(app.module, name, bytes);
        const sheet = listed(app.module, name, bytes);
        at('sheet-said').textContent = `${name}: ${parked ? parked.head : sheet.head}`;
        const heads = ['entry', 'offset', 'bytes', 'taps', 'prototype'];
        const rows = sheet.rows.map((row) => [row.k, row.offset, row.size, count(row.taps), count(row.prototype)]);
        const own = () => [table(heads, rows, 'numbers'), ...sheet.rows.map((row) => sheetEntry(app, row))];
        at('sheet-entries').append(...(parked ? parkedEntries(parked) : own()));
    } catch (fault) {
        at('sheet-fault').textContent = fault.message;
    }
};

export const wireSheets = (app) => {
    at('park').addEventListener('click', () => showSheet(app, 'this line', app.made.parked));
};
