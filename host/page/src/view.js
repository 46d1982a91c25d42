// What the views share: elements of the page, tables, and the unit of time.

export const at = (id) => document.getElementById(id);

export const made = (name, text = '', attributes = {}) => {
    const element = document.createElement(name);
    element.textContent = text;
    Object.entries(attributes).forEach(([key, value]) => element.setAttribute(key, value));
    return element;
};

export const list = (place, texts) => place.replaceChildren(...texts.map((text) => made('li', text)));

// Rows of a table's body; a cell of words stands left.
export const fill = (body, rows) => {
    body.replaceChildren(
        ...rows.map((cells) => {
            const row = made('tr');
            row.append(...cells.map((cell) => made('td', String(cell))));
            return row;
        }),
    );
};

const TIMES = [
    ['microseconds', 1e-6], ['milliseconds', 1e-3], ['seconds', 1], ['minutes', 60], ['hours', 3600], ['days', 86400],
];

// What a recording's axis is in: samples, or a time that suits its length; and how many samples one is.
export const unitOf = (count, rate) => {
    if (!rate) {
        return { name: 'samples', axis: 'sample', samples: 1 };
    }
    const length = (count - 1) / rate;
    const [name, seconds] = TIMES.findLast(([, time]) => length >= 3 * time) ?? TIMES[0];
    return { name, axis: `time, ${name}`, samples: seconds * rate };
};
