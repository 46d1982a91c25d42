// A chart as SVG: a frame with ticks, units and series, drawn for the width that it has.

const NAMESPACE = 'http://www.w3.org/2000/svg';
const MARGIN = { left: 62, right: 14, top: 10, bottom: 44 };

const element = (name, attributes, text) => {
    const made = document.createElementNS(NAMESPACE, name);
    Object.entries(attributes).forEach(([key, value]) => made.setAttribute(key, value));
    if (text !== undefined) {
        made.textContent = text;
    }
    return made;
};

// Round numbers, about so many, from one end to the other.
export const ticks = (from, to, about) => {
    const rough = (to - from) / Math.max(1, about);
    const power = 10 ** Math.floor(Math.log10(rough));
    const each = [1, 2, 5, 10].map((by) => by * power).find((by) => by >= rough * 0.999);
    const all = [];
    for (let at = Math.ceil(from / each - 1e-9); at * each <= to + each * 1e-9; at++) {
        all.push(at * each);
    }
    const digits = Math.max(0, -Math.floor(Math.log10(each) + 1e-9));
    return all.map((at) => ({ at, text: (at + 0).toFixed(Math.min(digits, 12)).replace('-', '−') }));
};

// From numbers to places on the drawing.
const scales = (svg, { x, y }) => {
    const [width, height] = [svg.clientWidth || 600, svg.clientHeight || 280];
    const inner = { left: MARGIN.left, right: width - MARGIN.right, top: MARGIN.top, bottom: height - MARGIN.bottom };
    const across = (at) => inner.left + ((at - x.from) / (x.to - x.from)) * (inner.right - inner.left);
    const up = (at) => inner.bottom - ((at - y.from) / (y.to - y.from)) * (inner.bottom - inner.top);
    return { width, height, inner, across, up };
};

const axes = (svg, { x, y }, { inner, across, up, height }) => {
    for (const { at, text } of ticks(x.from, x.to, (inner.right - inner.left) / 90)) {
        const place = across(at);
        svg.append(element('line', { class: 'grid-line', x1: place, x2: place, y1: inner.top, y2: inner.bottom }));
        svg.append(element('text', { x: place, y: inner.bottom + 19, 'text-anchor': 'middle' }, text));
    }
    for (const { at, text } of ticks(y.from, y.to, (inner.bottom - inner.top) / 40)) {
        const place = up(at);
        svg.append(element('line', { class: 'grid-line', x1: inner.left, x2: inner.right, y1: place, y2: place }));
        svg.append(element('text', { x: inner.left - 6, y: place + 4, 'text-anchor': 'end' }, text));
    }
    const size = { width: inner.right - inner.left, height: inner.bottom - inner.top };
    svg.append(element('rect', { class: 'frame', x: inner.left, y: inner.top, ...size }));
    const [middle, half] = [(inner.left + inner.right) / 2, (inner.top + inner.bottom) / 2];
    svg.append(element('text', { class: 'name', x: middle, y: height - 8, 'text-anchor': 'middle' }, x.name));
    const turned = { transform: `translate(14 ${half}) rotate(-90)`, 'text-anchor': 'middle', class: 'name' };
    svg.append(element('text', turned, y.name));
};

const lineOf = (points) => {
    let drawn = '';
    let pen = 'M';
    for (const [x, y] of points) {
        if (Number.isFinite(y)) {
            drawn += `${pen}${x.toFixed(1)} ${y.toFixed(1)}`;
            pen = 'L';
        } else {
            pen = 'M';
        }
    }
    return drawn;
};

// The outline of a band: the highest place of each column from left to right, then the lowest back.
const bandOf = (points) => {
    const columns = new Map();
    for (const [x, y] of points) {
        const column = Math.floor(x);
        const [top, bottom] = columns.get(column) ?? [Infinity, -Infinity];
        columns.set(column, [Math.min(top, y), Math.max(bottom, y)]);
    }
    const all = Array.from(columns, ([x, [top, bottom]]) => [x + 0.5, top, bottom]);
    const tops = all.map(([x, top]) => [x, top]);
    const bottoms = all.map(([x, , bottom]) => [x, bottom]).reverse();
    return `${lineOf([...tops, ...bottoms])}Z`;
};

// A line from point to point, or a band.
const seriesPath = ({ points, colour, isBand }, { across, up }) => {
    const places = points.map(([x, y]) => [across(x), Math.max(-1e4, Math.min(1e4, up(y)))]);
    const style = `--colour: var(--${colour}); stroke: var(--${colour})`;
    return element('path', { style, class: isBand ? 'band' : 'curve', d: isBand ? bandOf(places) : lineOf(places) });
};

// The part of the drawing inside the frame: what leaves it is cut off.
const inside = (svg, { inner }) => {
    const size = { width: inner.right - inner.left, height: inner.bottom - inner.top };
    const viewBox = `${inner.left} ${inner.top} ${size.width} ${size.height}`;
    const part = element('svg', { x: inner.left, y: inner.top, ...size, viewBox, overflow: 'hidden' });
    svg.append(part);
    return part;
};

const marksOn = (svg, marks, { across, inner }) => {
    for (const { at, text } of marks) {
        const place = across(at);
        svg.append(element('line', { class: 'mark', x1: place, x2: place, y1: inner.top, y2: inner.bottom }));
        const end = place > (inner.left + inner.right) / 2;
        const side = { x: place + (end ? -6 : 6), 'text-anchor': end ? 'end' : 'start' };
        svg.append(element('text', { ...side, y: inner.top + 14, class: 'name' }, text));
    }
};

const cutsOn = (svg, cuts, { across, inner }) => {
    for (const [from, to] of cuts) {
        const x1 = Math.max(across(from), inner.left);
        const x2 = Math.min(Math.max(across(to), across(from) + 2), inner.right);
        if (x2 > inner.left && x1 < inner.right) {
            svg.append(element('line', { class: 'cut', x1, x2, y1: inner.bottom + 3, y2: inner.bottom + 3 }));
        }
    }
};

// Draws a chart: axes with names and units, series, marks, stretches in which values were cut, or a note.
export const draw = (svg, chart) => {
    const placed = scales(svg, chart);
    svg.replaceChildren();
    svg.setAttribute('viewBox', `0 0 ${placed.width} ${placed.height}`);
    svg.setAttribute('aria-label', chart.title);
    axes(svg, chart, placed);
    const part = inside(svg, placed);
    part.append(...chart.series.map((one) => seriesPath(one, placed)));
    cutsOn(svg, chart.cuts ?? [], placed);
    marksOn(svg, chart.marks ?? [], placed);
    if (chart.note) {
        const { inner } = placed;
        const middle = { x: (inner.left + inner.right) / 2, y: (inner.top + inner.bottom) / 2 };
        svg.append(element('text', { class: 'note', ...middle }, chart.note));
    }
};

// What each colour is.
export const legend = (place, series) => {
    place.replaceChildren(
        ...series.map(({ name, colour }) => {
            const item = document.createElement('span');
            item.style.setProperty('--swatch', `var(--${colour})`);
            item.textContent = name;
            return item;
        }),
    );
};

// Numbers from left to right as points, for so many columns: as they stand where they are few, else the least and the
// greatest of each column, which is drawn as a band, so no peak is lost.
export const points = (numbers, xOf, yOf, [from, to], columns) => {
    const [first, last] = [Math.max(0, from), Math.min(numbers.length, to)];
    const each = Math.max(1, (last - first) / columns);
    if (each < 4) {
        const all = [];
        for (let at = first; at < last; at++) {
            all.push([xOf(at), yOf(numbers[at])]);
        }
        return { points: all, isBand: false };
    }
    const all = [];
    for (let column = 0; column < columns; column++) {
        const [begin, end] = [first + Math.floor(column * each), first + Math.floor((column + 1) * each)];
        let [least, greatest] = [Infinity, -Infinity];
        for (let at = begin; at < end; at++) {
            least = Math.min(least, numbers[at]);
            greatest = Math.max(greatest, numbers[at]);
        }
        all.push([xOf(begin), yOf(least)], [xOf(begin), yOf(greatest)]);
    }
    return { points: all, isBand: true };
};

// A range with a little room at both ends.
export const roomy = (least, greatest) => {
    const room = (greatest - least) * 0.06 || Math.abs(greatest) * 0.1 || 1;
    return { from: least - room, to: greatest + room };
};
