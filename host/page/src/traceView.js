// Samples and levels over time, what was cut, which samples the line takes, and the line beside one that holds.
import { draw, legend, points, roomy } from './chart.js';
import { agreement, firstRound, holdingLevels } from './holding.js';
import { short } from './number.js';
import { cutFrom, fullScale } from './ranges.js';
import { firstLevel, moments, sections, whole } from './section.js';
import { ends, summary, warnings } from './tally.js';
import { at, fill, list, unitOf } from './view.js';

const LEVEL = 'level, parts of full scale';

// What of the time axis is shown, in its unit.
const shownRange = (app, unit) => {
    const end = Math.max(1, app.samples.length - 1) / unit.samples;
    const given = (id, missing) => (at(id).value === '' ? missing : Number(at(id).value));
    const [from, to] = [given('from', 0), given('to', end)];
    return to > from ? { from, to } : { from: 0, to: end };
};

const inRange = (x, first, every) => [Math.floor((x.from - first) / every), Math.ceil((x.to - first) / every) + 2];

// Samples times the line's gain, and levels at the moments that they tell of.
const traces = (app, unit, x, columns) => {
    const scale = app.whole.gain / 32768;
    const each = 1 / unit.samples;
    const samples = points(app.samples, (k) => k * each, (one) => one * scale, inRange(x, 0, each), columns);
    const { first, every } = app.moments;
    const levelsOf = (levels) => {
        const xOf = (k) => (first + k * every) * each;
        return points(levels, xOf, (one) => one, inRange(x, first * each, every * each), columns);
    };
    return { samples, levelsOf };
};

const heights = (series) => {
    const all = series.flatMap((one) => one.points.map(([, y]) => y)).filter(Number.isFinite);
    const { least, greatest } = ends(all);
    return all.length === 0 ? { from: -1, to: 1 } : roomy(least, greatest);
};

const noteOf = (app) => {
    if (app.samples.length === 0) {
        return 'no samples';
    }
    const first = firstLevel(app.file);
    const none = `no level: the first comes with sample ${first}, and there are ${app.samples.length}`;
    return app.made.levels.length === 0 ? none : null;
};

const drawTrace = (app) => {
    const unit = unitOf(app.samples.length, app.rate);
    const x = { ...shownRange(app, unit), name: unit.axis };
    const { samples, levelsOf } = traces(app, unit, x, at('trace-chart').clientWidth || 600);
    const series = [
        { name: `samples, times the line's gain`, colour: 'samples', ...samples },
        { name: 'levels, where they tell of', colour: 'levels', ...levelsOf(app.made.levels) },
    ];
    const cuts = app.made.cutPieces.map((piece) => piece.map((place) => place / unit.samples));
    const cutName = { name: 'a value was cut to 16 bits', colour: 'cut' };
    legend(at('trace-legend'), cuts.length > 0 ? [...series, cutName] : series);
    at('zoom-unit').textContent = unit.name;
    const title = `Samples and levels of ${app.source.name}`;
    draw(at('trace-chart'), { title, x, y: { ...heights(series), name: LEVEL }, series, cuts, note: noteOf(app) });
};

const tellTables = (app) => {
    const { exact, steady, uncut } = app.ranges;
    fill(at('ranges'), [
        ['in any order: every sum is exact', exact.least, exact.greatest],
        ['steady: the sum keeps to 32 bits', ...steady],
        ['steady: and is not cut to 16 bits', ...uncut],
    ]);
    at('cuts').textContent = cutFrom(app.ranges);
    at('full-scale').textContent = fullScale(app.ranges, app.sections[0].name);
    at('delay-head').textContent = app.rate ? 'delay, seconds' : 'delay, samples';
    const delay = (one) => (Number.isFinite(one.delay) ? short(one.delay / (app.rate ?? 1)) : 'none');
    const all = [...app.sections, app.whole];
    fill(at('sections'), all.map((one) => [one.name, short(one.perValue), delay(one), one.gain.toFixed(4)]));
};

const tellHolding = (app, held) => {
    const { first, later } = agreement(app.made.levels, held);
    const of = `${app.made.levels.length} levels`;
    const some = `The two agree in the first ${first} of ${of}, and in ${later} of those behind them`;
    const agree = first === held.length ? `The two agree in all ${of}` : some;
    const round = firstRound(app.samples);
    const minutes = app.rate ? Math.floor(round / app.rate / 60) : 0;
    const when = app.rate ? `, after ${Math.floor(minutes / 60)} h ${String(minutes % 60).padStart(2, '0')} min` : '';
    const passes = `The sum of all samples leaves 32 bits with sample ${round}${when}.`;
    at('holding-said').textContent = `${agree}. ${round > 0 ? passes : 'The sum of all samples stays within 32 bits.'}`;
    return round;
};

// Both lines over the same axes.
const drawHolding = (app) => {
    const held = holdingLevels(app.module, app.file, app.samples);
    const round = tellHolding(app, held);
    const unit = unitOf(app.samples.length, app.rate);
    const x = { ...shownRange(app, unit), name: unit.axis };
    const { samples, levelsOf } = traces(app, unit, x, at('right-chart').clientWidth || 300);
    const [right, wrong] = [levelsOf(app.made.levels), levelsOf(held)];
    const y = { ...heights([samples, right, wrong]), name: LEVEL };
    const marks = round > 0 ? [{ at: round / unit.samples, text: 'the sum passes 2^31' }] : [];
    const behind = { colour: 'samples', ...samples };
    const [wraps, holds] = [{ colour: 'levels', ...right }, { colour: 'wrong', ...wrong }];
    draw(at('right-chart'), { title: 'Levels, sums wrap', x, y, marks, series: [behind, wraps] });
    draw(at('wrong-chart'), { title: 'Levels, sums hold', x, y, marks, series: [behind, holds] });
};

// All that follows from a run.
export const showTrace = (app) => {
    app.sections = sections(app.module, app.file);
    app.whole = whole(app.sections);
    app.moments = moments(app.module, app.file);
    at('summary').textContent = summary(app.samples, app.made, firstLevel(app.file));
    list(at('warnings'), warnings(app.samples, app.made, app.ranges.exact));
    tellTables(app);
    drawTrace(app);
    drawHolding(app);
};

export const wireTrace = (app) => {
    for (const id of ['from', 'to']) {
        at(id).addEventListener('input', app.viewChanged);
    }
    at('all').addEventListener('click', () => {
        at('from').value = '';
        at('to').value = '';
        app.viewChanged();
    });
};
