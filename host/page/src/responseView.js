// The response: the sections over the frequency of a wave, what folds down into the levels, and a tone to check it by.
import { draw, legend } from './chart.js';
import { LIMITS } from './declarations.js';
import { short } from './number.js';
import { aliases, decibels, response, strongest, whole } from './response.js';
import { measured } from './tone.js';
import { at } from './view.js';

const PLACES = 600;
// Only the whole of the cascade holds more than this off.
const LOWEST = -100;
const LOWEST_OF_ALL = -160;
// Below half of this part of the levels' rate a passband is told.
const BAND = 0.4;

const minus = (text) => text.replace('-', '−');
const told = (gain) => `${minus(decibels(gain).toFixed(1))} dB`;

// Frequencies in hertz where the rate is known, else in waves a sample.
const unitOf = (app) => ({ each: app.rate ?? 1, name: app.rate ? 'Hz' : 'waves a sample' });

const decibelAxis = ({ settings }) => ({
    from: settings.depth === BigInt(LIMITS.MOST_DEPTH) ? LOWEST_OF_ALL : LOWEST,
    to: 10,
    name: 'magnitude, dB',
});

const drawSections = (app, one, unit) => {
    const end = at('response-span').value === 'all' ? 0.5 : Math.min(0.5, 8 / one.perLevel);
    const { settings, taps } = app.file;
    const parts = [
        ['CIC decimator', 'one', one.cic, true],
        ['FIR', 'two', one.fir, taps.length > 0],
        ['half-band cascade', 'three', one.halfBand, settings.depth > 0n],
        ['resampler', 'four', one.resampler, settings.phases > 0n],
        ['whole line', 'whole', whole(one), true],
    ];
    const place = (k) => (end * k) / PLACES;
    const point = (gain, k) => [place(k) * unit.each, decibels(gain(place(k)))];
    const curve = (gain) => Array.from({ length: PLACES + 1 }, (_, k) => point(gain, k));
    const on = parts.filter((part) => part[3]);
    const series = on.map(([name, colour, gain]) => ({ name, colour, points: curve(gain) }));
    legend(at('sections-legend'), series);
    const x = { from: 0, to: end * unit.each, name: `frequency, ${unit.name}` };
    const half = 0.5 / one.perLevel;
    const marks = half < end ? [{ at: half * unit.each, text: 'half the rate of levels' }] : [];
    draw(at('sections-chart'), { title: 'Magnitude of each section', x, y: decibelAxis(app.file), series, marks });
};

const tellAliases = ({ places, bands, all }) => {
    const inBand = places.filter(({ turns }) => turns <= BAND);
    const worst = Math.max(...inBand.map(({ alias }) => alias));
    const end = inBand[inBand.length - 1].wanted;
    const looked = all ? '' : ` Looked at are the lowest ${bands} bands that fold down.`;
    const of = `${BAND} of the rate of levels`;
    const said = `Worst alias into 0 to ${of}: ${told(worst)}. Level at ${of}: ${told(end)}.`;
    at('aliases-said').textContent = said + looked;
};

const drawAliases = (app, one, unit) => {
    const found = aliases(one);
    const each = unit.each / one.perLevel;
    const curve = (gain) => found.places.map((place) => [place.turns * each, decibels(gain(place))]);
    const series = [
        { name: 'strongest alias', colour: 'wrong', points: curve(({ alias }) => alias) },
        { name: 'the wave itself', colour: 'levels', points: curve(({ wanted }) => wanted) },
    ];
    legend(at('aliases-legend'), series);
    const x = { from: 0, to: 0.5 * each, name: `frequency in the levels, ${unit.name}` };
    draw(at('aliases-chart'), { title: 'Waves and aliases in the levels', x, y: decibelAxis(app.file), series });
    tellAliases(found);
};

// A tone through the proved line beside what the response says of it.
const tellTone = (app, one, unit) => {
    at('tone-unit').textContent = unit.name;
    if (at('tone').value === '') {
        at('tone').value = short((0.1 / one.perLevel) * unit.each);
    }
    const turns = Number(at('tone').value) / unit.each;
    const height = Math.min(16384, app.ranges.exact.greatest);
    if (!(turns > 0 && turns <= 0.5)) {
        at('tone-said').textContent = `A frequency above 0, up to ${short(0.5 * unit.each)} ${unit.name}.`;
        return;
    }
    if (height < 64) {
        at('tone-said').textContent = 'No tone keeps the sums exact: there are too many gain bits.';
        return;
    }
    const { gain, turns: place } = strongest(one, turns);
    const found = measured(app.module, app.file, one, turns, height, place);
    const shows = `shows at ${short((place / one.perLevel) * unit.each)} ${unit.name}`;
    const said = found === null ? 'too slow to be run here' : `measured ${told(found)}`;
    const floor = 'Steps of 16 bits end what can be measured at about −90 dB.';
    at('tone-said').textContent = `It ${shows}: computed ${told(gain)}, ${said}. ${floor}`;
    at('tone-said').dataset.gains = [gain, found ?? NaN].map((one) => one.toPrecision(6)).join(' ');
};

export const showResponse = (app) => {
    const one = response(app.module, app.file);
    const unit = unitOf(app);
    drawSections(app, one, unit);
    drawAliases(app, one, unit);
    tellTone(app, one, unit);
};

export const wireResponse = (app) => {
    for (const id of ['tone', 'response-span']) {
        at(id).addEventListener('input', app.viewChanged);
    }
};
