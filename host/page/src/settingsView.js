// The settings: a form with sliders, which is read as a settings file is.
import { LIMITS } from './declarations.js';
import { entries, lineFile, rowsOf, unseen } from './settings.js';
import { straightLines, windowedSinc } from './prototype.js';
import { floatText } from './number.js';
import { at, list, made } from './view.js';

const NUMBERS = ['stages', 'r', 'factor', 'depth', 'phases', 'phase_taps', 'step'];
// Sliders that go by ones: from, to.
const STEPS = {
    stages: [1, LIMITS.MOST_STAGES],
    depth: [0, LIMITS.MOST_DEPTH],
    phases: [0, LIMITS.MOST_PHASES],
    phase_taps: [1, LIMITS.MOST_PHASE_TAPS],
};
// Sliders by ratio, with this many places.
const PLACES = 600;
const RATIOS = {
    r: { least: 1, most: LIMITS.MOST_FACTOR, each: 1 },
    factor: { least: 1, most: LIMITS.MOST_FACTOR, each: 1 },
    step: { least: LIMITS.LEAST_STEP, most: LIMITS.MOST_STEP, each: LIMITS.LEAST_STEP },
};

// So many equal taps, together 1, or as near below it as whole numbers of 16 bits come.
const equalTaps = (count) => new Array(count).fill(Math.min(32767, Math.floor(32768 / count))).join(' ');

// Every part off; a preset sets what differs.
const OFF = {
    factor: '1', taps: '', depth: '0', phases: '0', phase_taps: '2', step: '1', phase: 'wrapped', order: 'straight',
    prototype: '', thinning: 'integrators',
};
const PRESETS = {
    'tail channel: a level every 15 seconds': {
        stages: '1', r: '16', taps: equalTaps(8), factor: '4', depth: '1', phases: '16', phase_taps: '2', step: '0.9375',
    },
    'mean of four samples': { stages: '1', r: '4' },
    'every section, a level every 48 samples': {
        stages: '3', r: '4', taps: equalTaps(4), factor: '2', depth: '2', phases: '2', phase_taps: '2', step: '1.5',
        order: 'laid', prototype: '1 0.5 0 0.5',
    },
    'three stages, r = 64: sums come round': { stages: '3', r: '64' },
};

// The prototypes that the page makes, by the name of their order.
const MADE = { straight: straightLines, sinc: windowedSinc };

const slider = (name) => document.querySelector(`[data-setting="${name}"] input[type="range"]`);

const toPlace = ({ least, most }, value) => Math.round((PLACES * Math.log(value / least)) / Math.log(most / least));
const fromPlace = ({ least, most, each }, place) => {
    const value = least * (most / least) ** (place / PLACES);
    return Math.round(value / each) * each;
};

// The slider beside a number stands where the number does.
const follow = (name) => {
    const value = Number(at(name).value);
    slider(name).value = RATIOS[name] ? toPlace(RATIOS[name], value || RATIOS[name].least) : value;
    slider(name).setAttribute('aria-valuetext', at(name).value);
};

// Numbers that the page makes are not typed over.
const lock = () => {
    at('prototype').readOnly = MADE[at('order').value] !== undefined;
};

const put = (values) => {
    Object.entries(values).forEach(([name, value]) => {
        at(name).value = value;
    });
    NUMBERS.forEach(follow);
    lock();
};

const oneLine = (id) => at(id).value.replace(/\s+/g, ' ').trim();

// The prototype that the page makes, where it makes one.
const generated = () => {
    const [phases, taps, step] = ['phases', 'phase_taps', 'step'].map((name) => Number(at(name).value));
    const fits = phases >= 2 && phases <= LIMITS.MOST_PHASES && taps >= 1 && taps <= LIMITS.MOST_PHASE_TAPS && step > 0;
    const make = MADE[at('order').value];
    return make && fits ? make(phases, taps, step) : null;
};

const resamplerLines = () => {
    const order = at('order').value;
    const numbers = oneLine('prototype');
    const own = { laid: `prototype = ${numbers}`, rows: `prototype_rows = ${numbers}` }[order];
    const lines = ['phases', 'phase_taps', 'step', 'phase'].map((name) => `${name} = ${oneLine(name)}`);
    return [...lines, own ?? `prototype = natural ${numbers}`];
};

// The form as a settings file.
const formText = () => {
    const lines = ['stages', 'r', 'thinning', 'depth'].map((name) => `${name} = ${oneLine(name)}`);
    if (oneLine('taps') !== '') {
        lines.push(`taps = ${oneLine('taps')}`, `factor = ${oneLine('factor')}`);
    }
    return [...lines, ...(Number(oneLine('phases')) === 0 ? [] : resamplerLines())].join('\n');
};

// The line that the form describes; a fault is thrown with its setting.
export const described = (app) => {
    const makes = generated();
    if (makes) {
        at('prototype').value = rowsOf(makes, Number(at('phases').value), floatText).join('\n');
    }
    return lineFile(null, formText(), app);
};

// Says what is wrong, and marks the field that it is about.
export const tellSettings = (fault) => {
    at('settings-fault').textContent = fault ? fault.message : '';
    const wrong = { prototype_rows: 'prototype' }[fault?.setting] ?? fault?.setting;
    for (const id of [...NUMBERS, 'taps', 'prototype', 'phase', 'thinning']) {
        at(id).setAttribute('aria-invalid', String(id === wrong));
    }
};

// The values of a settings file go into the form, numbers of files that it names too.
export const takeSettings = (app, name, text) => {
    const file = lineFile(name, text, app);
    const { named } = entries(name, text);
    const value = (setting, missing) => named[setting]?.value ?? missing;
    const own = Object.fromEntries(NUMBERS.map((setting) => [setting, value(setting, OFF[setting] ?? '0')]));
    const prototype = rowsOf(file.prototype, Math.max(1, Number(file.settings.phases)), floatText).join('\n');
    const words = { phase: file.settings.phase, thinning: value('thinning', OFF.thinning), order: 'laid' };
    put({ ...OFF, ...own, ...words, taps: file.taps.join(' '), prototype });
    list(at('settings-warnings'), unseen(file).map((what) => `${name}: ${what}`));
    app.settingsChanged();
};

const wireNumbers = (app) => {
    for (const name of NUMBERS) {
        const [min, max] = STEPS[name] ?? [0, PLACES];
        Object.assign(slider(name), { min, max });
        slider(name).addEventListener('input', () => {
            const place = Number(slider(name).value);
            at(name).value = RATIOS[name] ? fromPlace(RATIOS[name], place) : place;
            slider(name).setAttribute('aria-valuetext', at(name).value);
            app.settingsChanged();
        });
        at(name).addEventListener('input', () => {
            follow(name);
            app.settingsChanged();
        });
    }
};

// A preset's values; those that it has none of are off.
const choosePreset = (app) => {
    put({ ...OFF, ...PRESETS[at('preset').value] });
    list(at('settings-warnings'), []);
    app.settingsChanged();
};

export const wireSettings = (app) => {
    at('preset').append(...Object.keys(PRESETS).map((name) => made('option', name)));
    at('preset').addEventListener('change', () => choosePreset(app));
    at('form').addEventListener('submit', (event) => event.preventDefault());
    at('fill').addEventListener('click', () => {
        const count = Math.min(LIMITS.MOST_TAPS, Math.max(1, Math.trunc(Number(at('equal').value)) || 1));
        at('taps').value = equalTaps(count);
        app.settingsChanged();
    });
    at('order').addEventListener('input', lock);
    for (const id of ['taps', 'prototype', 'phase', 'thinning', 'order']) {
        at(id).addEventListener('input', app.settingsChanged);
    }
    wireNumbers(app);
    choosePreset(app);
};
