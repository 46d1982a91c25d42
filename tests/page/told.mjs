// What the page tells of settings, ranges, ramps, plans and responses against what the tool prints.
import { is, same } from './tool.mjs';

// A setting or two, and with them what the opening refuses.
const REFUSED = [
    { stages: '9' },
    { r: '0' },
    { r: '4097' },
    { stages: '8', r: '15' },
    { taps: '1 2', factor: '0' },
    { taps: '1 '.repeat(129).trim(), factor: '1' },
    { depth: '7' },
    { phases: '1', order: 'laid', prototype: '1' },
    { phases: '2', phase_taps: '17', order: 'laid', prototype: '1' },
    { phases: '2', phase_taps: '2', order: 'laid', prototype: '1 2 3' },
    { phases: '2', phase_taps: '1', step: '0', order: 'laid', prototype: '1 0' },
    { r: '48', thinning: 'neighbours' },
    { r: 'x' },
    { taps: '1 32768', factor: '1' },
];
const DEFAULTS = { stages: '1', r: '4', depth: '0', phases: '0' };

// The same settings in a file, for the tool.
const fileOf = (fields) => {
    const named = { ...DEFAULTS, ...fields };
    delete named.order;
    const resampler = named.phases === '0' ? {} : { phase_taps: '2', step: '1' };
    return Object.entries({ ...resampler, ...named }).map(([name, value]) => `${name} = ${value}\n`).join('');
};

export const refusals = async (browser, tool) => {
    for (const fields of REFUSED) {
        await browser.fill({ preset: 'mean of four samples', ...fields });
        const file = tool.file('refused.settings', fileOf(fields));
        const { err, status } = tool.gauge('explain', file);
        is(`${JSON.stringify(fields)} is refused`, status === 2);
        const wanted = err.trim().replace(/^.*refused\.settings:\d+: /, '');
        same(JSON.stringify(fields), wanted, await browser.text('settings-fault'));
        const marked = await browser.value(`Array.from(document.querySelectorAll('[aria-invalid="true"]'), (field) => field.id).join(' ')`);
        is(`${wanted}: ${marked} is marked`, wanted.startsWith(marked) || wanted.startsWith(`no ${marked}`));
    }
    await browser.choose('preset', 'mean of four samples');
    same('no fault', '', await browser.text('settings-fault'));
};

const cells = (browser, id) =>
    browser.value(`Array.from(document.getElementById('${id}').rows, (row) => Array.from(row.cells, (cell) => cell.textContent))`);

const explained = async (browser, tool) => {
    const settings = await tool.saved(browser, 'settings', 'gauge.settings');
    return tool.gauge('explain', settings).out;
};

export const ranges = async (browser, tool) => {
    for (const preset of ['three stages, r = 64: sums come round', 'every section, a level every 48 samples']) {
        await browser.choose('preset', preset);
        const text = await explained(browser, tool);
        for (const [what, least, greatest] of await cells(browser, 'ranges')) {
            const row = `${what.padEnd(36)}${least.padStart(12)}${greatest.padStart(12)}`;
            is(`${row} is not in\n${text}`, text.includes(row));
        }
        is('values are cut from', text.includes(await browser.text('cuts')));
        const warning = text.split('\n').find((line) => line.startsWith('Warning: ') && line.includes('gain bits')) ?? '';
        same('full scale', warning, await browser.text('full-scale'));
        for (const [name, perValue, , gain] of await cells(browser, 'sections')) {
            const row = text.split('\n').find((line) => line.startsWith(name)).split(/\s{2,}/);
            is(`${row} and ${name}, ${perValue}, ${gain}`, row[1] === perValue && row[4] === gain);
        }
    }
};

const RAMPS = [
    { phases: '16', phase_taps: '2', step: '0.9375', order: 'straight' },
    { phases: '16', phase_taps: '2', step: '0.93', order: 'straight' },
    { phases: '4', phase_taps: '2', step: '0.75', order: 'laid', prototype: '0 0.25 0.5 0.75 1 0.75 0.5 0.25' },
    { phases: '4', phase_taps: '2', step: '0.75', phase: 'straight', order: 'straight' },
    { phases: '16', phase_taps: '8', step: '1', order: 'sinc' },
];

export const ramps = async (browser, tool) => {
    for (const fields of RAMPS) {
        await browser.fill({ preset: 'mean of four samples', ...fields });
        const lines = (await explained(browser, tool)).split('\n');
        const at = lines.findIndex((line) => line.startsWith('Ramp: '));
        same(JSON.stringify(fields), lines[at], await browser.text('ramp-said'));
        const warning = lines[at + 1].startsWith('Warning: ') ? lines[at + 1] : '';
        same(JSON.stringify(fields), warning, await browser.text('ramp-warning'));
    }
};

export const plans = async (browser, tool) => {
    await browser.choose('preset', 'every section, a level every 48 samples');
    const settings = await tool.saved(browser, 'settings', 'gauge.settings');
    for (const [piece, span] of [['64x6', '2'], ['100', '1x5'], ['1x3,500,0', '9x4,0'], ['65536x4096', '7']]) {
        await browser.fill({ piece, span });
        const { out } = tool.gauge('plan', settings, '--piece', piece, '--span', span);
        const rows = (await cells(browser, 'plan-table')).slice(1).map((row) => row.join(' '));
        const wanted = out.trim().split('\n');
        const verdict = wanted.pop();
        same(`${piece} ${span}`, wanted.slice(1).map((row) => row.trim().split(/\s+/).join(' ')).join('\n'), rows.join('\n'));
        same(`${piece} ${span}`, verdict, await browser.text('plan-said'));
    }
    for (const [piece, span] of [['1x2', '1x3'], ['65537', '1'], ['1x4097', '1']]) {
        await browser.fill({ piece, span });
        const { err } = tool.gauge('plan', settings, '--piece', piece, '--span', span);
        same(`${piece} ${span}`, err.trim().replace(/^gauge: /, '').replace(/; gauge --help.*/, ''), await browser.text('plan-fault'));
    }
    await browser.type('piece', '64x6');
};

// The tool's figures of a depth are of the cascade alone, which this line is.
const depths = async (browser, tool) => {
    for (const depth of ['1', '2', '3', '4', '5']) {
        await browser.type('depth', depth);
        const text = (await explained(browser, tool)).replaceAll('-', '−');
        const figures = ['worst alias into 0 to 0.4', 'level at 0.4'].map((name) => text.match(new RegExp(`${name} +(.*)`))[1]);
        const wanted = `Worst alias into 0 to 0.4 of the rate of levels: ${figures[0]}. Level at 0.4 of the rate of levels: ${figures[1]}.`;
        same(`depth ${depth}`, wanted, (await browser.text('aliases-said')).replace('−0.0 dB', '0.0 dB'));
    }
};

// A tone through the proved line is as strong as the response says, also where it folds down.
const tones = async (browser) => {
    for (const preset of ['tail channel: a level every 15 seconds', 'every section, a level every 48 samples']) {
        await browser.choose('preset', preset);
        for (const turns of ['0.0005', '0.002', '0.009', '0.0165', '0.021']) {
            await browser.type('tone', turns);
            const [computed, measured] = (await browser.value(`document.getElementById('tone-said').dataset.gains`)).split(' ');
            const off = Math.abs(computed - measured);
            is(`${preset}, ${turns}: ${computed} and ${measured}`, off < 0.003 * computed + 0.0003);
        }
    }
};

// The tool's response of the same line, at the places at which the page looks: from 0 to half the rate of levels.
const PLACES = 200;
const bands = async (browser, tool) => {
    for (const preset of ['tail channel: a level every 15 seconds', 'every section, a level every 48 samples']) {
        await browser.choose('preset', preset);
        const settings = await tool.saved(browser, 'settings', 'gauge.settings');
        const { out } = tool.gauge('response', settings, '--points', `${PLACES + 1}`);
        const [names, ...rows] = out.trim().split('\n').map((row) => row.split('\t'));
        const column = (name) => rows.slice(0, 0.8 * PLACES + 1).map((row) => Number(row[names.indexOf(name)]));
        const wanted = [Math.max(...column('alias')), column('line').at(-1)];
        const found = (await browser.text('aliases-said')).replaceAll('−', '-').match(/-?[\d.]+(?= dB)/g).map(Number);
        // The page looks images up in a table.
        is(`${preset}: ${found} and ${wanted}`, found.every((level, k) => Math.abs(level - wanted[k]) < 0.2));
    }
};

export const responses = async (browser, tool) => {
    await browser.choose('preset', 'mean of four samples');
    await browser.type('r', '1');
    await depths(browser, tool);
    await bands(browser, tool);
    await browser.type('rate', '');
    await tones(browser);
    await browser.type('tone', '');
};
