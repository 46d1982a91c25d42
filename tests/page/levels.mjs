// Levels, summaries and warnings of the page against those of `gauge run`, byte for byte of the text.
import { join } from 'node:path';
import { is, same } from './tool.mjs';

// The tool's words, with its option in the place of the page's field.
const byOption = (text) => text.replace('Shift ', '--shift ');

// What the page tells of a run, as the tool ends.
const ending = async (browser) => {
    const warnings = await browser.value(`Array.from(document.querySelectorAll('#warnings li'), (item) => item.textContent)`);
    const lines = [await browser.text('summary'), ...warnings.map((warning) => `warning: ${byOption(warning)}`)];
    return lines.map((line) => `gauge: ${line}\n`).join('');
};

// The page's levels are those of the tool over the settings that the page saves.
const compared = async (browser, tool, words, kind = 'levels', name = 'levels.txt') => {
    const settings = await tool.saved(browser, 'settings', 'gauge.settings');
    await tool.saved(browser, kind, name);
    const { out, err, status } = tool.gauge('run', '--settings', settings, ...words);
    is(`gauge run ${words.join(' ')}: ${err}`, status === 0);
    same(`levels of ${words.join(' ')}`, out, tool.read(name).toString());
    same(`ending of ${words.join(' ')}`, err, await ending(browser));
    return out;
};

export const bundledExample = async (browser, tool) => {
    const demo = tool.run(join(tool.target, 'host/cargo/release/demo'), [join(process.cwd(), 'examples/demo/tail.settings'), '.']);
    is(demo.err, demo.status === 0);
    await browser.click('example');
    const levels = await compared(browser, tool, ['recording.txt']);
    const settings = join(process.cwd(), 'examples/demo/tail.settings');
    same('levels of tail.settings', tool.gauge('run', '--settings', settings, 'recording.txt').out, levels);
    const said = await browser.text('holding-said');
    const agree = demo.out.match(/The two agree .*/)[0];
    is(`${said} is not ${agree}`, said.startsWith(agree));
    is(said, said.includes('with sample 190862, after 6 h 37 min'));
};

export const csvByDrop = async (browser, tool) => {
    const rows = Array.from({ length: 40 }, (_, at) => `2026-11-16 13:00:${at};${(at * 731) % 9000},0;11,5`);
    const csv = tool.file('logger.csv', `time;cell 3;temperature\n${rows.join('\n')}\n`);
    await browser.choose('preset', 'mean of four samples');
    await browser.drop('drop', [csv]);
    await browser.type('rate', '1');
    is('the column', (await browser.value(`document.getElementById('choice').selectedOptions[0].textContent`)) === 'cell 3');
    await compared(browser, tool, ['logger.csv', '--column', 'cell 3', '--rate', '1'], 'csv', 'levels.csv');
    await compared(browser, tool, ['logger.csv', '--column', 'cell 3', '--out-format', 'text']);
};

// Two channels of 24 bits.
const wav = (count) => {
    const bytes = Buffer.alloc(44 + 6 * count);
    bytes.write('RIFF\0\0\0\0WAVEfmt \x10\0\0\0\x01\0\x02\0', 'latin1');
    bytes.writeUInt32LE(8000, 24);
    bytes.writeUInt16LE(6, 32);
    bytes.writeUInt16LE(24, 34);
    bytes.write('data', 36);
    bytes.writeUInt32LE(6 * count, 40);
    for (let at = 0; at < 2 * count; at++) {
        bytes.writeIntLE(((at * 7919 * (at + 3)) % 16777216) - 8388608, 44 + 3 * at, 3);
    }
    return bytes;
};

export const wavByDialog = async (browser, tool) => {
    await browser.files('file', [tool.file('two.wav', wav(500))]);
    is('the rate', (await browser.value(`document.getElementById('rate').value`)) === '8000');
    await browser.choose('choice', '1');
    await compared(browser, tool, ['two.wav', '--channel', '2']);
    is('cut values are warned of', (await ending(browser)).includes('--shift 8 brings them within'));
    await browser.type('shift', '8');
    await compared(browser, tool, ['two.wav', '--channel', '2', '--shift', '8']);
    await browser.type('shift', '0');
};

// Settings as they are typed: the fields of the form.
const TYPED = [
    { stages: '3', r: '5', taps: '100 -2000 30000, 8000', factor: '3', depth: '5', phases: '0' },
    { stages: '2', r: '7', taps: '', depth: '1', phases: '16', phase_taps: '4', step: '1.7', order: 'sinc' },
    { stages: '1', r: '1', taps: '16384 16384', factor: '1', depth: '0', phases: '4', phase_taps: '2', step: '1', phase: 'straight' },
    { stages: '1', r: '2', taps: '', depth: '3', phases: '3', phase_taps: '2', step: '0.1', order: 'rows', prototype: '0 1\n.1 1.1\n.2 1.2' },
    { stages: '4', r: '8', taps: '', depth: '0', phases: '2', phase_taps: '2', step: '64', order: 'natural', prototype: '0 0.5 1 0.5' },
    { stages: '3', r: '64', taps: '', depth: '0', phases: '0' },
    { stages: '3', r: '32', thinning: 'neighbours', taps: '16384 16384', factor: '2', depth: '1', phases: '0' },
];

// Noise of 14 bits, and some samples past every end.
const noise = () => {
    let seed = 1;
    const next = () => (seed = (seed * 48271) % 2147483647);
    const samples = Array.from({ length: 30000 }, (_, at) => (next() % 16384) - 8192 + (at % 997 === 0 ? 60000 : 0));
    return `# noise\n${samples.join('\n')}\n`;
};

export const typedSettings = async (browser, tool) => {
    await browser.files('file', [tool.file('noise.txt', noise())]);
    for (const fields of TYPED) {
        await browser.fill({ preset: 'mean of four samples', ...fields });
        same('no fault', '', await browser.text('settings-fault'));
        await compared(browser, tool, ['noise.txt']);
    }
};

// Floats as text: powers of two, of which some have their shortest digits away from the nearest ones, and their neighbours.
export const floats = async (browser, tool) => {
    const bits = [260046848, 1795162112, 1820327936, 1, 0x80000000, 0x7f7fffff, ...Array.from({ length: 58 }, (_, k) => (k + 70) * 0x01ffffff)];
    const view = new DataView(new ArrayBuffer(4));
    const numbers = bits.map((one) => {
        view.setUint32(0, one);
        return view.getFloat32(0).toPrecision(12);
    });
    tool.file('floats.txt', numbers.join('\n'));
    const { out } = tool.gauge('phases', 'floats.txt', '--by-phase', '--phases', '64', '--phase-taps', '1');
    const fields = { phases: '64', phase_taps: '1', step: '1', order: 'laid', prototype: numbers.join(' ') };
    await browser.fill({ preset: 'mean of four samples', ...fields });
    await tool.saved(browser, 'settings', 'gauge.settings');
    const saved = tool.read('gauge.settings').toString();
    same('floats', out.trim().split('\n').join(' '), saved.match(/prototype = (.*)/)[1]);
};

// A settings file with the files that it names, an entry of a sheet among them.
export const droppedSettings = async (browser, tool) => {
    tool.file('smooth.taps', '# four\n8192 8192\n8192 8192\n');
    tool.file('between.prototype', '1 0.75 0.5 0.25\n0 0.25 0.5 0.75\n');
    tool.gauge('sheet', 'pack', '--taps', 'smooth.taps', '--prototype', 'between.prototype', '--out', 'works.sheet');
    const rest = 'factor = 2 # every second\nphases = 4\nphase_taps = 2\nprototype = works.sheet#1\nstep = 0.75\n';
    const text = `stages = 2\nr = 3\ntaps = smooth.taps\n${rest}`;
    const names = ['works.settings', 'smooth.taps', 'works.sheet'];
    tool.file('works.settings', text);
    await browser.drop('drop', names.map((name) => tool.path(name)));
    const levels = await compared(browser, tool, ['noise.txt']);
    same('works.settings', tool.gauge('run', '--settings', 'works.settings', 'noise.txt').out, levels);
};
