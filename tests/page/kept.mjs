// Sheets, parked lines and literals that the page saves, read by the tool, by C and by Rust; and sheets that it is given.
import { join } from 'node:path';
import { readFileSync } from 'node:fs';
import { is, same } from './tool.mjs';

const EVERY = 'every section, a level every 48 samples';

// The rows of the shown entries as `gauge inspect` prints them.
const inspected = (browser) =>
    browser.value(`(() => {
        const lines = [document.getElementById('sheet-said').textContent.replace(/^[^:]*: /, '')];
        for (const entry of document.querySelectorAll('#sheet-entries details')) {
            lines.push(entry.querySelector('summary').textContent);
            for (const row of entry.querySelectorAll('tbody tr')) {
                const [place, name, value] = Array.from(row.cells, (cell) => cell.textContent);
                lines.push(place.padStart(6) + '  ' + name.padEnd(22) + ' ' + value);
            }
        }
        return lines.join('\\n') + '\\n';
    })()`);

export const parkedLines = async (browser, tool) => {
    for (const preset of [EVERY, 'mean of four samples']) {
        await browser.choose('preset', preset);
        const file = await tool.saved(browser, 'parked', 'line.parked');
        await browser.click('park');
        same(`parked, ${preset}`, tool.gauge('inspect', file).out, await inspected(browser));
    }
    await browser.choose('thinning', 'neighbours');
    const file = await tool.saved(browser, 'parked', 'line.parked');
    await browser.click('park');
    same('parked, neighbours', tool.gauge('inspect', file).out, await inspected(browser));
    const settings = await tool.saved(browser, 'settings', 'gauge.settings');
    const wanted = tool.gauge('run', '--settings', settings, 'noise.txt', '--park', 'tool.parked', '--out', 'out.txt');
    is(wanted.err, wanted.status === 0);
    is('the page parks the bytes that the tool parks', tool.read('line.parked').equals(tool.read('tool.parked')));
};

export const tapSheets = async (browser, tool) => {
    await browser.choose('preset', EVERY);
    const sheet = await tool.saved(browser, 'sheet', 'line.sheet');
    const list = tool.gauge('sheet', 'list', sheet).out.trim().split('\n');
    await browser.drop('drop', [sheet]);
    same('head', `line.sheet: ${list[0]}`, await browser.text('sheet-said'));
    const rows = await browser.value(`Array.from(document.querySelector('#sheet-entries table').rows, (row) => Array.from(row.cells, (cell) => cell.textContent).join(' ')).join('\\n')`);
    same('entries', list.slice(1).map((row) => row.trim().split(/\s+/).join(' ')).join('\n'), rows);
    await browser.choose('preset', 'mean of four samples');
    for (const [words, id, numbers] of [['Use as taps', 'taps', '8192 8192 8192 8192'], ['Use as prototype', 'prototype', '1 0.5 0 0.5']]) {
        await browser.value(`Array.from(document.querySelectorAll('#sheet-entries button')).findLast((one) => one.textContent === '${words}' && one.parentElement.textContent.includes('${numbers}')).click()`);
        await browser.settled();
        same(words, numbers, await browser.value(`document.getElementById('${id}').value`));
    }
    same('taps', '8192 8192 8192 8192', tool.gauge('sheet', 'unpack', sheet, '--entry', '0', '--as', 'taps').out.trim().replaceAll('\n', ' '));
};

// A parked line with bytes of an entry changed, for every way in which its fields are refused; and bytes that are no sheet.
const damaged = (parked) => {
    const changed = (entry, at, ...bytes) => {
        const all = Buffer.from(parked);
        all.set(bytes, parked.readUInt32LE(2 + 8 * entry) + at);
        return all;
    };
    return {
        counter: changed(1, 0, 0, 4),
        lengths: changed(0, 0, 9),
        setting: changed(0, 6, 0, 0),
        wait: changed(3, 0, 9, 9),
        held: changed(4, 0, 2),
        mu: changed(6, 0, 0, 0, 128, 191),
        phase: changed(0, 14, 2),
        nan: changed(5, 4, 1, 0, 192, 127),
        short: parked.subarray(0, 40),
        none: Buffer.from([1]),
        pair: Buffer.from([1, 0, 9, 0, 0, 0, 1, 0, 0, 0, 0, 0]),
    };
};

const refusedAs = async (browser, tool, name, bytes) => {
    await browser.drop('drop', [tool.file(`${name}.parked`, bytes)]);
    const { err, status } = tool.gauge('inspect', `${name}.parked`);
    is(`${name} is refused`, status === 2);
    same(name, err.trim(), await browser.text('sheet-fault'));
};

export const refusedSheets = async (browser, tool) => {
    await browser.choose('preset', EVERY);
    await tool.saved(browser, 'parked', 'line.parked');
    for (const [name, bytes] of Object.entries(damaged(tool.read('line.parked')))) {
        await refusedAs(browser, tool, name, bytes);
    }
    // Parts that are off, with a number left in one.
    await browser.choose('preset', 'mean of four samples');
    await tool.saved(browser, 'parked', 'line.parked');
    const off = tool.read('line.parked');
    off.writeUInt16LE(3, off.readUInt32LE(2) + 6);
    await refusedAs(browser, tool, 'off', off);
};

const C = `#include "gauge_settings.h"
#include <stdio.h>

int main(void) {
    static GaugeLine line;
    static float span[4096];
    static int32_t samples[4800];
    uint64_t taken, written;
    OPENING
    for (int at = 0; at < 4800; at++)
        samples[at] = at * 7 % 20000;
    refused += GaugeLine_feed(&line, samples, 4800, span, 4096, &taken, &written);
    for (uint64_t k = 0; k < written; k++)
        printf("%.9g\\n", (double)span[k]);
    return (int)refused;
}
`;

const RUST = `mod gauge_settings;
use gauge_settings::{PROTOTYPE, TAPS, settings};

fn main() {
    let mut line = gauge_line::Line::open(settings(), &TAPS, &PROTOTYPE).unwrap();
    let samples: Vec<i32> = (0..4800).map(|at| at * 7 % 20000).collect();
    let mut span = [0.0; 4096];
    let moved = line.feed(&samples, &mut span).unwrap();
    span[..moved.written].iter().for_each(|level| println!("{level}"));
}
`;

const ramp = Array.from({ length: 4800 }, (_, at) => (at * 7) % 20000).join('\n');

export const literals = async (browser, tool) => {
    await browser.choose('preset', EVERY);
    const settings = await tool.saved(browser, 'settings', 'gauge.settings');
    tool.file('ramp.txt', ramp);
    const { out } = tool.gauge('run', '--settings', settings, 'ramp.txt');
    is('there are levels', out.length > 100);
    const header = readFileSync(await tool.saved(browser, 'c', 'gauge_settings.h'), 'utf8');
    const top = process.cwd();
    tool.file('main.c', C.replace('OPENING', header.match(/\/\/ (uint64_t refused = .*)/)[1]));
    const words = ['-std=c99', '-Wall', '-Wextra', '-Werror', `-I${top}/include`, 'main.c', process.env.GAUGE_ARCHIVE || join(tool.target, 'staticlib/libgauge_line.a'), '-o', 'main'];
    const compiled = tool.run('gcc', words);
    is(compiled.err, compiled.status === 0);
    const floats = (text) => text.trim().split('\n').map((word) => Math.fround(Number(word))).join('\n');
    same('levels in C', floats(out), floats(tool.run('./main', []).out));
    await tool.saved(browser, 'rust', 'gauge_settings.rs');
    tool.file('main.rs', RUST);
    const manifest = `[package]\nname = "saved"\nversion = "0.0.0"\nedition = "2024"\n[[bin]]\nname = "saved"\npath = "main.rs"\n[dependencies]\ngauge-line = { path = "${top}/host/gauge-line" }\n[workspace]\n`;
    tool.file('Cargo.toml', manifest);
    const built = tool.run('cargo', ['run', '--offline', '--quiet', '--target-dir', join(tool.target, 'page/cargo')]);
    same(built.err, out, built.out);
};
