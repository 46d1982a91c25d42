// test.mjs TARGET: drives target/page/gauge.html in Chromium and compares what it shows and saves with what `gauge` prints.
import { createHash } from 'node:crypto';
import { mkdirSync, mkdtempSync, readFileSync, rmSync } from 'node:fs';
import { tmpdir } from 'node:os';
import { join } from 'node:path';
import { Browser } from './browser.mjs';
import * as kept from './kept.mjs';
import * as levels from './levels.mjs';
import * as look from './look.mjs';
import * as told from './told.mjs';
import { Tool, is, same } from './tool.mjs';

const target = process.argv[2];
const folder = join(target, 'page/test');

// The strip says the digest of the bytes that the page runs.
const digest = async (browser) => {
    const bytes = readFileSync(join(target, 'page/gauge.wasm'));
    same('digest', createHash('sha256').update(bytes).digest('hex'), await browser.text('digest'));
    same('version', readFileSync('VERSION', 'utf8').trim(), await browser.text('version'));
};

// Nothing was asked of a network, and nothing broke.
const quiet = async (browser) => {
    const asked = browser.requests.filter((url) => !/^(file|blob|data):/.test(url));
    same('requests', '', asked.join('\n'));
    same('faults of the script', '', browser.faults.join('\n'));
};

// In this order: later ones use recordings and files of earlier ones.
const CHECKS = [
    digest,
    levels.bundledExample, levels.csvByDrop, levels.wavByDialog, levels.typedSettings, levels.floats, levels.droppedSettings,
    told.refusals, told.ranges, told.ramps, told.plans, told.responses,
    kept.parkedLines, kept.tapSheets, kept.refusedSheets, kept.literals,
    look.labels, look.keyboard, look.sliders, look.zoom, look.pictures,
    quiet,
];

const checked = async (browser, tool) => {
    let failed = 0;
    for (const check of CHECKS) {
        const begun = Date.now();
        try {
            await check(browser, tool);
            console.log(`page: ${check.name} (${Date.now() - begun} ms)`);
        } catch (why) {
            failed += 1;
            console.log(`page: ${check.name}: ${why.message}`);
        }
    }
    is(`page: ${failed} failed`, failed === 0);
};

rmSync(folder, { recursive: true, force: true });
mkdirSync(folder, { recursive: true });
const profile = mkdtempSync(join(tmpdir(), 'gauge-page-'));
const browser = new Browser('chromium', profile);
try {
    await browser.open(`file://${join(target, 'page/gauge.html')}`, folder);
    await checked(browser, new Tool(target, folder));
} catch (why) {
    console.error(why.message);
    process.exitCode = 1;
} finally {
    await browser.close();
    rmSync(profile, { recursive: true, force: true });
}
