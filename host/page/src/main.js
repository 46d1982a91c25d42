// The page: its module, its recording and its settings, and what is shown of them when one changes.
import { showExport, wireExport } from './exportView.js';
import { run } from './line.js';
import { Module } from './module.js';
import { showPlan, showRamp, wireParts } from './partsView.js';
import { ranges } from './ranges.js';
import { rateGiven, readAgain, shifted, tellRecording, wireRecording } from './recordingView.js';
import { showResponse, wireResponse } from './responseView.js';
import { described, takeSettings, tellSettings, wireSettings } from './settingsView.js';
import { sha256 } from './sha256.js';
import { showSheet, wireSheets } from './sheetView.js';
import { showTrace, wireTrace } from './traceView.js';
import { at } from './view.js';

// Changes that come one behind another within so many milliseconds are shown once.
const WAIT = 20;
const REST = 100;

const decoded = (base64) => Uint8Array.from(atob(base64), (letter) => letter.charCodeAt(0));

// The line again, where a sample or a setting has changed.
const runAgain = (app) => {
    app.rate = rateGiven();
    app.samples = shifted(app);
    tellRecording(app);
    try {
        const file = described(app);
        app.made = run(app.module, file, app.samples);
        app.file = file;
        app.ranges = ranges(app.module, file);
        tellSettings(null);
    } catch (fault) {
        // What is shown stays that of the last settings that were not refused.
        tellSettings(fault);
    }
};

// Levels follow a slider as it moves; the rest is worked out when it rests.
const AT_ONCE = [showTrace];
const AT_REST = [showResponse, showRamp, showPlan, showExport];

const shown = (app, views) => {
    if (app.file) {
        views.forEach((show) => show(app));
    }
};

// Shows what follows from a change, after those that may come right behind it.
const scheduled = (app, isRun) => {
    app.isRun ||= isRun;
    document.body.dataset.busy = 'true';
    clearTimeout(app.timer);
    app.timer = setTimeout(() => {
        if (app.isRun) {
            runAgain(app);
        }
        app.isRun = false;
        shown(app, AT_ONCE);
        app.timer = setTimeout(() => {
            shown(app, AT_REST);
            delete document.body.dataset.busy;
        }, REST);
    }, WAIT);
};

const WIRES = [wireRecording, wireSettings, wireTrace, wireResponse, wireParts, wireSheets, wireExport];

const wired = (app) => {
    app.samplesChanged = () => scheduled(app, true);
    app.settingsChanged = () => scheduled(app, true);
    app.viewChanged = () => scheduled(app, false);
    app.takeSettings = (name, text) => takeSettings(app, name, text);
    app.showSheet = (name, bytes) => showSheet(app, name, bytes);
    WIRES.forEach((wire) => wire(app));
    window.addEventListener('resize', app.viewChanged);
};

export const start = (wasm, version) => {
    const module = new Module(decoded(wasm));
    const app = { module, version, files: new Map(), file: null, source: { name: 'tail channel', bytes: null } };
    at('version').textContent = version;
    at('digest').textContent = sha256(module.bytes);
    wired(app);
    readAgain(app);
};
