// The recording: files that are dropped or chosen, the bundled example, and how it is read.
import { formatOf, recordingOf, tailChannel } from './recording.js';
import { counted } from './number.js';
import { ends } from './tally.js';
import { at, made } from './view.js';

const SETTINGS = /^\s*(stages|r)\s*=/m;
const BESIDE = ['taps', 'prototype', 'rows'];

// What a file is for: settings, a sheet, numbers that settings name, or a recording.
const purpose = (name, bytes) => {
    const ending = name.toLowerCase().replace(/.*\./, '');
    if (ending === 'sheet' || ending === 'parked') {
        return 'sheet';
    }
    const isText = bytes.length < 65536 && SETTINGS.test(new TextDecoder().decode(bytes));
    if (ending === 'settings' || isText) {
        return 'settings';
    }
    return BESIDE.includes(ending) ? 'beside' : 'recording';
};

const choose = (app) => {
    const { choices, choice } = app.recording;
    const select = at('choice');
    select.replaceChildren(...choices.map((name, place) => made('option', name, { value: place })));
    select.disabled = choices.length < 2;
    select.value = String(choice);
};

// Reads the source again by the format and the choice that are set.
export const readAgain = (app, choice) => {
    const { source } = app;
    at('recording-fault').textContent = '';
    if (source.bytes) {
        const format = at('format').value || formatOf(source.name, source.bytes);
        app.recording = recordingOf({ file: source.name, bytes: source.bytes, format, choice });
    } else {
        app.recording = tailChannel();
    }
    at('rate').value = app.recording.rate ?? at('rate').value;
    choose(app);
    app.samplesChanged();
};

// The samples as the line gets them: divided by 2^shift and rounded down.
export const shifted = (app) => {
    const shift = Math.min(31, Math.max(0, Math.trunc(Number(at('shift').value)) || 0));
    const { samples } = app.recording;
    return shift === 0 ? samples : samples.map((sample) => sample >> shift);
};

export const rateGiven = () => {
    const rate = Number(at('rate').value);
    return rate > 0 && Number.isFinite(rate) ? rate : null;
};

export const tellRecording = (app) => {
    const { samples } = app;
    const { least, greatest } = ends(samples);
    const range = samples.length > 0 ? ` from ${least} to ${greatest}` : '';
    at('recording-said').textContent = `${app.source.name}: ${counted(samples.length, 'sample')}${range}`;
};

const guarded = (work) => {
    try {
        work();
    } catch (why) {
        at('recording-fault').textContent = why.message;
    }
};

// Takes files in: settings after those that they may name.
const take = async (app, files) => {
    const read = await Promise.all(
        Array.from(files, async (file) => ({ name: file.name, bytes: new Uint8Array(await file.arrayBuffer()) })),
    );
    read.forEach(({ name, bytes }) => app.files.set(name, bytes));
    for (const { name, bytes } of read) {
        const kind = purpose(name, bytes);
        guarded(() => {
            if (kind === 'settings') {
                app.takeSettings(name, new TextDecoder().decode(bytes));
            } else if (kind === 'sheet') {
                app.showSheet(name, bytes);
            } else if (kind === 'recording') {
                app.source = { name, bytes };
                at('rate').value = '';
                readAgain(app);
            }
        });
    }
    // Reading takes its time: who waits for it sees here that it is done.
    document.body.dataset.taken = String(Number(document.body.dataset.taken ?? 0) + 1);
};

const dropping = (app) => {
    const zone = at('drop');
    const over = (event, is) => {
        event.preventDefault();
        zone.classList.toggle('over', is);
    };
    // A file that misses the zone is taken too: else the browser would leave the page for it.
    document.addEventListener('dragover', (event) => over(event, true));
    document.addEventListener('dragleave', (event) => over(event, false));
    document.addEventListener('drop', (event) => {
        over(event, false);
        take(app, event.dataTransfer.files);
    });
};

export const wireRecording = (app) => {
    dropping(app);
    at('file').addEventListener('change', (event) => take(app, event.target.files));
    at('example').addEventListener('click', () => {
        app.source = { name: 'tail channel', bytes: null };
        readAgain(app);
    });
    at('choice').addEventListener('change', () => guarded(() => readAgain(app, Number(at('choice').value))));
    at('format').addEventListener('change', () => guarded(() => readAgain(app)));
    for (const id of ['rate', 'shift']) {
        at(id).addEventListener('input', app.samplesChanged);
    }
};
