// A page in headless Chromium, driven over the pipe of its DevTools protocol: what a reader does with mouse, keyboard and files, and what he sees.
import { spawn } from 'node:child_process';
import { writeFileSync } from 'node:fs';

const FLAGS = ['--headless=new', '--no-sandbox', '--disable-gpu', '--no-first-run', '--remote-debugging-pipe', '--hide-scrollbars'];
const KEYS = { Tab: 9, ArrowRight: 39, ArrowLeft: 37, Enter: 13, Space: 32 };

export class Browser {
    constructor(program, profile) {
        const words = [...FLAGS, `--user-data-dir=${profile}`, 'about:blank'];
        this.process = spawn(program, words, { stdio: ['ignore', 'ignore', 'ignore', 'pipe', 'pipe'] });
        this.waiting = new Map();
        this.requests = [];
        this.faults = [];
        this.sent = 0;
        let rest = '';
        this.process.stdio[4].setEncoding('utf8').on('data', (text) => {
            const messages = (rest + text).split('\0');
            rest = messages.pop();
            messages.forEach((message) => this.receive(JSON.parse(message)));
        });
    }

    receive({ id, result, error, method, params }) {
        if (id !== undefined) {
            const { done, failed, sent } = this.waiting.get(id);
            this.waiting.delete(id);
            return error ? failed(new Error(`${sent}: ${error.message}`)) : done(result);
        }
        if (method === 'Network.requestWillBeSent') {
            this.requests.push(params.request.url);
        }
        if (method === 'Runtime.exceptionThrown') {
            this.faults.push(params.exceptionDetails.exception?.description ?? params.exceptionDetails.text);
        }
        return undefined;
    }

    send(method, params = {}) {
        const id = ++this.sent;
        this.process.stdio[3].write(`${JSON.stringify({ id, method, params, sessionId: this.session })}\0`);
        return new Promise((done, failed) => this.waiting.set(id, { done, failed, sent: method }));
    }

    // Opens a file in a tab; saved files go to a folder.
    async open(url, folder) {
        const { targetId } = await this.send('Target.createTarget', { url: 'about:blank' });
        const { sessionId } = await this.send('Target.attachToTarget', { targetId, flatten: true });
        await this.send('Browser.setDownloadBehavior', { behavior: 'allow', downloadPath: folder });
        this.session = sessionId;
        for (const domain of ['Page', 'Runtime', 'Network', 'DOM']) {
            await this.send(`${domain}.enable`);
        }
        await this.send('Network.emulateNetworkConditions', { offline: true, latency: 0, downloadThroughput: 0, uploadThroughput: 0 });
        await this.send('Page.navigate', { url });
        await this.until(`document.readyState === 'complete' && document.getElementById('digest').textContent !== ''`);
        await this.settled();
    }

    // The value of an expression in the page.
    async value(expression) {
        const words = { expression, returnByValue: true, awaitPromise: true };
        const { result, exceptionDetails } = await this.send('Runtime.evaluate', words);
        if (exceptionDetails) {
            throw new Error(`${expression}: ${exceptionDetails.exception?.description ?? exceptionDetails.text}`);
        }
        return result.value;
    }

    text(id) {
        return this.value(`document.getElementById('${id}').textContent`);
    }

    async until(expression) {
        for (let tries = 0; tries < 2400; tries++) {
            const is = await this.value(expression).catch(() => false);
            if (is) {
                return;
            }
            await new Promise((done) => setTimeout(done, 25));
        }
        throw new Error(`never came: ${expression}`);
    }

    settled() {
        return this.until(`document.body.dataset.busy === undefined`);
    }

    // Clicks in the middle of an element.
    async click(id) {
        const place = await this.value(`(() => {
            const element = document.getElementById('${id}');
            element.scrollIntoView({ block: 'center', behavior: 'instant' });
            const { x, y, width, height } = element.getBoundingClientRect();
            return { x: x + width / 2, y: y + height / 2 };
        })()`);
        for (const type of ['mousePressed', 'mouseReleased']) {
            await this.send('Input.dispatchMouseEvent', { type, ...place, button: 'left', clickCount: 1 });
        }
        await this.settled();
    }

    // Types into a field, in the place of what stands there.
    async type(id, text) {
        await this.typed(id, text);
        await this.settled();
    }

    async typed(id, text) {
        await this.value(`(document.getElementById('${id}').focus(), document.getElementById('${id}').select())`);
        await (text === '' ? this.key('Delete') : this.send('Input.insertText', { text }));
    }

    // Chooses of a list.
    async choose(id, value) {
        await this.chosen(id, value);
        await this.settled();
    }

    // Types and chooses one after the other: a field or a list by each name.
    async fill(fields) {
        for (const [id, value] of Object.entries(fields)) {
            const isList = await this.value(`document.getElementById('${id}').tagName === 'SELECT'`);
            await (isList ? this.chosen(id, value) : this.typed(id, value));
        }
        await this.settled();
    }

    async chosen(id, value) {
        await this.value(`(() => {
            const list = document.getElementById('${id}');
            list.focus();
            list.value = ${JSON.stringify(value)};
            list.dispatchEvent(new Event('input', { bubbles: true }));
            list.dispatchEvent(new Event('change', { bubbles: true }));
        })()`);
    }

    async key(key) {
        const code = KEYS[key] ?? 46;
        for (const type of ['keyDown', 'keyUp']) {
            await this.send('Input.dispatchKeyEvent', { type, key, code: key, windowsVirtualKeyCode: code });
        }
    }

    // Chooses files by the dialog of an input.
    async files(id, paths) {
        const { root } = await this.send('DOM.getDocument');
        const { nodeId } = await this.send('DOM.querySelector', { nodeId: root.nodeId, selector: `#${id}` });
        await this.taken(() => this.send('DOM.setFileInputFiles', { nodeId, files: paths }));
    }

    // Drops files on an element.
    async drop(id, paths) {
        await this.value(`document.getElementById('${id}').scrollIntoView({ block: 'center', behavior: 'instant' })`);
        const box = await this.value(`(({ x, y, width, height }) => ({ x: x + width / 2, y: y + height / 2 }))(document.getElementById('${id}').getBoundingClientRect())`);
        const data = { items: [], files: paths, dragOperationsMask: 1 };
        await this.taken(async () => {
            for (const type of ['dragEnter', 'dragOver', 'drop']) {
                await this.send('Input.dispatchDragEvent', { type, ...box, data });
            }
        });
    }

    // Gives files, and waits until the page has read them.
    async taken(give) {
        const before = await this.value(`document.body.dataset.taken`);
        await give();
        await this.until(`document.body.dataset.taken !== ${JSON.stringify(before)}`);
        await this.settled();
    }

    async look(width, height, scheme) {
        await this.send('Emulation.setDeviceMetricsOverride', { width, height, deviceScaleFactor: 1, mobile: width < 600 });
        await this.send('Emulation.setEmulatedMedia', { features: [{ name: 'prefers-color-scheme', value: scheme }] });
        // A chart that is drawn for its width is drawn anew.
        await this.until(`((chart) => chart.viewBox.baseVal.width === chart.clientWidth)(document.getElementById('trace-chart'))`);
        await this.settled();
    }

    async picture(path) {
        const { data } = await this.send('Page.captureScreenshot', { captureBeyondViewport: true, format: 'png' });
        writeFileSync(path, Buffer.from(data, 'base64'));
    }

    async close() {
        this.session = undefined;
        const ended = new Promise((done) => this.process.on('exit', done));
        await this.send('Browser.close').catch(() => {});
        await ended;
    }
}
