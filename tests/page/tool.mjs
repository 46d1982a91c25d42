// What the checks share: the tool `gauge`, files in a folder of their own, and texts that must be the same.
import { spawnSync } from 'node:child_process';
import { existsSync, readFileSync, rmSync, writeFileSync } from 'node:fs';
import { join } from 'node:path';

export class Tool {
    constructor(target, folder) {
        Object.assign(this, { target, folder });
    }

    path(name) {
        return join(this.folder, name);
    }

    // Puts a file there.
    file(name, content) {
        writeFileSync(this.path(name), content);
        return this.path(name);
    }

    read(name) {
        return readFileSync(this.path(name));
    }

    run(program, words, input) {
        const { status, stdout, stderr, error } = spawnSync(program, words, { cwd: this.folder, input, maxBuffer: 1 << 26 });
        if (error) {
            throw error;
        }
        return { status, out: stdout.toString(), err: stderr.toString() };
    }

    gauge(...words) {
        return this.run(join(this.target, 'host/cargo/release/gauge'), words);
    }

    // What the page saves by a click: the file of this name, all of it.
    async saved(browser, kind, name) {
        rmSync(this.path(name), { force: true });
        await browser.choose('kind', kind);
        await browser.click('save');
        for (let tries = 0; tries < 2400 && !existsSync(this.path(name)); tries++) {
            await new Promise((done) => setTimeout(done, 25));
        }
        return this.path(name);
    }
}

// Two texts are one, or the first line that differs is named.
export const same = (what, wanted, found) => {
    if (wanted === found) {
        return;
    }
    const [a, b] = [wanted.split('\n'), found.split('\n')];
    const at = a.findIndex((line, k) => line !== b[k]);
    throw new Error(`${what}, line ${at + 1}: wanted\n    ${a[at]}\nand found\n    ${b[at < 0 ? a.length : at]}`);
};

export const is = (what, true_) => {
    if (!true_) {
        throw new Error(what);
    }
};
