// How the page looks and is used: by keyboard, in light and dark, on a phone; labels, contrast and nothing over one another.
import { is, same } from './tool.mjs';

const CONTROLS = `Array.from(document.querySelectorAll('a[href], button, input, select, textarea')).filter((one) => !one.disabled && one.checkVisibility())`;

export const labels = async (browser) => {
    const bare = await browser.value(`Array.from(document.querySelectorAll('input, select, textarea')).filter((one) => one.labels.length === 0 && !one.ariaLabel).map((one) => one.outerHTML)`);
    same('fields without a label', '', bare.join('\n'));
};

// Tab comes to every control, and each shows that it has the focus.
export const keyboard = async (browser) => {
    const count = await browser.value(`${CONTROLS}.length`);
    await browser.value(`(document.activeElement.blur(), scrollTo(0, 0), window.met = new Set(), window.dim = [])`);
    for (let tries = 0; tries < count + 20; tries++) {
        await browser.key('Tab');
        await browser.value(`(() => {
            const one = document.activeElement;
            window.met.add(one);
            if (one !== document.body && getComputedStyle(one).outlineStyle === 'none') {
                window.dim.push(one.outerHTML.slice(0, 80));
            }
        })()`);
    }
    const missed = await browser.value(`${CONTROLS}.filter((one) => !window.met.has(one)).map((one) => one.outerHTML.slice(0, 80)).join('\\n')`);
    same('controls that Tab does not come to', '', missed);
    same('controls that do not show the focus', '', (await browser.value('window.dim')).join('\n'));
};

// A slider by its arrow keys changes the levels.
export const sliders = async (browser) => {
    await browser.choose('preset', 'mean of four samples');
    const before = await browser.text('summary');
    await browser.value(`document.querySelector('[data-setting="stages"] input').focus()`);
    await browser.key('ArrowRight');
    await browser.settled();
    is('stages is 2', (await browser.value(`document.getElementById('stages').value`)) === '2');
    is('the levels changed', (await browser.text('summary')) !== before);
};

// From and to are the ends of the time axis; All shows all of it.
export const zoom = async (browser) => {
    const ticks = () => browser.value(`Array.from(document.querySelectorAll('#trace-chart text[text-anchor="middle"]:not(.name)'), (one) => Number(one.textContent))`);
    await browser.click('example');
    await browser.fill({ from: '1', to: '2' });
    const near = await ticks();
    is(`${near} are within 1 and 2`, near.length > 1 && near.every((one) => one >= 1 && one <= 2));
    await browser.click('all');
    is('all 12 hours', (await ticks()).some((one) => one >= 10));
};

// The contrast of texts on their ground, as WCAG has it.
const CONTRAST = `(() => {
    const canvas = document.createElement('canvas').getContext('2d');
    const parts = (colour) => {
        canvas.fillStyle = colour;
        canvas.fillRect(0, 0, 1, 1);
        return Array.from(canvas.getImageData(0, 0, 1, 1).data.slice(0, 3), (one) => one / 255);
    };
    const light = (colour) => {
        const [r, g, b] = parts(colour).map((one) => (one <= 0.04045 ? one / 12.92 : ((one + 0.055) / 1.055) ** 2.4));
        return 0.2126 * r + 0.7152 * g + 0.0722 * b;
    };
    const ground = (one) => {
        for (let at = one; at; at = at.parentElement) {
            const colour = getComputedStyle(at).backgroundColor;
            if (colour !== 'rgba(0, 0, 0, 0)') {
                return colour;
            }
        }
        return 'white';
    };
    const low = [];
    for (const one of document.querySelectorAll('h1, h2, p, label, button, th, td, a, code, legend, figcaption, svg text')) {
        if (!one.checkVisibility() || one.textContent.trim() === '' || one.closest('.skip')) {
            continue;
        }
        const style = getComputedStyle(one);
        const [a, b] = [light(one instanceof SVGElement ? style.fill : style.color), light(ground(one))];
        const ratio = (Math.max(a, b) + 0.05) / (Math.min(a, b) + 0.05);
        if (ratio < 4.5) {
            low.push(one.tagName + ' ' + one.textContent.trim().slice(0, 30) + ' ' + ratio.toFixed(2));
        }
    }
    return low.join('\\n');
})()`;

// Texts of a chart that lie over one another, or leave the drawing.
const OVERLAPS = `(() => {
    const found = [];
    for (const chart of document.querySelectorAll('svg.chart')) {
        const texts = Array.from(chart.querySelectorAll('text'), (one) => ({ words: one.textContent, box: one.getBoundingClientRect() }));
        for (const [at, { words, box }] of texts.entries()) {
            if (box.width > 0 && (box.left < -1 || box.right > innerWidth + 1)) {
                found.push(chart.id + ': ' + words + ' leaves the page');
            }
            for (const other of texts.slice(at + 1)) {
                const apart = box.right <= other.box.left || other.box.right <= box.left || box.bottom <= other.box.top + 1 || other.box.bottom <= box.top + 1;
                if (!apart) {
                    found.push(chart.id + ': ' + words + ' and ' + other.words);
                }
            }
        }
    }
    return found.join('\\n');
})()`;

const AXES = `Array.from(document.querySelectorAll('svg.chart'), (chart) => chart.id + ': ' + Array.from(chart.querySelectorAll('.name'), (one) => one.textContent).join(', ')).join('\\n')`;

export const pictures = async (browser, tool) => {
    await browser.click('example');
    await browser.choose('preset', 'tail channel: a level every 15 seconds');
    await browser.click('park');
    for (const [name, width, height, scheme] of [['light', 1280, 900, 'light'], ['dark', 1280, 900, 'dark'], ['phone', 390, 844, 'light'], ['phone-dark', 390, 844, 'dark']]) {
        await browser.look(width, height, scheme);
        const wide = await browser.value('document.documentElement.scrollWidth');
        is(`${name}: the page is ${wide} wide`, wide <= width);
        same(`${name}: low contrast`, '', await browser.value(CONTRAST));
        same(`${name}: texts over one another`, '', await browser.value(OVERLAPS));
        await browser.picture(tool.path(`${name}.png`));
    }
    const axes = await browser.value(AXES);
    for (const unit of ['time, hours', 'level, parts of full scale', 'frequency, Hz', 'magnitude, dB']) {
        is(`${unit} is on an axis`, axes.includes(unit));
    }
    await browser.look(1280, 900, 'light');
};
