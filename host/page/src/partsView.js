// The ramp through the resampler, and the feeding plan.
import { draw, legend, roomy } from './chart.js';
import { calls, plan } from './plan.js';
import { rampShown, rampTold } from './ramp.js';
import { at, fill } from './view.js';

const RAMP = 24;

export const showRamp = (app) => {
    const on = app.file.settings.phases > 0n;
    at('ramp-chart').parentElement.hidden = !on;
    const { said, warning } = on ? rampTold(app.module, app.file) : { said: 'The resampler is off.', warning: null };
    at('ramp-said').textContent = said;
    at('ramp-warning').textContent = warning ? `Warning: ${warning}` : '';
    if (!on) {
        return;
    }
    const points = rampShown(app.module, app.file, RAMP);
    const resampler = app.sections[app.sections.length - 1];
    const late = resampler.delay / (resampler.perValue / app.file.settings.step);
    const even = points.map(([time]) => [time, resampler.gain * Math.max(0, time - late)]);
    const series = [
        { name: 'an even rise, as late', colour: 'samples', points: even },
        { name: 'levels of a ramp of 1 a value', colour: 'levels', points },
    ];
    legend(at('ramp-legend'), series);
    const all = series.flatMap((one) => one.points.map(([, y]) => y)).filter(Number.isFinite);
    const y = { ...roomy(Math.min(0, ...all), Math.max(1, ...all)), name: 'level' };
    draw(at('ramp-chart'), { title: 'Levels of a ramp', x: { from: 0, to: RAMP, name: 'time, values' }, y, series });
};

export const showPlan = (app) => {
    const body = at('plan-table').tBodies[0];
    try {
        const { rows, said } = plan(app.module, app.file, calls(at('piece').value, at('span').value));
        fill(body, rows);
        at('plan-said').textContent = said;
        at('plan-fault').textContent = '';
    } catch (fault) {
        fill(body, []);
        at('plan-said').textContent = '';
        at('plan-fault').textContent = fault.message;
    }
};

export const wireParts = (app) => {
    for (const id of ['piece', 'span']) {
        at(id).addEventListener('input', app.viewChanged);
    }
};
