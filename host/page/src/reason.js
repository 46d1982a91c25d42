// Why an opening is refused, in the numbers that were given and those that are allowed.
import { LIMITS } from './declarations.js';

const RANGES = {
    stages: `1 to ${LIMITS.MOST_STAGES}`,
    depth: `at most ${LIMITS.MOST_DEPTH}`,
    phases: `${LIMITS.LEAST_PHASES} to ${LIMITS.MOST_PHASES}, or 0 for no resampler`,
    phase_taps: `1 to ${LIMITS.MOST_PHASE_TAPS}`,
    step: `1/${1 / LIMITS.LEAST_STEP} to ${LIMITS.MOST_STEP}`,
};

// The range of a setting that is one number.
export const range = (name) => RANGES[name] ?? `1 to ${LIMITS.MOST_FACTOR}`;

const SETTINGS = { Stages: 'stages', FirFactor: 'factor', Taps: 'taps', Depth: 'depth', Step: 'step' };

// The setting that a refusal of the opening is about.
export const settingOf = (refusal, { settings, order }) => {
    if (refusal === 'Phases') {
        const { LEAST_PHASES, MOST_PHASES } = LIMITS;
        return settings.phases >= LEAST_PHASES && settings.phases <= MOST_PHASES ? 'phase_taps' : 'phases';
    }
    if (refusal === 'Prototype') {
        return order === 'rows' ? 'prototype_rows' : 'prototype';
    }
    return SETTINGS[refusal] ?? 'r';
};

// The limit that is passed.
export const limit = (refusal, file) => {
    const { settings, taps, prototype } = file;
    if (refusal === 'GainBits') {
        const gain = settings.r ** settings.stages;
        return `${settings.r}^${settings.stages} = ${gain} is over 2^${LIMITS.MOST_GAIN_BITS}`;
    }
    if (refusal === 'PowerOfTwo') {
        // An opening refuses 0 and what is over 4,096 before that.
        const below = 2 ** Math.floor(Math.log2(Number(settings.r)));
        return `a power of two where neighbours thin, as ${below} or ${2 * below}`;
    }
    if (refusal === 'Taps') {
        return `${taps.length} given, at most ${LIMITS.MOST_TAPS}`;
    }
    if (refusal === 'Prototype') {
        const { phases, phase_taps: each } = settings;
        return `${prototype.length} given, ${phases} × ${each} = ${phases * each} wanted`;
    }
    return range(settingOf(refusal, file));
};
