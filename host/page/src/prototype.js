// Prototypes of a resampler: one in natural order laid as the resampler reads it, and two that the page makes.

// h[(t + 1) × P − p] at t × P + p: the row of each tap backwards. h may have one number more; a list of any other
// length comes back as it is, for the opening to refuse.
export const laid = (natural, phases, taps) => {
    const count = phases * taps;
    if (natural.length !== count && natural.length !== count + 1) {
        return natural;
    }
    const place = (at) => (Math.floor(at / phases) + 1) * phases - (at % phases);
    return Array.from({ length: count }, (_, at) => natural[place(at)] ?? 0);
};

// Straight lines between neighbours, in natural order: from 0 up to 1 at P and down again. Further taps are 0.
export const straightLines = (phases, taps) => {
    const height = (at) => Math.max(0, 1 - Math.abs(at - phases) / phases);
    return Array.from({ length: phases * taps }, (_, at) => Math.fround(height(at)));
};

// A sinc under a Hamming window, in natural order, each phase with a gain of 1. It passes what a step over 1 leaves
// room for.
export const windowedSinc = (phases, taps, step) => {
    const middle = (phases * taps) / 2;
    const cut = Math.min(1, 1 / step);
    const height = (at) => {
        const x = (Math.PI * cut * (at - middle)) / phases;
        const window = 0.54 + 0.46 * Math.cos((Math.PI * (at - middle)) / middle);
        return window * (x === 0 ? 1 : Math.sin(x) / x);
    };
    const all = Array.from({ length: phases * taps }, (_, at) => height(at));
    const sums = Array.from({ length: phases }, () => 0);
    all.forEach((tap, at) => {
        sums[at % phases] += tap;
    });
    return all.map((tap, at) => Math.fround(tap / sums[at % phases]));
};
