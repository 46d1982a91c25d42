// A feeding plan: lengths as `64x6,32`, what each call would take and write, and which span would never be full.
import { LIMITS } from './declarations.js';
import { Fault } from './fault.js';
import { planned } from './line.js';
import { front } from './number.js';

// Calls that may be named, so that a slip of the hand fills no memory. The module refuses fewer.
const MOST_NAMED = 65536;

// `64`, one for every call, or `64x20,32,16x3`, a list.
const lengths = (name, text) => {
    const word = text.trim();
    if (/^\d+$/.test(word)) {
        return { every: Number(word), list: null };
    }
    const list = [];
    for (const part of word.split(',')) {
        const [, length, times = '1'] = part.match(/^(\d+)(?:x(\d+))?$/) ?? [];
        if (length === undefined) {
            throw new Fault(`${name} ${front(word)} is not lengths as 64x20,32`);
        }
        if (list.length + Number(times) > MOST_NAMED) {
            throw new Fault(`${name} ${front(word)}: over ${MOST_NAMED} calls`);
        }
        list.push(...new Array(Number(times)).fill(Number(length)));
    }
    return { every: 0, list };
};

// The pieces and spans of every call.
export const calls = (piece, span) => {
    const [pieces, spans] = [lengths('Piece', piece), lengths('Span', span)];
    const count = Math.max(pieces.list?.length ?? 0, spans.list?.length ?? 0) || (pieces.list ?? spans.list ? 0 : 1);
    const of = ({ every, list }) => list ?? new Array(count).fill(every);
    return { pieces: of(pieces), spans: of(spans) };
};

// A refusal of the plan with what passes its limit.
const refused = (refusal, { pieces, spans }) => {
    if (!refusal.number) {
        return refusal;
    }
    const long = (list) => list.find((length) => length > LIMITS.MOST_BLOCK);
    const why = () => {
        if (pieces.length !== spans.length) {
            return `${pieces.length} pieces and ${spans.length} spans`;
        }
        if (pieces.length > LIMITS.MOST_CALLS) {
            return `${pieces.length} calls, at most ${LIMITS.MOST_CALLS}`;
        }
        const [piece, span] = [long(pieces), long(spans)];
        const what = piece !== undefined ? `a piece of ${piece}` : `a span of ${span}`;
        return `${what}, at most ${LIMITS.MOST_BLOCK}`;
    };
    return new Fault(`refusal ${refusal.number}, ${refusal.refusal}: ${why()}`);
};

// The least span that no call fills: one more than what is written with the longest.
const enough = (module, file, pieces) => {
    const longest = pieces.map(() => LIMITS.MOST_BLOCK);
    const span = Math.max(...planned(module, file, pieces, longest).written) + 1;
    return span <= LIMITS.MOST_BLOCK ? `${span} is enough` : `${LIMITS.MOST_BLOCK} is not enough`;
};

const verdict = (module, file, { pieces, spans }, written) => {
    if (spans.length === 0) {
        return 'no calls';
    }
    const full = written.filter((count, at) => count >= spans[at]).length;
    const name = spans.every((span) => span === spans[0]) ? `span ${spans[0]}` : 'the span';
    return `${name} was full in ${full} of ${spans.length} calls; ${enough(module, file, pieces)}`;
};

// A row for each call, and what is to be said of the spans.
export const plan = (module, file, lent) => {
    try {
        const { taken, written } = planned(module, file, lent.pieces, lent.spans);
        const rows = lent.pieces.map((piece, at) => [at + 1, piece, lent.spans[at], taken[at], written[at]]);
        return { rows, said: verdict(module, file, lent, written) };
    } catch (refusal) {
        throw refused(refusal, lent);
    }
};
