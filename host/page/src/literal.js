// The settings of a line as C and as Rust, to be put into a program.
import { floatText } from './number.js';

// A float as a literal of either language: with a point, and for C an f behind it.
const floatLiteral = (value, ending = '') => {
    const text = floatText(value);
    return (text.includes('.') ? text : `${text}.0`) + ending;
};

// Words with commas between them, in lines of about 100 letters.
const filled = (words, indent) => {
    const lines = [];
    let line = '';
    for (const word of words) {
        if (line !== '' && indent.length + line.length + word.length > 98) {
            lines.push(line.trimEnd());
            line = '';
        }
        line += `${word}, `;
    }
    return [...lines, line.trimEnd()].map((one) => indent + one).join('\n');
};

const array = (head, words, indent, end) => `${head}\n${filled(words, indent)}\n${end}`;

// The settings, taps and prototype as C has them, and the opening that takes them.
export const inC = ({ settings, taps, prototype }) => {
    const { stages, r, factor, depth, phases, phase_taps: each, step, straight } = settings;
    const members = [`.stages = ${stages}`, `.r = ${r}`, ...(settings.thinning === 1 ? ['.thinning = 1'] : [])];
    const parts = ['#include "gauge_line.h"\n'];
    if (taps.length > 0) {
        members.push(`.factor = ${factor}`);
        parts.push(array(`static const int16_t taps[${taps.length}] = {`, taps.map(String), '    ', '};\n'));
    }
    if (depth > 0n) {
        members.push(`.depth = ${depth}`);
    }
    if (phases > 0n) {
        const rate = `.step = ${floatLiteral(step, 'f')}, .straight = ${straight}`;
        members.push(`.phases = ${phases}`, `.phase_taps = ${each}`, rate);
        const numbers = Array.from(prototype, (tap) => floatLiteral(tap, 'f'));
        parts.push(array(`static const float prototype[${prototype.length}] = {`, numbers, '    ', '};\n'));
    }
    parts.push(array('static const GaugeSettings settings = {', members, '    ', '};\n'));
    const lent = (name, list) => (list.length > 0 ? `${name}, ${list.length}` : 'NULL, 0');
    const words = `&line, &settings, ${lent('taps', taps)}, ${lent('prototype', phases > 0n ? prototype : [])}`;
    parts.push(`// uint64_t refused = GaugeLine_open(${words});`);
    return `${parts.join('\n')}\n`;
};

// The same as Rust has them.
export const inRust = ({ settings, taps, prototype }) => {
    const { stages, r, factor, depth, phases, phase_taps: each, step, phase } = settings;
    const neighbours = settings.thinning === 1 ? ['thinning: gauge_line::Thinning::Neighbours'] : [];
    const members = [`stages: ${stages}`, `r: ${r}`, ...neighbours];
    if (taps.length > 0) {
        members.push(`factor: ${factor}`);
    }
    if (depth > 0n) {
        members.push(`depth: ${depth}`);
    }
    if (phases > 0n) {
        const named = phase === 'straight' ? 'Straight' : 'Wrapped';
        members.push(`phases: ${phases}`, `phase_taps: ${each}`, `phase: gauge_line::Phase::${named}`);
        members.push(`step: ${floatLiteral(step)}`);
    }
    const numbers = phases > 0n ? Array.from(prototype, (tap) => floatLiteral(tap)) : [];
    const list = (name, kind, words) =>
        words.length === 0
            ? `pub const ${name}: [${kind}; 0] = [];\n`
            : array(`pub const ${name}: [${kind}; ${words.length}] = [`, words, '    ', '];\n');
    const body = `${filled(members, '        ')}\n        ..gauge_line::Settings::default()`;
    const settled = `pub fn settings() -> gauge_line::Settings {\n    gauge_line::Settings {\n${body}\n    }\n}\n`;
    const opening = '// let line = gauge_line::Line::open(settings(), &TAPS, &PROTOTYPE)?;';
    const lists = [list('TAPS', 'i16', taps.map(String)), list('PROTOTYPE', 'f32', numbers)];
    return `${[...lists, settled, opening].join('\n')}\n`;
};
