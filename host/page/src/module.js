// The proved module in its linear memory: numbers are lent to it as places, arrays and slices, and a function is called
// by the names of its parameters as they are declared.
import { FUNCTIONS, LIMITS, REFUSALS, STATES } from './declarations.js';

const PREFIX = 'gauge_raw_';
const ARRAYS = {
    u8: Uint8Array,
    i16: Int16Array,
    i32: Int32Array,
    u32: Uint32Array,
    i64: BigInt64Array,
    u64: BigUint64Array,
    f32: Float32Array,
};
const PAGE = 65536;
// Every number lies on a multiple of its size.
const ALIGNED = 8;

// A refusal of the module, by its number.
export class Refused extends Error {
    constructor(number) {
        const [name, reason] = REFUSALS[number];
        super(`refusal ${number}, ${name}: ${reason}`);
        this.number = number;
        this.refusal = name;
    }
}

// `combs: &mut [i32; MOST_STAGES]` in its parts. What is lent without a bracket is a place, an array of 1.
const parameter = (declared) => {
    const parts = declared.match(/^(\w+): (&mut |&|)(\[?)(\w+)(?:; (\w+))?\]?$/);
    const [, name, lent, bracket, number, length] = parts;
    const form = !lent ? 'value' : !bracket ? 'place' : length ? 'array' : 'slice';
    return { name, number, form, writable: lent === '&mut ', length: length ? LIMITS[length] : 1 };
};

// Every exported function with its parameters.
const DECLARED = new Map(Object.entries(FUNCTIONS).map(([name, list]) => [name, list.map(parameter)]));

// The name that is exported: a number behind it is that of a state's layout.
const EXPORTED = new Map();
for (const name of DECLARED.keys()) {
    const known = name.slice(PREFIX.length).replace(/_\d+$/, '');
    EXPORTED.set(known, EXPORTED.get(known) ?? name);
}
DECLARED.forEach((_, name) => EXPORTED.set(name.slice(PREFIX.length), name));

// Numbers in the module's memory.
class Lent {
    constructor(module, number, at, length) {
        Object.assign(this, { module, number, at, length });
    }

    // A window on the memory; one that grows leaves it empty.
    get numbers() {
        return new ARRAYS[this.number](this.module.memory.buffer, this.at, this.length);
    }

    get value() {
        return Number(this.numbers[0]);
    }

    copied(length = this.length) {
        return this.numbers.slice(0, length);
    }
}

export class Module {
    constructor(bytes) {
        this.bytes = bytes;
        const { exports } = new WebAssembly.Instance(new WebAssembly.Module(bytes), {});
        this.exports = exports;
        this.memory = exports.memory;
        this.top = exports.__heap_base.value;
    }

    // What is lent inside is free again behind it.
    within(work) {
        const top = this.top;
        try {
            return work();
        } finally {
            this.top = top;
        }
    }

    // Room for so many numbers, all 0.
    room(number, length) {
        const at = Math.ceil(this.top / ALIGNED) * ALIGNED;
        this.top = at + length * ARRAYS[number].BYTES_PER_ELEMENT;
        const missing = this.top - this.memory.buffer.byteLength;
        if (missing > 0) {
            this.memory.grow(Math.ceil(missing / PAGE));
        }
        const lent = new Lent(this, number, at, length);
        lent.numbers.fill(number.endsWith('64') ? 0n : 0);
        return lent;
    }

    lend(number, list) {
        const lent = this.room(number, list.length);
        const wide = number.endsWith('64') ? Array.from(list, BigInt) : list;
        lent.numbers.set(wide);
        return lent;
    }

    parameters(name) {
        return DECLARED.get(EXPORTED.get(name));
    }

    // Room for the fields of a state, which are all that its opening writes.
    state(name) {
        const fields = DECLARED.get(STATES[name]).filter((one) => one.writable);
        return Object.fromEntries(fields.map((one) => [one.name, this.room(one.number, one.length)]));
    }

    // Calls a function with what is lent under the names of its parameters. Refusals are thrown.
    call(name, lent) {
        const words = this.parameters(name).flatMap((one) => this.word(one, lent[one.name], name));
        const answer = Number(this.exports[EXPORTED.get(name)](...words) ?? 0);
        if (answer !== 0) {
            throw new Refused(answer);
        }
    }

    // What crosses for a parameter. A field that is lent goes by its value where that is asked for.
    word({ name, number, form }, lent, called) {
        if (lent === undefined) {
            throw new TypeError(`${called}: nothing is lent as ${name}`);
        }
        if (form === 'value') {
            const value = lent instanceof Lent ? lent.value : lent;
            return number.endsWith('64') ? [BigInt(value)] : [value];
        }
        return form === 'slice' ? [lent.at, BigInt(lent.length)] : [lent.at];
    }
}
