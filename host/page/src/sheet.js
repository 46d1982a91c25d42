// Tap sheets: their directory, the numbers of an entry, and what is wrong with a sheet that is refused. Whether it is
// refused is the module's to say.
import { LIMITS } from './declarations.js';
import { Fault } from './fault.js';
import { floatText } from './number.js';

const viewOf = (bytes) => new DataView(bytes.buffer, bytes.byteOffset, bytes.byteLength);

export const entriesOf = (count) => (count === 1 ? '1 entry' : `${count} entries`);

// The entry count as it stands, with the mark, if there is one.
const countWord = (bytes) => (bytes.length < 2 ? null : viewOf(bytes).getUint16(0, true));

// Whether the sheet is of the new form, in which empty entries come first.
export const isNew = (bytes) => countWord(bytes) >= LIMITS.SHEET_MARK;

// Offsets and lengths as the directory has them, as many as stand there.
export const pairs = (bytes) => {
    const count = (countWord(bytes) ?? 0) % LIMITS.SHEET_MARK;
    const all = [];
    for (let k = 0; k < count && 10 + 8 * k <= bytes.length; k++) {
        const view = viewOf(bytes);
        all.push({ offset: view.getUint32(2 + 8 * k, true), size: view.getUint32(6 + 8 * k, true) });
    }
    return all;
};

// Why a directory is refused.
const badDirectory = (bytes) => {
    const word = countWord(bytes);
    if (word === null) {
        return `${bytes.length} bytes, too few for an entry count`;
    }
    const count = word % LIMITS.SHEET_MARK;
    if (count > LIMITS.MOST_ENTRIES) {
        return `${count} entries, at most ${LIMITS.MOST_ENTRIES}`;
    }
    return `the directory of ${entriesOf(count)} has ${2 + 8 * count} bytes, the sheet ${bytes.length}`;
};

// Why entry j may not stand behind entry i.
const behind = (bytes, i, before, j, { offset, size }) => {
    const to = before.offset + before.size;
    if (offset < before.offset) {
        return `entry ${j} at ${offset} stands behind entry ${i} at ${before.offset}`;
    }
    if (size > 0 && offset < to) {
        return `entry ${j} at ${offset} begins inside entry ${i} (${before.offset} to ${to})`;
    }
    return null;
};

const emptyBehind = (bytes, i, before, j, { offset, size }) => {
    const wrong = isNew(bytes) && size === 0 && before.offset === offset && before.size > 0;
    return wrong ? `entry ${j} at ${offset} is empty and stands behind entry ${i}, which is not` : null;
};

// The first pair for which the entries are refused.
const badPair = (bytes) => {
    const all = pairs(bytes);
    const data = 2 + 8 * all.length;
    for (const [j, pair] of all.entries()) {
        const end = pair.offset + pair.size;
        if (pair.offset < data) {
            return `entry ${j} at ${pair.offset} begins inside the directory (0 to ${data})`;
        }
        if (end > bytes.length) {
            return `entry ${j} at ${pair.offset} ends at ${end}, past the sheet's end at ${bytes.length}`;
        }
        const before = all.slice(0, j);
        const tell = (why) => before.map((one, i) => why(bytes, i, one, j, pair)).find((said) => said !== null);
        const said = tell(behind) ?? tell(emptyBehind);
        if (said) {
            return said;
        }
    }
    return 'no pair is wrong';
};

// What the tool tells of a sheet that the module refused by this number.
export const sheetFault = (file, bytes, number) => {
    const why = number === 16 ? badDirectory(bytes) : badPair(bytes);
    return new Fault(`${file}: refusal ${number}: ${why}`);
};

// How many entries a sheet has, as the module reads it.
export const sheetCount = (module, file, bytes) =>
    module.within(() => {
        const count = module.room('u64', 1);
        try {
            module.call('sheet_count', { bytes: module.lend('u8', bytes), count });
        } catch (refused) {
            throw refused.number ? sheetFault(file, bytes, refused.number) : refused;
        }
        return count.value;
    });

// An entry as the module hands it out.
const entryOf = (module, file, bytes, k) =>
    module.within(() => {
        const count = sheetCount(module, file, bytes);
        const [offset, size] = [module.room('u64', 1), module.room('u64', 1)];
        try {
            module.call('sheet_entry', { bytes: module.lend('u8', bytes), count, k, offset, size });
        } catch (refused) {
            const why = `no entry ${k}; it has ${entriesOf(count)}`;
            throw refused.number ? new Fault(`${file}: refusal ${refused.number}: ${why}`) : refused;
        }
        return bytes.slice(offset.value, offset.value + size.value);
    });

const KINDS = {
    i16: { width: 2, get: (view, at) => view.getInt16(at, true) },
    f32: { width: 4, get: (view, at) => view.getFloat32(at, true) },
};

// Bytes as numbers, or nothing where they are none.
export const numbersOf = (bytes, number) => {
    const { width, get } = KINDS[number];
    if (bytes.length % width !== 0) {
        return null;
    }
    const view = viewOf(bytes);
    return Array.from({ length: bytes.length / width }, (_, at) => get(view, at * width));
};

// The numbers of an entry of a sheet that a settings file names.
export const sheetNumbers = (module, file, bytes, k, { kind, number, usable }) => {
    const entry = entryOf(module, file, bytes, k);
    const fault = (what) => new Error(`${file}: entry ${k}: ${what}`);
    if (entry.length === 0) {
        throw fault('it is empty');
    }
    const numbers = numbersOf(entry, number);
    if (numbers === null) {
        throw fault(`${entry.length} bytes are no numbers of ${KINDS[number].width} bytes each`);
    }
    const at = numbers.findIndex((one) => !usable(one));
    if (at >= 0) {
        throw fault(`number ${at}, ${floatText(numbers[at])}, is not ${kind}`);
    }
    return numbers;
};

// Every entry with its place, its bytes and what they may be.
export const listed = (module, file, bytes) => {
    const count = sheetCount(module, file, bytes);
    const form = isNew(bytes) ? 'new form' : 'old form';
    const rows = pairs(bytes).map(({ offset, size }, k) => {
        const entry = entryOf(module, file, bytes, k);
        return { k, offset, size, taps: numbersOf(entry, 'i16'), prototype: numbersOf(entry, 'f32') };
    });
    return { head: `${entriesOf(count)} in ${bytes.length} bytes, ${form}`, rows };
};

const joinedBytes = (lists) => {
    const all = new Uint8Array(lists.reduce((sum, list) => sum + list.byteLength, 0));
    let at = 0;
    for (const list of lists) {
        all.set(new Uint8Array(list.buffer, list.byteOffset, list.byteLength), at);
        at += list.byteLength;
    }
    return all;
};

// A sheet of these entries, typed arrays, as the module writes it.
export const written = (module, lists) =>
    module.within(() => {
        const joined = module.lend('u8', joinedBytes(lists));
        const lengths = module.lend('u64', lists.map((list) => list.byteLength));
        const span = module.room('u8', 2 + 8 * lists.length + joined.length);
        const count = module.room('u64', 1);
        module.call('sheet_write', { joined, lengths, span, written: count });
        return span.copied(count.value);
    });
