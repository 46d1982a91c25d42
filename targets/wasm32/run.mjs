// run.mjs PROGRAM.wasm: runs `outputs` and prints what it puts, texts in its memory that end with a 0.
import { readFileSync, writeFileSync } from 'node:fs';

let memory;
let printed = '';
const put = (from) => {
    const bytes = new Uint8Array(memory.buffer);
    printed += String.fromCharCode(...bytes.subarray(from, bytes.indexOf(0, from)));
};
const program = new WebAssembly.Module(readFileSync(process.argv[2]));
const { exports } = new WebAssembly.Instance(program, { host: { put } });
memory = exports.memory;
exports.outputs();
writeFileSync(1, printed);
