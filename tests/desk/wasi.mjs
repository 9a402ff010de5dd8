/* wasi.mjs PROGRAM.wasm ARGUMENTS..: runs a program for WASI in Node, in the folder at hand. */
import { readFileSync } from 'fs';
import { WASI } from 'wasi';

const [program, ...rest] = process.argv.slice(2);
const wasi = new WASI({
    version: 'preview1',
    args: [program, ...rest],
    preopens: { '.': process.cwd() },
    returnOnExit: true,
});
const module = new WebAssembly.Module(readFileSync(program));
const imports = { wasi_snapshot_preview1: wasi.wasiImport };
process.exitCode = wasi.start(new WebAssembly.Instance(module, imports));
