// Runs state.c, linked to a module of its own, on mast.wasm and in its memory: node state.mjs mast.wasm PROGRAM.wasm
import { readFileSync } from "node:fs";

const [, , module, program] = process.argv;
const FIRST = 65536; // from here on the memory is the program's: see run

const library = (await WebAssembly.instantiate(readFileSync(module))).instance.exports;
if (library.__heap_base.value > FIRST) throw Error("what the library keeps for itself reaches into the program");
library.memory.grow(2);
const bytes = Buffer.from(library.memory.buffer);
const env = {
  ...library,
  node_say: (at) => process.stdout.write(bytes.subarray(at, bytes.indexOf(0, at))),
  node_leave: (status) => process.exit(status),
};
(await WebAssembly.instantiate(readFileSync(program), { env })).instance.exports.begin();
