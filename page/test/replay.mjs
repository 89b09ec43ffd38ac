// replay.mjs WASM RECORDING: the replay without a browser.
import { readFileSync } from "node:fs";
import { replay, sentence } from "./calls.js";

// plain arrays: a Buffer's slices are no copies
const [module, recording] = process.argv.slice(2).map(file => new Uint8Array(readFileSync(file)));
console.log(sentence(await replay(module, recording)));
