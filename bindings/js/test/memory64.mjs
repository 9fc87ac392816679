// Loads the module with 64-bit memory for the tests: node --import memory64.mjs --test ..
import { readFile } from 'node:fs/promises';
import { load } from '../noise.mjs';

await load(await readFile(new URL('../../../dist/noise_c.wasm', import.meta.url)));
