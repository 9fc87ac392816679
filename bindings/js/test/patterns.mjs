// The patterns of the standard: the names of the fundamental ones (Noise, 7.4 and 7.5), and the texts of the deferred
// ones (18.1), by name.
import { readFileSync, readdirSync } from 'node:fs';

export const FUNDAMENTAL = ['N', 'K', 'X', 'NN', 'NK', 'NX', 'XN', 'XK', 'XX', 'KN', 'KK', 'KX', 'IN', 'IK', 'IX'];

const folder = new URL('../../../examples/patterns/', import.meta.url);
const names = readdirSync(folder).map((file) => /^([A-Z0-9]+)\.pattern$/u.exec(file)?.[1]).filter(Boolean);
export const DEFERRED = new Map(names.map((name) => [name, readFileSync(new URL(`${name}.pattern`, folder), 'utf8')]));
