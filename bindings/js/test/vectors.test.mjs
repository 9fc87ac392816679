// The module against the vector files of examples/vectors/ that say what has to be printed; those lines were computed
// by a program of another kind.
import { readFileSync, readdirSync } from 'node:fs';
import test from 'node:test';
import assert from 'node:assert/strict';
import { load } from '../noise.mjs';
import { parse, replay } from './replay.mjs';

/** Files about what the command does around the library, and this module doesn't. */
const ELSEWHERE = {
  'no-dh-result.vector': 'where a key has no DH result the command ends the session; here the program does',
  'no-datagrams.vector': 'here a handshake becomes a transport or datagrams, never one after the other',
};

await load();
const folder = new URL('../../../examples/vectors/', import.meta.url);
let count = 0;
for (const name of readdirSync(folder).filter((it) => it.endsWith('.vector')).sort()) {
  const file = parse(readFileSync(new URL(name, folder), 'utf8'));
  if (file.expect.length === 0 || name === 'unmet.vector') continue;
  count += 1;
  test(name, async (t) => {
    if (ELSEWHERE[name]) return t.skip(ELSEWHERE[name]);
    try {
      assert.deepEqual(await replay(file), file.expect);
    } catch (error) {
      if (error.message !== 'not one frame') throw error;
      t.skip('it has bytes that are no whole frame');
    }
    return undefined;
  });
}
test('there are files', () => assert.ok(count >= 5, `${count} files`));
