// The guides that the exported programs name: node --test guides.test.mjs.
import assert from 'node:assert/strict';
import { readFileSync } from 'node:fs';
import { before, test } from 'node:test';
import { load } from '../../bindings/js/module.mjs';
import { LANGUAGES, program } from '../../web/code.mjs';
import { textOf } from '../../web/patterns.mjs';
import { layout } from '../../web/plan.mjs';

before(() => load());

test('a program names its guide, and that of datagrams, by the address that the packages have', () => {
  const { homepage } = JSON.parse(readFileSync(new URL('../../bindings/js/package.json', import.meta.url)));
  const guides = { C: 'C', Go: 'GO', Rust: 'RUST', JavaScript: 'JAVASCRIPT', Python: 'PYTHON' };
  const setup = { prologue: 'p', interval: 0, window: 64, text: textOf('XX') };
  for (const language of LANGUAGES) {
    for (const mode of ['transport', 'stream', 'datagrams']) {
      for (const role of [undefined, 'initiator', 'responder']) {
        const { name, text } = program(language, layout(setup.text), { ...setup, mode }, role);
        const named = text.match(/\S*\w+\.md/g);
        const all = [guides[language], ...(role && mode === 'datagrams' ? ['UDP'] : [])];
        assert.deepEqual(named.sort(), all.map((it) => `${homepage}/docs/${it}.md`).sort(), `${name}, ${mode}`);
      }
    }
  }
});
