// relay.mjs, in a program of its own: the test runner follows each promise, and takes longer than the channels.
import test from 'node:test';
import assert from 'node:assert/strict';
import { apart } from './connections.mjs';

test(
  'behind a relay that damages one byte or message no end is reported that the theorem on streams doesn’t allow',
  (t) => {
    const { status, stdout, stderr } = apart('relay.mjs');
    assert.equal(status, 0, stderr);
    for (const line of stdout.trim().split('\n')) t.diagnostic(line);
    assert.match(stdout, /^[1-9]\d{3} .* streams\n[1-9]\d{3} .* WebSockets\n$/u);
  },
);
