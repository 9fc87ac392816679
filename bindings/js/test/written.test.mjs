// What was written to `writable`, and isn't awaited, is sent before the end of the stream, or there is no end.
import test from 'node:test';
import assert from 'node:assert/strict';
import { load } from '../noise.mjs';
import { channels, openSockets, outcome, overTcp, pair, text } from './connections.mjs';

const roomy = () => pair({ highWaterMark: 1e6 }, { highWaterMark: 1e6 });
const KINDS = { TCP: overTcp, streams: roomy, WebSocket: openSockets };

/** All that comes as text, and what ends it: undefined, or a code. */
async function received(channel) {
  let got = '';
  try {
    for await (const payload of channel) got += new TextDecoder().decode(payload);
    return [got, undefined];
  } catch (error) {
    return [got, error.code];
  }
}

test('what was written', { timeout: 300000 }, async (t) => {
  await load();

  for (const [kind, connect] of Object.entries(KINDS)) {
    for (const [how, isUsed] of [['end', false], ['end', true], ['close', false], ['close', true]]) {
      const when = isUsed ? 'a used writable' : 'a new writable';
      await t.test(`${kind}, ${when}: it comes before ${how}`, async () => {
        const [a, b] = await channels(await connect());
        const writer = a.writable.getWriter();
        if (isUsed) await writer.write(text('0'));
        const writes = ['1', '2', '3'].map((it) => writer.write(text(it)));
        const ending = a[how]();
        assert.deepEqual(await received(b), [isUsed ? '0123' : '123', undefined]);
        await Promise.all([...writes, ending]);
        b.destroy();
        a.destroy();
      });
    }
  }

  for (const how of ['end', 'close']) {
    await t.test(`what can’t be sent is no end: ${how}`, async () => {
      const [a, b] = await channels(await overTcp());
      const writer = a.writable.getWriter();
      const writes = [text('1'), 'no bytes', text('3')].map((it) => outcome(writer.write(it)));
      const ending = how === 'end' ? outcome(a.end()) : a.close({ timeout: 2000 });
      assert.equal((await Promise.all(writes))[1], 'TypeError');
      if (how === 'end') {
        assert.equal(await ending, 'TypeError');
        a.destroy();
      }
      assert.deepEqual(await received(b), ['1', 'NOISE_CUT']);
      await ending;
      b.destroy();
    });
  }

  await t.test('close waits no longer than it may for what isn’t taken, and there is no end then', async () => {
    const [near, far] = pair();
    const [a, b] = await channels([near, far]);
    const writer = a.writable.getWriter();
    const writes = Array.from({ length: 4 }, () => outcome(writer.write(new Uint8Array(1 << 16))));
    await a.close({ timeout: 100 });
    assert.equal((await Promise.all(writes)).at(-1), 'NOISE_CUT');
    assert.equal((await received(b))[1], 'NOISE_CUT');
  });

  await t.test('a signal ends the waiting of end, and nothing else', async () => {
    const [a, b] = await channels(pair());
    const writer = a.writable.getWriter();
    const writes = Array.from({ length: 4 }, () => writer.write(new Uint8Array(1 << 16)));
    const controller = new AbortController();
    setTimeout(() => controller.abort(new Error('too long')), 50);
    await assert.rejects(a.end({ signal: controller.signal }), /too long/u);
    const [got] = await Promise.all([received(b), Promise.all(writes).then(() => a.end())]);
    assert.deepEqual([got[0].length, got[1]], [4 << 16, undefined]);
    a.destroy();
    b.destroy();
  });

  const ENDS = {
    'the end': (writer) => writer.close(),
    'an abort': (writer) => writer.abort(new Error('given up')),
    'an error': (writer) => writer.write('no bytes'),
  };
  for (const [name, finish] of Object.entries(ENDS)) {
    await t.test(`end doesn’t wait for what is written after ${name} of writable, and is refused`, async () => {
      const [a, b] = await channels(await overTcp());
      const writer = a.writable.getWriter();
      writer.closed.catch(() => {});
      await writer.write(text('first'));
      const late = async () => writer.write(text('late'));    // Node throws it after the end
      const settled = [finish(writer), Promise.resolve().then(late), late(), a.end()].map((it) => outcome(it, 20000));
      assert.ok(!(await Promise.all(settled)).includes('pending'));
      assert.notEqual(await outcome(a.end(), 20000), 'pending');
      a.destroy();
      b.destroy();
    });
  }
});
