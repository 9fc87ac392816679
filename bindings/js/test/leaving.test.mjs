// A channel that is left: soon, though the other party sends for ever.
import test from 'node:test';
import assert from 'node:assert/strict';
import { load } from '../noise.mjs';
import { channels, outcome, overTcp, pair, text } from './connections.mjs';

/**
 * What becomes of a promise while this program runs for 4 seconds: a channel closes in some 200 ms, and the time of
 * `close` is 5 seconds. Each tenth of a second begins when this program runs, so on a busy machine they take longer.
 */
async function soon(promise) {
  let isOver = false;
  const late = (async () => {
    for (let n = 0; n < 40 && !isOver; n += 1) await new Promise((resolve) => { setTimeout(resolve, 100); });
    return 'pending';
  })();
  try {
    return await Promise.race([outcome(promise), late]);
  } finally {
    isOver = true;
  }
}

/** Sends until it can't. */
async function babble(channel) {
  try {
    for (;;) await channel.send(new Uint8Array(65519));
  } catch {
    // The other party is gone.
  }
}

const WAYS = {
  break: async (channel) => { for await (const payload of channel) if (payload) break; },
  throw: async (channel) => {
    await assert.rejects(async () => {
      for await (const payload of channel) if (payload) throw new Error('mine');
    }, /mine/u);
  },
  'Symbol.asyncDispose': (channel) => channel[Symbol.asyncDispose](),
  cancel: (channel) => channel.readable.cancel(),
  'break of readable': async (channel) => { for await (const payload of channel.readable) if (payload) break; },
  'pipeTo that is aborted': (channel) =>
    channel.readable.pipeTo(new WritableStream(), { signal: AbortSignal.timeout(20) }).catch(() => {}),
};

test('leaving', async (t) => {
  await load();
  for (const [name, leave] of Object.entries(WAYS)) {
    await t.test(`${name}: over TCP it closes soon, and reads little of what still comes`, async () => {
      const [near, far] = await overTcp();
      const [a, b] = await channels([near, far]);
      await a.send(text('before'));
      assert.deepEqual(await b.receive(), text('before'));    // who goes on to send may lose what comes later
      const babbling = babble(b);
      let count;
      const left = (async () => {
        const leaving = leave(a);
        if (name !== 'pipeTo that is aborted') count = near.bytesRead;
        await leaving;
      })();
      assert.equal(await soon(left), undefined);
      for (let n = 0; n < 6000 && !near.destroyed; n += 1) await new Promise((resolve) => { setTimeout(resolve, 10); });
      assert.equal(near.destroyed, true);
      if (count !== undefined) assert.ok(near.bytesRead - count < 4 << 20, `${near.bytesRead - count} bytes`);
      await babbling;
      b.destroy();
    });
  }

  await t.test('over a pair of streams, too', async () => {
    const [a, b] = await channels(pair({ highWaterMark: 1e6 }, { highWaterMark: 1e6 }));
    const babbling = babble(b);
    assert.equal(await soon(WAYS.break(a)), undefined);
    await babbling;
  });

  await t.test('what was sent leaves first, and a party that is silent doesn’t hold it up', async () => {
    const [near, far] = await overTcp();
    const [a, b] = await channels([near, far]);
    const whole = 100 * 65519;
    const sent = a.send(new Uint8Array(whole));
    const left = a[Symbol.asyncDispose]();
    let size = 0;
    const reading = (async () => { for await (const { length } of b) size += length; })();
    assert.equal(await outcome(reading), 'NOISE_CUT');
    assert.equal(size, whole);
    await Promise.all([sent, left]);
    const [here, there] = await overTcp();
    const [c, d] = await channels([here, there]);
    assert.equal(await soon(c[Symbol.asyncDispose]()), undefined);    // d doesn't close
    assert.equal(here.destroyed, true);
    d.destroy();
  });
});
