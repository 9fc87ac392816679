// What is sent comes whole: after a close, in pieces, from streams and files, and with signals.
import test from 'node:test';
import assert from 'node:assert/strict';
import { createReadStream, createWriteStream } from 'node:fs';
import { mkdtemp, readFile, rm, writeFile } from 'node:fs/promises';
import { tmpdir } from 'node:os';
import { join } from 'node:path';
import { pipeline } from 'node:stream/promises';
import { KeyPair, load } from '../noise.mjs';
import { bytes, channels, openSockets, outcome, overTcp, pair, refused, text } from './connections.mjs';

const roomy = () => pair({ highWaterMark: 1e6 }, { highWaterMark: 1e6 });
const KINDS = { TCP: overTcp, streams: roomy, WebSocket: openSockets };
const pause = (milliseconds) => new Promise((resolve) => { setTimeout(resolve, milliseconds); });

/** All that comes. */
async function received(channel) {
  const parts = [];
  for await (const payload of channel) parts.push(payload);
  return new Uint8Array(Buffer.concat(parts));
}

/** Sends until it can't. */
async function babble(channel) {
  try {
    for (;;) await channel.send(new Uint8Array(16384));
  } catch {
    // The other party has closed.
  }
}

test('sending', { timeout: 300000 }, async (t) => {
  await load();
  const megabytes = bytes(3 << 20);

  await t.test(
    'over TCP what was sent before a close comes whole, to a peer that sends meanwhile and reads late',
    async () => {
      for (let round = 0; round < 5; round += 1) {
        const [a, b] = await channels(await overTcp());
        const babbling = babble(b);
        for (let at = 0; at < megabytes.length; at += 60000) a.send(megabytes.subarray(at, at + 60000)).catch(() => {});
        const closed = a.close({ timeout: 60000 });
        await pause(50);
        assert.deepEqual(await received(b), megabytes, `round ${round}`);
        await Promise.all([closed, b.close(), babbling]);
      }
    },
  );

  await t.test('who has the other party’s end closes at once, and else waits for it', async () => {
    const [a, b] = await channels(await overTcp());
    await a.end();
    assert.equal(await b.receive(), undefined);
    assert.equal(await outcome(b.close({ timeout: 300000 })), undefined);
    assert.equal(await outcome(a.close({ timeout: 10 })), undefined);
    const [c, d] = await channels(await overTcp());
    assert.equal(await outcome(c.close({ timeout: 200 }), 100), 'pending');
    await d.close();
    const staticKey = await KeyPair.generate();
    const [e, f] = await channels(
      await overTcp(),
      { pattern: 'N', remoteStatic: staticKey.publicKey },
      { pattern: 'N', staticKey, acceptAnyKey: true },
    );
    await e.send(text('all'));
    assert.equal(await outcome(e.close({ timeout: 300000 })), undefined);    // nothing comes to it
    assert.deepEqual(await received(f), text('all'));
    f.destroy();
  });

  await t.test(
    'a frame that waits for its connection stays as it is while another connection sends frames of the same length',
    async () => {
      const [a, b] = await channels(await overTcp());
      const [c, d] = await channels(await overTcp());
      const sent = [];
      for (let waits = false; !waits; waits = await outcome(sent.at(-1), 100) === 'pending') {
        sent.push(a.send(new Uint8Array(16384).fill(sent.length)));
      }
      for (let n = 0; n < 3; n += 1) {
        await c.send(new Uint8Array(16384).fill(255));
        assert.deepEqual(await d.receive(), new Uint8Array(16384).fill(255));
      }
      for (let n = 0; n < sent.length; n += 1) {
        assert.deepEqual(await b.receive(), new Uint8Array(16384).fill(n), `payload ${n} of ${sent.length}`);
      }
      for (const channel of [a, b, c, d]) channel.destroy();
    },
  );

  await t.test('a stream may keep what it was given after its write has ended', async () => {
    const near = await overTcp();
    const kept = [];
    const write = near[0].write;
    near[0].write = function keep(chunk, ...rest) {
      kept.push([chunk, Buffer.from(chunk)]);
      return write.call(this, chunk, ...rest);
    };
    const [a, b] = await channels(near);
    for (let n = 0; n < 4; n += 1) {
      await a.send(new Uint8Array(16384).fill(n));
      await b.receive();
    }
    assert.equal(kept.length >= 4, true);
    for (const [chunk, copy] of kept) assert.deepEqual(Buffer.from(chunk), copy);
    for (const channel of [a, b]) channel.destroy();
  });

  for (const [kind, connect] of Object.entries(KINDS)) {
    await t.test(
      `${kind}: a payload of any length is sent, in the order of the calls, and may be changed afterwards`,
      async () => {
        const [a, b] = await channels(await connect());
        const whole = bytes(300000);
        const sends = [];
        for (const [from, to] of [[0, 65519], [65519, 131055], [131055, 131055], [131055, 300000]]) {
          const payload = whole.slice(from, to);
          sends.push(a.send(payload));
          payload.fill(0);
        }
        sends.push(a.end());
        assert.deepEqual(await received(b), whole);
        await Promise.all(sends);
        await Promise.all([a.close(), b.close()]);
      },
    );

    await t.test(`${kind}: pipeTo and pipeline take the streams of a channel, and files come whole`, async () => {
      const folder = await mkdtemp(join(tmpdir(), 'js-'));
      try {
        await writeFile(join(folder, 'sent'), bytes(1 << 20));
        const [a, b] = await channels(await connect());
        await Promise.all([
          pipeline(createReadStream(join(folder, 'sent')), a.writable),    // in chunks of 65536 bytes
          b.readable.pipeTo(b.writable),
          pipeline(a.readable, createWriteStream(join(folder, 'back'))),
        ]);
        assert.deepEqual(await readFile(join(folder, 'back')), await readFile(join(folder, 'sent')));
        await assert.rejects(a.send(text('x')), refused('NOISE_CLOSED'));    // the pipeline has ended it
        await Promise.all([a.close(), b.close()]);
      } finally {
        await rm(folder, { recursive: true });
      }
    });
  }

  await t.test('what isn’t read makes the sender wait, and so does pipeTo', async () => {
    const [a, b] = await channels(await overTcp());
    let pulled = 0;
    const endless = new ReadableStream(
      { pull: (it) => { pulled += 65536; it.enqueue(new Uint8Array(65536)); } },
      { highWaterMark: 0 },
    );
    const piping = endless.pipeTo(a.writable).catch(() => {});
    assert.ok(b.readable);    // pulls nothing by itself
    for (let before = -1; before !== pulled;) {
      before = pulled;
      await pause(200);
    }
    assert.ok(pulled < 32 << 20, `${pulled} bytes`);
    b.destroy();
    await piping;
    a.destroy();
  });

  await t.test('a source that fails is no end, and a destination that fails closes', async () => {
    const [a, b] = await channels(await overTcp());
    const source = new ReadableStream({ pull: (it) => it.error(new Error('the source')) });
    await assert.rejects(source.pipeTo(a.writable), /the source/u);
    await assert.rejects(received(b), refused('NOISE_CUT'));
    const [c, d] = await channels(await overTcp());
    await c.send(text('x'));
    const refusing = new WritableStream({ write: () => { throw new Error('the destination'); } });
    await assert.rejects(d.readable.pipeTo(refusing), /the destination/u);
    await assert.rejects(received(c), refused('NOISE_CUT'));
  });

  await t.test(
    'who breaks out of a loop has closed, and the other party gets what was sent, and no end that wasn’t sent',
    async () => {
      for (const isEnded of [false, true]) {
        const [near, far] = await overTcp();
        const [a, b] = await channels([near, far]);
        await b.send(text('one'));
        await a.send(text('all of it'));
        if (isEnded) await a.end();
        const leaving = (async () => { for await (const payload of a) if (payload) break; })();
        assert.deepEqual(await b.receive(), text('all of it'));
        assert.equal(await outcome(b.receive()), isEnded ? undefined : 'NOISE_CUT');
        await b.close();
        await leaving;
        await assert.rejects(a.receive(), refused('NOISE_DISPOSED'));
        assert.equal(near.destroyed, true);
      }
    },
  );

  await t.test('Symbol.asyncDispose closes in the same way', async () => {
    assert.ok(Symbol.asyncDispose);
    for (const isEnded of [false, true]) {
      const [near, far] = await overTcp();
      const [a, b] = await channels([near, far]);
      // (who goes on to send may lose what it hasn't read 200 ms later)
      for (let n = 0; n < 4; n += 1) await b.send(bytes(30000));
      const whole = bytes(300000);
      a.send(whole).catch(() => {});
      if (isEnded) await a.end();
      const disposed = a[Symbol.asyncDispose]();
      let size = 0;
      const reading = (async () => { for await (const { length } of b) size += length; })();
      assert.equal(await outcome(reading), isEnded ? undefined : 'NOISE_CUT');
      assert.equal(size, whole.length);
      await Promise.all([b.close(), disposed]);
      assert.equal(near.destroyed, true);
    }
  });

  await t.test('a signal ends receive, and the next call gets what came', async () => {
    for (const connect of Object.values(KINDS)) {
      const [a, b] = await channels(await connect());
      const [one, two] = [new AbortController(), new AbortController()];
      const calls = [
        outcome(b.receive({ signal: one.signal })),
        outcome(b.receive({ signal: two.signal })),
        b.receive(),
      ];
      two.abort();
      assert.equal(await calls[1], 'AbortError');    // though another waits before it
      one.abort();
      assert.equal(await calls[0], 'AbortError');
      await a.send(text('one'));
      assert.deepEqual(await calls[2], text('one'));
      await assert.rejects(b.receive({ signal: AbortSignal.abort() }), { name: 'AbortError' });
      assert.equal(await outcome(b.receive({ signal: AbortSignal.timeout(20) })), 'TimeoutError');
      for (let n = 0; n < 50; n += 1) {
        const controller = new AbortController();
        const got = b.receive({ signal: controller.signal }).catch(() => b.receive());
        const sent = a.send(Uint8Array.of(n));
        for (let k = 0; k < n % 10; k += 1) await undefined;
        controller.abort();
        await sent;
        assert.deepEqual(await got, Uint8Array.of(n));
      }
      await Promise.all([a.close(), b.close()]);
    }
  });

  await t.test(
    'a signal takes a payload back whose turn hasn’t come, and ends the channel if it was sent in part',
    async () => {
      const [a, b] = await channels(await overTcp());
      await assert.rejects(a.send(text('x'), { signal: AbortSignal.abort() }), { name: 'AbortError' });
      const controller = new AbortController();
      const long = a.send(new Uint8Array(8 << 20));
      const late = outcome(a.send(text('late'), { signal: controller.signal }));
      const last = a.send(text('last'));
      controller.abort();
      assert.equal(await late, 'AbortError');
      const ended = a.end();
      const got = await received(b);
      assert.deepEqual([got.length, Buffer.from(got.subarray(-4)).toString()], [(8 << 20) + 4, 'last']);
      await Promise.all([long, last, ended, a.close(), b.close()]);
      const [c, d] = await channels(await overTcp());
      await assert.rejects(c.send(new Uint8Array(64 << 20), { signal: AbortSignal.timeout(100) }), {
        name: 'TimeoutError',
      });
      await assert.rejects(c.send(text('x')), (error) =>
        error.code === 'NOISE_DISPOSED' && error.cause.name === 'TimeoutError',
      );
      await assert.rejects(received(d), refused('NOISE_CUT'));
    },
  );
});
