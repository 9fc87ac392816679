// What a connection may take: time until it is open, and memory.
import test from 'node:test';
import assert from 'node:assert/strict';
import { once } from 'node:events';
import { KeyPair, NoiseSocket, load } from '../noise.mjs';
import { NN, channels, duplexes, openSockets, outcome, overTcp, pair, refused, sockets, text } from './connections.mjs';

const EVENTS = ['message', 'close', 'open'];

/**
 * The first of two open sockets, whose other end counts what it is sent, and whose `bufferedAmount` only this test
 * changes.
 */
function slowSocket() {
  const [near, far] = openSockets();
  near.send = (data) => {
    near.bufferedAmount += data.length;
    queueMicrotask(() => far.take(data));
  };
  return [near, far];
}

test('limits', { timeout: 300000 }, async (t) => {
  await load();
  await t.test('send on a WebSocket that isn’t open rejects', async () => {
    for (const state of [0, 2, 3]) {
      const [near, far] = openSockets();
      const [a] = await channels([near, far]);
      let sent = 0;
      near.send = () => { sent += 1; };
      near.readyState = state;
      await assert.rejects(a.send(text('x')), refused('NOISE_CUT'));
      near.readyState = 1;
      await assert.rejects(a.send(text('x')), refused('NOISE_CUT'));    // one is missing
      await a.close();
      assert.equal(sent, 0);
    }
  });

  await t.test('send waits where a WebSocket has more than 1 MiB unsent', async () => {
    const [near, far] = slowSocket();
    const [a, b] = await channels([near, far]);
    near.bufferedAmount = 0;
    const sends = Array.from({ length: 60 }, () => a.send(new Uint8Array(65519)));
    let got = 0;
    const reading = (async () => { for await (const { length } of b) got += length; })();
    let isSent = false;
    const all = Promise.all(sends).then(() => { isSent = true; });
    let rounds = 0;
    for (; !isSent; rounds += 1) {
      await new Promise((resolve) => { setTimeout(resolve, 30); });
      assert.ok(near.bufferedAmount <= (1 << 20) + 65535, `${near.bufferedAmount} bytes`);
      near.bufferedAmount = 0;
    }
    await all;
    assert.ok(rounds >= 3, `${rounds} rounds`);
    assert.equal(await outcome(a.send(text('x'))), undefined);
    near.bufferedAmount = 1 << 21;
    const late = outcome(a.send(text('y')));
    await new Promise((resolve) => { setTimeout(resolve, 30); });
    near.readyState = 3;
    assert.equal(await late, 'NOISE_CUT');    // it closed while send was waiting
    const closed = near.close();
    await assert.rejects(reading, refused('NOISE_CUT'));
    await closed;
    assert.equal(got, 60 * 65519 + 2);
  });

  await t.test('what a stranger sends until verify has answered is bounded, and the connection is closed', async () => {
    const [near, far] = openSockets();
    const staticKey = await KeyPair.generate();
    let asked;
    const isAsked = new Promise((resolve) => { asked = resolve; });
    const verify = () => { asked(); return new Promise(() => {}); };
    const opened = outcome(NoiseSocket.open(near, { pattern: 'XX', staticKey, responder: true, verify }));
    const peer = NoiseSocket.open(far, { pattern: 'XX', staticKey, acceptAnyKey: true });
    await Promise.all([isAsked, peer]);
    const message = new Uint8Array(65519);
    let count = 0;
    while (near.listeners('message') > 0 && count < 1000) {
      near.take(message);
      count += 1;
    }
    assert.ok(count <= 17, `${count} messages`);
    assert.deepEqual(EVENTS.map((it) => near.listeners(it)), [0, 0, 0]);
    await once(near, 'close');
    assert.equal(await opened, 'NOISE_BACKLOG');    // though verify hasn't answered
    const [here, there] = openSockets();
    const refusal = outcome(NoiseSocket.open(here, { ...NN, responder: true }));
    for (let n = 0; n < 1000; n += 1) here.take(message);
    assert.match(await refusal, /^NOISE_(BACKLOG|TOO_LONG)$/u);
    assert.deepEqual(EVENTS.map((it) => here.listeners(it)), [0, 0, 0]);
    there.close();
  });

  await t.test(
    'over a WebSocket 8 MiB that follow the last message of the handshake at once are received',
    async () => {
      const [one, two] = [await KeyPair.generate(), await KeyPair.generate()];
      const slow = {
        publicKey: two.publicKey,
        agree: async (remote) => {
          await new Promise((resolve) => { setTimeout(resolve, 30); });
          return two.agree(remote);
        },
      };
      const isOne = (key) => Buffer.compare(key, one.publicKey) === 0;
      for (const server of [
        { pattern: 'XX', verify: isOne },
        { pattern: 'XXpsk3', pskFor: () => new Uint8Array(32) },
      ]) {
        const [near, far] = openSockets();
        const opening = NoiseSocket.open(near, { ...server, staticKey: slow, responder: true });
        const a = await NoiseSocket.open(far, {
          pattern: server.pattern,
          staticKey: one,
          psks: server.pskFor ? [new Uint8Array(32)] : [],
          acceptAnyKey: true,
        });
        const sends = Array.from({ length: 128 }, () => a.send(new Uint8Array(65519)));
        const b = await opening;
        let got = 0;
        const reading = (async () => { for await (const { length } of b) got += length; })();
        await Promise.all(sends);
        await a.close();
        await reading;
        assert.equal(got, 128 * 65519);
        await b.close();
      }
    },
  );

  await t.test('an open channel keeps what waits, up to its backlog', async () => {
    const [near, far] = openSockets();
    const [a, b] = await channels([near, far], NN, { ...NN, backlog: 100000 });
    for (let n = 0; n < 60; n += 1) await a.send(new Uint8Array(1000).fill(n));
    assert.deepEqual(await b.receive(), new Uint8Array(1000));
    for (let n = 0; n < 60; n += 1) await a.send(new Uint8Array(1000)).catch(() => {});
    await assert.rejects(b.receive(), refused('NOISE_BACKLOG'));
    assert.deepEqual(EVENTS.map((it) => far.listeners(it)), [0, 0, 0]);
  });

  await t.test('8,000 messages that wait are all received', async () => {
    const [a, b] = await channels(openSockets());
    const count = 8000;
    for (let n = 0; n < count; n += 1) await a.send(Uint8Array.of(n & 255));
    const closed = a.close();
    let n = 0;
    for await (const [byte] of b) {
      if (byte !== (n & 255)) break;
      n += 1;
    }
    assert.equal(n, count);
    await Promise.all([closed, b.close()]);
  });

  await t.test('who sends what is always taken at once leaves timers their turn', async () => {
    const [a] = await channels(duplexes());
    let isOver = false;
    setTimeout(() => { isOver = true; }, 20);
    for (let n = 0; n < 50000 && !isOver; n += 1) await a.send(text('x'));
    assert.ok(isOver);
    a.destroy();
  });

  await t.test('a stream that refuses a write, at once or later, ends the channel with its error', async () => {
    for (const later of [(work) => work(), setImmediate]) {
      const [near, far] = duplexes();
      const [a, b] = await channels([near, far]);
      near.refuses = (done) => later(() => done(new Error('full')));
      await assert.rejects(a.send(text('x')), (error) => error.code === 'NOISE_CUT' && error.cause.message === 'full');
      await assert.rejects(a.send(text('x')), refused('NOISE_CUT'));
      a.destroy();
      b.destroy();
    }
  });

  await t.test('200 channels at once', async () => {
    await Promise.all(Array.from({ length: 200 }, async (_, n) => {
      const [a, b] = await channels(pair({ highWaterMark: 1e6 }, { highWaterMark: 1e6 }));
      for (let k = 0; k < 10; k += 1) {
        await a.send(new Uint8Array(1000 + n).fill(k));
        assert.deepEqual(await b.receive(), new Uint8Array(1000 + n).fill(k));
      }
      await Promise.all([a.close(), b.close()]);
    }));
  });

  await t.test('what is no number of bytes is no limit', async () => {
    for (const limit of [-1, NaN, 1.5, '100', null, Infinity]) {
      for (const name of ['handshakeLimit', 'backlog']) {
        await assert.rejects(NoiseSocket.open(pair()[0], { ...NN, [name]: limit }), RangeError);
      }
    }
  });

  await t.test('after a refusal and after close no listener is left', async () => {
    const [near, far] = openSockets();
    const [a, b] = await channels([near, far]);
    far.take(new Uint8Array(40));
    await assert.rejects(b.receive(), refused('NOISE_TAG'));
    assert.deepEqual(EVENTS.map((it) => far.listeners(it)), [0, 0, 0]);
    await a.close();
    assert.deepEqual(EVENTS.map((it) => near.listeners(it)), [0, 0, 0]);
    const [here, there] = sockets();
    const opened = NoiseSocket.open(here, { pattern: 'NN' });
    await assert.rejects(opened, refused('NOISE_UNAUTHENTICATED'));
    assert.deepEqual(EVENTS.map((it) => here.listeners(it)), [0, 0, 0]);
    there.close();
  });

  for (const [kind, connect] of Object.entries({
    TCP: overTcp,
    streams: pair,
    WebSocket: openSockets,
    'a WebSocket that connects': sockets,
  })) {
    await t.test(`${kind}: a signal ends open, whatever it waits for`, async () => {
      const [near, far] = await connect();
      const reason = new Error('enough');
      const controller = new AbortController();
      const opening = NoiseSocket.open(near, { ...NN, responder: true, signal: controller.signal });
      setTimeout(() => controller.abort(reason), 20);
      await assert.rejects(opening, (error) => error === reason);
      if (kind === 'TCP') {
        assert.equal(near.destroyed, true);
        far.destroy();
      }
      if (kind.includes('WebSocket')) assert.equal(near.listeners('message'), 0);
      const [here] = await connect();
      await assert.rejects(NoiseSocket.open(here, { ...NN, signal: AbortSignal.abort(reason) }), (error) =>
        error === reason,
      );
      if (kind === 'TCP') assert.equal(here.destroyed, true);
    });
  }

  await t.test('a signal ends verify, a secret and a key that never answer, and one byte each 10 ms', async () => {
    const [one, two] = [await KeyPair.generate(), await KeyPair.generate()];
    const never = () => new Promise(() => {});
    const hangs = [
      { pattern: 'XX', staticKey: one, verify: never },
      { pattern: 'XXpsk3', staticKey: one, pskFor: never },
      { pattern: 'XX', staticKey: { publicKey: one.publicKey, agree: never }, acceptAnyKey: true },
    ];
    for (const options of hangs) {
      const [near, far] = await overTcp();
      const psks = options.pskFor ? [new Uint8Array(32)] : [];
      const peer = outcome(
        NoiseSocket.open(far, { pattern: options.pattern, staticKey: two, psks, acceptAnyKey: true }).then((it) =>
          it.receive(),
        ),
      );
      const opened = NoiseSocket.open(near, { ...options, responder: true, signal: AbortSignal.timeout(200) });
      await assert.rejects(opened, { name: 'TimeoutError' });
      assert.equal(near.destroyed, true);
      assert.equal(await peer, 'NOISE_CUT');
    }
    const [near, far] = await overTcp();
    far.on('error', () => {});
    const timer = setInterval(() => far.write(Uint8Array.of(1)), 10);
    await assert.rejects(NoiseSocket.open(near, { ...NN, responder: true, signal: AbortSignal.timeout(200) }), {
      name: 'TimeoutError',
    });
    clearInterval(timer);
    assert.equal(near.destroyed, true);
    far.destroy();
  });

  await t.test('a signal that aborts later changes nothing', async () => {
    const controller = new AbortController();
    const [a, b] = await channels(await overTcp(), { ...NN, signal: controller.signal });
    controller.abort();
    await a.send(text('one'));
    assert.deepEqual(await b.receive(), text('one'));
    await Promise.all([a.close(), b.close()]);
  });

  await t.test('a handshake message has a limit, which is checked before it has come', async () => {
    for (const [handshakeLimit, length, name] of [
      [undefined, 4097, 'NOISE_TOO_LONG'],
      [100, 101, 'NOISE_TOO_LONG'],
      [100, 100, 'pending'],
      [65535, 65535, 'pending'],
    ]) {
      const [near, far] = await overTcp();
      const opening = NoiseSocket.open(near, { ...NN, responder: true, handshakeLimit });
      const opened = outcome(opening, name === 'pending' ? 200 : 60000);
      far.write(Uint8Array.of(length >> 8, length & 255));
      assert.equal(await opened, name, `${handshakeLimit}, ${length}`);
      assert.equal(near.destroyed, name !== 'pending');
      near.destroy();
      far.destroy();
    }
    const [near, far] = openSockets();
    far.send(new Uint8Array(4097));
    await assert.rejects(NoiseSocket.open(near, { ...NN, responder: true }), refused('NOISE_TOO_LONG'));
  });
});
