// How channels end, and that each call settles.
import test from 'node:test';
import assert from 'node:assert/strict';
import { once } from 'node:events';
import { Handshake, KeyPair, NoiseSocket, load } from '../noise.mjs';
import { NN, apart, channels, openSockets, outcome, overTcp, pair, refused, text } from './connections.mjs';

const roomy = () => pair({ highWaterMark: 1e6 }, { highWaterMark: 1e6 });
const KINDS = { TCP: overTcp, streams: roomy, WebSocket: openSockets };
const MEGABYTES = new Uint8Array(65519);

/** A frame of bytes that nobody sealed. */
const FORGED = Uint8Array.of(0, 20, ...new Uint8Array(20));

/** A party that runs NN by hand over TCP, and its transport. */
async function byHand(socket) {
  const handshake = new Handshake({ pattern: 'NN', responder: true });
  const [chunk] = await once(socket, 'data');
  await handshake.read(new Uint8Array(chunk.subarray(2)));
  const message = await handshake.write();
  socket.write(Uint8Array.of(0, message.length, ...message));
  return handshake.finish();
}

/** The frame of a payload. */
function frameBy(transport, payload) {
  const message = transport.seal(payload);
  return Uint8Array.of(message.length >> 8, message.length & 255, ...message);
}

test('ends', { timeout: 300000 }, async (t) => {
  await load();
  for (const [kind, connect] of Object.entries(KINDS)) {
    await t.test(`${kind}: close sends the end, and each later call of receive gives undefined`, async () => {
      const [a, b] = await channels(await connect());
      await a.send(text('one'));
      await a.close();
      const got = [];
      for await (const payload of b) got.push(payload);
      assert.deepEqual(got, [text('one')]);
      assert.equal(await b.receive(), undefined);
      await assert.rejects(a.send(text('x')), refused('NOISE_DISPOSED'));
      await assert.rejects(a.receive(), refused('NOISE_DISPOSED'));
      await b.close();
    });

    await t.test(`${kind}: a party that has ended its stream goes on to receive`, async () => {
      const [a, b] = await channels(await connect());
      await a.end();
      assert.equal(await b.receive(), undefined);
      await assert.rejects(a.send(text('x')), refused('NOISE_CLOSED'));
      await assert.rejects(a.end(), refused('NOISE_CLOSED'));
      await b.send(text('late'));
      await b.close();
      assert.deepEqual(await a.receive(), text('late'));
      assert.equal(await a.receive(), undefined);
      await a.close();
    });

    await t.test(`${kind}: of an empty payload nothing is sent`, async () => {
      const [a, b] = await channels(await connect());
      await a.send(new Uint8Array(0));
      await a.send(text('one'));
      assert.deepEqual(await b.receive(), text('one'));
      await Promise.all([a.close(), b.close()]);
    });

    await t.test(`${kind}: calls of receive at once are served in order, and all of them`, async () => {
      const [a, b] = await channels(await connect());
      const calls = Array.from({ length: 6 }, () => b.receive());
      for (const word of ['1', '2', '3']) await a.send(text(word));
      await a.end();
      assert.deepEqual(await Promise.all(calls), [text('1'), text('2'), text('3'), undefined, undefined, undefined]);
      const waiting = Array.from({ length: 3 }, () => outcome(a.receive()));
      const closed = a.close();
      assert.deepEqual(await Promise.all(waiting), Array(3).fill('NOISE_DISPOSED'));
      await Promise.all([closed, b.close()]);
    });
  }

  await t.test('a connection that ends before the stream does throws, also in a loop', async () => {
    for (const end of [(socket) => socket.end(), (socket) => socket.destroy(), (socket) => socket.resetAndDestroy()]) {
      const [near, far] = await overTcp();
      const opening = NoiseSocket.open(near, NN);
      const transport = await byHand(far);
      const a = await opening;
      far.write(frameBy(transport, text('one')));
      const got = [];
      await assert.rejects(async () => {
        for await (const payload of a) {
          got.push(payload);
          end(far);
        }
      }, refused('NOISE_CUT'));
      assert.deepEqual(got, [text('one')]);
      assert.equal(near.destroyed, true);
    }
  });

  await t.test('a WebSocket that closes properly without the end throws too', async () => {
    const [near, far] = openSockets();
    const [a, b] = await channels([near, far]);
    far.close();
    await assert.rejects(a.receive(), refused('NOISE_CUT'));
    await assert.rejects(b.receive(), refused('NOISE_CUT'));
  });

  await t.test('after a refusal nothing is sent, and nothing else is received', async () => {
    for (const wrong of [FORGED, Uint8Array.of(0, 0)]) {
      const [near, far] = await overTcp();
      const opening = NoiseSocket.open(near, NN);
      const transport = await byHand(far);
      const a = await opening;
      let came = 0;
      far.on('data', ({ length }) => { came += length; });
      far.on('error', () => {});
      const calls = [a.receive(), a.receive(), a.receive()].map((it) => outcome(it));
      far.write(Buffer.concat([wrong, frameBy(transport, text('later'))]));
      const name = wrong === FORGED ? 'NOISE_TAG' : 'NOISE_SHORT';
      assert.deepEqual(await Promise.all(calls), [name, name, name]);
      const before = came;
      for (const call of [a.send(text('x')), a.end(), a.flush(), a.receive()]) {
        await assert.rejects(call, refused(name));
      }
      await a.close();
      if (!far.closed) await once(far, 'close');
      assert.equal(came, before);
      assert.equal(near.destroyed, true);
    }
  });

  await t.test('in a one-way pattern the initiator’s end comes, and the responder sends nothing', async () => {
    const staticKey = await KeyPair.generate();
    const server = { pattern: 'N', staticKey, acceptAnyKey: true };
    const [a, b] = await channels(await overTcp(), { pattern: 'N', remoteStatic: staticKey.publicKey }, server);
    await a.send(text('one'));
    await a.close();
    assert.deepEqual(await b.receive(), text('one'));
    assert.equal(await b.receive(), undefined);
    await assert.rejects(b.send(text('x')), refused('NOISE_ONE_WAY'));
    await b.close();
    const [c, d] = await channels(await overTcp(), { pattern: 'N', remoteStatic: staticKey.publicKey }, server);
    assert.equal(await outcome(c.receive(), 1000), 'NOISE_ONE_WAY');
    await c.send(text('two'));
    assert.deepEqual(await d.receive(), text('two'));
    await Promise.all([c.close(), d.close()]);
  });

  await t.test(
    'after a cut each call throws it, with its cause; after a close of one’s own NOISE_DISPOSED has none',
    async () => {
      for (const first of ['send', 'receive']) {
        const [near, far] = await overTcp();
        const [a] = await channels([near, far]);
        far.resetAndDestroy();
        await assert.rejects(a.receive(), refused('NOISE_CUT'));
        for (const call of first === 'send' ? [a.send(text('x')), a.receive()] : [a.receive(), a.send(text('x'))]) {
          await assert.rejects(call, (error) => error.code === 'NOISE_CUT' && error.cause.code === 'ECONNRESET');
        }
      }
      for (const close of ['close', 'destroy']) {
        const [a, b] = await channels(await overTcp());
        const closed = a[close]();
        for (const call of [a.send(text('x')), a.receive()]) {
          await assert.rejects(call, (error) => error.code === 'NOISE_DISPOSED' && error.cause === undefined);
        }
        b.destroy();
        await closed;
      }
    },
  );

  await t.test('with 13 MB unsent, and a peer that doesn’t read, each call settles', async () => {
    const [near, far] = await overTcp();
    const opening = NoiseSocket.open(near, NN);
    const transport = await byHand(far);
    const a = await opening;
    far.pause();
    const sends = Array.from({ length: 200 }, () => outcome(a.send(MEGABYTES)));
    const received = a.receive();
    far.write(FORGED);
    assert.equal(await outcome(received), 'NOISE_TAG');
    assert.ok((await Promise.all(sends)).every((it) => it === undefined || it === 'NOISE_TAG'));
    assert.equal(near.destroyed, true);
    transport.dispose();
    far.destroy();
  });

  for (const kind of ['TCP', 'streams']) {
    await t.test(`${kind}: close gives up after a while`, async () => {
      const ends = kind === 'TCP' ? await overTcp() : pair();
      const [a] = await channels(ends);
      const sends = Array.from({ length: 200 }, () => outcome(a.send(MEGABYTES)));
      assert.equal(await outcome(a.close({ timeout: 300 })), undefined);
      assert.ok((await Promise.all(sends)).every((it) => it === undefined || it === 'NOISE_CUT'));
      if (kind === 'TCP') ends.forEach((it) => it.destroy());
    });
  }

  await t.test('both parties close with much unsent, and without a reader', async () => {
    for (const connect of [overTcp, pair]) {
      const both = await channels(await connect());
      const sends = both.flatMap((it) => Array.from({ length: 50 }, () => outcome(it.send(MEGABYTES))));
      assert.deepEqual(await Promise.all(both.map((it) => outcome(it.close()))), [undefined, undefined]);
      assert.equal((await Promise.all(sends)).includes('pending'), false);
    }
  });

  await t.test('what was written before a close comes whole', async () => {
    const [a, b] = await channels(await overTcp());
    for (let n = 0; n < 100; n += 1) a.send(MEGABYTES);
    const closed = a.close({ timeout: 60000 });
    let size = 0;
    for await (const { length } of b) size += length;
    assert.equal(size, 100 * MEGABYTES.length);
    await Promise.all([closed, b.close()]);
  });

  await t.test(
    'a party that has ended its half of the connection gets all that is sent, also before a close',
    async () => {
      const [near, far] = await overTcp();
      const [a, b] = await channels([near, far]);
      for (let n = 0; n < 100; n += 1) a.send(MEGABYTES);
      await b.end();
      assert.equal(await a.receive(), undefined);
      far.end();    // as AsyncStream of Rust does
      await new Promise((resolve) => { setTimeout(resolve, 50); });
      a.send(text('late'));
      const closed = a.close({ timeout: 60000 });
      let size = 0;
      for await (const { length } of b) size += length;
      assert.equal(size, 100 * MEGABYTES.length + 4);
      await Promise.all([closed, b.close()]);
    },
  );

  await t.test('close waits as long as it is asked to, also for ever', async () => {
    const [a, b] = await channels(await overTcp());
    for (let n = 0; n < 100; n += 1) a.send(MEGABYTES);
    const closed = a.close({ timeout: Infinity });
    await new Promise((resolve) => { setTimeout(resolve, 50); });
    let size = 0;
    for await (const { length } of b) size += length;
    assert.equal(size, 100 * MEGABYTES.length);
    await Promise.all([closed, b.close()]);
  });

  // In a program of its own: the test runner follows each promise, and takes longer than the channel.
  await t.test('64,000 frames of 19 bytes in one chunk are read in a second of processor time', () => {
    const { stdout, stderr } = apart('frames.mjs');
    const milliseconds = Number(stdout);
    assert.ok(milliseconds > 0 && milliseconds < 1000, `${stdout}${stderr}`);
  });
});
