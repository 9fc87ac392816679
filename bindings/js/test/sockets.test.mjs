// What comes over a socket of TCP, whatever its program did with the socket before, and whoever else reads it.
import test from 'node:test';
import assert from 'node:assert/strict';
import { once } from 'node:events';
import { connect, createServer } from 'node:net';
import { NoiseSocket, load } from '../noise.mjs';
import { NN, bytes, channels, outcome, overTcp, refused, text } from './connections.mjs';

const turn = () => new Promise((resolve) => { setImmediate(resolve); });

async function received(channel) {
  const parts = [];
  for await (const payload of channel) parts.push(payload);
  return new Uint8Array(Buffer.concat(parts));
}

/** Both sides of a connection, of which the server's was accepted in this way. */
async function accepted(options) {
  const server = createServer(options).listen(0, '127.0.0.1');
  await once(server, 'listening');
  const here = connect(server.address().port, '127.0.0.1');
  const [there] = await once(server, 'connection');
  server.close();
  return [here, there];
}

/** What a program may do with a socket before it opens a channel over it, as reading the first bytes, and unshift. */
const BEFORE = {
  'nothing': async () => {},
  'a pause': async (socket) => { socket.pause(); },
  'a pause and a resume': async (socket) => { socket.pause(); socket.resume(); socket.pause(); },
  'the first bytes by readable': async (socket) => {
    await once(socket, 'readable');
    socket.unshift(socket.read());
  },
  'some of the first bytes by readable': async (socket) => {
    await once(socket, 'readable');
    socket.unshift(socket.read(3));
  },
  'the first bytes by data': async (socket) => {
    const [chunk] = await once(socket, 'data');
    socket.pause();
    socket.unshift(chunk);
  },
  'a listener of data that stays': async (socket) => { socket.on('data', () => {}).pause(); },
};

/** What a reader of a duplex does at each payload. */
const READERS = {
  'listens': () => {},
  'reads again': (duplex) => { duplex.read(0); },
  'reads all': (duplex) => { duplex.read(); },
  'pauses': (duplex, n) => {
    duplex.pause();
    if (n % 3 === 0) setImmediate(() => duplex.resume());
    else duplex.resume();
  },
};

test('sockets', { timeout: 300000 }, async (t) => {
  await load();

  for (const [name, before] of Object.entries(BEFORE)) {
    await t.test(`after ${name} a channel opens, and all comes`, async () => {
      for (const pauseOnConnect of [false, true]) {
        const [near, far] = await accepted({ pauseOnConnect, allowHalfOpen: true });
        const opening = NoiseSocket.open(near, NN);
        if (pauseOnConnect) far.resume();
        await before(far);
        const [a, b] = await Promise.all([opening, NoiseSocket.open(far, { ...NN, responder: true })]);
        const whole = bytes(300000);
        const got = received(b);
        await a.send(whole);
        await a.close();
        assert.deepEqual(await got, whole);
        await b.close();
      }
    });
  }

  await t.test('what came before the connection broke is received, and then the cut', async () => {
    const [near, far] = await overTcp();
    const [a, b] = await channels([near, far]);
    for (let n = 0; n < 200; n += 1) await a.send(bytes(1000));
    near.end();    // without the end of the stream
    await once(near, 'finish');
    await turn();
    for (let n = 0; n < 200; n += 1) assert.deepEqual(await b.receive(), bytes(1000));
    assert.equal(await outcome(b.receive()), 'NOISE_CUT');
    a.destroy();
  });

  await t.test('a socket that has ended, or is destroyed, is a cut', async () => {
    for (const [end, cause] of [
      [(socket) => socket.end(), undefined],
      [(socket) => socket.destroy(), undefined],
      [(socket) => socket.resetAndDestroy(), 'ECONNRESET'],
    ]) {
      const [near, far] = await overTcp();
      end(near);
      const closed = cause ? once(far, 'close').catch(() => {}) : once(far.resume(), 'end');
      far.on('error', () => {});
      await closed;
      const late = NoiseSocket.open(far, { ...NN, responder: true });
      await assert.rejects(late, (error) => refused('NOISE_CUT')(error) && (!cause || error.cause.code === cause));
      near.destroy();
    }
  });

  await t.test('calls of receive at once, and a close meanwhile, leave nothing waiting', async () => {
    const [a, b] = await channels(await overTcp());
    const calls = [b.receive(), b.receive(), b.receive()].map((it) => outcome(it));
    await a.send(text('one'));
    assert.notEqual(await calls[0], 'NOISE_DISPOSED');
    const closing = b.close();
    assert.deepEqual(await Promise.all(calls.slice(1)), ['NOISE_DISPOSED', 'NOISE_DISPOSED']);
    await Promise.all([a.send(new Uint8Array(1 << 20)).catch(() => {}), a.close(), closing]);
  });

  await t.test('who reads late gets all, in the order of the calls', async () => {
    const [a, b] = await channels(await overTcp());
    const whole = bytes(8 << 20);
    const sent = a.send(whole).then(() => a.end());
    const parts = [];
    for (let n = 0; ; n += 1) {
      if (n % 7 === 0) await turn();
      if (n % 50 === 0) await new Promise((resolve) => { setTimeout(resolve, 5); });
      const payload = await b.receive();
      if (!payload) break;
      parts.push(payload);
    }
    assert.equal(Buffer.compare(Buffer.concat(parts), whole), 0);
    await sent;
    await Promise.all([a.close(), b.close()]);
  });

  for (const [name, reads] of Object.entries(READERS)) {
    await t.test(`a reader of a duplex that ${name} gets all payloads in order`, async () => {
      const [a, b] = await channels(await overTcp());
      const { duplex } = b;
      const parts = [];
      duplex.on('data', (chunk) => { parts.push(chunk); reads(duplex, parts.length); });
      const ended = once(duplex, 'end');
      for (let n = 0; n < 1000; n += 1) await a.send(Uint8Array.of(n, n >> 8));
      await a.end();
      await ended;
      const whole = Uint8Array.from({ length: 2000 }, (_, n) => (n % 2 ? n >> 9 : n >> 1));
      assert.equal(Buffer.compare(Buffer.concat(parts), whole), 0);
      a.destroy();
    });
  }
});
