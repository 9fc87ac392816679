// Channels over a WebSocket in Node, over TCP, and over pairs of WHATWG streams: node --experimental-websocket
// sockets.mjs.
import assert from 'node:assert/strict';
import { once } from 'node:events';
import { connect, createServer } from 'node:net';
import { KeyPair, NoiseSocket, load } from '../../bindings/js/noise.mjs';
import { serve } from './server.mjs';
import { OPTIONS, attempts } from './socket-client.mjs';
import { EXPECTED, takeChannels } from './socket-server.mjs';

async function overWebSockets() {
  if (!globalThis.WebSocket) {
    console.log('js: left out: no channel over a WebSocket of Node is tried: this Node has none');
    return;
  }
  const { server, url, close } = await serve('.');
  const told = await takeChannels(server);
  assert.deepEqual(await attempts(`${url.replace('http', 'ws')}`, Object.keys(EXPECTED)), EXPECTED);
  const staticKey = await KeyPair.generate();
  await assert.rejects(NoiseSocket.open(new WebSocket('ws://127.0.0.1:9/'), { ...OPTIONS, staticKey }), {
    code: 'NOISE_CUT',
  });
  for (let n = 0; n < 200 && told.closed < Object.keys(EXPECTED).length; n += 1) {
    await new Promise((resolve) => { setTimeout(resolve, 10); });
  }
  assert.deepEqual(told, { closed: Object.keys(EXPECTED).length, failed: [] });
  close();
  console.log(
    `js: ${Object.keys(EXPECTED).length} channels over a WebSocket of Node: `
      + 'echoes, closed and cut connections, text frames, messages too long',
  );
}

/** A connection over TCP: the client's end, and a socket of the server's. */
async function pair() {
  const server = createServer();
  server.listen(0, '127.0.0.1');
  await once(server, 'listening');
  const near = connect(server.address().port, '127.0.0.1');
  const [[far]] = await Promise.all([once(server, 'connection'), once(near, 'connect')]);
  server.close();
  for (const socket of [near, far]) socket.on('error', () => {});
  return [near, far];
}

const FAULTS = {
  'no end': [(socket) => socket.end(), 'NOISE_CUT'],
  'half a length': [(socket) => socket.end(Buffer.of(1)), 'NOISE_CUT'],
  'half a message': [(socket) => socket.end(Buffer.of(0, 20, 1, 2, 3)), 'NOISE_CUT'],
  'an empty message': [(socket) => socket.write(Buffer.of(0, 0)), 'NOISE_SHORT'],
  'a message that nobody sealed': [
    (socket) => socket.write(Buffer.concat([Buffer.of(255, 255), Buffer.alloc(65535)])), 'NOISE_TAG',
  ],
};

async function overTcp() {
  for (const [fault, [commit, expected]] of Object.entries(FAULTS)) {
    const [near, far] = await pair();
    const open = async (socket, responder) => NoiseSocket.open(socket, {
      ...OPTIONS, responder, staticKey: await KeyPair.generate(),
    });
    const [a, b] = await Promise.all([open(near, false), open(far, true)]);
    for (const length of [1, 65519, 65536]) {
      await a.send(new Uint8Array(length).fill(5));
      for (let left = length; left > 0; left -= 65519) {
        await b.send(await b.receive());
        assert.deepEqual(await a.receive(), new Uint8Array(Math.min(left, 65519)).fill(5));
      }
    }
    commit(far);
    assert.equal(await a.receive().then(String, (error) => error.code), expected, fault);
    await Promise.all([a.close(), b.close()]);
    near.destroy();
    far.destroy();
  }
  const [near, far] = await pair();
  const opened = NoiseSocket.open(near, { ...OPTIONS, staticKey: await KeyPair.generate() });
  far.once('data', () => far.end(Buffer.of(0, 96, 1)));
  await assert.rejects(opened, { code: 'NOISE_CUT' });
  far.destroy();
}

async function otherStreams() {
  const texts = { readable: new ReadableStream({ start: (it) => it.enqueue('text') }), writable: new WritableStream() };
  await assert.rejects(
    NoiseSocket.open(texts, { ...OPTIONS, responder: true, staticKey: await KeyPair.generate() }), TypeError,
  );
  const broken = {
    readable: new ReadableStream({ start: (it) => it.error(new Error('broken')) }), writable: new WritableStream(),
  };
  await assert.rejects(NoiseSocket.open(broken, { ...OPTIONS, staticKey: await KeyPair.generate() }), {
    code: 'NOISE_CUT',
  });
}

await load();
await overWebSockets();
await overTcp();
await otherStreams();
console.log(
  `js: ${Object.keys(FAULTS).length + 3} channels over streams: `
    + 'echoes, connections that end inside a message, messages that nobody sealed',
);
