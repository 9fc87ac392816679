// What is between a channel and the socket of its peer: nothing, a relay that damages one byte, or a WebSocket.
import { once } from 'node:events';
import { connect, createServer } from 'node:net';
import { serve } from '../../web/server.mjs';
import { takeWebSockets } from '../../web/websocket.mjs';

/** Where nothing happened for so many milliseconds, a relay breaks the connection. */
const IDLE = 400;

/** Passes what comes from one socket to another, with a fault at a byte, and the end. */
function pipe(from, to, { kind, at }, acted) {
  let count = 0;
  from.on('data', (chunk) => {
    acted();
    const start = count;
    count += chunk.length;
    const n = at - start;
    if (kind === 'nothing' || n < 0 || n >= chunk.length) {
      to.write(chunk);
      return;
    }
    const here = { flip: [chunk[n] ^ 1], repeat: [chunk[n], chunk[n]], drop: [], cut: [] }[kind];
    to.write(
      Buffer.concat([
        chunk.subarray(0, n), Buffer.from(here), kind === 'cut' ? Buffer.alloc(0) : chunk.subarray(n + 1),
      ]),
    );
    if (kind === 'cut') for (const it of [from, to]) it.end();
  });
  from.on('end', () => to.end());
  for (const event of ['error', 'close']) from.on(event, () => to.destroy());
}

/** A relay: `faults` are those of what the channel sends and of what it receives. Gives the socket of the channel. */
export async function relayed(peer, faults) {
  const server = createServer().listen(0, '127.0.0.1');
  await once(server, 'listening');
  const near = connect(server.address().port, '127.0.0.1');
  const [[far]] = await Promise.all([once(server, 'connection'), once(near, 'connect')]);
  server.close();
  const breaks = () => { for (const it of [far, peer]) it.destroy(); };
  let timer = setTimeout(breaks, IDLE);
  const acted = () => {
    clearTimeout(timer);
    timer = setTimeout(breaks, IDLE);
  };
  peer.on('close', () => clearTimeout(timer));
  pipe(far, peer, faults[0], acted);
  pipe(peer, far, faults[1], acted);
  return near;
}

/** Passes the frames of a socket to a WebSocket as messages. */
function toMessages(peer, socket) {
  let held = Buffer.alloc(0);
  peer.on('data', (chunk) => {
    held = Buffer.concat([held, chunk]);
    while (held.length >= 2 && held.length >= 2 + held.readUInt16BE()) {
      const size = 2 + held.readUInt16BE();
      socket.send(held.subarray(2, size));
      held = held.subarray(size);
    }
  });
  for (const event of ['end', 'close', 'error']) peer.on(event, () => socket.close());
}

/** A WebSocket of this engine, whose messages are the frames of the peer's socket. `close` ends its server. */
export async function overWebSocket(peer) {
  const { server, url, close } = await serve('.');
  takeWebSockets(server, (socket) => {
    socket.addEventListener(
      'message',
      ({ data }) => peer.write(
        Buffer.concat([Buffer.of(data.byteLength >> 8, data.byteLength & 255), Buffer.from(data)]),
      ),
    );
    socket.addEventListener('close', () => peer.end());
    toMessages(peer, socket);
  });
  return { socket: new WebSocket(url.replace('http', 'ws')), close };
}
