// One end over TCP, or over a WebSocket, as examples/live/main.rs says: node peer.mjs PATTERN OWN_SECRET PEER_KEY PSK
// ADDRESS ORDER SIZE [websocket], by the package for JavaScript.
import { once } from 'node:events';
import { createServer as createHttpServer } from 'node:http';
import { connect, createServer } from 'node:net';
import { KeyPair, NoiseSocket, load, protocolName } from '../../../js/noise.mjs';
import { takeWebSockets } from '../../../../checks/web/websocket.mjs';

const [name, secret, peer, psk, address, order, digits, mode] = process.argv.slice(2);
const size = Number(digits);
const bytes = (text) => new Uint8Array(Buffer.from(text, 'hex'));
const isInitiator = !address.startsWith('@');

/** Byte i of what a party sends. */
const byteOf = (initiator, i) => (i * 7 + Number(initiator)) % 251;

async function listen(server, host, port) {
  server.listen(Number(port), host);
  await once(server, 'listening');
  console.log(`${host}:${server.address().port}`);
}

async function webSocket(host, port) {
  if (isInitiator) return new WebSocket(`ws://${host}:${port}/`);
  const server = createHttpServer();
  const taken = new Promise((resolve, reject) => {
    takeWebSockets(server, resolve);
    server.on('connection', (it) => {
      it.on('end', () => it.end());    // sockets of this server may be half open
      it.on('close', () => reject(new Error('no WebSocket was asked for')));
    });
  });
  await listen(server, host, port);
  return taken;
}

async function connection() {
  const [host, port] = address.replace('@', '').split(':');
  if (mode === 'websocket') return webSocket(host, port);
  if (isInitiator) {
    const socket = connect({ port: Number(port), host, allowHalfOpen: true });
    await once(socket, 'connect');
    return socket;
  }
  const server = createServer({ allowHalfOpen: true });
  await listen(server, host, port);
  const [socket] = await once(server, 'connection');
  server.close();
  return socket;
}

function nameOf(error) {
  if (['NOISE_TAG', 'NOISE_SHORT', 'NOISE_TOO_LONG'].includes(error.code)) return 'refused';
  return error.code === 'NOISE_CUT' ? 'cut' : 'lost';
}

async function write(channel) {
  let wrote = 0;
  try {
    while (wrote < size) {
      const part = new Uint8Array(Math.min(10000, size - wrote));
      for (let i = 0; i < part.length; i++) part[i] = byteOf(isInitiator, wrote + i);
      wrote += part.length;    // also where it fails after a part of it was sent
      await channel.send(part);
    }
  } catch {
    // What it reads says why.
  }
  return wrote;
}

async function read(channel) {
  let count = 0;
  try {
    for await (const payload of channel) {
      const at = count;
      if (payload.some((byte, i) => byte !== byteOf(!isInitiator, at + i))) process.exit(1);
      count += payload.length;
    }
    return { count, end: 'end' };
  } catch (error) {
    return { count, end: nameOf(error) };
  }
}

async function run(channel) {
  const reading = read(channel);
  const wrote = await write(channel);
  let ended = 'open';
  if (wrote === size && (order === 'first' || (await reading).end === 'end')) {
    ended = await channel.end().then(() => 'ended', () => 'open');
  }
  const { count, end } = await reading;
  console.log(`wrote ${wrote} ${ended}, read ${count} ${end}`);
  await channel.close();
}

await load();
const letters = name.split('psk')[0];
const knows = letters[isInitiator ? 1 : 0] === 'K';
const options = {
  pattern: protocolName(name),
  responder: !isInitiator,
  prologue: new TextEncoder().encode('live'),
  staticKey: letters === 'NN' ? undefined : await KeyPair.fromSecret(bytes(secret)),
  remoteStatic: knows ? bytes(peer) : undefined,
  psks: psk === '-' ? [] : [bytes(psk)],
  verify: letters === 'NN' ? undefined : (key) => Buffer.from(key).toString('hex') === peer,
  acceptAnyKey: letters === 'NN',
};
try {
  await run(await NoiseSocket.open(await connection(), options));    // at once: what a WebSocket gets before isn't seen
} catch (error) {
  console.log(`wrote 0 open, read 0 ${nameOf(error)}`);
}
process.exit(0);
