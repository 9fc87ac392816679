// Channels over TCP on this machine, and node:tls with ChaCha20-Poly1305: this process writes, and a second one reads.
// server.mjs runs them as its operations. Each call of `send` is awaited, of `joined` one for each 64 KiB; `duplex` is
// written and read as node:tls's socket is. SPEED_KEYS is a folder with a certificate.
import { fork } from 'node:child_process';
import { once } from 'node:events';
import { readFileSync } from 'node:fs';
import { createServer as createTcpServer, connect as connectTcp } from 'node:net';
import { join } from 'node:path';
import { createServer as createTlsServer, connect as connectTls } from 'node:tls';
import { fileURLToPath } from 'node:url';
import { NoiseSocket, load } from '../../../bindings/js/noise.mjs';

const TLS = { minVersion: 'TLSv1.3', ciphers: 'TLS_CHACHA20_POLY1305_SHA256' };
const KEYS = process.env.SPEED_KEYS;
const NN = { pattern: 'NN', acceptAnyKey: true };

/** The bytes that come until the end, by a loop or, of a stream of Node, by its events, and the processor's time. */
async function counted(bytes) {
  const begun = process.cpuUsage();
  let count = 0;
  if (bytes.pipe) await once(bytes.on('data', ({ length }) => { count += length; }), 'end');
  else for await (const { length } of bytes) count += length;
  const { user, system } = process.cpuUsage(begun);
  return { count, microseconds: user + system };
}

/** The reader: tells its ports, and of each connection what came. */
async function read() {
  const told = async (bytes) => process.send(await counted(bytes));
  const server = (isDuplex) => createTcpServer({ allowHalfOpen: true }, async (socket) => {
    const channel = await NoiseSocket.open(socket, { ...NN, responder: true });
    await told(isDuplex ? channel.duplex : channel);
    await channel.close();
  });
  const [key, cert] = KEYS ? ['key.pem', 'cert.pem'].map((name) => readFileSync(join(KEYS, name), 'utf8')) : [];
  const tls = createTlsServer({ ...TLS, key, cert, allowHalfOpen: true }, async (socket) => {
    await told(socket);
    socket.end();
  });
  const servers = [server(false), server(true), tls];
  await Promise.all(servers.map((it) => once(it.listen(0, '127.0.0.1'), 'listening')));
  process.once('disconnect', () => process.exit());
  const [channel, duplex, secure] = servers.map((it) => it.address().port);
  process.send({ send: channel, joined: channel, duplex, 'node:tls': secure });
}

const opened = (port) => NoiseSocket.open(connectTcp(port, '127.0.0.1'), NN);

/** A call of `send` is awaited after so many bytes. */
async function sending(port, most) {
  const channel = await opened(port);
  let unsent = 0;
  return {
    write: (bytes) => {
      const sent = channel.send(bytes);
      unsent += bytes.length;
      if (unsent < most) return undefined;
      unsent = 0;
      return sent;
    },
    end: () => channel.close(),
  };
}

function writing(socket) {
  socket.resume();
  return {
    write: (bytes) => (socket.write(bytes) ? undefined : once(socket, 'drain')),
    end: async () => { socket.end(); await once(socket, 'close'); },
  };
}

/** How each connects, and gives `write` and `end`. */
const KINDS = {
  send: (port) => sending(port, 1),
  joined: (port) => sending(port, 1 << 16),
  duplex: async (port) => writing((await opened(port)).duplex),
  'node:tls': async (port) => {
    const socket = connectTls({ ...TLS, port, host: '127.0.0.1', rejectUnauthorized: false });
    await once(socket, 'secureConnect');
    if (socket.getCipher().name !== TLS.ciphers) throw new Error(`node:tls took ${socket.getCipher().name}`);
    return writing(socket);
  },
};

/** The reader's process, and its ports, once it is asked for. */
let reading;

async function started() {
  const reader = fork(fileURLToPath(import.meta.url), ['read']);
  const [ports] = await once(reader, 'message');
  return { reader, ports };
}

/** Sends so many writes, and gives the nanoseconds of the processor that both processes took for them. */
async function timed(kind, size, count) {
  reading ??= started();
  const { reader, ports } = await reading;
  const payload = new Uint8Array(size);
  const connection = await KINDS[kind](ports[kind]);
  const came = once(reader, 'message');
  const begun = process.cpuUsage();
  for (let n = 0; n < count; n += 1) {
    const done = connection.write(payload);
    if (done) await done;
  }
  const ended = connection.end();
  const [{ count: bytes, microseconds }] = await came;
  const { user, system } = process.cpuUsage(begun);
  await ended;
  if (bytes !== count * size) throw new Error(`${kind}: ${bytes} bytes came`);
  return (user + system + microseconds) * 1000;
}

/** Ends the reader's process. */
export async function stop() {
  if (reading) (await reading).reader.disconnect();
}

/** The operations: the first is `joined`. */
export const channels = Object.fromEntries([
  ...[['channel', 'joined'], ['channel.send', 'send'], ['channel.duplex', 'duplex']],
  ...(KEYS ? [['node:tls.channel', 'node:tls']] : []),
].map(([name, kind]) => [name, (size, count) => timed(kind, size, count)]));

if (process.argv[2] === 'read') {
  await load();
  await read();
}
