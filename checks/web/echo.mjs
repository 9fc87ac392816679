// One end over TCP: node echo.mjs PATTERN OWN_SECRET PEER_KEY PSKS ADDRESS. It connects as the initiator, sends 128
// KiB, and wants them back; where ADDRESS begins with '@' it listens there, prints the address, and sends back what it
// reads. PSKS are joined by commas, and '-' where there is none; "KEY=SECRET,.." has the secrets that a listener
// chooses by the other party's key.
import assert from 'node:assert/strict';
import { once } from 'node:events';
import { connect, createServer } from 'node:net';
import { KeyPair, NoiseSocket, layout, load, protocolName } from '../../bindings/js/noise.mjs';

const [name, secret, peer, psks, address] = process.argv.slice(2);
const pattern = name.includes('\n') ? name : protocolName(name);
await load();
const plan = layout(pattern);
const [role, other] = address.startsWith('@') ? ['responder', 'initiator'] : ['initiator', 'responder'];
const bytes = (digits) => new Uint8Array(Buffer.from(digits, 'hex'));

/** The key pair of a secret key. */
async function keyPair(own) {
  const inPkcs8 = Buffer.concat([Buffer.from('302e020100300506032b656e04220420', 'hex'), own]);    // RFC 8410, 7
  const privateKey = await crypto.subtle.importKey('pkcs8', inPkcs8, { name: 'X25519' }, true, ['deriveBits']);
  const { x } = await crypto.subtle.exportKey('jwk', privateKey);
  const publicKey = await crypto.subtle.importKey('raw', Buffer.from(x, 'base64url'), { name: 'X25519' }, true, []);
  return KeyPair.from({ privateKey, publicKey });
}

async function connection() {
  const [host, port] = address.replace('@', '').split(':');
  if (role === 'initiator') {
    const socket = connect(Number(port), host);
    await once(socket, 'connect');
    return socket;
  }
  const server = createServer();
  server.listen(Number(port), host);
  await once(server, 'listening');
  console.log(`${host}:${server.address().port}`);
  const [socket] = await once(server, 'connection');
  server.close();
  return socket;
}

/** What comes until the other party has ended its stream. */
async function readAll(channel) {
  const parts = [];
  for await (const payload of channel) parts.push(payload);
  return Buffer.concat(parts);
}

async function sendAll(channel, all) {
  for (let at = 0, size = 1; at < all.length; at += size, size = Math.min(size * 3, 65519)) {
    await channel.send(all.subarray(at, at + size));
  }
  await channel.end();
}

function secrets() {
  const words = psks === '-' ? [] : psks.split(',');
  if (!psks.includes('=')) return { psks: words.map(bytes) };
  const table = new Map(words.map((word) => word.split('=')));
  return { pskFor: (key) => bytes(table.get(Buffer.from(key).toString('hex'))) };
}

const channel = await NoiseSocket.open(await connection(), {
  pattern,
  responder: role === 'responder',
  prologue: new TextEncoder().encode('live'),
  staticKey: plan.static[role] ? await keyPair(bytes(secret)) : undefined,
  remoteStatic: plan.before[other].includes('s') ? bytes(peer) : undefined,
  ...secrets(),
  ...(plan.static[other] ? { verify: (key) => Buffer.compare(key, bytes(peer)) === 0 } : { acceptAnyKey: true }),
});
if (role === 'responder') {
  const all = await readAll(channel);
  if (!plan.oneWay) await sendAll(channel, all);
} else {
  const all = Uint8Array.from({ length: 1 << 17 }, (_, n) => n % 251);
  const back = plan.oneWay ? undefined : readAll(channel);
  await sendAll(channel, all);
  if (back) assert.deepEqual(new Uint8Array(await back), all);
}
await channel.close();
