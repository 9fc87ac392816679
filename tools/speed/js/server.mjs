// The package for JavaScript, and what a program in Node would take otherwise: the AEAD of node:crypto, which is
// OpenSSL's. Standard input is that of c/server.h.
import { createCipheriv, createDecipheriv } from 'node:crypto';
import { createInterface } from 'node:readline';
import { Handshake, load } from '../../../bindings/js/noise.mjs';
import { channels, stop } from './channel.mjs';

await load();
const key = new Uint8Array(32);
const nonce = new Uint8Array(12);

async function connect() {
  const client = new Handshake({ pattern: 'NN' });
  const server = new Handshake({ pattern: 'NN', responder: true });
  await server.read(await client.write());
  await client.read(await server.write());
  return [client.finish(), server.finish()];
}

function sealedByNode(text) {
  const cipher = createCipheriv('chacha20-poly1305', key, nonce, { authTagLength: 16 });
  return Buffer.concat([cipher.update(text), cipher.final(), cipher.getAuthTag()]);
}

function openedByNode(sealed) {
  const cipher = createDecipheriv('chacha20-poly1305', key, nonce, { authTagLength: 16 });
  cipher.setAuthTag(sealed.subarray(-16));
  return Buffer.concat([cipher.update(sealed.subarray(0, -16)), cipher.final()]);
}

const operations = {
  seal: ([client]) => (text) => client.seal(text),
  transport: ([client, server]) => (text) => server.open(client.seal(text)),
  'node:crypto.seal': () => sealedByNode,
  'node:crypto.transport': () => (text) => openedByNode(sealedByNode(text)),
};

async function timed(name, size, count) {
  if (name in channels) return channels[name](size, count);
  const run = operations[name](await connect());
  const text = new Uint8Array(size);
  const begun = process.cpuUsage();
  for (let i = 0; i < count; i += 1) run(text);
  const { user, system } = process.cpuUsage(begun);
  return (user + system) * 1000;
}

for await (const line of createInterface({ input: process.stdin })) {
  const [name, size, count] = line.split(' ');
  const all = { ...operations, ...channels };
  console.log(name === 'list' ? Object.keys(all).join(' ') : await timed(name, Number(size), Number(count)));
}
await stop();
