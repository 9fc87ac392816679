// A client in JavaScript of the server of examples/programs/c: node live.mjs PATTERN FOLDER, where FOLDER has the
// server's public key.
import assert from 'node:assert/strict';
import { readFile } from 'node:fs/promises';
import { connect } from 'node:net';
import { join } from 'node:path';
import { KeyPair, NoiseSocket, load, protocolName } from '../../bindings/js/noise.mjs';

const [pattern, folder] = process.argv.slice(2);
const bytes = (text) => new TextEncoder().encode(text);

/** A connection, once the server listens. */
async function connection() {
  for (let n = 0; n < 600; n += 1) {
    const socket = connect(4041, '127.0.0.1');
    const said = await new Promise((resolve) => {
      socket.once('connect', () => resolve('connected')).once('error', resolve);
    });
    if (said === 'connected') return socket;
    await new Promise((resolve) => { setTimeout(resolve, 50); });
  }
  throw new Error('no server on port 4041');
}

await load();
const socket = await connection();
const server = new Uint8Array(await readFile(join(folder, 'server.public')));
const channel = await NoiseSocket.open(socket, {
  pattern: protocolName(pattern),
  prologue: bytes('example channel 1'),
  interval: 1000,
  staticKey: await KeyPair.generate(),
  remoteStatic: pattern === 'IK' ? server : undefined,
  verify: (key) => Buffer.compare(key, server) === 0,
});
await channel.send(bytes('hello from JavaScript'));
assert.equal(new TextDecoder().decode(await channel.receive()).replace(/\0$/, ''), 'hello from JavaScript');
await channel.close();  // the server waits for the end
console.log(`js: a channel by ${pattern} between JavaScript and the server of examples/programs/c`);
