// client.mjs: the initiator. node client.mjs TEXT connects to 127.0.0.1, port 4043, sends the text, and prints what the
// server sends back.
import { readFile } from 'node:fs/promises';
import { connect } from 'node:net';
import { KeyPair, NoiseSocket, load } from 'yulimosar';

const [text] = process.argv.slice(2);
if (text === undefined) throw new Error('usage: node client.mjs TEXT');
await load();
const staticKey = await KeyPair.fromSecret(await readFile('client.key'));
const server = await readFile('server.public');    // it came by a way that nobody else can write to

const channel = await NoiseSocket.open(connect(4043, '127.0.0.1'), {
  pattern: 'XX',
  prologue: new TextEncoder().encode('echo 1'),    // the same at both parties
  staticKey,
  verify: (remoteStatic) => server.equals(remoteStatic),
  signal: AbortSignal.timeout(30000),
});
try {
  await channel.send(new TextEncoder().encode(text));
  await channel.end();    // the client sends no more
  const parts = [];
  for await (const payload of channel) parts.push(payload);    // until the server has ended its stream; a cut throws
  console.log(`client: the server says: ${Buffer.concat(parts)}`);
  await channel.close();
} finally {
  channel.destroy();
}
